//! The bearer table with the lists that it holds, and when it is well formed.

use crate::element::filters_in;
use crate::filter::{row_is_empty, Filter, Octets256, Row, PLACES};
use crate::list::{Entry, List};

pub const LOWEST_IDENTITY: u8 = 5;
pub const BEARERS: usize = 11;
pub const LARGEST_TRANSACTION: u8 = 254;

#[derive(Clone, Copy, PartialEq, Eq, Debug, Default)]
pub enum Role {
    #[default]
    Idle,
    Default,
    Dedicated {
        link: u8,
    },
}

/// `transaction` is 0 where none is open.
#[derive(Clone, Copy, PartialEq, Eq, Debug, Default)]
pub struct Bearer {
    pub role: Role,
    pub transaction: u8,
    pub row: Row,
}

impl Bearer {
    pub fn is_idle(&self) -> bool {
        self.role == Role::Idle
    }

    pub fn is_default(&self) -> bool {
        self.role == Role::Default
    }

    pub fn holds_nothing(&self) -> bool {
        self.transaction == 0 && row_is_empty(&self.row)
    }

    pub fn make_idle(&mut self) {
        *self = Bearer::default();
    }
}

/// A list is held for each identity. Where the table is well formed, those of identities that are no active default are empty.
#[derive(Clone, Copy, PartialEq, Eq, Debug, Default)]
pub struct Table {
    bearers: [Bearer; BEARERS],
    lists: [List; BEARERS],
}

/// The identities 5 to 15.
pub fn identities() -> impl Iterator<Item = u8> {
    LOWEST_IDENTITY..LOWEST_IDENTITY + BEARERS as u8
}

fn index(identity: u8) -> Option<usize> {
    let index = usize::from(identity.checked_sub(LOWEST_IDENTITY)?);
    (index < BEARERS).then_some(index)
}

impl Table {
    /// The bearer of an identity, where there is one: 5 to 15.
    pub fn bearer(&self, identity: u8) -> Option<&Bearer> {
        Some(&self.bearers[index(identity)?])
    }

    /// The place that an entry of a list names.
    pub fn filter(&self, entry: &Entry) -> Option<&Filter> {
        self.bearer(entry.bearer)?.row.get(usize::from(entry.identifier))
    }

    /// What is changed here is not listed.
    pub fn bearer_mut(&mut self, identity: u8) -> Option<&mut Bearer> {
        Some(&mut self.bearers[index(identity)?])
    }

    pub fn numbered(&self) -> impl Iterator<Item = (u8, &Bearer)> {
        identities().zip(&self.bearers)
    }

    /// The held list of an identity, where there is one: 5 to 15.
    pub fn list(&self, identity: u8) -> Option<&List> {
        Some(&self.lists[index(identity)?])
    }

    pub fn list_mut(&mut self, identity: u8) -> Option<&mut List> {
        Some(&mut self.lists[index(identity)?])
    }

    pub fn is_active(&self, identity: u8) -> bool {
        self.bearer(identity).is_some_and(|bearer| !bearer.is_idle())
    }

    pub fn is_active_default(&self, identity: u8) -> bool {
        self.bearer(identity).is_some_and(Bearer::is_default)
    }

    pub fn is_free(&self, identity: u8) -> bool {
        self.bearer(identity).is_some_and(Bearer::is_idle)
    }

    pub fn connections(&self) -> usize {
        self.bearers.iter().filter(|bearer| bearer.is_default()).count()
    }

    /// The bearer on which a transaction is open. 0 is none.
    pub fn bearer_of_transaction(&self, transaction: u8) -> Option<u8> {
        let mut open = self.numbered().filter(|(_, bearer)| bearer.transaction == transaction);
        if transaction == 0 {
            None
        } else {
            open.next().map(|(identity, _)| identity)
        }
    }

    pub fn close(&mut self, transaction: u8) {
        if let Some(bearer) = self.bearer_of_transaction(transaction) {
            self.bearers[index(bearer).unwrap()].transaction = 0;
        }
    }

    /// Changes the filters of a bearer of a connection, and the connection's list with them.
    pub fn change_row(&mut self, default: u8, bearer: u8, change: impl FnOnce(&mut Row)) {
        let list = &mut self.lists[index(default).unwrap()];
        let row = &mut self.bearers[index(bearer).unwrap()].row;
        take_off(list, bearer, row);
        change(row);
        put_on(list, bearer, row);
    }

    /// A bearer goes, with its filters and its transaction; a default takes its connection along.
    pub fn deactivate(&mut self, identity: u8) {
        match self.bearer(identity).map(|bearer| bearer.role) {
            Some(Role::Default) => self.deactivate_connection(identity),
            Some(Role::Dedicated { link }) => self.deactivate_dedicated(link, identity),
            Some(Role::Idle) | None => {}
        }
    }

    fn deactivate_dedicated(&mut self, link: u8, identity: u8) {
        self.change_row(link, identity, |row| *row = [Filter::default(); PLACES]);
        self.bearer_mut(identity).unwrap().make_idle();
    }

    pub fn deactivate_connection(&mut self, default: u8) {
        let gone = |identity, bearer: &Bearer| in_connection(default, identity, bearer.role);
        let bearers = identities().zip(&mut self.bearers);
        bearers.filter(|(i, b)| gone(*i, b)).for_each(|(_, b)| b.make_idle());
        *self.list_mut(default).unwrap() = List::default();
    }

    /// Makes every held list what the rule gives, whatever it was. A dedicated bearer's filters are in the list of its link, be that an active
    /// default or not. Of one precedence twice in a list the filter of the higher bearer, then of the higher identifier, is listed.
    pub fn list_anew(&mut self) {
        self.lists = [List::default(); BEARERS];
        for (bearer, held) in identities().zip(&self.bearers) {
            if let Some(list) = connection_of(bearer, held.role).and_then(index) {
                put_on(&mut self.lists[list], bearer, &held.row);
            }
        }
    }

    /// The same bearers with the lists that the rule gives.
    pub fn listed_anew(&self) -> Table {
        let mut table = *self;
        table.list_anew();
        table
    }

    pub fn is_well_formed(&self) -> bool {
        self.roles_are_right() && self.transactions_are_right() && self.filters_and_lists_are_right()
    }

    /// Each is idle and holds nothing, or a default, or dedicated and linked to an active default.
    fn roles_are_right(&self) -> bool {
        self.bearers.iter().all(|bearer| match bearer.role {
            Role::Idle => bearer.holds_nothing(),
            Role::Default => true,
            Role::Dedicated { link } => self.is_active_default(link),
        })
    }

    /// Open transactions have identities 1 to 254, all distinct.
    fn transactions_are_right(&self) -> bool {
        let mut seen = Octets256::default();
        let mut open = self.bearers.iter().map(|b| b.transaction).filter(|t| *t != 0);
        open.all(|transaction| transaction <= LARGEST_TRANSACTION && seen.add(transaction))
    }

    /// Every filter is well coded and fits some packet, precedences are distinct within a connection, and a list has its connection's uplink
    /// filters and nothing else.
    fn filters_and_lists_are_right(&self) -> bool {
        let mut seen = [Octets256::default(); BEARERS];
        let rows_are_right = self.numbered().all(|(identity, bearer)| {
            let connection = connection_of(identity, bearer.role).and_then(index);
            connection.is_none_or(|i| row_is_right(identity, &bearer.row, &mut seen[i], &self.lists[i]))
        });
        rows_are_right && self.lists.iter().zip(&seen).all(|(list, seen)| list.names_none_beside(seen))
    }
}

fn row_is_right(bearer: u8, row: &Row, precedences: &mut Octets256, list: &List) -> bool {
    filters_in(row).all(|(identifier, filter)| {
        filter.is_sound()
            && precedences.add(filter.precedence)
            && list.has(filter.precedence, listed(bearer, identifier, filter))
    })
}

/// What the list of its connection has for a filter at its precedence: nothing for one that is downlink only. A place without a component holds
/// no filter, whatever precedence or direction stands in it.
fn listed(bearer: u8, identifier: usize, filter: &Filter) -> Option<Entry> {
    let listed = filter.has_component() && filter.is_uplink();
    listed.then_some(Entry { bearer, identifier: identifier as u8 })
}

fn put_on(list: &mut List, bearer: u8, row: &Row) {
    for (identifier, filter) in filters_in(row) {
        if let Some(entry) = listed(bearer, identifier, filter) {
            list.set(filter.precedence, Some(entry));
        }
    }
}

/// A position that names another filter by now is left.
fn take_off(list: &mut List, bearer: u8, row: &Row) {
    for (identifier, filter) in filters_in(row) {
        if list.has(filter.precedence, listed(bearer, identifier, filter)) {
            list.set(filter.precedence, None);
        }
    }
}

/// The default of the connection to which a bearer of this role belongs.
pub fn connection_of(identity: u8, role: Role) -> Option<u8> {
    match role {
        Role::Idle => None,
        Role::Default => Some(identity),
        Role::Dedicated { link } => Some(link),
    }
}

pub fn in_connection(default: u8, identity: u8, role: Role) -> bool {
    connection_of(identity, role) == Some(default)
}
