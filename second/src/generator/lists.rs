//! Held lists, looked at after calls of every kind and tried by `why`.

use super::drafts::Fields;
use super::elements::{code, component_words, contents, entry_of, hex, sound_components};
use super::{headers, rubbish, Generator};
use crate::element::{Kind, LARGEST_COUNT};
use crate::filter::{Filter, Header, DOWNLINK_ONLY};
use crate::list::Entry;
use crate::messages;
use crate::route::first_that_fits;
use crate::status::active;
use crate::table::{in_connection, Role};

/// What is done before a list is looked at.
#[derive(Clone, Copy)]
enum Change {
    Operation(Kind),
    FollowUp,
    Release,
    Reattach,
    Dedicated,
    DeactivateDefault,
    DeactivateDedicated,
    Reject,
    Synchronise,
    Message(messages::Kind),
    Force,
    Place(Placed),
    Refused,
}

/// What a filter is like that is put into a connection by hand.
#[derive(Clone, Copy, PartialEq, Eq)]
enum Placed {
    Sound,
    Twice,
    NoDirection,
    NoComponent,
}

/// Some come off seldom and so stand here more than once.
const CHANGES: [Change; 29] = [
    Change::Operation(Kind::Create),
    Change::Operation(Kind::Add),
    Change::Operation(Kind::Replace),
    Change::Operation(Kind::DeleteFilters),
    Change::Operation(Kind::DeleteTft),
    Change::Operation(Kind::None),
    Change::FollowUp,
    Change::FollowUp,
    Change::Release,
    Change::Reattach,
    Change::Dedicated,
    Change::DeactivateDefault,
    Change::DeactivateDedicated,
    Change::Reject,
    Change::Synchronise,
    Change::Message(messages::Kind::DedicatedRequest),
    Change::Message(messages::Kind::DedicatedRequest),
    Change::Message(messages::Kind::ModifyRequest),
    Change::Message(messages::Kind::ModifyRequest),
    Change::Message(messages::Kind::DeactivateRequest),
    Change::Message(messages::Kind::DeactivateRequest),
    Change::Message(messages::Kind::ModificationReject),
    Change::Message(messages::Kind::ModificationReject),
    Change::Force,
    Change::Place(Placed::Sound),
    Change::Place(Placed::Twice),
    Change::Place(Placed::NoDirection),
    Change::Place(Placed::NoComponent),
    Change::Refused,
];

/// What `why` is to say.
#[derive(Clone, Copy, PartialEq, Eq)]
enum Reason {
    FirstListed,
    LaterListed,
    Default,
    Discard,
    NoDefault,
    NoHeader,
}

const REASONS: [Reason; 7] = [
    Reason::FirstListed,
    Reason::LaterListed,
    Reason::LaterListed,
    Reason::Default,
    Reason::Discard,
    Reason::NoDefault,
    Reason::NoHeader,
];

/// Of each list, what was not drawn yet.
#[derive(Default)]
pub struct StillToCome {
    changes: Vec<Change>,
    reasons: Vec<Reason>,
}

pub const MOST_TRIES: usize = 30;

fn operation(kind: Kind, entries: &[Vec<u8>]) -> Vec<u8> {
    [vec![code(kind) << 5 | entries.len() as u8], entries.concat()].concat()
}

impl Generator {
    pub fn lists(&mut self) {
        match self.random.weighted(&[33, 9, 5, 2]) {
            0 => self.change_and_list(),
            1 => self.spoil_and_mend(),
            2 => self.why_aimed(),
            _ => self.bad_list(),
        }
    }

    /// One line that changes nothing.
    pub fn list_call(&mut self) {
        match self.random.below(4) {
            0 => self.why(),
            1 => {
                let default = self.one_of(|role| role == Role::Default);
                self.force_same_entry(default);
            }
            _ => self.list_any(),
        }
    }

    fn bad_list(&mut self) {
        let line = rubbish::bad_list(&mut self.random);
        self.say(line);
    }

    pub fn list(&mut self, identity: u8) {
        self.say(&format!("list {identity}"));
    }

    /// Of a default, of a dedicated bearer, or of an identity that is idle.
    pub fn list_any(&mut self) {
        let identity = match self.random.below(4) {
            0 => self.one_of(|role| matches!(role, Role::Dedicated { .. })),
            1 => self.one_of(|role| role == Role::Idle),
            _ => self.one_of(|role| role == Role::Default),
        };
        self.list(identity);
    }

    fn change_and_list(&mut self) {
        let default = self.listed_connection();
        let before = self.session.table;
        match self.random.draw(&mut self.lists_to_come.changes, &CHANGES) {
            Change::Operation(kind) => self.operate(kind, default),
            Change::FollowUp => self.follow_up(default),
            Change::Release => self.release(default),
            Change::Reattach => self.reattach(default),
            Change::Dedicated => self.dedicate(default),
            Change::DeactivateDefault => self.say(&format!("deactivate {default} 0")),
            Change::DeactivateDedicated => {
                let bearer = self.dedicated_of(default);
                self.say(&format!("deactivate {bearer} 0"));
            }
            Change::Reject => {
                let transaction = self.open_in(default);
                self.say(&format!("reject {transaction} 43"));
            }
            Change::Synchronise => self.synchronise_without_one_of(default),
            Change::Message(kind) => self.message_of(kind, default),
            Change::Force => self.force_in(default),
            Change::Place(placed) => self.place_in(placed, default),
            Change::Refused => self.refused_in(default),
        }
        self.list(default);
        if self.random.one_in(5) {
            self.list_any();
        }
        if !self.table().is_well_formed() {
            self.put_back(&before);
            self.list(default);
        }
    }

    /// A default whose list names something that stands on a dedicated bearer.
    pub fn listed_connection(&mut self) -> u8 {
        if self.bearers(|role| role == Role::Default).is_empty() {
            self.activate_default();
        }
        let default = self.one_of(|role| role == Role::Default);
        if !self.listed(default).iter().any(|(_, entry)| entry.bearer != default) {
            self.dedicate(default);
        }
        default
    }

    pub fn listed(&self, identity: u8) -> Vec<(u8, Entry)> {
        self.table().list(identity).map_or(Vec::new(), |list| list.entries().collect())
    }

    /// A position of an identity's list that names something, and what it names.
    pub fn some_entry(&mut self, identity: u8) -> (u8, Entry) {
        let listed = self.listed(identity);
        self.random.any(&listed).unwrap_or((0, Entry { bearer: 5, identifier: 0 }))
    }

    fn bearers_of(&self, default: u8) -> Vec<u8> {
        let connection = self.table().numbered().filter(|(i, b)| in_connection(default, *i, b.role));
        connection.map(|(identity, _)| identity).collect()
    }

    /// Mostly one that the connection's list names; any where the connection has none.
    pub fn dedicated_of(&mut self, default: u8) -> u8 {
        let named = self.listed(default).into_iter().map(|(_, entry)| entry.bearer);
        let named: Vec<u8> = named.filter(|bearer| *bearer != default).collect();
        let own = self.bearers(|role| role == Role::Dedicated { link: default });
        let any = self.one_of(|role| matches!(role, Role::Dedicated { .. }));
        let own = self.random.any(&own).unwrap_or(any);
        if self.random.one_in(6) {
            own
        } else {
            self.random.any(&named).unwrap_or(own)
        }
    }

    fn filters_of(&self, default: u8) -> Vec<Filter> {
        let rows = self.bearers_of(default).into_iter().filter_map(|bearer| self.table().bearer(bearer));
        rows.flat_map(|bearer| bearer.row).filter(|filter| !filter.is_nothing()).collect()
    }

    /// One that no filter of the connection has.
    fn free_precedence(&mut self, default: u8) -> u8 {
        let held: Vec<u8> = self.filters_of(default).iter().map(|filter| filter.precedence).collect();
        loop {
            let (few, any) = (self.precedence(), self.random.octet());
            let precedence = self.random.pick(&[few, few, any]);
            if !held.contains(&precedence) {
                return precedence;
            }
        }
    }

    /// Filters with those identifiers and free precedences, mostly uplink. Many are short, so that an element has room for them.
    fn free_entries(&mut self, identifiers: &[u8], default: u8) -> Vec<Vec<u8>> {
        let precedences = self.numbers(identifiers.len(), false, |g| g.free_precedence(default));
        let entry = |(identifier, precedence): (&u8, u8)| {
            let direction = self.random.pick(&[0, 2, 2, 3, 3, 3, 1, 1]);
            let short = vec![0x30, self.random.octet()];
            let contents = if identifiers.len() > 4 { short } else { self.sound_contents() };
            entry_of(direction << 4 | identifier, precedence, &contents)
        };
        identifiers.iter().zip(precedences).map(entry).collect()
    }

    fn sound_contents(&mut self) -> Vec<u8> {
        contents(&sound_components(&mut self.random))
    }

    fn downlink_entry(&mut self, identifier: u8, precedence: u8) -> Vec<u8> {
        entry_of(DOWNLINK_ONLY << 4 | identifier, precedence, &self.sound_contents())
    }

    fn free_create(&mut self, default: u8) -> Vec<u8> {
        let count =
            if self.random.one_in(10) { LARGEST_COUNT } else { self.random.pick(&[1, 2, 2, 3, 3, 4]) };
        let identifiers = self.numbers(count, false, |g| g.random.below(16) as u8);
        operation(Kind::Create, &self.free_entries(&identifiers, default))
    }

    pub fn modify_by(&mut self, bearer: u8, element: &[u8]) {
        self.say(&format!("modify {bearer} 0 {}", hex(element)));
    }

    pub fn dedicate(&mut self, default: u8) {
        let (bearer, element) = (self.one_of(|role| role == Role::Idle), self.free_create(default));
        self.say(&format!("dedicated {bearer} {default} 0 {}", hex(&element)));
    }

    /// Mostly on a dedicated bearer; a default alone has its TFT deleted.
    fn operate(&mut self, kind: Kind, default: u8) {
        let on_default = kind == Kind::DeleteTft || self.random.one_in(4);
        let bearer = if on_default { default } else { self.dedicated_of(default) };
        let listed = self.listed(default).iter().filter(|(_, entry)| entry.bearer == bearer).count();
        let needed = match kind {
            Kind::DeleteFilters if bearer != default => 2,
            Kind::DeleteFilters | Kind::DeleteTft | Kind::Replace => 1,
            _ => 0,
        };
        if listed < needed {
            let element = self.free_element(Kind::Add, default, bearer);
            self.modify_by(bearer, &element);
        }
        let element = self.free_element(kind, default, bearer);
        self.modify_by(bearer, &element);
    }

    /// One that changes the list, but for no operation.
    pub fn free_element(&mut self, kind: Kind, default: u8, bearer: u8) -> Vec<u8> {
        let listed: Vec<(u8, Entry)> =
            self.listed(default).into_iter().filter(|(_, entry)| entry.bearer == bearer).collect();
        let (position, one) = self.random.any(&listed).map_or((0, 0), |(p, entry)| (p, entry.identifier));
        let any = self.random.below(16) as u8;
        match kind {
            Kind::Create => self.free_create(default),
            Kind::Add => {
                let count = 1 + self.random.below(3);
                let identifiers = self.numbers(count, false, |g| g.random.below(16) as u8);
                operation(kind, &self.free_entries(&identifiers, default))
            }
            Kind::Replace if self.random.one_in(3) => operation(kind, &[self.downlink_entry(one, position)]),
            Kind::Replace => operation(kind, &self.free_entries(&[one], default)),
            Kind::DeleteFilters if self.random.one_in(3) => operation(kind, &[vec![one], vec![any]]),
            Kind::DeleteFilters => operation(kind, &[vec![one]]),
            Kind::DeleteTft | Kind::None => operation(kind, &[]),
        }
    }

    /// By a modify of any bearer of the connection, or by a new dedicated one.
    fn follow_up(&mut self, default: u8) {
        let bearers = self.bearers_of(default);
        let bearer = self.random.any(&bearers).unwrap_or(default);
        if self.random.one_in(3) {
            let (idle, element) = (
                self.one_of(|role| role == Role::Idle),
                self.element_against_dedicated(Kind::Create, default),
            );
            self.say(&format!("dedicated {idle} {default} 0 {}", hex(&element)));
        } else {
            let element = self.element_against_dedicated(Kind::Add, bearer);
            self.modify_by(bearer, &element);
        }
    }

    /// A second connection stands beside, and stays.
    fn release(&mut self, default: u8) {
        if self.table().connections() < 2 {
            let other = self.one_of(|role| role == Role::Idle);
            self.say(&format!("default {other}"));
        }
        self.conflict_with_default(default);
    }

    fn reattach(&mut self, default: u8) {
        for other in self.bearers(|role| role == Role::Default) {
            if other != default {
                self.say(&format!("deactivate {other} 0"));
            }
        }
        self.conflict_with_default(default);
    }

    fn conflict_with_default(&mut self, default: u8) {
        if self.held(default).is_empty() {
            let element = self.free_create(default);
            self.modify_by(default, &element);
        }
        let bearer = self.dedicated_of(default);
        let element = self.conflicting_element_for(Kind::Add, bearer);
        self.modify_by(bearer, &element);
    }

    /// A transaction that is open on a bearer of the connection, started where there is none.
    pub fn open_in(&mut self, default: u8) -> u8 {
        let bearer = if self.random.one_in(4) { default } else { self.dedicated_of(default) };
        let open = |g: &Generator| g.table().bearer(bearer).map_or(0, |bearer| bearer.transaction);
        if open(self) == 0 {
            let transaction = 1 + self.random.below(254);
            self.say(&format!("start {transaction} {bearer}"));
        }
        open(self)
    }

    pub fn synchronise_without_one_of(&mut self, default: u8) {
        let bearer = if self.random.one_in(4) { default } else { self.dedicated_of(default) };
        let shown = active(self.table()) & !(1 << (bearer & 15));
        self.say(&format!("synchronise {}", hex(&shown.to_le_bytes())));
    }

    pub fn message_of(&mut self, kind: messages::Kind, default: u8) {
        let (bearer, idle) = (self.dedicated_of(default), self.one_of(|role| role == Role::Idle));
        let (fields, tft) = match kind {
            messages::Kind::DedicatedRequest => {
                (Fields { bearer: idle, transaction: 0, number: default }, Some(self.free_create(default)))
            }
            messages::Kind::ModifyRequest => {
                let kind = self.random.pick(&[Kind::Create, Kind::Add, Kind::Replace, Kind::DeleteFilters]);
                let tft = self.free_element(kind, default, bearer);
                (Fields { bearer, transaction: 0, number: 0 }, Some(tft))
            }
            messages::Kind::DeactivateRequest => (Fields { bearer, transaction: 0, number: 0x24 }, None),
            _ => (Fields { bearer: 0, transaction: self.open_in(default), number: 43 }, None),
        };
        let octets = self.draft(kind, fields, tft).octets();
        self.say(&format!("message {}", hex(&octets)));
    }

    /// Its role is another then, or its link is, and so is what the lists have of it.
    fn force_in(&mut self, default: u8) {
        let bearer = if self.random.one_in(4) { default } else { self.dedicated_of(default) };
        let other = self.one_of(|role| role == Role::Default);
        let no_default = self.one_of(|role| role != Role::Default);
        let link = self.random.pick(&[other, no_default, no_default, no_default, 4]);
        let linked = Role::Dedicated { link };
        let role = self.random.pick(&[Role::Idle, Role::Default, linked, linked, linked]);
        self.force_to(bearer, role, 0);
        if role == linked && (5..=15).contains(&link) {
            self.list(link);
        }
    }

    /// On a bearer of the connection, where no filter of it stands.
    fn place_in(&mut self, placed: Placed, default: u8) {
        let bearers = self.bearers_of(default);
        let (taken, entry) = self.some_entry(default);
        let bearer = match placed {
            Placed::Twice if self.random.one_in(3) => entry.bearer,
            _ => self.random.any(&bearers).unwrap_or(5),
        };
        let held = self.held(bearer);
        let empty: Vec<u8> = (0..16).filter(|place| !held.contains(place)).collect();
        let place = self.random.any(&empty).unwrap_or(0);
        let precedence = match placed {
            Placed::Twice => taken,
            Placed::NoComponent if self.random.one_in(2) => taken,
            _ => self.free_precedence(default),
        };
        let direction = match placed {
            Placed::NoDirection => self.random.pick(&[4, 5, 7, 128, 255]),
            Placed::Sound => self.random.below(4) as u8,
            _ => self.random.pick(&[0, 2, 3, 3]),
        };
        let components = match placed {
            Placed::NoComponent => Vec::new(),
            _ => sound_components(&mut self.random),
        };
        let line =
            format!("place {bearer} {place} {precedence} {direction} {}", component_words(&components));
        self.say(line.trim_end());
    }

    /// For the operation, the transaction, the element or the identity.
    fn refused_in(&mut self, default: u8) {
        let (bearer, element) = (self.dedicated_of(default), self.free_create(default));
        match self.random.below(5) {
            0 => self.say(&format!("modify {bearer} 0 40")),
            1 => self.say(&format!("modify {bearer} 255 {}", hex(&element))),
            2 => self.say(&format!("modify {bearer} 0 {}00", hex(&element))),
            3 => self.say(&format!("dedicated {bearer} {default} 0 {}", hex(&element))),
            _ => {
                let all = self.held(bearer).into_iter().take(15).map(|identifier| vec![identifier]);
                let deletion = operation(Kind::DeleteFilters, &all.collect::<Vec<_>>());
                self.modify_by(bearer, &deletion);
            }
        }
    }

    /// With a header near a filter, whatever comes of it.
    pub fn why(&mut self) {
        let default = self.default();
        let words = self.header_words(default);
        self.say(&format!("why {default} {words}"));
    }

    fn why_aimed(&mut self) {
        let default = self.listed_connection();
        let reason = self.random.draw(&mut self.lists_to_come.reasons, &REASONS);
        let uplink = self.listed(default).iter().any(|(_, entry)| entry.bearer == default);
        if reason == Reason::Discard && !uplink {
            let element = self.free_create(default);
            self.modify_by(default, &element);
        }
        if reason == Reason::Default && uplink {
            self.say(&format!("modify {default} 0 40"));
        }
        let header = self.header_for(reason, default);
        let asked = match reason {
            Reason::NoDefault => self.one_of(|role| role != Role::Default),
            _ => default,
        };
        let words = headers::words(&mut self.random, &header);
        self.say(&format!("why {asked} {words}"));
        if self.random.one_in(2) {
            self.say(&format!("route {asked} {words}"));
        }
    }

    /// Tried until one serves, as long as it takes few tries.
    fn header_for(&mut self, reason: Reason, default: u8) -> Header {
        let mut header = self.header_near(default);
        for _ in 0..MOST_TRIES {
            let first = self.listed(default).first().map(|(position, _)| *position);
            let found = first_that_fits(self.table(), default, &header).map(|(position, _)| position);
            let serves = match reason {
                Reason::FirstListed => found.is_some() && found == first,
                Reason::LaterListed => found.is_some() && found != first,
                Reason::Default | Reason::Discard => found.is_none(),
                Reason::NoDefault | Reason::NoHeader => true,
            };
            if serves && (header.is_valid() || reason == Reason::NoHeader) {
                break;
            }
            header = self.header_near(default);
        }
        if reason == Reason::NoHeader {
            let label = self.random.pick(&[1_048_576, u32::MAX]);
            let version = self.random.pick(&[0, 5, 6, 6, 7, 255]);
            header = Header { version, label, ..header };
        }
        header
    }
}

#[cfg(test)]
mod tests {
    use super::super::script;
    use crate::element::filters_in;
    use crate::filter::LARGEST_DIRECTION;
    use crate::lines::LONGEST_LINE;
    use crate::list::{Entry, List};
    use crate::route::first_that_fits;
    use crate::script::{asked, Asked, Call};
    use crate::session::Session;
    use crate::table::{connection_of, identities, in_connection, Role, Table};
    use std::collections::BTreeMap;

    const LEAST: usize = 3;

    /// What must come up in a script besides the forms of replies: a program that errs there must show.
    const SITUATIONS: [&str; 26] = [
        "a follow-up that leaves a position to nothing",
        "a follow-up that gives a position to the named bearer",
        "a follow-up of the named bearer itself",
        "a filter that becomes downlink only",
        "a filter that becomes uplink",
        "a filter that goes to another position",
        "a position that goes to another identifier",
        "position 0",
        "position 255",
        "more than fifteen entries",
        "a default named after a dedicated bearer",
        "a position that another connection names too",
        "by hand, a precedence twice in a bearer",
        "by hand, a precedence twice in two bearers",
        "by hand, filters of a bearer linked to no default",
        "by hand, filters of an idle bearer",
        "by hand, a direction above 3",
        "by hand, a place without a component",
        "by hand, a place without a component at a listed precedence",
        "false by an empty place",
        "false by a filter of another connection",
        "false by a downlink filter at its precedence",
        "false by a filter that is listed where it should be too",
        "why where another list is false",
        "why that a false list would decide otherwise",
        "repeated on a false list",
    ];

    /// Follows a script and notes what comes up.
    #[derive(Default)]
    struct Watch {
        session: Session,
        seen: BTreeMap<&'static str, usize>,
    }

    impl Watch {
        fn see(&mut self, situation: &'static str, holds: bool) {
            assert!(SITUATIONS.contains(&situation), "{situation}");
            *self.seen.entry(situation).or_default() += usize::from(holds);
        }

        fn line(&mut self, number: usize, line: &[u8]) {
            let (before, mut reply) = (self.session.table, Vec::new());
            self.session.do_line(number as u64, line, line.len() > LONGEST_LINE, &mut reply);
            let Asked::Call { times, call } = asked(line) else {
                return;
            };
            let (well_formed, right) = (before.is_well_formed(), before == before.listed_anew());
            match call {
                Call::Modify { bearer, .. } | Call::Dedicated { bearer, .. } if well_formed => {
                    self.changed(bearer, &before, &String::from_utf8_lossy(&reply));
                }
                Call::List { identity } if well_formed => self.listed(identity, &before),
                Call::List { identity } if right => self.listed_by_hand(identity, &before),
                Call::ForceEntry { identity, position, entry: Some(entry) } if well_formed => {
                    self.forced(identity, position, entry, &before);
                }
                Call::Why { default, header } if !right => {
                    let rule = before.listed_anew();
                    let found = |table: &Table| first_that_fits(table, default, &header);
                    self.see("why where another list is false", before.list(default) == rule.list(default));
                    self.see("why that a false list would decide otherwise", found(&before) != found(&rule));
                }
                _ => {}
            }
            self.see("repeated on a false list", !right && times > 1 && reply == b"refused 1\n");
        }

        /// By a call that names the bearer.
        fn changed(&mut self, bearer: u8, before: &Table, reply: &str) {
            let after = self.session.table;
            let Some(is) = after.bearer(bearer) else {
                return;
            };
            let default = connection_of(bearer, is.role).unwrap_or(bearer);
            let (old, new) = (before.list(default).unwrap(), after.list(default).unwrap());
            if let Some((_, follow_up)) = reply.trim_end().split_once("follow-up ") {
                self.followed_up(bearer, old, new);
                let own = follow_up.split(' ').any(|word| word == bearer.to_string());
                self.see("a follow-up of the named bearer itself", own);
            }
            let row = before.bearer(bearer).unwrap().row;
            for (was, is) in row.iter().zip(&is.row).filter(|(was, is)| !was.is_nothing() && !is.is_nothing())
            {
                let up = (was.is_uplink(), is.is_uplink());
                self.see("a filter that becomes downlink only", up == (true, false));
                self.see("a filter that becomes uplink", up == (false, true));
                let elsewhere = was.precedence != is.precedence;
                self.see("a filter that goes to another position", up == (true, true) && elsewhere);
            }
            let other = |was: Entry, is: Entry| was.bearer == is.bearer && was.identifier != is.identifier;
            let taken = old.entries().any(|(p, was)| new.at(p).is_some_and(|is| other(was, is)));
            self.see("a position that goes to another identifier", taken);
        }

        fn followed_up(&mut self, bearer: u8, old: &List, new: &List) {
            let others = || old.entries().filter(|(_, entry)| entry.bearer != bearer);
            let left = others().any(|(position, _)| new.at(position).is_none());
            let given = others().any(|(p, _)| new.at(p).is_some_and(|entry| entry.bearer == bearer));
            self.see("a follow-up that leaves a position to nothing", left);
            self.see("a follow-up that gives a position to the named bearer", given);
        }

        fn listed(&mut self, identity: u8, table: &Table) {
            let list = table.list(identity).unwrap();
            let named: Vec<u8> = list.entries().map(|(_, entry)| entry.bearer).collect();
            let after = named.iter().position(|bearer| *bearer == identity).is_some_and(|nth| nth > 0);
            let others = || identities().filter(|other| *other != identity);
            let too = |position: u8| others().any(|other| table.list(other).unwrap().at(position).is_some());
            self.see("position 0", list.at(0).is_some());
            self.see("position 255", list.at(255).is_some());
            self.see("more than fifteen entries", named.len() > 15);
            self.see("a default named after a dedicated bearer", after);
            self.see("a position that another connection names too", list.entries().any(|(p, _)| too(p)));
        }

        /// Of a table that is not well formed, though its lists are right.
        fn listed_by_hand(&mut self, identity: u8, table: &Table) {
            let role = table.bearer(identity).unwrap().role;
            let linked = table.numbered().any(|(_, bearer)| {
                bearer.role == Role::Dedicated { link: identity } && filters_in(&bearer.row).next().is_some()
            });
            let idle = table.numbered().any(|(_, b)| b.is_idle() && filters_in(&b.row).next().is_some());
            self.see("by hand, filters of a bearer linked to no default", role != Role::Default && linked);
            self.see("by hand, filters of an idle bearer", idle);
            if role != Role::Default {
                return;
            }
            let connection = || table.numbered().filter(|(i, b)| in_connection(identity, *i, b.role));
            let (filters, bare): (Vec<_>, Vec<_>) = connection()
                .flat_map(|(i, b)| filters_in(&b.row).map(move |(_, filter)| (i, filter)))
                .partition(|(_, filter)| filter.has_component());
            for (nth, (bearer, filter)) in filters.iter().enumerate().filter(|(_, (_, f))| f.is_uplink()) {
                let same =
                    filters[..nth].iter().filter(|(_, f)| f.is_uplink() && f.precedence == filter.precedence);
                let bearers: Vec<bool> = same.map(|(other, _)| other == bearer).collect();
                self.see("by hand, a precedence twice in a bearer", bearers.contains(&true));
                self.see("by hand, a precedence twice in two bearers", bearers.contains(&false));
            }
            for (_, place) in bare.iter().filter(|(_, place)| place.is_uplink()) {
                let listed = table.list(identity).unwrap().at(place.precedence).is_some();
                self.see("by hand, a place without a component", true);
                self.see("by hand, a place without a component at a listed precedence", listed);
            }
            let above = filters.iter().any(|(_, filter)| filter.direction > LARGEST_DIRECTION);
            self.see("by hand, a direction above 3", above);
        }

        fn forced(&mut self, identity: u8, position: u8, entry: Entry, before: &Table) {
            let list = before.list(identity).unwrap();
            let (filter, bearer) = (before.filter(&entry).unwrap(), before.bearer(entry.bearer).unwrap());
            let of = connection_of(entry.bearer, bearer.role);
            let own = filter.precedence == position;
            let listed_too = list.at(filter.precedence) == Some(entry) && !own;
            self.see("false by an empty place", filter.is_nothing());
            let other = of != Some(identity) && !filter.is_nothing() && before.is_active_default(identity);
            self.see("false by a filter of another connection", other);
            let downlink = !filter.is_uplink() && own && of == Some(identity);
            self.see("false by a downlink filter at its precedence", downlink);
            self.see("false by a filter that is listed where it should be too", listed_too);
        }
    }

    #[test]
    fn lists_change_and_are_spoilt_in_every_way() {
        for seed in [0, 1, 20260401] {
            let mut watch = Watch::default();
            for (number, line) in script(seed, 25_100).split(|octet| *octet == b'\n').enumerate() {
                watch.line(number, line.strip_suffix(b"\r").unwrap_or(line));
            }
            let times = |situation: &str| watch.seen.get(situation).copied().unwrap_or(0);
            let rare: Vec<_> = SITUATIONS.iter().map(|s| (s, times(s))).filter(|(_, t)| *t < LEAST).collect();
            assert!(rare.is_empty(), "seed {seed}: {rare:?}");
        }
    }
}
