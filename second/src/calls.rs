//! The calls that change the table.

use crate::element::{self, Cause, Kind, Operation, Refusal};
use crate::filter::{row_is_empty, Filter, Octets256, Row, PLACES};
use crate::table::{identities, in_connection, Role, Table, LARGEST_TRANSACTION};

pub const NOT_WELL_FORMED: u8 = 1;
pub const NOT_OPEN: u8 = 3;
pub const NOT_A_TRANSACTION: u8 = 4;
pub const ALREADY_OPEN: u8 = 5;
pub const NOT_ACTIVE: u8 = 6;
pub const HAS_A_TRANSACTION: u8 = 7;

pub const SEMANTICAL_IN_OPERATION: Cause = 41;
pub const INVALID_IDENTITY: Cause = 43;
pub const TRANSACTION_MISMATCH: Cause = 47;

/// A set of bearer identities, a bit for each.
pub type Identities = u16;

#[derive(Clone, Copy, PartialEq, Eq, Debug)]
pub enum Answer {
    Refused(u8),
    Accept { bearer: u8, follow_up: Identities },
    Reject { bearer: u8, why: Rejection },
    Release { default: u8 },
    Reattach,
    Started(u8),
    Closed(u8),
}

/// A cause, and the place in the element's value where the element is what was refused.
#[derive(Clone, Copy, PartialEq, Eq, Debug)]
pub struct Rejection {
    pub cause: Cause,
    pub place: Option<usize>,
}

impl Rejection {
    /// For what the table says against the call, or the operation against the bearer.
    pub fn without_place(cause: Cause) -> Rejection {
        Rejection { cause, place: None }
    }
}

impl From<Refusal> for Rejection {
    fn from(refusal: Refusal) -> Rejection {
        Rejection { cause: refusal.cause(), place: Some(refusal.place) }
    }
}

fn accept(bearer: u8) -> Answer {
    Answer::Accept { bearer, follow_up: 0 }
}

fn reject_without_place(bearer: u8, cause: Cause) -> Answer {
    Answer::Reject { bearer, why: Rejection::without_place(cause) }
}

pub fn activate_default(table: &mut Table, bearer: u8) -> Answer {
    if !table.is_well_formed() {
        return Answer::Refused(NOT_WELL_FORMED);
    }
    if !table.is_free(bearer) {
        return reject_without_place(bearer, INVALID_IDENTITY);
    }
    table.bearer_mut(bearer).unwrap().role = Role::Default;
    accept(bearer)
}

pub fn activate_dedicated(table: &mut Table, bearer: u8, link: u8, transaction: u8, octets: &[u8]) -> Answer {
    answered(table, bearer, transaction, |table| {
        let operation = dedicated_request(table, bearer, link, octets)?;
        table.bearer_mut(bearer).unwrap().role = Role::Dedicated { link };
        Ok(lay(table, bearer, link, &operation))
    })
}

pub fn modify(table: &mut Table, bearer: u8, transaction: u8, octets: &[u8]) -> Answer {
    answered(table, bearer, transaction, |table| {
        let role = table.bearer(bearer).map_or(Role::Idle, |b| b.role);
        let operation = modify_request(table, bearer, role, octets)?;
        let default = if let Role::Dedicated { link } = role { link } else { bearer };
        Ok(lay(table, bearer, default, &operation))
    })
}

/// "A modify without a TFT is accepted after steps 1 to 3 and changes nothing but a closed transaction."
pub fn modify_without_tft(table: &mut Table, bearer: u8, transaction: u8) -> Answer {
    answered(table, bearer, transaction, |table| {
        table.is_active(bearer).then_some(accept(bearer)).ok_or(Rejection::without_place(INVALID_IDENTITY))
    })
}

/// Steps 1 and 2, then what follows them. "A match is closed, whatever follows."
fn answered(
    table: &mut Table,
    bearer: u8,
    transaction: u8,
    follow: impl FnOnce(&mut Table) -> Result<Answer, Rejection>,
) -> Answer {
    if !table.is_well_formed() {
        return Answer::Refused(NOT_WELL_FORMED);
    }
    if transaction != 0 && table.bearer_of_transaction(transaction).is_none() {
        return reject_without_place(bearer, TRANSACTION_MISMATCH);
    }
    table.close(transaction);
    follow(table).unwrap_or_else(|why| Answer::Reject { bearer, why })
}

/// Steps 3 to 9 of a dedicated activation.
fn dedicated_request(table: &Table, bearer: u8, link: u8, octets: &[u8]) -> Result<Operation, Rejection> {
    if !table.is_free(bearer) || !table.is_active_default(link) {
        return Err(Rejection::without_place(INVALID_IDENTITY));
    }
    let head = element::head(octets)?;
    if head.kind != Kind::Create {
        return Err(Rejection::without_place(SEMANTICAL_IN_OPERATION));
    }
    Ok(element::body(head, octets)?)
}

/// Steps 3 to 10 of a modify message.
fn modify_request(table: &Table, bearer: u8, role: Role, octets: &[u8]) -> Result<Operation, Rejection> {
    if role == Role::Idle {
        return Err(Rejection::without_place(INVALID_IDENTITY));
    }
    let head = element::head(octets)?;
    let dedicated = role != Role::Default;
    if head.kind == Kind::DeleteTft && dedicated {
        return Err(Rejection::without_place(SEMANTICAL_IN_OPERATION));
    }
    let operation = element::body(head, octets)?;
    if dedicated && empties(&operation, &table.bearer(bearer).unwrap().row) {
        return Err(Rejection::without_place(SEMANTICAL_IN_OPERATION));
    }
    Ok(operation)
}

/// "Delete filters that empties a TFT with filters"
fn empties(operation: &Operation, row: &Row) -> bool {
    let remains =
        |(place, filter): (usize, &Filter)| operation.identifiers >> place & 1 == 0 && !filter.is_nothing();
    operation.kind == Kind::DeleteFilters && !row_is_empty(row) && !row.iter().enumerate().any(remains)
}

/// What an accepted operation does to the bearer's connection.
fn lay(table: &mut Table, bearer: u8, default: u8, operation: &Operation) -> Answer {
    table.change_row(default, bearer, |row| change(row, operation));
    let new = New::of(bearer, operation);
    let conflicts = conflicting_bearers(table, default, &new);
    if conflicts >> default & 1 == 1 {
        return release(table, default);
    }
    for bearer in identities().filter(|identity| conflicts >> identity & 1 == 1) {
        table.change_row(default, bearer, |row| new.remove_conflicts_in(bearer, row));
    }
    Answer::Accept { bearer, follow_up: conflicts }
}

fn change(row: &mut Row, operation: &Operation) {
    match operation.kind {
        Kind::Create => *row = operation.row,
        Kind::Add | Kind::Replace => overlay(row, &operation.row),
        Kind::DeleteTft => *row = [Filter::default(); PLACES],
        Kind::DeleteFilters => delete(row, operation.identifiers),
        Kind::None => {}
    }
}

fn overlay(row: &mut Row, new: &Row) {
    for (place, filter) in row.iter_mut().zip(new).filter(|(_, filter)| !filter.is_nothing()) {
        *place = *filter;
    }
}

fn delete(row: &mut Row, identifiers: u16) {
    for (_, place) in row.iter_mut().enumerate().filter(|(i, _)| identifiers >> i & 1 == 1) {
        *place = Filter::default();
    }
}

/// The filters that an operation brings, with their precedences and the bearer that they stand on.
struct New<'a> {
    bearer: u8,
    row: &'a Row,
    precedences: Octets256,
}

impl New<'_> {
    fn of(bearer: u8, operation: &Operation) -> New<'_> {
        let mut precedences = Octets256::default();
        for filter in operation.row.iter().filter(|filter| !filter.is_nothing()) {
            precedences.add(filter.precedence);
        }
        New { bearer, row: &operation.row, precedences }
    }

    /// "A conflict is an old filter of the connection, remaining after the above, with a new filter's precedence."
    fn conflicts_with(&self, bearer: u8, place: usize, filter: &Filter) -> bool {
        let is_new = bearer == self.bearer && !self.row[place].is_nothing();
        !filter.is_nothing() && !is_new && self.precedences.has(filter.precedence)
    }

    fn conflicts_in(&self, bearer: u8, row: &Row) -> bool {
        row.iter().enumerate().any(|(place, filter)| self.conflicts_with(bearer, place, filter))
    }

    fn remove_conflicts_in(&self, bearer: u8, row: &mut Row) {
        for (_, filter) in row.iter_mut().enumerate().filter(|(i, f)| self.conflicts_with(bearer, *i, f)) {
            *filter = Filter::default();
        }
    }
}

fn conflicting_bearers(table: &Table, default: u8, new: &New) -> Identities {
    let connection = table.numbered().filter(|(i, b)| in_connection(default, *i, b.role));
    connection.filter(|(i, b)| new.conflicts_in(*i, &b.row)).fold(0, |set, (i, _)| set | 1 << i)
}

/// A conflict on the default: the whole connection goes with its transactions.
fn release(table: &mut Table, default: u8) -> Answer {
    let only = table.connections() == 1;
    table.deactivate_connection(default);
    if only {
        Answer::Reattach
    } else {
        Answer::Release { default }
    }
}

pub fn deactivate(table: &mut Table, bearer: u8, transaction: u8) -> Answer {
    if !table.is_well_formed() {
        return Answer::Refused(NOT_WELL_FORMED);
    }
    table.close(transaction);
    table.deactivate(bearer);
    accept(bearer)
}

/// The network's bearer resource modification reject.
pub fn reject(table: &mut Table, transaction: u8, cause: Cause) -> Answer {
    if !table.is_well_formed() {
        return Answer::Refused(NOT_WELL_FORMED);
    }
    let Some(bearer) = table.bearer_of_transaction(transaction) else {
        return Answer::Refused(NOT_OPEN);
    };
    table.close(transaction);
    if cause == INVALID_IDENTITY {
        table.deactivate(bearer);
    }
    Answer::Closed(transaction)
}

pub fn start(table: &mut Table, transaction: u8, bearer: u8) -> Answer {
    match start_refusal(table, transaction, bearer) {
        Some(number) => Answer::Refused(number),
        None => {
            table.bearer_mut(bearer).unwrap().transaction = transaction;
            Answer::Started(transaction)
        }
    }
}

/// "Start: 1, 4, 6, 7, 5."
fn start_refusal(table: &Table, transaction: u8, bearer: u8) -> Option<u8> {
    if !table.is_well_formed() {
        Some(NOT_WELL_FORMED)
    } else if transaction == 0 || transaction > LARGEST_TRANSACTION {
        Some(NOT_A_TRANSACTION)
    } else if !table.is_active(bearer) {
        Some(NOT_ACTIVE)
    } else if table.bearer(bearer).unwrap().transaction != 0 {
        Some(HAS_A_TRANSACTION)
    } else if table.bearer_of_transaction(transaction).is_some() {
        Some(ALREADY_OPEN)
    } else {
        None
    }
}
