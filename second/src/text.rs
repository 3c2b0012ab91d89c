//! How replies are written.

use crate::calls::{Answer, Identities, Rejection};
use crate::element::{filters_in, Kind, Operation, Refusal};
use crate::filter::{Component, Filter, Row};
use crate::list::{Entry, List};
use crate::messages::{self, Message};
use crate::route::{Route, Why};
use crate::status::Comparison;
use crate::table::{identities, Bearer, Role, Table};

pub type Text = Vec<u8>;

pub fn words(text: &mut Text, words: &str) {
    text.extend_from_slice(words.as_bytes());
}

pub fn number(text: &mut Text, number: impl Into<u64>) {
    let mut digits = [0; 20];
    let mut at = digits.len();
    let mut left: u64 = number.into();
    loop {
        at -= 1;
        digits[at] = b'0' + (left % 10) as u8;
        left /= 10;
        if left == 0 {
            break;
        }
    }
    text.extend_from_slice(&digits[at..]);
}

/// Words, a number, and the end of the line.
pub fn line(text: &mut Text, before: &str, last: impl Into<u64>) {
    words(text, before);
    number(text, last);
    text.push(b'\n');
}

pub fn hexadecimal(text: &mut Text, octets: &[u8]) {
    const DIGITS: &[u8; 16] = b"0123456789ABCDEF";
    for octet in octets {
        text.push(DIGITS[usize::from(octet >> 4)]);
        text.push(DIGITS[usize::from(octet & 15)]);
    }
}

/// Each octet in decimal, as people write an IPv4 address.
fn dotted(text: &mut Text, octets: &[u8]) {
    for (position, octet) in octets.iter().enumerate() {
        words(text, if position == 0 { "" } else { "." });
        number(text, *octet);
    }
}

pub fn answer(text: &mut Text, answer: &Answer) {
    match *answer {
        Answer::Refused(number) => line(text, "refused ", number),
        Answer::Accept { bearer, follow_up } => accept(text, bearer, follow_up),
        Answer::Reject { bearer, why } => reject(text, bearer, &why),
        Answer::Release { default } => line(text, "release ", default),
        Answer::Reattach => words(text, "re-attach\n"),
        Answer::Started(transaction) => line(text, "started ", transaction),
        Answer::Closed(transaction) => line(text, "closed ", transaction),
    }
}

fn accept(text: &mut Text, bearer: u8, follow_up: Identities) {
    words(text, "accept ");
    number(text, bearer);
    if follow_up != 0 {
        words(text, " follow-up");
    }
    bearers(text, follow_up);
    words(text, "\n");
}

fn reject(text: &mut Text, bearer: u8, why: &Rejection) {
    one(text, "reject ", bearer);
    one(text, " ", why.cause);
    if let Some(place) = why.place {
        one(text, " at ", place as u64);
    }
    words(text, "\n");
}

/// The cause and the place of what the reader refuses, and the end of the line.
pub fn refusal(text: &mut Text, before: &str, refusal: &Refusal) {
    one(text, before, refusal.cause());
    line(text, " at ", refusal.place as u64);
}

/// The identities of a set, rising, each after a space.
fn bearers(text: &mut Text, set: Identities) {
    for identity in identities().filter(|identity| set >> identity & 1 == 1) {
        words(text, " ");
        number(text, identity);
    }
}

pub fn synchronised(text: &mut Text, gone: Identities) {
    words(text, "synchronised");
    bearers(text, gone);
    words(text, "\n");
}

pub fn comparison(text: &mut Text, comparison: &Comparison) {
    words(text, "both");
    bearers(text, comparison.both);
    words(text, " here");
    bearers(text, comparison.here);
    words(text, " network");
    bearers(text, comparison.network);
    words(text, "\n");
}

pub fn route(text: &mut Text, route: &Route) {
    match *route {
        Route::Refused(number) => line(text, "refused ", number),
        Route::Bearer(bearer) => line(text, "bearer ", bearer),
        Route::Discard => words(text, "discard\n"),
    }
}

pub fn why(text: &mut Text, why: &Why) {
    match *why {
        Why::Refused(number) => line(text, "refused ", number),
        Why::Filter { precedence, entry: Entry { bearer, identifier } } => {
            two(text, "bearer ", bearer, " filter ", identifier);
            line(text, " precedence ", precedence);
        }
        Why::Default(bearer) => {
            one(text, "bearer ", bearer);
            words(text, " default\n");
        }
        Why::Discard => words(text, "discard\n"),
    }
}

pub fn list(text: &mut Text, list: &List) {
    for (position, Entry { bearer, identifier }) in list.entries() {
        two(text, "position ", position, " bearer ", bearer);
        line(text, " identifier ", identifier);
    }
    words(text, "end\n");
}

pub fn kind(kind: Kind) -> &'static str {
    match kind {
        Kind::Create => "create",
        Kind::DeleteTft => "delete-tft",
        Kind::Add => "add",
        Kind::Replace => "replace",
        Kind::DeleteFilters => "delete-filters",
        Kind::None => "none",
    }
}

pub fn operation(text: &mut Text, operation: &Operation) {
    words(text, kind(operation.kind));
    for identifier in (0..16u8).filter(|i| operation.identifiers >> i & 1 == 1) {
        words(text, " ");
        number(text, identifier);
    }
    words(text, "\n");
    row(text, &operation.row);
    words(text, "end\n");
}

fn row(text: &mut Text, row: &Row) {
    for (identifier, held) in filters_in(row) {
        words(text, "  ");
        filter(text, identifier as u8, held);
    }
}

/// A filter's line without its indent.
pub fn filter(text: &mut Text, identifier: u8, filter: &Filter) {
    words(text, "filter ");
    number(text, identifier);
    words(text, " precedence ");
    number(text, filter.precedence);
    words(text, " direction ");
    number(text, filter.direction);
    for held in filter.components() {
        component(text, &held);
    }
    words(text, "\n");
}

fn component(text: &mut Text, component: &Component) {
    match *component {
        Component::Remote4 { address, mask } => masked(text, " remote4 ", dotted, &address, &mask),
        Component::Remote6 { address, mask } => masked(text, " remote6 ", hexadecimal, &address, &mask),
        Component::Protocol(protocol) => one(text, " protocol ", protocol),
        Component::LocalPort(port) => one(text, " local-port ", port),
        Component::LocalRange { low, high } => two(text, " local-range ", low, "-", high),
        Component::RemotePort(port) => one(text, " remote-port ", port),
        Component::RemoteRange { low, high } => two(text, " remote-range ", low, "-", high),
        Component::Index(index) => one(text, " index ", index),
        Component::Class { class, mask } => two(text, " class ", class, "/", mask),
        Component::Label(label) => one(text, " label ", label),
    }
}

fn masked(text: &mut Text, name: &str, write: fn(&mut Text, &[u8]), address: &[u8], mask: &[u8]) {
    words(text, name);
    write(text, address);
    words(text, "/");
    write(text, mask);
}

fn one(text: &mut Text, name: &str, value: impl Into<u64>) {
    words(text, name);
    number(text, value);
}

fn two(text: &mut Text, name: &str, first: impl Into<u64>, between: &str, second: impl Into<u64>) {
    one(text, name, first);
    one(text, between, second);
}

pub fn table(text: &mut Text, table: &Table) {
    let shown = |bearer: &Bearer| !bearer.is_idle() || !bearer.holds_nothing();
    for (identity, held) in table.numbered().filter(|(_, held)| shown(held)) {
        bearer(text, identity, held);
    }
    words(text, "end\n");
}

fn bearer(text: &mut Text, identity: u8, bearer: &Bearer) {
    words(text, "bearer ");
    number(text, identity);
    match bearer.role {
        Role::Idle => words(text, " idle"),
        Role::Default => words(text, " default"),
        Role::Dedicated { link } => one(text, " dedicated ", link),
    }
    line(text, " transaction ", bearer.transaction);
    row(text, &bearer.row);
}

pub fn message_kind(kind: messages::Kind) -> &'static str {
    match kind {
        messages::Kind::DedicatedRequest => "dedicated-request",
        messages::Kind::DedicatedAccept => "dedicated-accept",
        messages::Kind::DedicatedReject => "dedicated-reject",
        messages::Kind::ModifyRequest => "modify-request",
        messages::Kind::ModifyAccept => "modify-accept",
        messages::Kind::ModifyReject => "modify-reject",
        messages::Kind::DeactivateRequest => "deactivate-request",
        messages::Kind::DeactivateAccept => "deactivate-accept",
        messages::Kind::ModificationReject => "modification-reject",
    }
}

pub fn message(text: &mut Text, message: &Message) {
    words(text, message_kind(message.kind));
    one(text, " bearer ", message.bearer);
    one(text, " transaction ", message.transaction);
    if message.kind.has_link() {
        one(text, " link ", message.number);
    }
    if message.kind.has_cause() {
        one(text, " cause ", message.number);
    }
    if let Some(tft) = message.tft {
        words(text, " tft ");
        buffer(text, tft);
    }
    words(text, "\n");
}

pub fn sent(text: &mut Text, octets: &[u8]) {
    words(text, "send ");
    hexadecimal(text, octets);
    words(text, "\n");
}

/// "the whole buffer in HEX (`-` where N is 0)"
pub fn buffer(text: &mut Text, octets: &[u8]) {
    if octets.is_empty() {
        words(text, "-");
    }
    hexadecimal(text, octets);
}
