//! Lists that are spoilt by an entry, questions of every kind to the table then, and what mends it.

use super::elements::hex;
use super::lists::MOST_TRIES;
use super::{headers, Generator};
use crate::element::filters_in;
use crate::list::Entry;
use crate::messages;
use crate::route::first_that_fits;
use crate::status::active;
use crate::table::{identities, in_connection, Role, Table};

/// What is to be false about a list. The same entry once more is not.
#[derive(Clone, Copy)]
enum Spoil {
    Missing,
    OtherBearer,
    OtherIdentifier,
    TooManyOfDefault,
    TooManyOfDedicated,
    TooManyOfIdle,
    Moved,
    OtherConnection,
    Same,
}

const SPOILS: [Spoil; 14] = [
    Spoil::Missing,
    Spoil::OtherBearer,
    Spoil::OtherBearer,
    Spoil::OtherIdentifier,
    Spoil::OtherIdentifier,
    Spoil::TooManyOfDefault,
    Spoil::TooManyOfDefault,
    Spoil::TooManyOfDedicated,
    Spoil::TooManyOfDedicated,
    Spoil::TooManyOfIdle,
    Spoil::TooManyOfIdle,
    Spoil::Moved,
    Spoil::OtherConnection,
    Spoil::Same,
];

/// What is asked of a table with a false list. The last two are answered as ever.
#[derive(Clone, Copy)]
enum Question {
    Default,
    Dedicated,
    Modify,
    Deactivate,
    Start,
    Reject,
    Route,
    Why,
    Check,
    Status,
    Synchronise,
    Compare,
    Message(messages::Kind),
    NoMessage,
    Element,
    Show,
}

const QUESTIONS: [Question; 19] = [
    Question::Default,
    Question::Dedicated,
    Question::Modify,
    Question::Deactivate,
    Question::Start,
    Question::Reject,
    Question::Route,
    Question::Why,
    Question::Check,
    Question::Status,
    Question::Synchronise,
    Question::Compare,
    Question::Message(messages::Kind::DedicatedRequest),
    Question::Message(messages::Kind::ModifyRequest),
    Question::Message(messages::Kind::DeactivateRequest),
    Question::Message(messages::Kind::ModificationReject),
    Question::NoMessage,
    Question::Element,
    Question::Show,
];

/// Of each list, what was not drawn yet.
#[derive(Default)]
pub struct StillToCome {
    spoils: Vec<Spoil>,
    questions: Vec<Question>,
}

impl Generator {
    /// Calls of every kind on a table with a false list, each of which would do something on a true one.
    pub fn spoil_and_mend(&mut self) {
        let default = self.listed_connection();
        if self.random.one_in(2) {
            self.open_in(default);
        }
        let spoil = self.random.draw(&mut self.spoils_to_come.spoils, &SPOILS);
        let spoilt = self.spoil(spoil, default);
        if self.random.one_in(4) {
            let spoil = self.random.draw(&mut self.spoils_to_come.spoils, &SPOILS);
            self.spoil(spoil, default);
        }
        if self.random.one_in(2) {
            self.list(spoilt);
        }
        for _ in 0..2 + self.random.below(3) {
            self.ask_false(default);
        }
        self.list(spoilt);
        self.mend();
        match self.random.below(4) {
            0 => self.say("check"),
            1 => self.why(),
            _ => self.list(spoilt),
        }
    }

    fn force_entry(&mut self, identity: u8, position: u8, entry: Option<Entry>) {
        let (bearer, identifier) = entry.map_or((0, 0), |entry| (entry.bearer, entry.identifier));
        self.say(&format!("force-entry {identity} {position} {bearer} {identifier}"));
    }

    fn free_position(&mut self, identity: u8) -> u8 {
        let listed: Vec<u8> = self.listed(identity).iter().map(|(position, _)| *position).collect();
        let any = self.random.octet();
        let near = self.random.any(&listed).map_or(any, |position| position.wrapping_add(1));
        let free: Vec<u8> = [0, 255, near, near, any].into_iter().filter(|p| !listed.contains(p)).collect();
        self.random.any(&free).unwrap_or(any)
    }

    /// Spoils a list, and gives the identity that it is of.
    fn spoil(&mut self, spoil: Spoil, default: u8) -> u8 {
        let (position, entry) = self.some_entry(default);
        let other = self.random.below(15) as u8 + 1;
        let of = match spoil {
            Spoil::TooManyOfDedicated => self.dedicated_of(default),
            Spoil::TooManyOfIdle => self.one_of(|role| role == Role::Idle),
            _ => default,
        };
        match spoil {
            Spoil::Missing => self.force_entry(of, position, None),
            Spoil::OtherBearer => {
                let bearer = 5 + (entry.bearer - 5 + other % 11) % 11;
                self.force_entry(of, position, Some(Entry { bearer, ..entry }));
            }
            Spoil::OtherIdentifier => {
                let identifier = (entry.identifier + other) % 16;
                self.force_entry(of, position, Some(Entry { identifier, ..entry }));
            }
            Spoil::TooManyOfDefault | Spoil::TooManyOfDedicated | Spoil::TooManyOfIdle => {
                self.force_one_too_many(of, default)
            }
            Spoil::Moved => {
                let elsewhere = self.free_position(of);
                self.force_entry(of, position, None);
                self.force_entry(of, elsewhere, Some(entry));
            }
            Spoil::OtherConnection => self.force_of_other_connection(of),
            Spoil::Same => self.force_same_entry(of),
        }
        of
    }

    fn listed_beside(&self, default: u8) -> Vec<(u8, Entry)> {
        let others = self.bearers(|role| role == Role::Default).into_iter().filter(|other| *other != default);
        others.flat_map(|other| self.listed(other)).collect()
    }

    /// What another connection's list names, mostly at the same position.
    fn force_of_other_connection(&mut self, default: u8) {
        if self.listed_beside(default).is_empty() {
            let other = self.one_of(|role| role == Role::Idle);
            self.say(&format!("default {other}"));
            self.dedicate(other);
        }
        let (beside, free) = (self.listed_beside(default), self.free_position(default));
        if let Some((position, entry)) = self.random.any(&beside) {
            let position = self.random.pick(&[position, position, free]);
            self.force_entry(default, position, Some(entry));
        }
    }

    /// A filter that is listed elsewhere, one that is downlink only, or no filter at all.
    fn force_one_too_many(&mut self, of: u8, default: u8) {
        let (position, entry) = self.some_entry(default);
        let (free, any) = (self.free_position(of), self.random.octet());
        let downlink = self.downlink_filters(default);
        let no_filter = Entry { bearer: 5 + any % 11, identifier: any >> 4 };
        let own = if of == default { free } else { position };
        let many = [(free, entry), (own, entry), (free, no_filter)];
        let (position, entry) = match self.random.any(&downlink) {
            Some(downlink) if of == default && !self.random.one_in(4) => downlink,
            _ => self.random.pick(&many),
        };
        self.force_entry(of, position, Some(entry));
    }

    /// At their own precedences.
    fn downlink_filters(&self, default: u8) -> Vec<(u8, Entry)> {
        let connection = self.table().numbered().filter(|(i, b)| in_connection(default, *i, b.role));
        let filters = connection.flat_map(|(bearer, held)| {
            filters_in(&held.row).map(move |(i, filter)| (Entry { bearer, identifier: i as u8 }, filter))
        });
        filters.filter(|(_, filter)| !filter.is_uplink()).map(|(e, filter)| (filter.precedence, e)).collect()
    }

    /// What stands there already, be it a filter or nothing.
    pub fn force_same_entry(&mut self, identity: u8) {
        let listed = self.listed(identity);
        match self.random.any(&listed) {
            Some((position, entry)) if !self.random.one_in(3) => {
                self.force_entry(identity, position, Some(entry));
            }
            _ => {
                let free = self.free_position(identity);
                self.force_entry(identity, free, None);
            }
        }
    }

    /// At times repeated.
    fn ask_false(&mut self, default: u8) {
        let repeated = self.random.one_in(6);
        self.repeat = repeated.then_some(2 + self.random.below(4));
        self.ask(default);
        self.repeat = None;
    }

    fn ask(&mut self, default: u8) {
        let (bearer, idle) = (self.dedicated_of(default), self.one_of(|role| role == Role::Idle));
        match self.random.draw(&mut self.spoils_to_come.questions, &QUESTIONS) {
            Question::Default => self.say(&format!("default {idle}")),
            Question::Dedicated => self.dedicate(default),
            Question::Modify => {
                let kind = self.kind();
                let element = self.free_element(kind, default, bearer);
                self.modify_by(bearer, &element);
            }
            Question::Deactivate => self.say(&format!("deactivate {bearer} 0")),
            Question::Start => self.start(),
            Question::Reject => self.reject(),
            Question::Route => self.route(),
            Question::Why if self.random.one_in(2) => self.why(),
            Question::Why => self.why_decided_otherwise(default),
            Question::Check => self.say("check"),
            Question::Status => self.say("status 2"),
            Question::Synchronise => self.synchronise_without_one_of(default),
            Question::Compare => self.say(&format!("compare {}", hex(&active(self.table()).to_le_bytes()))),
            Question::Message(kind) => self.message_of(kind, default),
            Question::NoMessage => {
                let octets = self.random.pick(&["-", "62", "6200", "6200C8", "6300C9", "6200CA", "6200C936"]);
                self.say(&format!("message {octets}"));
            }
            Question::Element => self.element_line(),
            Question::Show => self.say("show"),
        }
    }

    /// With a header for which the false list gives another filter than a true one, where few tries find one.
    fn why_decided_otherwise(&mut self, default: u8) {
        let right = self.table().listed_anew();
        let mut header = self.header_near(default);
        for _ in 0..MOST_TRIES {
            let found = |table: &Table| first_that_fits(table, default, &header);
            if found(self.table()) != found(&right) {
                break;
            }
            header = self.header_near(default);
        }
        let words = headers::words(&mut self.random, &header);
        self.say(&format!("why {default} {words}"));
    }

    /// Until every list is as the rule has it: entries are put back, or something is done by hand that changes nothing else.
    pub fn mend(&mut self) {
        let mut right = self.table().listed_anew();
        while *self.table() != right {
            match self.random.below(4) {
                0 => self.force_as_it_is(),
                1 => self.place_as_it_is(),
                _ => self.put_entries_back(&right),
            }
            right = self.table().listed_anew();
        }
    }

    fn force_as_it_is(&mut self) {
        let bearer = 5 + self.random.below(11) as u8;
        let held = *self.table().bearer(bearer).expect("5 to 15");
        self.force_to(bearer, held.role, held.transaction);
    }

    fn place_as_it_is(&mut self) {
        let (bearer, place) = (5 + self.random.below(11) as u8, self.random.below(16));
        let filter = self.table().bearer(bearer).expect("5 to 15").row[place];
        self.place_to(bearer, place, &filter);
    }

    fn put_entries_back(&mut self, right: &Table) {
        for identity in identities() {
            let (held, rule) = (*self.table().list(identity).unwrap(), *right.list(identity).unwrap());
            let position_of = |(position, _): (u8, Entry)| position;
            let mut positions: Vec<u8> = held.entries().chain(rule.entries()).map(position_of).collect();
            positions.sort();
            positions.dedup();
            for position in positions.into_iter().filter(|p| held.at(*p) != rule.at(*p)) {
                self.force_entry(identity, position, rule.at(position));
            }
        }
    }
}

#[cfg(test)]
mod tests {
    use super::super::script;
    use crate::lines::LONGEST_LINE;
    use crate::session::Session;

    #[test]
    fn no_table_stays_false_for_long() {
        let (mut session, mut since) = (Session::default(), 0);
        for (number, line) in script(5, 25_100).split(|octet| *octet == b'\n').enumerate() {
            let line = line.strip_suffix(b"\r").unwrap_or(line);
            session.do_line(number as u64, line, line.len() > LONGEST_LINE, &mut Vec::new());
            since = if session.table == session.table.listed_anew() { 0 } else { since + 1 };
            assert!(since < 40, "line {number}");
        }
    }
}
