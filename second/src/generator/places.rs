//! Elements that break at every sort of place: read, finished, and used on the table by calls and by messages.

use super::drafts::Fields;
use super::elements::{code, contents, entry_of, hex, sound_components, unfit_components, BADLY_CODED};
use super::Generator;
use crate::element::{Fault, Kind, LARGEST_COUNT, LONGEST_VALUE};
use crate::messages;
use crate::table::Role;

/// What is to be wrong with an element, and where.
#[derive(Clone, Copy, PartialEq, Eq)]
enum Break {
    NoOctets,
    TooLong,
    Operation,
    Count,
    Entry,
    NoParameter,
    Parameter,
    LeftOver,
    FirstFilter(Fault),
    LaterFilter(Fault),
}

const AT_0: &[Break] = &[Break::NoOctets, Break::TooLong, Break::Operation, Break::Count];

/// A message may have no octets of a TFT and is counted apart then, and never too many.
const AT_0_OF_SOME: &[Break] = &[Break::Operation, Break::Count];

const AT_THE_END: &[Break] = &[Break::Entry, Break::NoParameter, Break::Parameter];

const BETWEEN: &[Break] = &[
    Break::LeftOver,
    Break::FirstFilter(Fault::Unfit),
    Break::LaterFilter(Fault::Unfit),
    Break::FirstFilter(Fault::BadlyCoded),
    Break::LaterFilter(Fault::BadlyCoded),
    Break::LaterFilter(Fault::Repeat),
];

/// The line that the element is for.
#[derive(Clone, Copy, PartialEq, Eq)]
enum Purpose {
    Element,
    Rewrite,
    Modify,
    Dedicated,
    Finish,
    ModifyMessage,
    DedicatedMessage,
}

const PURPOSES: [Purpose; 7] = [
    Purpose::Element,
    Purpose::Rewrite,
    Purpose::Modify,
    Purpose::Dedicated,
    Purpose::Finish,
    Purpose::ModifyMessage,
    Purpose::DedicatedMessage,
];

impl Purpose {
    /// One break of each is to come: every one where they are counted in detail, else one at each sort of place.
    fn breaks(self) -> Vec<&'static [Break]> {
        let mut breaks: Vec<&[Break]> = match self {
            Purpose::Element | Purpose::Modify => AT_0.chunks(1).chain(AT_THE_END.chunks(1)).collect(),
            Purpose::Rewrite | Purpose::Dedicated | Purpose::Finish => vec![AT_0, AT_THE_END],
            Purpose::ModifyMessage | Purpose::DedicatedMessage => vec![AT_0_OF_SOME, AT_THE_END],
        };
        breaks.extend(BETWEEN.chunks(1));
        breaks
    }

    fn is_dedicated(self) -> bool {
        matches!(self, Purpose::Dedicated | Purpose::DedicatedMessage)
    }
}

#[derive(Clone, Copy)]
pub struct Plan {
    any_of: &'static [Break],
    purpose: Purpose,
}

fn plans() -> Vec<Plan> {
    let of = |purpose: Purpose| purpose.breaks().into_iter().map(move |any_of| Plan { any_of, purpose });
    PURPOSES.into_iter().flat_map(of).collect()
}

const KINDS: [Kind; 6] =
    [Kind::Create, Kind::Add, Kind::Replace, Kind::DeleteFilters, Kind::DeleteTft, Kind::None];

impl Generator {
    /// Nothing else is wrong with the call, so that the element is looked at.
    pub fn places(&mut self) {
        if self.bearers(|role| role == Role::Default).is_empty() {
            self.activate_default();
        }
        let Plan { any_of, purpose } = self.random.draw(&mut self.places_to_come, &plans());
        let (default, open) = (self.one_of(|role| role == Role::Default), self.open_transaction());
        let bearer = self.one_of(|role| (role == Role::Idle) == purpose.is_dedicated());
        let kind = if purpose.is_dedicated() { Kind::Create } else { self.random.pick(&KINDS) };
        let broken = self.random.pick(any_of);
        let value = self.broken_element(broken, kind, bearer);
        let transaction = self.random.pick(&[0, 0, open]);
        self.say_broken(purpose, Fields { bearer, transaction, number: default }, &value);
    }

    fn say_broken(&mut self, purpose: Purpose, fields: Fields, value: &[u8]) {
        let Fields { bearer, transaction, number: default } = fields;
        match purpose {
            Purpose::Element => self.say(&format!("element {}", hex(value))),
            Purpose::Rewrite => {
                let size = self.size_near(value.len());
                self.say(&format!("rewrite {} {size}", hex(value)));
            }
            Purpose::Modify => self.say(&format!("modify {bearer} {transaction} {}", hex(value))),
            Purpose::Dedicated => {
                self.say(&format!("dedicated {bearer} {default} {transaction} {}", hex(value)))
            }
            Purpose::Finish => self.finish_in_two(value),
            Purpose::ModifyMessage => self.message_with(messages::Kind::ModifyRequest, fields, value),
            Purpose::DedicatedMessage => self.message_with(messages::Kind::DedicatedRequest, fields, value),
        }
    }

    fn message_with(&mut self, kind: messages::Kind, fields: Fields, tft: &[u8]) {
        let octets = self.draft(kind, fields, Some(tft.to_vec())).octets();
        self.say(&format!("message {}", hex(&octets)));
    }

    fn finish_in_two(&mut self, value: &[u8]) {
        let (first, second) = value.split_at(self.random.below(value.len() + 1));
        self.say(&format!("announce {}", value.len()));
        self.say(&format!("portion {}", hex(first)));
        self.say(&format!("portion {}", hex(second)));
        self.say("finish");
    }

    fn broken_element(&mut self, broken: Break, kind: Kind, bearer: u8) -> Vec<u8> {
        let mut value = match broken {
            Break::NoOctets => Vec::new(),
            Break::TooLong => self.too_long(kind, bearer),
            Break::Operation => self.wrong_operation(kind, bearer),
            Break::Count => self.wrong_count(kind, bearer),
            Break::Entry => self.cut_entry(kind, bearer),
            Break::NoParameter | Break::Parameter => self.cut_parameter(kind, bearer, broken),
            Break::LeftOver => self.left_over(kind, bearer),
            Break::FirstFilter(fault) => self.broken_filters(kind, bearer, fault, 0),
            Break::LaterFilter(fault) => {
                let at = 1 + self.random.below(4);
                self.broken_filters(kind, bearer, fault, at)
            }
        };
        value.truncate(if broken == Break::TooLong { value.len() } else { LONGEST_VALUE });
        value
    }

    /// Without parameters.
    fn sound_element(&mut self, kind: Kind, bearer: u8) -> Vec<u8> {
        let entries = match kind {
            Kind::DeleteFilters => self.deletions(bearer),
            Kind::DeleteTft | Kind::None => Vec::new(),
            _ => {
                let count = 1 + self.random.below(3);
                self.sound_entries(count, bearer)
            }
        };
        [vec![code(kind) << 5 | entries.len() as u8], entries.concat()].concat()
    }

    /// Filters that are well coded, fit some packet, and don't repeat.
    fn sound_entries(&mut self, count: usize, bearer: u8) -> Vec<Vec<u8>> {
        let identifiers = self.numbers(count, false, |g| g.identifier_near(bearer));
        let precedences = self.numbers(count, false, Generator::precedence);
        let entry = |(identifier, precedence): (u8, u8)| {
            let first = self.random.pick(&[0x00, 0x10, 0x30, 0x30, 0xF0]) | identifier;
            entry_of(first, precedence, &contents(&sound_components(&mut self.random)))
        };
        identifiers.into_iter().zip(precedences).map(entry).collect()
    }

    fn too_long(&mut self, kind: Kind, bearer: u8) -> Vec<u8> {
        let mut value = self.sound_element(kind, bearer);
        let length = self.random.pick(&[256, 256, 257, 300, 512]);
        value.resize(length, self.random.octet());
        value
    }

    fn wrong_operation(&mut self, kind: Kind, bearer: u8) -> Vec<u8> {
        let mut value = self.sound_element(kind, bearer);
        value[0] = value[0] & 0x1F | self.random.pick(&[0x00, 0xE0]);
        if self.random.one_in(2) {
            value.truncate(1 + self.random.below(value.len()));
        }
        value
    }

    /// With entries past the end, octets left over or no parameter besides, which are not looked at.
    fn wrong_count(&mut self, kind: Kind, bearer: u8) -> Vec<u8> {
        let mut value = self.sound_element(kind, bearer);
        let bare = matches!(kind, Kind::DeleteTft | Kind::None);
        let count = if bare { 1 + self.random.below(LARGEST_COUNT) as u8 } else { 0 };
        value[0] = value[0] & 0xE0 | self.random.pick(&[0x00, 0x00, 0x10]) | count;
        if bare {
            let after = self.random.below(4);
            value.resize(1 + after, self.random.octet());
        } else if self.random.one_in(3) {
            value.truncate(1);
        }
        value
    }

    /// Cut anywhere, or counted for more than there are.
    fn cut_entry(&mut self, kind: Kind, bearer: u8) -> Vec<u8> {
        let kind = if matches!(kind, Kind::DeleteTft | Kind::None) { Kind::DeleteFilters } else { kind };
        let mut value = self.sound_element(kind, bearer);
        if self.random.one_in(4) && value[0] & 0x0F < 15 {
            value[0] += 1;
        } else {
            value.truncate(1 + self.random.below(value.len() - 1));
        }
        value[0] |= self.random.pick(&[0x00, 0x00, 0x00, 0x10]);
        value
    }

    fn cut_parameter(&mut self, kind: Kind, bearer: u8, broken: Break) -> Vec<u8> {
        let mut value = self.sound_element(kind, bearer);
        value[0] |= 0x10;
        if broken == Break::NoParameter {
            return value;
        }
        if self.random.one_in(3) {
            value.extend(self.parameters());
        }
        let length = self.random.pick(&[1, 2, 5, 255]);
        let there = match self.random.below(usize::from(length).min(9)) {
            // To the last octet that an element can have.
            1..=4 if length == 255 => LONGEST_VALUE.saturating_sub(value.len() + 2),
            there => there,
        };
        let parameter = [vec![self.random.octet(), length], vec![self.random.octet(); there]].concat();
        value.extend(if self.random.one_in(3) { &parameter[..1] } else { &parameter });
        value
    }

    /// Any octets, or what would be a parameter with E.
    fn left_over(&mut self, kind: Kind, bearer: u8) -> Vec<u8> {
        let mut value = self.sound_element(kind, bearer);
        if self.random.one_in(3) {
            value.extend(self.parameters());
        } else {
            let count = 1 + self.random.below(4);
            value.extend((0..count).map(|_| self.random.octet()));
        }
        value
    }

    /// The fault at that filter, nothing before it that would be found first, and mostly sound ones after it.
    fn broken_filters(&mut self, kind: Kind, bearer: u8, fault: Fault, at: usize) -> Vec<u8> {
        let kind = match kind {
            Kind::Create | Kind::Add | Kind::Replace => kind,
            _ => self.random.pick(&[Kind::Create, Kind::Add, Kind::Replace]),
        };
        let count = at + 1 + self.random.below(3);
        let mut entries = self.sound_entries(count, bearer);
        for (position, entry) in entries.iter_mut().enumerate() {
            let fault = match fault {
                Fault::BadlyCoded if position < at => self.random.pick(&[None, Some(Fault::Unfit)]),
                _ if position < at => None,
                _ if position == at => Some(fault),
                _ => self.random.pick(&[None, None, Some(fault)]),
            };
            let contents = match fault {
                Some(Fault::BadlyCoded) => self.random.pick(BADLY_CODED).to_vec(),
                Some(Fault::Unfit) => contents(&unfit_components(&mut self.random)),
                _ => continue,
            };
            *entry = entry_of(entry[0], entry[1], &contents);
        }
        if fault == Fault::Repeat {
            self.repeat_one_before(&mut entries, at);
        }
        // A further one is not found, be it before or after.
        if self.random.one_in(3) && count > 1 {
            let again = if fault == Fault::Repeat { at } else { 1 };
            let from = again + self.random.below(count - again);
            self.repeat_one_before(&mut entries, from);
        }
        [vec![code(kind) << 5 | count as u8], entries.concat()].concat()
    }

    /// The identifier, the precedence or both of one before.
    fn repeat_one_before(&mut self, entries: &mut [Vec<u8>], at: usize) {
        let before = entries[self.random.below(at)].clone();
        let (identifier, precedence) = self.random.pick(&[(true, false), (false, true), (true, true)]);
        if identifier {
            entries[at][0] = entries[at][0] & 0xF0 | before[0] & 0x0F;
        }
        if precedence {
            entries[at][1] = before[1];
        }
    }
}

#[cfg(test)]
mod tests {
    use super::super::script;
    use crate::element::read;
    use crate::lines::LONGEST_LINE;
    use crate::messages::received;
    use crate::script::{asked, Asked, Call};
    use crate::session::Session;
    use std::collections::BTreeMap;

    const LEAST: usize = 3;

    /// What must come up in a script besides the forms of replies: a reader that errs there must show.
    const SITUATIONS: [&str; 26] = [
        "a wrong count and nothing after it",
        "a wrong count and octets after it",
        "an entry without its first octet",
        "an entry without its precedence",
        "an entry without its length",
        "an entry without some of its contents",
        "a deletion past the end",
        "no parameter after filters",
        "no parameter after identifiers",
        "no parameter after a bare operation",
        "a parameter without its length",
        "a parameter without some of its contents",
        "a further parameter past the end",
        "left over after filters",
        "left over after identifiers",
        "left over after a bare operation",
        "several badly coded",
        "badly coded after one that no packet fits",
        "badly coded after a repeat",
        "several that no packet fits",
        "one that no packet fits after a repeat",
        "an identifier alone repeated",
        "a precedence alone repeated",
        "several repeats",
        "a place above 99",
        "a place of 255",
    ];

    /// The elements of a script that were refused, each with its place as the reply has it.
    fn refused(script: &[u8]) -> Vec<(Vec<u8>, usize)> {
        let (mut session, mut refused) = (Session::default(), Vec::new());
        for (number, line) in script.split(|octet| *octet == b'\n').enumerate() {
            let line = line.strip_suffix(b"\r").unwrap_or(line);
            let value = value(&session, line);
            let mut reply = Vec::new();
            session.do_line(number as u64, line, line.len() > LONGEST_LINE, &mut reply);
            let reply = String::from_utf8_lossy(&reply);
            let place = reply.lines().next().and_then(|line| line.split_once(" at ")?.1.parse().ok());
            refused.extend(value.zip(place));
        }
        refused
    }

    fn value(session: &Session, line: &[u8]) -> Option<Vec<u8>> {
        match asked(line) {
            Asked::Call { call: Call::Element { value } | Call::Rewrite { value, .. }, .. } => {
                Some(value.slice(&session.portions).to_vec())
            }
            Asked::Call { call: Call::Modify { value, .. } | Call::Dedicated { value, .. }, .. } => {
                Some(value.slice(&session.portions).to_vec())
            }
            Asked::Call { call: Call::Finish, .. } => Some(session.portions.fed().to_vec()),
            Asked::Call { call: Call::Message { octets }, .. } => {
                received(octets.slice()).ok()?.tft.map(<[u8]>::to_vec)
            }
            _ => None,
        }
    }

    /// A list as far as it goes: its whole entries, and the octets that follow them.
    fn split(value: &[u8]) -> (Vec<&[u8]>, &[u8]) {
        let (mut entries, mut rest) = (Vec::new(), &value[1..]);
        while entries.len() < usize::from(value[0] & 0x0F) {
            let length = match (value[0] >> 5, rest) {
                (5, _) => 1,
                (_, [_, _, contents, ..]) => 3 + usize::from(*contents),
                _ => usize::MAX,
            };
            let Some((entry, after)) = rest.split_at_checked(length) else {
                break;
            };
            entries.push(entry);
            rest = after;
        }
        (entries, rest)
    }

    fn situations_of_42(value: &[u8]) -> Vec<&'static str> {
        let (operation, parameters) = (value[0] >> 5, value[0] & 0x10 != 0);
        let bare = matches!(operation, 2 | 6);
        let (entries, rest) = split(value);
        let of = |names: [&'static str; 3]| names[if bare { 2 } else { usize::from(operation == 5) }];
        if matches!(operation, 0 | 7) {
            vec![]
        } else if bare != (value[0] & 0x0F == 0) {
            let after = value.len() > 1;
            vec![if after {
                "a wrong count and octets after it"
            } else {
                "a wrong count and nothing after it"
            }]
        } else if entries.len() < usize::from(value[0] & 0x0F) {
            let names = [
                "an entry without its first octet",
                "an entry without its precedence",
                "an entry without its length",
                "an entry without some of its contents",
            ];
            vec![if operation == 5 { "a deletion past the end" } else { names[rest.len().min(3)] }]
        } else if !parameters {
            vec![of([
                "left over after filters",
                "left over after identifiers",
                "left over after a bare operation",
            ])]
        } else if rest.is_empty() {
            vec![of([
                "no parameter after filters",
                "no parameter after identifiers",
                "no parameter after a bare operation",
            ])]
        } else {
            situations_of_parameters(rest)
        }
    }

    fn situations_of_parameters(mut rest: &[u8]) -> Vec<&'static str> {
        let mut first = true;
        while let Some(after) = rest.get(1).and_then(|length| rest.get(2 + usize::from(*length)..)) {
            (rest, first) = (after, false);
        }
        let cut = match rest.len() {
            1 => "a parameter without its length",
            _ => "a parameter without some of its contents",
        };
        if first {
            vec![cut]
        } else {
            vec![cut, "a further parameter past the end"]
        }
    }

    /// Each filter by itself: the cause that an element of it alone has.
    fn situations_of_filters(value: &[u8]) -> Vec<&'static str> {
        let (entries, _) = split(value);
        let alone =
            |entry: &&[u8]| read(&[&[0x21], *entry].concat()).err().map_or(0, |refusal| refusal.cause());
        let causes: Vec<u8> = entries.iter().map(alone).collect();
        let repeats = |at: usize, octet: usize, mask: u8| {
            entries[..at].iter().any(|before| before[octet] & mask == entries[at][octet] & mask)
        };
        let (by_identifier, by_precedence) = (|at| repeats(at, 0, 0x0F), |at| repeats(at, 1, 0xFF));
        let repeated: Vec<usize> =
            (0..entries.len()).filter(|at| by_identifier(*at) || by_precedence(*at)).collect();
        let first = |cause: u8| causes.iter().position(|found| *found == cause);
        let several = |cause: u8| causes.iter().filter(|found| **found == cause).count() > 1;
        let before =
            |at: Option<usize>, other: Option<usize>| at.zip(other).is_some_and(|(at, other)| at < other);
        let first_repeat = repeated.first().copied();
        let coded = first(45).is_none();
        let fit = coded && first(44).is_none();
        [
            ("several badly coded", several(45)),
            ("badly coded after one that no packet fits", before(first(44), first(45))),
            ("badly coded after a repeat", before(first_repeat, first(45))),
            ("several that no packet fits", coded && several(44)),
            ("one that no packet fits after a repeat", coded && before(first_repeat, first(44))),
            ("an identifier alone repeated", fit && first_repeat.is_some_and(|at| !by_precedence(at))),
            ("a precedence alone repeated", fit && first_repeat.is_some_and(|at| !by_identifier(at))),
            ("several repeats", fit && repeated.len() > 1),
        ]
        .into_iter()
        .filter_map(|(situation, holds)| holds.then_some(situation))
        .collect()
    }

    fn situations(value: &[u8], place: usize) -> Vec<&'static str> {
        let mut situations = match read(value).map_err(|refusal| refusal.cause()) {
            Err(42) if (1..=255).contains(&value.len()) => situations_of_42(value),
            Err(44 | 45) => situations_of_filters(value),
            _ => vec![],
        };
        situations.extend((place > 99).then_some("a place above 99"));
        situations.extend((place == 255).then_some("a place of 255"));
        situations
    }

    #[test]
    fn elements_break_in_every_way() {
        for seed in [0, 1, 20260401] {
            let mut seen = BTreeMap::<&str, usize>::new();
            for (value, place) in refused(&script(seed, 25_100)) {
                for situation in situations(&value, place) {
                    assert!(SITUATIONS.contains(&situation), "{situation}");
                    *seen.entry(situation).or_default() += 1;
                }
            }
            let times = |situation: &str| seen.get(situation).copied().unwrap_or(0);
            let rare: Vec<_> = SITUATIONS.iter().map(|s| (s, times(s))).filter(|(_, t)| *t < LEAST).collect();
            assert!(rare.is_empty(), "seed {seed}: {rare:?}");
        }
    }
}
