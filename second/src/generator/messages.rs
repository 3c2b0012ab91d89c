//! Whole messages: read, and handled on the table, where they come to every answer.

use super::assemblies::Outcome;
use super::drafts::{Draft, Fields, Spoil, SPOILS};
use super::elements::hex;
use super::{rubbish, Generator};
use crate::element::{self, LONGEST_VALUE};
use crate::messages::Kind;
use crate::table::{connection_of, Role};

/// Messages up to this length are cut at every octet.
const LONGEST_CUT: usize = 20;

/// What a message is to come to on the table, though not every one does.
#[derive(Clone, Copy, PartialEq, Eq)]
enum Aim {
    Accept,
    FollowUp,
    Release,
    Forbidden,
    BadlyFramed,
    BadFilter,
    NoOctets,
    NoBearer,
    NoTransaction,
}

/// A message for the table.
#[derive(Clone, Copy)]
enum Plan {
    Dedicated(Aim),
    Modify(Aim),
    WithoutTft(Aim),
    Closing,
    Deactivate,
    Reject(Aim),
}

/// Some come off seldom and so stand here more than once.
const PLANS: [Plan; 40] = [
    Plan::Dedicated(Aim::Accept),
    Plan::Dedicated(Aim::FollowUp),
    Plan::Dedicated(Aim::FollowUp),
    Plan::Dedicated(Aim::Release),
    Plan::Dedicated(Aim::Release),
    Plan::Dedicated(Aim::Forbidden),
    Plan::Dedicated(Aim::Forbidden),
    Plan::Dedicated(Aim::BadlyFramed),
    Plan::Dedicated(Aim::BadFilter),
    Plan::Dedicated(Aim::BadFilter),
    Plan::Dedicated(Aim::BadFilter),
    Plan::Dedicated(Aim::NoOctets),
    Plan::Dedicated(Aim::NoOctets),
    Plan::Dedicated(Aim::NoBearer),
    Plan::Dedicated(Aim::NoTransaction),
    Plan::Modify(Aim::Accept),
    Plan::Modify(Aim::Accept),
    Plan::Modify(Aim::FollowUp),
    Plan::Modify(Aim::Release),
    Plan::Modify(Aim::Release),
    Plan::Modify(Aim::Forbidden),
    Plan::Modify(Aim::BadlyFramed),
    Plan::Modify(Aim::BadFilter),
    Plan::Modify(Aim::BadFilter),
    Plan::Modify(Aim::NoOctets),
    Plan::Modify(Aim::NoBearer),
    Plan::Modify(Aim::NoBearer),
    Plan::Modify(Aim::NoTransaction),
    Plan::WithoutTft(Aim::Accept),
    Plan::WithoutTft(Aim::NoBearer),
    Plan::WithoutTft(Aim::NoBearer),
    Plan::WithoutTft(Aim::NoTransaction),
    Plan::Closing,
    Plan::Closing,
    Plan::Deactivate,
    Plan::Reject(Aim::Accept),
    Plan::Reject(Aim::Accept),
    Plan::Reject(Aim::NoBearer),
    Plan::Reject(Aim::NoBearer),
    Plan::Reject(Aim::NoTransaction),
];

const NOT_CREATE: [element::Kind; 5] = [
    element::Kind::Add,
    element::Kind::Replace,
    element::Kind::DeleteFilters,
    element::Kind::DeleteTft,
    element::Kind::None,
];

/// Of each list, what was not drawn yet.
#[derive(Default)]
pub struct StillToCome {
    pub kinds: Vec<Kind>,
    pub unlisted: Vec<(Kind, u8)>,
    spoils_read: Vec<Spoil>,
    spoils_handled: Vec<Spoil>,
    pub assemblies: Vec<(Kind, Outcome)>,
    plans: Vec<Plan>,
    types: Vec<u8>,
}

impl Generator {
    pub fn messages(&mut self) {
        match self.random.weighted(&[54, 122, 80, 1, 3, 8]) {
            0 => self.parse_line(),
            1 => self.message_line(),
            2 => self.assemble_line(),
            3 => self.cut_everywhere(),
            4 => self.types_in_a_row(),
            _ => self.bad_message(),
        }
    }

    /// One of the three lines.
    pub fn message_call(&mut self) {
        match self.random.below(4) {
            0 => self.parse_line(),
            1 => self.assemble_line(),
            _ => self.message_line(),
        }
    }

    fn bad_message(&mut self) {
        let line = rubbish::bad_message(&mut self.random);
        self.say(&line);
    }

    fn parse_line(&mut self) {
        let octets = match self.random.below(20) {
            0 => self.draft_with_unlisted().octets(),
            1..=8 => {
                let spoil = self.random.draw(&mut self.still_to_come.spoils_read, &SPOILS);
                let draft = self.any_draft();
                self.spoilt(draft, spoil)
            }
            _ => self.any_draft().octets(),
        };
        self.say(&format!("parse {}", hex(&octets)));
    }

    /// Mostly sound, so that the table hears of it.
    pub fn message_line(&mut self) {
        let any = self.random.one_in(6);
        let draft = if any { self.any_draft() } else { self.draft_for_table() };
        let octets = if self.random.one_in(if any { 2 } else { 4 }) {
            let spoil = self.random.draw(&mut self.still_to_come.spoils_handled, &SPOILS);
            self.spoilt(draft, spoil)
        } else {
            draft.octets()
        };
        self.say(&format!("message {}", hex(&octets)));
    }

    fn draft_for_table(&mut self) -> Draft {
        if self.bearers(|role| role == Role::Default).is_empty() {
            self.activate_default();
        }
        match self.random.draw(&mut self.still_to_come.plans, &PLANS) {
            Plan::Dedicated(aim) => self.dedicated_draft(aim),
            Plan::Modify(aim) => self.modify_draft(aim),
            Plan::WithoutTft(aim) => self.draft_without_tft(aim),
            Plan::Closing => self.closing_draft(),
            Plan::Deactivate => self.deactivate_draft(),
            Plan::Reject(aim) => self.reject_draft(aim),
        }
    }

    /// None or an open one, unless another is the point.
    fn transaction_for(&mut self, aim: Aim) -> u8 {
        let (open, any) = (self.open_transaction(), self.random.octet());
        match aim {
            Aim::NoTransaction => self.random.pick(&[255, 254, any, any]),
            _ => self.random.pick(&[0, 0, 0, open]),
        }
    }

    pub fn one_of(&mut self, wanted: impl Fn(Role) -> bool) -> u8 {
        let bearers = self.bearers(wanted);
        let any = self.random.below(16) as u8;
        self.random.any(&bearers).unwrap_or(any)
    }

    fn dedicated_draft(&mut self, aim: Aim) -> Draft {
        let (default, transaction) = (self.one_of(|role| role == Role::Default), self.transaction_for(aim));
        let dedicated = self.one_of(|role| matches!(role, Role::Dedicated { .. }));
        let link = match self.table().bearer(dedicated).map(|bearer| bearer.role) {
            Some(Role::Dedicated { link }) if aim == Aim::FollowUp => link,
            _ => default,
        };
        let (idle, strange) = (self.one_of(|role| role == Role::Idle), self.random.below(16) as u8);
        let (bearer, link) = match aim {
            Aim::NoBearer if self.random.one_in(2) => (idle, strange),
            Aim::NoBearer => (strange, link),
            _ => (idle, link),
        };
        let mut tft = match aim {
            Aim::Forbidden => {
                let kind = self.random.pick(&NOT_CREATE);
                self.element_for(kind, link)
            }
            _ => self.tft_for(aim, element::Kind::Create, link),
        };
        if aim == Aim::BadFilter {
            tft[0] = tft[0] & 0x1F | 0x20;
        }
        let spare = if self.random.one_in(4) { self.random.octet() & 0xF0 } else { 0 };
        self.draft(Kind::DedicatedRequest, Fields { bearer, transaction, number: spare | link }, Some(tft))
    }

    fn modify_draft(&mut self, aim: Aim) -> Draft {
        let dedicated = |role| matches!(role, Role::Dedicated { .. });
        if aim == Aim::Forbidden && self.bearers(dedicated).is_empty() {
            self.activate_dedicated();
        }
        let (kind, transaction) = (self.kind(), self.transaction_for(aim));
        let bearer = match aim {
            Aim::NoBearer => self.one_of(|role| role == Role::Idle).wrapping_sub(self.random.below(5) as u8),
            Aim::Forbidden => self.one_of(dedicated),
            _ => self.one_of(|role| role != Role::Idle),
        };
        let tft = match aim {
            Aim::Forbidden => self.emptying_element_for(bearer),
            _ => self.tft_for(aim, kind, bearer),
        };
        self.draft(Kind::ModifyRequest, Fields { bearer, transaction, number: 0 }, Some(tft))
    }

    fn tft_for(&mut self, aim: Aim, kind: element::Kind, bearer: u8) -> Vec<u8> {
        let mut tft = match aim {
            Aim::FollowUp => self.element_against_dedicated(kind, bearer),
            Aim::Release => {
                self.give_default_a_filter(bearer);
                self.conflicting_element_for(kind, bearer)
            }
            Aim::BadlyFramed => self.badly_framed_element_for(kind, bearer),
            Aim::BadFilter => self.spoilt_element_for(bearer),
            Aim::NoOctets => Vec::new(),
            _ => self.element_for(kind, bearer),
        };
        tft.truncate(LONGEST_VALUE);
        tft
    }

    /// By a message too, where the default has none: nothing can be in conflict with it then.
    fn give_default_a_filter(&mut self, bearer: u8) {
        let role = self.table().bearer(bearer).map_or(Role::Idle, |bearer| bearer.role);
        let default = connection_of(bearer, role).unwrap_or(bearer);
        if self.held(default).is_empty() {
            let tft = self.element_for(element::Kind::Create, default);
            let fields = Fields { bearer: default, transaction: 0, number: 0 };
            let draft = self.draft(Kind::ModifyRequest, fields, Some(tft));
            self.say(&format!("message {}", hex(&draft.octets())));
        }
    }

    /// An octet too many or too few, or a first octet that says so by itself.
    fn badly_framed_element_for(&mut self, kind: element::Kind, bearer: u8) -> Vec<u8> {
        let mut tft = self.element_for(kind, bearer);
        match self.random.below(4) {
            0 => tft.push(self.random.octet()),
            1 => tft = vec![self.random.pick(&[0x00, 0x20, 0x21, 0x2F, 0x30, 0xE0])],
            _ => tft.truncate(1 + self.random.below(tft.len().max(2) - 1)),
        }
        tft
    }

    /// Delete TFT, or every filter of it.
    fn emptying_element_for(&mut self, bearer: u8) -> Vec<u8> {
        let held = self.held(bearer);
        if held.is_empty() || held.len() > element::LARGEST_COUNT || self.random.one_in(3) {
            vec![0x40 | u8::from(self.random.one_in(4))]
        } else {
            [vec![0xA0 | held.len() as u8], held].concat()
        }
    }

    fn draft_without_tft(&mut self, aim: Aim) -> Draft {
        let transaction = self.transaction_for(aim);
        let bearer = match aim {
            Aim::NoBearer => self.one_of(|role| role == Role::Idle),
            _ => self.one_of(|role| role != Role::Idle),
        };
        self.draft(Kind::ModifyRequest, Fields { bearer, transaction, number: 0 }, None)
    }

    /// Without a TFT, so that to close a transaction is all that it does.
    fn closing_draft(&mut self) -> Draft {
        if self.open_transaction() == 0 {
            self.start();
        }
        let (bearer, transaction) = (self.one_of(|role| role != Role::Idle), self.open_transaction());
        self.draft(Kind::ModifyRequest, Fields { bearer, transaction, number: 0 }, None)
    }

    fn deactivate_draft(&mut self) -> Draft {
        let dedicated = self.one_of(|role| matches!(role, Role::Dedicated { .. }));
        let (any, transaction) = (self.random.below(16) as u8, self.transaction());
        let bearer = self.random.pick(&[dedicated, dedicated, any]);
        let cause = self.random.pick(&[0x24, 0x24, 0x2B, 0xFF]);
        self.draft(Kind::DeactivateRequest, Fields { bearer, transaction, number: cause }, None)
    }

    /// The message's bearer has nothing to do with the transaction.
    fn reject_draft(&mut self, aim: Aim) -> Draft {
        if self.open_transaction() == 0 {
            self.start();
        }
        let (open, any) = (self.open_transaction(), self.any_transaction());
        let transaction = if aim == Aim::NoTransaction { any } else { open };
        let cause = if aim == Aim::NoBearer { 43 } else { self.random.pick(&[111, 26, 42, 44, 0, any]) };
        let bearer = self.random.pick(&[0, 0, 5, 6, 15]);
        self.draft(Kind::ModificationReject, Fields { bearer, transaction, number: cause }, None)
    }

    /// From no octet to all of them.
    fn cut_everywhere(&mut self) {
        let draft = self.any_draft();
        let mut octets = draft.octets();
        octets.truncate(LONGEST_CUT);
        let handled = self.random.one_in(4);
        for length in 0..=octets.len() {
            let word = if handled && !draft.kind.is_reply() { "message" } else { "parse" };
            self.say(&format!("{word} {}", hex(&octets[..length])));
        }
    }

    /// Eight of them, with one octet more: the cause of the kinds that have one, and past the end or in excess for the others.
    fn types_in_a_row(&mut self) {
        let all: Vec<u8> = (0..=255).step_by(8).collect();
        let first = self.random.draw(&mut self.still_to_come.types, &all);
        let word = self.random.pick(&["parse", "message"]);
        for octet in first..=first + 7 {
            self.say(&format!("{word} {}", hex(&[0x02, 0xFF, octet, 0x27])));
        }
    }
}

#[cfg(test)]
mod tests {
    use super::super::script;
    use crate::messages::{read, received, Fault, Kind, Message};
    use crate::script::{asked, Asked, Call};
    use std::collections::{BTreeMap, BTreeSet};

    const LEAST: usize = 3;
    const LEAST_TYPES: usize = 100;

    /// What must come up in a script besides the forms of replies.
    const SITUATIONS: [&str; 22] = [
        "without an optional element",
        "an element twice",
        "the TFT before another element",
        "the TFT after another element",
        "a TLV of no octets",
        "a TLV of 255 octets",
        "a TLV-E of no octets",
        "a TLV-E of up to 255 octets",
        "a TLV-E above 255 octets",
        "a spare bit beside the link",
        "a QoS of no octets",
        "a TFT of 255 octets",
        "a bearer below 5",
        "transaction 255",
        "cut before the link",
        "cut before the QoS",
        "cut in the QoS",
        "cut before the TFT",
        "cut in the TFT",
        "cut before the cause",
        "a reply that is badly framed",
        "repeated and handled",
    ];

    /// The optional elements as the standard lists them, of the half-octet ones the upper half.
    fn listed(kind: Kind) -> &'static [u8] {
        match kind {
            Kind::DedicatedRequest => &[0x5D, 0x30, 0x32, 0x80, 0x34, 0x27, 0xC0, 0x33, 0x7B],
            Kind::ModifyRequest => &[0x5B, 0x36, 0x30, 0x32, 0x80, 0x34, 0x5E, 0x27, 0xC0, 0x33, 0x66, 0x7B],
            Kind::DeactivateRequest => &[0x27, 0x37, 0xC0, 0x33, 0x7B],
            Kind::DeactivateAccept => &[0x27, 0x7B],
            Kind::ModificationReject => &[0x27, 0x37, 0x6B, 0x33, 0x7B],
            _ => &[0x27, 0x33, 0x7B],
        }
    }

    /// How long the mandatory parts of a sound message are.
    fn mandatory(kind: Kind, octets: &[u8]) -> usize {
        match kind {
            Kind::DedicatedRequest => {
                let tft = 5 + usize::from(octets[4]);
                tft + 1 + usize::from(octets[tft])
            }
            _ => 3 + usize::from(kind.has_cause()),
        }
    }

    /// The optional elements of a sound message: identifier and length of the value.
    fn elements(kind: Kind, octets: &[u8]) -> Vec<(u8, usize)> {
        let mut at = mandatory(kind, octets);
        let mut found = Vec::new();
        while at < octets.len() {
            let (identifier, head, length) = match octets[at] {
                half if half >= 0x80 => (half & 0xF0, 1, 0),
                0x32 => (0x32, 1, 1),
                0x7B => (0x7B, 3, usize::from(octets[at + 1]) << 8 | usize::from(octets[at + 2])),
                tlv => (tlv, 2, usize::from(octets[at + 1])),
            };
            found.push((identifier, length));
            at += head + length;
        }
        found
    }

    /// Follows a script and notes what comes up.
    #[derive(Default)]
    struct Watch {
        seen: BTreeMap<&'static str, usize>,
        skipped: BTreeMap<(u8, u8), usize>,
        unlisted: BTreeSet<u8>,
        types: BTreeSet<u8>,
    }

    impl Watch {
        fn see(&mut self, situation: &'static str, holds: bool) {
            assert!(SITUATIONS.contains(&situation), "{situation}");
            *self.seen.entry(situation).or_default() += usize::from(holds);
        }

        fn line(&mut self, line: &[u8]) {
            let Asked::Call { times, call } = asked(line) else {
                return;
            };
            match call {
                Call::Parse { octets } => self.octets(octets.slice()),
                Call::Message { octets } => {
                    let taken = received(octets.slice());
                    self.see("repeated and handled", times > 1 && taken.is_ok());
                    let reply = taken == Err(Fault::Reply) && read(octets.slice()).is_err();
                    self.see("a reply that is badly framed", reply);
                    self.octets(octets.slice());
                }
                _ => {}
            }
        }

        fn octets(&mut self, octets: &[u8]) {
            match read(octets) {
                Ok(message) => self.sound(&message, octets),
                Err(Fault::MandatoryPart) => self.cut(octets),
                Err(Fault::Type) => drop(self.types.insert(octets[2])),
                Err(Fault::UnlistedElement) => drop(self.unlisted.insert(octets[2])),
                Err(_) => {}
            }
        }

        fn sound(&mut self, message: &Message, octets: &[u8]) {
            let elements = elements(message.kind, octets);
            let identifiers: Vec<u8> = elements.iter().map(|(identifier, _)| *identifier).collect();
            for identifier in &identifiers {
                *self.skipped.entry((octets[2], *identifier)).or_default() += 1;
            }
            let has = |wanted: fn(u8, usize) -> bool| elements.iter().any(|(i, length)| wanted(*i, *length));
            let twice = |i: &u8| identifiers.iter().filter(|other| *other == i).count() > 1;
            let (dedicated, tft) = (message.kind.has_link(), identifiers.iter().position(|i| *i == 0x36));
            self.see("without an optional element", elements.is_empty());
            self.see("an element twice", identifiers.iter().any(twice));
            self.see("the TFT before another element", tft.is_some_and(|at| at + 1 < elements.len()));
            self.see("the TFT after another element", tft.is_some_and(|at| at > 0));
            self.see("a TLV of no octets", has(|i, length| !matches!(i, 0x7B | 0x80 | 0xC0) && length == 0));
            self.see("a TLV of 255 octets", has(|i, length| i != 0x7B && length == 255));
            self.see("a TLV-E of no octets", has(|i, length| i == 0x7B && length == 0));
            self.see(
                "a TLV-E of up to 255 octets",
                has(|i, length| i == 0x7B && (1..=255).contains(&length)),
            );
            self.see("a TLV-E above 255 octets", has(|i, length| i == 0x7B && length > 255));
            self.see("a spare bit beside the link", dedicated && octets[3] > 15);
            self.see("a QoS of no octets", dedicated && octets[4] == 0);
            self.see("a TFT of 255 octets", message.tft.is_some_and(|tft| tft.len() == 255));
            self.see("a bearer below 5", message.bearer < 5);
            self.see("transaction 255", message.transaction == 255);
        }

        fn cut(&mut self, octets: &[u8]) {
            let dedicated = Kind::of_octet(octets[2]) == Some(Kind::DedicatedRequest);
            let after_qos = octets.get(4).map(|length| 5 + usize::from(*length));
            let tft = after_qos.and_then(|at| octets.get(at));
            let in_qos = after_qos.is_some_and(|at| octets.len() < at);
            self.see("cut before the link", dedicated && octets.len() == 3);
            self.see("cut before the QoS", dedicated && octets.len() == 4);
            self.see("cut in the QoS", dedicated && in_qos);
            self.see("cut before the TFT", dedicated && after_qos == Some(octets.len()));
            self.see("cut in the TFT", dedicated && tft.is_some());
            self.see("cut before the cause", !dedicated);
        }
    }

    #[test]
    fn messages_come_with_all_that_is_listed() {
        for seed in [0, 1, 20260401] {
            let mut watch = Watch::default();
            for line in script(seed, 25_100).split(|octet| *octet == b'\n') {
                watch.line(line.strip_suffix(b"\r").unwrap_or(line));
            }
            let times = |situation: &str| watch.seen.get(situation).copied().unwrap_or(0);
            let rare: Vec<_> = SITUATIONS.iter().map(|s| (s, times(s))).filter(|(_, t)| *t < LEAST).collect();
            assert!(rare.is_empty(), "seed {seed}: {rare:?}");
            for kind in crate::messages::KINDS {
                for identifier in listed(kind) {
                    let times = watch.skipped.remove(&(kind.octet(), *identifier)).unwrap_or(0);
                    assert!(times >= LEAST, "seed {seed}: {times} times {identifier:02X} in {kind:?}");
                }
                assert!(watch.unlisted.contains(&kind.octet()), "seed {seed}: {kind:?}");
            }
            assert!(watch.skipped.is_empty(), "seed {seed}: {:02X?}", watch.skipped);
            assert!(watch.types.len() >= LEAST_TYPES, "seed {seed}: {} types", watch.types.len());
        }
    }
}
