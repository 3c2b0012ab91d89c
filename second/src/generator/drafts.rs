//! Messages in octets: with every element that the kinds list, and with one thing wrong.

use super::Generator;
use crate::element::LONGEST_VALUE;
use crate::messages::{Kind, KINDS};
use crate::random::Random;

/// The identifiers that some kind lists; of the half-octet ones the upper half.
const IDENTIFIERS: [u8; 15] =
    [0x27, 0x30, 0x32, 0x33, 0x34, 0x36, 0x37, 0x5B, 0x5D, 0x5E, 0x66, 0x6B, 0x7B, 0x80, 0xC0];

const TFT: u8 = 0x36;

/// The longest HEX, in octets.
const LONGEST_MESSAGE: usize = 512;

/// A message: the octets up to the last mandatory one, and the optional elements.
pub struct Draft {
    pub kind: Kind,
    lead: Vec<u8>,
    elements: Vec<Vec<u8>>,
}

impl Draft {
    pub fn octets(&self) -> Vec<u8> {
        [self.lead.clone(), self.elements.concat()].concat()
    }
}

/// What the first octets of a message say.
#[derive(Clone, Copy)]
pub struct Fields {
    pub bearer: u8,
    pub transaction: u8,
    pub number: u8,
}

fn listed(kind: Kind, wanted: bool) -> Vec<u8> {
    IDENTIFIERS.into_iter().filter(|i| *i != TFT && kind.format(*i).is_some() == wanted).collect()
}

/// Every kind with every identifier that only others list.
fn unlisted_pairs() -> Vec<(Kind, u8)> {
    KINDS.into_iter().flat_map(|kind| listed(kind, false).into_iter().map(move |i| (kind, i))).collect()
}

/// Octets that are often taken for an element where something was framed wrongly.
fn filling(random: &mut Random, length: usize) -> Vec<u8> {
    let one = |random: &mut Random| {
        let any = random.octet();
        let identifier = random.pick(&IDENTIFIERS);
        random.pick(&[0, 1, any, identifier])
    };
    (0..length).map(|_| one(random)).collect()
}

/// Framed as the standard has it wherever it lists that identifier; any other as most are.
fn element(random: &mut Random, identifier: u8) -> Vec<u8> {
    let small = random.below(12);
    match identifier {
        0x80..=0x8F | 0xC0..=0xCF => vec![identifier & 0xF0 | random.below(16) as u8],
        0x32 => vec![identifier, filling(random, 1)[0]],
        0x7B => {
            let length = random.pick(&[0, 0, 1, 2, 3, small, small, small, 54, 255, 256, 257, 291]);
            [vec![identifier, (length >> 8) as u8, length as u8], filling(random, length)].concat()
        }
        _ => {
            let length = if random.one_in(60) { 255 } else { random.pick(&[0, 0, 1, 2, small, small]) };
            [vec![identifier, length as u8], filling(random, length)].concat()
        }
    }
}

/// The two that have a TFT are more to be looked for.
const KINDS_WITH_TFT_OFTEN: [Kind; 14] = [
    Kind::DedicatedRequest,
    Kind::DedicatedRequest,
    Kind::DedicatedRequest,
    Kind::DedicatedAccept,
    Kind::DedicatedReject,
    Kind::ModifyRequest,
    Kind::ModifyRequest,
    Kind::ModifyRequest,
    Kind::ModifyRequest,
    Kind::ModifyAccept,
    Kind::ModifyReject,
    Kind::DeactivateRequest,
    Kind::DeactivateAccept,
    Kind::ModificationReject,
];

/// What is wrong with a message, mostly: some of it leaves a sound one.
#[derive(Clone, Copy)]
pub enum Spoil {
    Unlisted,
    AnyElement,
    SecondTft,
    Cut,
    CutEarly,
    OneMore,
    OtherType,
    OtherDiscriminator,
    UnderThree,
    OtherLength,
    RubbishAfterHead,
    OneBit,
}

pub const SPOILS: [Spoil; 21] = [
    Spoil::Unlisted,
    Spoil::Unlisted,
    Spoil::AnyElement,
    Spoil::SecondTft,
    Spoil::SecondTft,
    Spoil::SecondTft,
    Spoil::SecondTft,
    Spoil::Cut,
    Spoil::Cut,
    Spoil::CutEarly,
    Spoil::CutEarly,
    Spoil::OneMore,
    Spoil::OtherType,
    Spoil::OtherDiscriminator,
    Spoil::OtherDiscriminator,
    Spoil::UnderThree,
    Spoil::UnderThree,
    Spoil::OtherLength,
    Spoil::OtherLength,
    Spoil::RubbishAfterHead,
    Spoil::OneBit,
];

impl Generator {
    pub fn any_draft(&mut self) -> Draft {
        let kind = self.random.draw(&mut self.still_to_come.kinds, &KINDS_WITH_TFT_OFTEN);
        self.any_draft_of(kind)
    }

    fn any_draft_of(&mut self, kind: Kind) -> Draft {
        let (any, transaction) = (self.random.octet(), self.any_transaction());
        let fields = Fields { bearer: self.random.below(16) as u8, transaction, number: any };
        let has_tft = kind.has_link() || kind == Kind::ModifyRequest && !self.random.one_in(3);
        let tft = has_tft.then(|| self.any_tft());
        self.draft(kind, fields, tft)
    }

    pub fn any_transaction(&mut self) -> u8 {
        let any = self.random.octet();
        self.random.pick(&[0, 1, 254, 255, any, any])
    }

    /// An element, or octets that are none.
    pub fn any_tft(&mut self) -> Vec<u8> {
        let mut tft = match self.random.below(6) {
            0 | 1 => Vec::new(),
            2 | 3 => self.any_element(),
            _ => {
                let small = self.random.below(12);
                let length = if self.random.one_in(30) { LONGEST_VALUE } else { small };
                filling(&mut self.random, length)
            }
        };
        tft.truncate(LONGEST_VALUE);
        tft
    }

    /// With a QoS of any length, and some optional elements in any order.
    pub fn draft(&mut self, kind: Kind, fields: Fields, tft: Option<Vec<u8>>) -> Draft {
        let mut lead = vec![fields.bearer << 4 | 2, fields.transaction, kind.octet()];
        let mut elements = self.optional_elements(kind);
        if kind.has_number() {
            lead.push(fields.number);
        }
        if kind.has_link() {
            lead.extend(self.any_qos());
        }
        if let Some(tft) = tft {
            let with_length = [vec![tft.len() as u8], tft].concat();
            if kind.has_link() {
                lead.extend(with_length);
            } else {
                let at = self.random.below(elements.len() + 1);
                elements.insert(at, [vec![TFT], with_length].concat());
            }
        }
        while lead.len() + elements.concat().len() > LONGEST_MESSAGE {
            elements.pop();
        }
        Draft { kind, lead, elements }
    }

    fn any_qos(&mut self) -> Vec<u8> {
        let any = self.random.below(16);
        let length = self.random.pick(&[0, 1, 1, 1, 9, 13, any]);
        [vec![length as u8], filling(&mut self.random, length)].concat()
    }

    /// Some of those listed, now and then one of them more than once.
    fn optional_elements(&mut self, kind: Kind) -> Vec<Vec<u8>> {
        let listed = listed(kind, true);
        let count = self.random.pick(&[0, 0, 1, 1, 2, 3, 5]);
        let any = |random: &mut Random| {
            let identifier = random.pick(&listed);
            element(random, identifier)
        };
        (0..count).map(|_| any(&mut self.random)).collect()
    }

    pub fn spoilt(&mut self, mut draft: Draft, spoil: Spoil) -> Vec<u8> {
        match spoil {
            Spoil::Unlisted => self.add_unlisted(&mut draft),
            Spoil::AnyElement => self.add_any(&mut draft),
            Spoil::SecondTft => self.add_second_tft(&mut draft),
            Spoil::Cut => return self.cut(draft.octets()),
            Spoil::CutEarly => return self.cut_early(draft),
            Spoil::OneMore => draft.elements.push(vec![self.random.octet()]),
            Spoil::OtherType => draft.lead[2] = self.other_type(),
            Spoil::OtherDiscriminator => draft.lead[0] = self.random.octet(),
            Spoil::UnderThree => return self.cut(draft.lead[..3].to_vec()),
            Spoil::OtherLength => self.change_a_length(&mut draft),
            Spoil::RubbishAfterHead => return self.rubbish_after(&draft.lead[..3]),
            Spoil::OneBit => return self.with_a_bit_changed(draft.octets()),
        }
        let mut octets = draft.octets();
        octets.truncate(LONGEST_MESSAGE);
        octets
    }

    /// A sound message but for an element of another kind's list.
    pub fn draft_with_unlisted(&mut self) -> Draft {
        let (kind, identifier) = self.random.draw(&mut self.still_to_come.unlisted, &unlisted_pairs());
        let mut draft = self.any_draft_of(kind);
        let element = element(&mut self.random, identifier);
        self.add_element(&mut draft, element);
        draft
    }

    fn add_element(&mut self, draft: &mut Draft, element: Vec<u8>) {
        let at = self.random.below(draft.elements.len() + 1);
        draft.elements.insert(at, element);
    }

    /// An element of another kind's list.
    fn add_unlisted(&mut self, draft: &mut Draft) {
        let identifier = self.random.any(&listed(draft.kind, false)).unwrap_or(0);
        let element = element(&mut self.random, identifier);
        self.add_element(draft, element);
    }

    fn add_any(&mut self, draft: &mut Draft) {
        let (any, near) = (self.random.octet(), self.random.pick(&IDENTIFIERS));
        let identifier = self.random.pick(&[any, near ^ 1, near ^ 0x10, near ^ 0x80, 0x58]);
        let element = element(&mut self.random, identifier);
        self.add_element(draft, element);
    }

    /// Of a dedicated request too, whose own has no identifier, and of kinds that list none.
    fn add_second_tft(&mut self, draft: &mut Draft) {
        if draft.kind != Kind::DedicatedRequest && !self.random.one_in(8) {
            let fields = Fields { bearer: draft.lead[0] >> 4, transaction: draft.lead[1], number: 0 };
            let tft = self.any_tft();
            *draft = self.draft(Kind::ModifyRequest, fields, Some(tft));
        }
        let own = draft.elements.iter().find(|element| element[0] == TFT).cloned();
        let second = match own {
            Some(own) if self.random.one_in(3) => own,
            _ => element(&mut self.random, TFT),
        };
        self.add_element(draft, second);
    }

    fn cut(&mut self, mut octets: Vec<u8>) -> Vec<u8> {
        let at = self.random.below(octets.len());
        octets.truncate(at);
        octets
    }

    /// Within the mandatory parts: more often those of a dedicated request, which has the most, and never in the head.
    fn cut_early(&mut self, mut draft: Draft) -> Vec<u8> {
        if draft.lead.len() == 3 || self.random.one_in(3) {
            let fields = Fields { bearer: draft.lead[0] >> 4, transaction: draft.lead[1], number: 5 };
            let tft = self.any_tft();
            draft = self.draft(Kind::DedicatedRequest, fields, Some(tft));
        }
        let last = draft.lead.len() - 1;
        let mut lead = draft.lead;
        let (any, after_qos) = (3 + self.random.below(last - 2), 5 + usize::from(*lead.get(4).unwrap_or(&0)));
        lead.truncate(self.random.pick(&[3, 4, 5, after_qos, any, any, last]).min(last));
        lead
    }

    fn other_type(&mut self) -> u8 {
        let (any, own) = (self.random.octet(), self.random.pick(&KINDS).octet());
        self.random.pick(&[any, any, own, own ^ 1, own ^ 0x80, 0xC1, 0xC2, 0xC8, 0xCC, 0xCF, 0xD6, 0xD8])
    }

    /// Of the last element, so that it passes the end or leaves octets that are read as a further one.
    fn change_a_length(&mut self, draft: &mut Draft) {
        let by = self.random.pick(&[1, 1, 2, 255, 254]);
        if let Some(last) = draft.elements.last_mut() {
            let at = (last.len() - 1).min(if last[0] == 0x7B { self.random.pick(&[1, 2, 2]) } else { 1 });
            last[at] = last[at].wrapping_add(by);
        } else if let Some(length) = draft.lead.get_mut(4) {
            *length = length.wrapping_add(by);
        } else {
            draft.lead.push(self.random.octet());
        }
    }

    /// A right header, and then octets as they come.
    fn rubbish_after(&mut self, head: &[u8]) -> Vec<u8> {
        let length = self.random.below(24);
        let rubbish = filling(&mut self.random, length);
        [head, &rubbish].concat()
    }

    fn with_a_bit_changed(&mut self, mut octets: Vec<u8>) -> Vec<u8> {
        let at = self.random.below(octets.len());
        octets[at] ^= 1 << self.random.below(8);
        octets
    }
}
