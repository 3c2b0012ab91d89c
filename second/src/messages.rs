//! Whole ESM messages: the reader, the writer, and the handling of a received one on the table.

use crate::calls::{self, Answer, NOT_WELL_FORMED};
use crate::element::{BUFFER_TOO_SHORT, LONGEST_VALUE};
use crate::table::Table;

/// Another discriminator or type, a reply where a message is handled, or a message that could not be read back.
pub const NO_SUCH_MESSAGE: u8 = 15;
/// Under three octets, or framed in another way than the kind is.
pub const BADLY_FRAMED: u8 = 16;

const DISCRIMINATOR: u8 = 2;
const LARGEST_HALF: u8 = 15;
const TFT: u8 = 0x36;
/// "QoS is written as the one octet 09 (house)"
const QOS: [u8; 2] = [1, 9];

#[derive(Clone, Copy, PartialEq, Eq, Debug)]
pub enum Kind {
    DedicatedRequest,
    DedicatedAccept,
    DedicatedReject,
    ModifyRequest,
    ModifyAccept,
    ModifyReject,
    DeactivateRequest,
    DeactivateAccept,
    ModificationReject,
}

pub const KINDS: [Kind; 9] = [
    Kind::DedicatedRequest,
    Kind::DedicatedAccept,
    Kind::DedicatedReject,
    Kind::ModifyRequest,
    Kind::ModifyAccept,
    Kind::ModifyReject,
    Kind::DeactivateRequest,
    Kind::DeactivateAccept,
    Kind::ModificationReject,
];

/// How an optional element is framed.
#[derive(Clone, Copy, PartialEq, Eq, Debug)]
pub enum Format {
    /// One octet, the identifier in its upper half.
    Half,
    /// The identifier and one octet more.
    Tv,
    /// The identifier, a length octet, and so many octets.
    Tlv,
    /// The identifier, two length octets, and so many octets.
    TlvE,
}

/// The optional elements of a kind by their identifiers. Of the half-octet ones that is the upper half. 7B stands in every list and so in none
/// of these.
struct Listed {
    half: &'static [u8],
    tv: &'static [u8],
    tlv: &'static [u8],
}

const TLV_E: u8 = 0x7B;

impl Kind {
    pub fn of_octet(octet: u8) -> Option<Kind> {
        KINDS.into_iter().find(|kind| kind.octet() == octet)
    }

    /// The message type.
    pub fn octet(self) -> u8 {
        match self {
            Kind::DedicatedRequest => 0xC5,
            Kind::DedicatedAccept => 0xC6,
            Kind::DedicatedReject => 0xC7,
            Kind::ModifyRequest => 0xC9,
            Kind::ModifyAccept => 0xCA,
            Kind::ModifyReject => 0xCB,
            Kind::DeactivateRequest => 0xCD,
            Kind::DeactivateAccept => 0xCE,
            Kind::ModificationReject => 0xD7,
        }
    }

    pub fn has_link(self) -> bool {
        self == Kind::DedicatedRequest
    }

    pub fn has_cause(self) -> bool {
        matches!(
            self,
            Kind::DedicatedReject | Kind::ModifyReject | Kind::DeactivateRequest | Kind::ModificationReject
        )
    }

    pub fn has_number(self) -> bool {
        self.has_link() || self.has_cause()
    }

    fn largest_number(self) -> u8 {
        match (self.has_link(), self.has_cause()) {
            (true, _) => LARGEST_HALF,
            (_, true) => u8::MAX,
            _ => 0,
        }
    }

    /// What the module sends and never handles.
    pub fn is_reply(self) -> bool {
        matches!(
            self,
            Kind::DedicatedAccept
                | Kind::DedicatedReject
                | Kind::ModifyAccept
                | Kind::ModifyReject
                | Kind::DeactivateAccept
        )
    }

    fn listed(self) -> Listed {
        let (half, tv, tlv): (&[u8], &[u8], &[u8]) = match self {
            Kind::DedicatedRequest => (&[8, 0xC], &[0x32], &[0x5D, 0x30, 0x34, 0x27, 0x33]),
            Kind::ModifyRequest => (&[8, 0xC], &[0x32], &[TFT, 0x5B, 0x30, 0x34, 0x5E, 0x27, 0x33, 0x66]),
            Kind::DedicatedAccept | Kind::DedicatedReject | Kind::ModifyAccept | Kind::ModifyReject => {
                (&[], &[], &[0x27, 0x33])
            }
            Kind::DeactivateRequest => (&[0xC], &[], &[0x27, 0x37, 0x33]),
            Kind::DeactivateAccept => (&[], &[], &[0x27]),
            Kind::ModificationReject => (&[], &[], &[0x27, 0x37, 0x6B, 0x33]),
        };
        Listed { half, tv, tlv }
    }

    /// How the optional element that begins with this octet is framed, where the kind lists one.
    pub fn format(self, first: u8) -> Option<Format> {
        let listed = self.listed();
        if first == TLV_E {
            Some(Format::TlvE)
        } else if listed.tlv.contains(&first) {
            Some(Format::Tlv)
        } else if listed.tv.contains(&first) {
            Some(Format::Tv)
        } else if listed.half.contains(&(first >> 4)) {
            Some(Format::Half)
        } else {
            None
        }
    }
}

/// What is kept of a message. `number` is the link or the cause, and 0 for the kinds without one.
#[derive(Clone, Copy, PartialEq, Eq, Debug)]
pub struct Message<'a> {
    pub kind: Kind,
    pub bearer: u8,
    pub transaction: u8,
    pub number: u8,
    pub tft: Option<&'a [u8]>,
}

/// Why octets are not taken as a message.
#[derive(Clone, Copy, PartialEq, Eq, Debug)]
pub enum Fault {
    UnderThreeOctets,
    Discriminator,
    Type,
    Reply,
    MandatoryPart,
    UnlistedElement,
    PastTheEnd,
    SecondTft,
}

impl Fault {
    pub fn number(self) -> u8 {
        match self {
            Fault::Discriminator | Fault::Type | Fault::Reply => NO_SUCH_MESSAGE,
            _ => BADLY_FRAMED,
        }
    }
}

/// The first three octets.
#[derive(Clone, Copy)]
struct Head {
    kind: Kind,
    bearer: u8,
    transaction: u8,
}

fn head(octets: &[u8]) -> Result<Head, Fault> {
    let [first, transaction, kind, ..] = *octets else {
        return Err(Fault::UnderThreeOctets);
    };
    if first & LARGEST_HALF != DISCRIMINATOR {
        return Err(Fault::Discriminator);
    }
    let kind = Kind::of_octet(kind).ok_or(Fault::Type)?;
    Ok(Head { kind, bearer: first >> 4, transaction })
}

pub fn read(octets: &[u8]) -> Result<Message<'_>, Fault> {
    let Head { kind, bearer, transaction } = head(octets)?;
    let mut rest = &octets[3..];
    let (number, mut tft) = mandatory(kind, &mut rest).ok_or(Fault::MandatoryPart)?;
    while !rest.is_empty() {
        let (first, value) = next_element(kind, &mut rest)?;
        if first == TFT && tft.replace(value).is_some() {
            return Err(Fault::SecondTft);
        }
    }
    Ok(Message { kind, bearer, transaction, number, tft })
}

/// The link or the cause, and the TFT of a dedicated request.
fn mandatory<'a>(kind: Kind, rest: &mut &'a [u8]) -> Option<(u8, Option<&'a [u8]>)> {
    if kind.has_link() {
        let link = take(rest, 1)?[0] & LARGEST_HALF;
        let _qos = with_length(rest)?;
        Some((link, Some(with_length(rest)?)))
    } else if kind.has_cause() {
        Some((take(rest, 1)?[0], None))
    } else {
        Some((0, None))
    }
}

fn take<'a>(rest: &mut &'a [u8], octets: usize) -> Option<&'a [u8]> {
    let (taken, left) = rest.split_at_checked(octets)?;
    *rest = left;
    Some(taken)
}

fn with_length<'a>(rest: &mut &'a [u8]) -> Option<&'a [u8]> {
    let length = take(rest, 1)?[0];
    take(rest, length.into())
}

fn with_two_length_octets<'a>(rest: &mut &'a [u8]) -> Option<&'a [u8]> {
    let length = take(rest, 2)?;
    take(rest, u16::from_be_bytes([length[0], length[1]]).into())
}

/// The first octet of the next element, and its value.
fn next_element<'a>(kind: Kind, rest: &mut &'a [u8]) -> Result<(u8, &'a [u8]), Fault> {
    let first = take(rest, 1).ok_or(Fault::PastTheEnd)?[0];
    let value = match kind.format(first).ok_or(Fault::UnlistedElement)? {
        Format::Half => Some(&[][..]),
        Format::Tv => take(rest, 1),
        Format::Tlv => with_length(rest),
        Format::TlvE => with_two_length_octets(rest),
    };
    Ok((first, value.ok_or(Fault::PastTheEnd)?))
}

/// Why a message could not be read back.
#[derive(Clone, Copy, PartialEq, Eq, Debug)]
pub enum Unreadable {
    Identity,
    Number,
    LongTft,
    TftOfOtherKind,
    NoTft,
}

impl Message<'_> {
    pub fn unreadable(&self) -> Option<Unreadable> {
        let (must, may) = (self.kind == Kind::DedicatedRequest, self.kind == Kind::ModifyRequest);
        if self.bearer > LARGEST_HALF {
            Some(Unreadable::Identity)
        } else if self.number > self.kind.largest_number() {
            Some(Unreadable::Number)
        } else if self.tft.is_some() && !must && !may {
            Some(Unreadable::TftOfOtherKind)
        } else if self.tft.is_none() && must {
            Some(Unreadable::NoTft)
        } else if self.tft.is_some_and(|tft| tft.len() > LONGEST_VALUE) {
            Some(Unreadable::LongTft)
        } else {
            None
        }
    }
}

/// Writes the message and gives how many octets it took; a refusal, 15 or then 9, leaves the buffer.
pub fn write(message: &Message, buffer: &mut [u8]) -> Result<usize, u8> {
    if message.unreadable().is_some() {
        return Err(NO_SUCH_MESSAGE);
    }
    let octets = octets_of(message);
    buffer.get_mut(..octets.len()).ok_or(BUFFER_TOO_SHORT)?.copy_from_slice(&octets);
    Ok(octets.len())
}

fn octets_of(message: &Message) -> Vec<u8> {
    let Message { kind, bearer, transaction, number, tft } = *message;
    let mut octets = vec![bearer << 4 | DISCRIMINATOR, transaction, kind.octet()];
    if kind.has_number() {
        octets.push(number);
    }
    if kind.has_link() {
        octets.extend(QOS);
    } else if tft.is_some() {
        octets.push(TFT);
    }
    if let Some(tft) = tft {
        octets.push(tft.len() as u8);
        octets.extend(tft);
    }
    octets
}

/// What came of a received message, and what goes to the network, if anything does.
#[derive(Clone, Copy, PartialEq, Eq, Debug)]
pub struct Handled {
    pub answer: Answer,
    pub sent: Option<Message<'static>>,
}

pub fn handle(table: &mut Table, octets: &[u8]) -> Handled {
    let refused = |number| Handled { answer: Answer::Refused(number), sent: None };
    if !table.is_well_formed() {
        return refused(NOT_WELL_FORMED);
    }
    match received(octets) {
        Ok(message) => {
            let answer = call(table, &message);
            Handled { answer, sent: sent(&message, &answer) }
        }
        Err(fault) => refused(fault.number()),
    }
}

/// A reply type is refused like any other type, before its framing is looked at.
pub fn received(octets: &[u8]) -> Result<Message<'_>, Fault> {
    if head(octets)?.kind.is_reply() {
        return Err(Fault::Reply);
    }
    read(octets)
}

fn call(table: &mut Table, message: &Message) -> Answer {
    let Message { kind, bearer, transaction, number, tft } = *message;
    match (kind, tft) {
        (Kind::DedicatedRequest, Some(tft)) => {
            calls::activate_dedicated(table, bearer, number, transaction, tft)
        }
        (Kind::ModifyRequest, Some(tft)) => calls::modify(table, bearer, transaction, tft),
        (Kind::ModifyRequest, None) => calls::modify_without_tft(table, bearer, transaction),
        (Kind::DeactivateRequest, _) => calls::deactivate(table, bearer, transaction),
        (Kind::ModificationReject, _) => calls::reject(table, transaction, number),
        _ => unreachable!("no reply is received, nor a dedicated request without a TFT"),
    }
}

/// The plain message of an answer that is one: the received bearer identity, and no transaction.
fn sent(message: &Message, answer: &Answer) -> Option<Message<'static>> {
    let (accept, reject) = match message.kind {
        Kind::DedicatedRequest => (Kind::DedicatedAccept, Kind::DedicatedReject),
        Kind::ModifyRequest => (Kind::ModifyAccept, Kind::ModifyReject),
        // Never rejected.
        _ => (Kind::DeactivateAccept, Kind::DeactivateAccept),
    };
    let (kind, bearer, number) = match *answer {
        Answer::Accept { bearer, .. } => (accept, bearer, 0),
        Answer::Reject { bearer, why } => (reject, bearer, why.cause),
        _ => return None,
    };
    Some(Message { kind, bearer, transaction: 0, number, tft: None })
}
