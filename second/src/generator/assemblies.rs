//! Messages to be assembled, of every kind and with every refusal, into buffers about as long as they are.

use super::elements::hex;
use super::Generator;
use crate::messages::{Kind, KINDS};
use crate::script::LARGEST_BUFFER;
use crate::text::message_kind;

/// What an assembly is to come to.
#[derive(Clone, Copy)]
pub enum Outcome {
    Written,
    TooShort,
    WrongTft,
    LongTft,
    WrongLink,
    Any,
}

const OUTCOMES: [Outcome; 4] = [Outcome::Written, Outcome::TooShort, Outcome::WrongTft, Outcome::Any];

/// Those of every kind, and those of the kinds with a TFT.
fn assemblies() -> Vec<(Kind, Outcome)> {
    let mut all = KINDS.map(|kind| OUTCOMES.map(|outcome| (kind, outcome))).concat();
    all.extend([
        (Kind::DedicatedRequest, Outcome::LongTft),
        (Kind::DedicatedRequest, Outcome::WrongLink),
        (Kind::ModifyRequest, Outcome::LongTft),
    ]);
    all
}

impl Generator {
    pub fn assemble_line(&mut self) {
        let (kind, outcome) = self.random.draw(&mut self.still_to_come.assemblies, &assemblies());
        let (bearer, transaction) = (self.assembled_identity(20), self.any_transaction());
        let number = self.assembled_number(kind, outcome);
        let tft = self.assembled_tft(kind, outcome);
        let mandatory = if kind.has_link() { 6 } else { 3 + usize::from(kind.has_cause()) };
        let own = usize::from(kind == Kind::ModifyRequest);
        let length = mandatory + tft.as_ref().map_or(0, |tft| own + 1 + tft.len());
        let size = self.assembled_size(length, outcome);
        let (name, tft) = (message_kind(kind), tft.map_or("none".to_string(), |tft| hex(&tft)));
        self.say(&format!("assemble {name} {bearer} {transaction} {number} {tft} {size}"));
        self.use_assembled();
    }

    fn assembled_identity(&mut self, strange_in: usize) -> u8 {
        let any = self.random.octet() | 16;
        if self.random.one_in(strange_in) {
            self.random.pick(&[16, 17, 255, any])
        } else {
            self.random.below(16) as u8
        }
    }

    fn assembled_number(&mut self, kind: Kind, outcome: Outcome) -> u8 {
        let any = self.random.octet();
        match outcome {
            Outcome::WrongLink => self.assembled_identity(1),
            _ if kind.has_link() => any & 15,
            _ if kind.has_cause() => any,
            _ => u8::from(self.random.one_in(40)),
        }
    }

    fn assembled_tft(&mut self, kind: Kind, outcome: Outcome) -> Option<Vec<u8>> {
        let (tft, half) = (self.any_tft(), self.random.one_in(2));
        match (kind, outcome) {
            (_, Outcome::LongTft) | (Kind::ModifyRequest, Outcome::WrongTft) => {
                Some(vec![0xC0; self.random.pick(&[256, 256, 257, 511, 512])])
            }
            (Kind::DedicatedRequest, Outcome::WrongTft) => None,
            (Kind::DedicatedRequest | Kind::ModifyRequest, Outcome::Any) => {
                Some(vec![0xC0; self.random.pick(&[254, 255, 255, 256])])
            }
            (Kind::DedicatedRequest, _) | (_, Outcome::WrongTft) => Some(tft),
            (Kind::ModifyRequest, _) => half.then_some(tft),
            _ => None,
        }
    }

    fn assembled_size(&mut self, length: usize, outcome: Outcome) -> usize {
        let any = self.random.below(LARGEST_BUFFER + 1);
        let size = match outcome {
            Outcome::Written => self.random.pick(&[length, length, length, length + 1, length + 4, 512]),
            Outcome::TooShort => self.random.pick(&[length - 1, length - 1, length - 1, length - 2, 0]),
            _ => self.random.pick(&[length - 1, length, length + 1, any]),
        };
        size.min(LARGEST_BUFFER)
    }

    /// What was written is often read, and at times handled.
    fn use_assembled(&mut self) {
        let reply = String::from_utf8_lossy(&self.replies).into_owned();
        let words: Vec<&str> = reply.lines().last().unwrap_or("").split(' ').collect();
        let ["wrote", length, buffer] = words.as_slice() else {
            return;
        };
        let octets = length.parse().map_or("", |length: usize| &buffer[..2 * length]);
        match self.random.below(8) {
            0 | 1 => self.say(&format!("parse {octets}")),
            2 => self.say(&format!("message {octets}")),
            _ => {}
        }
    }
}
