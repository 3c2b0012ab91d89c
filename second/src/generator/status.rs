//! The module's status, and values that the network might show: mostly near to what is active here.

use super::elements::hex;
use super::{rubbish, Generator};
use crate::calls::Identities;
use crate::status::active;
use crate::table::{in_connection, Role};

/// Identities 0 to 4.
const SPARE: Identities = 0x001F;

impl Generator {
    pub fn status_line(&mut self) {
        match self.random.weighted(&[10, 14, 24, 4]) {
            0 => self.status(),
            1 => self.synchronise(),
            2 => self.compare(),
            _ => self.bad_status(),
        }
    }

    fn status(&mut self) {
        let size = self.size_near(2);
        self.say(&format!("status {size}"));
    }

    /// Mostly spares the table. At times the value is compared before, and what came of it is looked at after.
    fn synchronise(&mut self) {
        let shown = match self.random.weighted(&[14, 2, 1]) {
            0 => self.shown_nearby(),
            1 => self.shown_without_default(),
            _ => self.shown_far_off(),
        };
        let value = self.status_value(shown);
        if self.random.one_in(8) {
            self.say(&format!("compare {value}"));
        }
        self.say(&format!("synchronise {value}"));
        match self.random.below(16) {
            0 => self.say(&format!("synchronise {value}")),
            1 => self.say(&format!("compare {value}")),
            2 => self.say("status 2"),
            3 => self.say("show"),
            _ => {}
        }
    }

    fn compare(&mut self) {
        let shown = match self.random.weighted(&[4, 2, 6]) {
            0 => self.shown_nearby(),
            1 => self.shown_without_default(),
            _ => self.shown_far_off(),
        };
        let value = self.status_value(shown);
        self.say(&format!("compare {value}"));
    }

    fn bad_status(&mut self) {
        let line = rubbish::bad_status(&mut self.random);
        self.say(line);
    }

    /// What is active here, with up to two of its bearers left out and some that are idle put in.
    fn shown_nearby(&mut self) -> Identities {
        let (own, idle) = (active(self.table()), self.random.number() as Identities);
        let dedicated = self.bearers(|role| matches!(role, Role::Dedicated { .. }));
        match self.random.below(6) {
            0 => own,
            1 => own | idle,
            2 => own ^ 1 << self.random.below(16),
            3 => own ^ 1 << self.random.below(16) ^ 1 << self.random.below(16),
            _ => own & !self.one_bit(&dedicated) & !self.one_bit(&dedicated),
        }
    }

    /// A default left out, its dedicated bearers shown, all or some of them.
    fn shown_without_default(&mut self) -> Identities {
        let defaults = self.bearers(|role| role == Role::Default);
        let default = self.random.any(&defaults).unwrap_or(0);
        let own = active(self.table()) & !(1 << default);
        let connection = self.table().numbered().filter(|(i, b)| in_connection(default, *i, b.role));
        let connection: Vec<u8> = connection.map(|(identity, _)| identity).collect();
        if self.random.one_in(3) {
            own & !self.one_bit(&connection)
        } else {
            own
        }
    }

    fn shown_far_off(&mut self) -> Identities {
        let (own, any) = (active(self.table()), self.random.number() as Identities);
        let one = 1 << self.random.below(16);
        self.random.pick(&[0, SPARE, Identities::MAX, !SPARE, !own, !own & any, one, any, any, any])
    }

    /// One of these as a set of its own, or none.
    fn one_bit(&mut self, from: &[u8]) -> Identities {
        self.random.any(from).map_or(0, |identity| 1 << identity)
    }

    /// Mostly as two octets, with rubbish in the spare bits at times.
    fn status_value(&mut self, shown: Identities) -> String {
        let spare = if self.random.one_in(4) { self.random.number() as Identities & SPARE } else { 0 };
        let mut octets = (shown ^ spare).to_le_bytes().to_vec();
        if self.random.one_in(8) {
            let length = self.random.pick(&[0, 0, 1, 1, 1, 3, 3, 3, 4, 8, 255, 256, 257, 512, 513]);
            octets.resize(length, spare as u8);
        }
        hex(&octets)
    }
}
