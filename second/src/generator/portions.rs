//! Elements that arrive split: announced, fed in portions of every size with refused calls between them, finished, and used on the table.

use super::elements::{hex, lengthen_to};
use super::{rubbish, Generator};
use crate::element::{Kind, LONGEST_VALUE};

/// The longest HEX, in octets.
const LONGEST_PORTION: usize = 512;

/// A stretch of feeding is given up after so many portions: some were refused, or announced were fewer octets than came.
const MOST_PORTIONS: usize = 30;

/// An element longer than this soon goes on in longer portions, but for equal octets, which a repeat feeds one by one.
const MOST_OCTETS: usize = 24;

/// An element on its way, and the line that it was made for, so that it often suits the table.
struct Coming {
    octets: Vec<u8>,
    purpose: String,
}

/// How an element is divided.
#[derive(Clone, Copy, PartialEq, Eq)]
enum Division {
    Whole,
    InTwo,
    InSome,
    OctetByOctet,
}

impl Generator {
    pub fn portions(&mut self) {
        match self.random.weighted(&[22, 12, 2, 3, 10]) {
            0 => self.arrive(),
            1 => self.state_by_hand(),
            2 => self.nothing_announced(),
            3 => self.portion_call(),
            _ => self.bad_portion(),
        }
    }

    /// One line, on the state as it happens to stand.
    pub fn portion_call(&mut self) {
        match self.random.weighted(&[2, 4, 2, 4, 1]) {
            0 => self.announce_any(),
            1 => self.portion_any(),
            2 => self.say("finish"),
            3 => self.use_fed(),
            _ => self.force_any(),
        }
    }

    fn bad_portion(&mut self) {
        let line = rubbish::bad_portion(&mut self.random);
        self.say(&line);
    }

    fn arrive(&mut self) {
        let coming = self.coming();
        self.announce(coming.octets.len());
        self.feed(&coming.octets);
        self.after_the_last(&coming.octets);
        if !self.random.one_in(10) {
            self.say("finish");
        }
        self.say(&coming.purpose);
        if self.random.one_in(2) {
            self.use_fed();
        }
    }

    fn nothing_announced(&mut self) {
        self.say("announce 0");
        for _ in 0..1 + self.random.below(3) {
            self.after_force(&[]);
        }
    }

    fn coming(&mut self) -> Coming {
        match self.random.weighted(&[5, 6, 4]) {
            0 => {
                let (bearer, transaction, kind) = (self.active(), self.transaction(), self.any_kind());
                let octets = self.split_element(kind, bearer);
                Coming { octets, purpose: format!("modify {bearer} {transaction} fed") }
            }
            1 => {
                let (bearer, link, transaction) = (self.idle(), self.default(), self.transaction());
                let octets = self.split_element(Kind::Create, link);
                Coming { octets, purpose: format!("dedicated {bearer} {link} {transaction} fed") }
            }
            _ => {
                let octets = self.any_element();
                let size = self.size_near(octets.len());
                let rewrite = self.random.one_in(2);
                let purpose = if rewrite { format!("rewrite fed {size}") } else { "element fed".to_string() };
                Coming { octets, purpose }
            }
        }
    }

    pub fn any_element(&mut self) -> Vec<u8> {
        let (bearer, kind) = (self.active(), self.any_kind());
        self.split_element(kind, bearer)
    }

    /// Each is to be finished with often enough, and a create comes by other ways too.
    fn any_kind(&mut self) -> Kind {
        let position = self.random.weighted(&[1, 4, 4, 7, 7, 7]);
        [Kind::Create, Kind::Add, Kind::Replace, Kind::DeleteFilters, Kind::DeleteTft, Kind::None][position]
    }

    /// Longer ones, refused ones and ones in conflict are more to be looked for here than where an element stands in one line.
    fn split_element(&mut self, kind: Kind, bearer: u8) -> Vec<u8> {
        let mut octets = match self.random.below(16) {
            0..=2 => self.spoilt_element_for(bearer),
            3..=5 => self.conflicting_element_for(kind, bearer),
            _ => self.element_for(kind, bearer),
        };
        if self.random.one_in(6) && !octets.is_empty() {
            lengthen_to(self.random.pick(&[100, 254, 255, 255, 255, 255, 256]), &mut octets);
        }
        octets
    }

    /// Mostly the right length.
    fn announce(&mut self, length: usize) {
        let near = [length + 1, length.saturating_sub(1), length + 7, length / 2, LONGEST_VALUE];
        let announced = if self.random.one_in(16) { self.random.pick(&near) } else { length };
        self.say(&format!("announce {announced}"));
    }

    fn announce_any(&mut self) {
        let (small, any) = (self.random.below(20), self.random.below(65536));
        let lengths = [0, 1, small, small, 40, 254, 255, 255, 256, 257, 511, 512, 32768, 65535, 65536, any];
        let length = self.random.pick(&lengths);
        self.say(&format!("announce {length}"));
    }

    /// Octets that would still be taken.
    fn room(&self) -> usize {
        let state = &self.session.portions;
        state.announced().saturating_sub(state.fed().len())
    }

    fn portion_any(&mut self) {
        let (room, any) = (self.room(), self.random.octet());
        let length = self.random.pick(&[0, 1, 1, 2, 3, room / 2, room, room, room + 1, 256, 512]);
        self.say(&format!("portion {}", hex(&vec![any; length])));
    }

    /// What was not fed yet. A refused portion is tried again, and a new announcement begins anew.
    fn left<'a>(&self, octets: &'a [u8]) -> &'a [u8] {
        octets.get(self.session.portions.fed().len()..).unwrap_or(&[])
    }

    fn feed(&mut self, octets: &[u8]) {
        let divisions = [Division::Whole, Division::InTwo, Division::InSome, Division::OctetByOctet];
        let division = divisions[self.random.weighted(&[8, 9, 5, 3])];
        for portions in 0..MOST_PORTIONS {
            self.between(octets);
            let left = self.left(octets);
            if left.is_empty() || self.room() == 0 && portions > 0 {
                return;
            }
            self.portion_of(left, division, portions);
        }
    }

    fn portion_of(&mut self, left: &[u8], division: Division, portions: usize) {
        let same = left.iter().take_while(|octet| **octet == left[0]).count();
        if division == Division::OctetByOctet && same > 3 {
            return self.say(&format!("repeat {same} portion {}", hex(&left[..1])));
        }
        let length = match division {
            Division::InTwo if portions == 0 => self.random.below(left.len() + 1),
            Division::Whole | Division::InTwo => left.len(),
            Division::OctetByOctet if portions < 6 || portions + left.len() <= MOST_OCTETS => 1,
            _ => (1 + self.random.below(left.len().max(12))).min(left.len()),
        };
        self.say(&format!("portion {}", hex(&left[..length])));
    }

    /// Mostly nothing; else what must not disturb what was fed before, or what begins anew.
    fn between(&mut self, octets: &[u8]) {
        match self.random.weighted(&[100, 6, 4, 4, 6, 1, 4, 1, 2]) {
            0 => {}
            1 => self.say("portion -"),
            2 => self.portion_too_long(octets, 1),
            3 => self.portion_far_too_long(octets),
            4 => self.say("finish"),
            5 => self.use_fed(),
            6 => self.other_line(),
            7 => self.announce(octets.len()),
            _ => self.announce_too_much(octets),
        }
    }

    fn after_the_last(&mut self, octets: &[u8]) {
        match self.random.weighted(&[12, 2, 2, 2, 1]) {
            0 => {}
            1 => self.say("portion -"),
            2 => self.portion_too_long(octets, 1),
            3 => self.portion_far_too_long(octets),
            _ => self.other_line(),
        }
    }

    /// What is left of the element, and that many octets more than there is room for.
    fn portion_too_long(&mut self, octets: &[u8], by: usize) {
        let mut portion = self.left(octets).to_vec();
        portion.resize((self.room() + by).min(LONGEST_PORTION), self.random.octet());
        self.say(&format!("portion {}", hex(&portion)));
    }

    fn portion_far_too_long(&mut self, octets: &[u8]) {
        let (some, many) = (2 + self.random.below(60), 256 + self.random.below(257));
        let by = self.random.pick(&[2, some, 255, 256, many, LONGEST_PORTION]);
        self.portion_too_long(octets, by);
    }

    /// Nothing can be fed then, and what was fed is gone.
    fn announce_too_much(&mut self, octets: &[u8]) {
        let any = 256 + self.random.below(65280);
        let length = self.random.pick(&[256, 256, 257, 256 + octets.len(), 511, 512, 65535, any]);
        self.say(&format!("announce {length}"));
        match self.random.below(5) {
            0 => self.say("finish"),
            1 => self.say("portion -"),
            2 => self.use_fed(),
            _ => self.portion_too_long(octets, 1),
        }
        self.announce(octets.len());
    }

    /// No other line changes the state.
    fn other_line(&mut self) {
        match self.random.below(8) {
            0..=3 => self.table_call(),
            4 | 5 => self.element_line(),
            6 => self.emit(),
            _ => self.look_or_reset(),
        }
    }

    fn use_fed(&mut self) {
        match self.random.weighted(&[6, 4, 8]) {
            0 => self.use_fed_on_table(),
            1 => self.say("element fed"),
            _ => {
                let size = self.size_near(self.session.portions.fed().len());
                self.say(&format!("rewrite fed {size}"));
            }
        }
    }

    pub fn use_fed_on_table(&mut self) {
        let transaction = self.transaction();
        if self.random.weighted(&[3, 2]) == 1 {
            let (bearer, link) = (self.idle(), self.default());
            self.say(&format!("dedicated {bearer} {link} {transaction} fed"));
        } else {
            let bearer = self.active();
            self.say(&format!("modify {bearer} {transaction} fed"));
        }
    }

    /// Sound or not, and then calls on it.
    fn state_by_hand(&mut self) {
        let mut octets = self.any_element();
        octets.truncate(LONGEST_VALUE);
        self.force_fed(&octets);
        for _ in 0..1 + self.random.below(3) {
            self.after_force(&octets);
        }
    }

    fn force_any(&mut self) {
        let octets = self.any_element();
        self.force_fed(&octets);
    }

    fn force_fed(&mut self, element: &[u8]) {
        let length = element.len().min(LONGEST_VALUE);
        let (announced, fed, octets) = match self.random.weighted(&[3, 2, 3, 3, 2, 1, 2, 2]) {
            0 => (length, length, element.to_vec()),
            1 => self.partly_fed(&element[..length]),
            2 => (self.random.below(length.max(1)), length, element.to_vec()),
            3 => self.octet_past_fed(&element[..length]),
            4 => self.full(element),
            5 => (length + 2, length + 2, element.to_vec()),
            6 => (length, self.random.below(length + 1), element.to_vec()),
            _ => self.any_state(element),
        };
        self.say(&format!("force-fed {announced} {fed} {}", hex(&octets)));
    }

    /// The rest is still to come, and zero stands for it, written out or not.
    fn partly_fed(&mut self, element: &[u8]) -> (usize, usize, Vec<u8>) {
        let fed = self.random.below(element.len() + 1);
        let mut octets = element[..fed].to_vec();
        if self.random.one_in(3) {
            octets.resize(self.random.pick(&[element.len(), LONGEST_VALUE]), 0);
        }
        (element.len(), fed, octets)
    }

    /// One octet at the first place past what is fed, at the last, or between.
    fn octet_past_fed(&mut self, element: &[u8]) -> (usize, usize, Vec<u8>) {
        let (announced, fed, mut octets) = self.partly_fed(&element[..element.len().min(LONGEST_VALUE - 1)]);
        let any = fed + self.random.below(LONGEST_VALUE - fed);
        let place = self.random.pick(&[fed, fed, LONGEST_VALUE - 1, LONGEST_VALUE - 1, any]);
        octets.resize(LONGEST_VALUE, 0);
        octets[place] = self.random.pick(&[1, 0x80, 0xFF]);
        octets.truncate(place + 1);
        (announced, fed, octets)
    }

    /// No place is left where an octet could be past what was fed.
    fn full(&mut self, element: &[u8]) -> (usize, usize, Vec<u8>) {
        let mut octets = element.to_vec();
        octets.resize(LONGEST_VALUE, 0xC0);
        (LONGEST_VALUE - self.random.below(8) / 7, LONGEST_VALUE, octets)
    }

    /// Lengths, some of them one too many for the line, that have nothing to do with the octets.
    fn any_state(&mut self, element: &[u8]) -> (usize, usize, Vec<u8>) {
        let mut lengths = [0, 0, 1, 254, 255, 255, element.len().min(256), 0, 0];
        lengths[7..].fill_with(|| self.random.octet().into());
        let (announced, fed) = (self.random.pick(&lengths), self.random.pick(&lengths));
        let hex_lengths = [0, 1, 255, 255, 256, 512, element.len()];
        let mut octets = element.to_vec();
        octets.resize(self.random.pick(&hex_lengths), 0);
        (announced, fed, octets)
    }

    fn after_force(&mut self, octets: &[u8]) {
        let left = self.left(octets);
        match self.random.weighted(&[2, 2, 2, 1, 8, 4]) {
            0 => self.say("portion -"),
            1 => self.say(&format!("portion {}", hex(&left[..left.len().min(1)]))),
            2 => self.say(&format!("portion {}", hex(left))),
            3 => self.portion_too_long(octets, 1),
            4 => self.say("finish"),
            _ => self.use_fed(),
        }
    }
}

#[cfg(test)]
mod tests {
    use super::super::script;
    use crate::lines::LONGEST_LINE;
    use crate::portions::Unsound;
    use crate::session::Session;
    use std::collections::BTreeMap;

    const LEAST: usize = 3;

    /// What must come up in a script besides the forms of replies.
    const SITUATIONS: [&str; 24] = [
        "whole",
        "in two",
        "in more",
        "octet by octet",
        "255 octets in one portion",
        "255 octets in more",
        "an empty portion before the first",
        "an empty portion in the middle",
        "an empty portion after the last",
        "one octet too many at the start",
        "one octet too many in the middle",
        "one octet too many when all is fed",
        "far too many in the middle",
        "256 octets or more",
        "finished early and fed on",
        "announced anew in the middle",
        "above 255 in the middle",
        "octet past fed at the first place",
        "octet past fed at the last place",
        "full by hand",
        "fed of an unsound state",
        "fed before all is",
        "repeated and fed",
        "other lines in the middle",
    ];

    /// Follows a script and notes what comes up.
    #[derive(Default)]
    struct Watch {
        session: Session,
        portions: Vec<usize>,
        early: bool,
        seen: BTreeMap<&'static str, usize>,
    }

    fn octets(words: &[&str], at: usize) -> usize {
        words.get(at).map_or(0, |word| if *word == "-" { 0 } else { word.len() / 2 })
    }

    impl Watch {
        fn see(&mut self, situation: &'static str, holds: bool) {
            assert!(SITUATIONS.contains(&situation), "{situation}");
            *self.seen.entry(situation).or_default() += usize::from(holds);
        }

        fn line(&mut self, number: usize, line: &[u8]) {
            let before = self.session.portions;
            let mut reply = Vec::new();
            self.session.do_line(number as u64, line, line.len() > LONGEST_LINE, &mut reply);
            let (line, reply) = (String::from_utf8_lossy(line), String::from_utf8_lossy(&reply));
            let words: Vec<&str> = line.split_whitespace().collect();
            let (fed, announced) = (before.fed().len(), before.announced());
            let middle = 0 < fed && fed < announced && before.unsound().is_none();
            match words.first() {
                _ if reply.starts_with("bad line") => {}
                Some(&"announce") => self.announced(middle, &reply),
                Some(&"portion") => self.portion(fed, announced, octets(&words, 1), &reply),
                Some(&"finish") => self.finish(&reply),
                Some(&"force-fed") => self.forced(),
                Some(&"repeat") => self.repeated(&words, &reply),
                Some(_) if words.contains(&"fed") => {
                    self.see("fed of an unsound state", before.unsound().is_some());
                    self.see("fed before all is", middle);
                }
                _ => self.see("other lines in the middle", middle),
            }
        }

        fn announced(&mut self, middle: bool, reply: &str) {
            self.see("announced anew in the middle", middle && reply.starts_with("announced"));
            self.see("above 255 in the middle", middle && reply.starts_with("cause"));
            self.portions.clear();
            self.early = false;
        }

        fn portion(&mut self, fed: usize, announced: usize, length: usize, reply: &str) {
            let (taken, sound) = (reply.starts_with("fed"), fed <= announced);
            let by = (fed + length).saturating_sub(announced);
            if taken {
                self.see("an empty portion before the first", length == 0 && fed == 0 && announced > 0);
                self.see("an empty portion in the middle", length == 0 && 0 < fed && fed < announced);
                self.see("an empty portion after the last", length == 0 && fed == announced && fed > 0);
                self.see("finished early and fed on", length > 0 && self.early);
                self.portions.push(length);
            } else {
                self.see("one octet too many at the start", sound && by == 1 && fed == 0 && announced > 0);
                self.see("one octet too many in the middle", sound && by == 1 && 0 < fed && fed < announced);
                self.see("one octet too many when all is fed", by == 1 && fed == announced && fed > 0);
                self.see("far too many in the middle", sound && by > 1 && 0 < fed && fed < announced);
                self.see("256 octets or more", length > 255);
            }
        }

        fn repeated(&mut self, words: &[&str], reply: &str) {
            let (times, length) = (words[1].parse().unwrap_or(0), octets(words, 3));
            if words[2] == "portion" && reply.starts_with("fed") {
                self.see("repeated and fed", times > 1 && length > 0);
                self.portions.extend(vec![length; times]);
            }
        }

        fn finish(&mut self, reply: &str) {
            self.early |= reply.starts_with("refused 14");
            let pieces: Vec<usize> = self.portions.iter().copied().filter(|length| *length > 0).collect();
            let whole = self.session.portions.fed().len();
            if reply.starts_with("refused") || whole < 2 || pieces.iter().sum::<usize>() != whole {
                return;
            }
            self.see("whole", pieces.len() == 1);
            self.see("in two", pieces.len() == 2);
            self.see("in more", pieces.len() > 2);
            self.see("octet by octet", pieces.len() == whole);
            self.see("255 octets in one portion", pieces == [255]);
            self.see("255 octets in more", whole == 255 && pieces.len() > 1);
        }

        fn forced(&mut self) {
            let state = self.session.portions;
            let past = state.past_fed();
            let is_past = state.unsound() == Some(Unsound::OctetPastFed);
            self.see("octet past fed at the first place", is_past && past[0] != 0);
            self.see("octet past fed at the last place", is_past && past.last() != Some(&0));
            self.see("full by hand", past.is_empty() && state.unsound().is_none());
            self.portions.clear();
        }
    }

    #[test]
    fn elements_arrive_split_in_every_way() {
        for seed in [0, 1, 20260401] {
            let mut watch = Watch::default();
            for (number, line) in script(seed, 25_100).split(|octet| *octet == b'\n').enumerate() {
                watch.line(number, line.strip_suffix(b"\r").unwrap_or(line));
            }
            let times = |situation: &str| watch.seen.get(situation).copied().unwrap_or(0);
            let rare: Vec<_> = SITUATIONS.iter().map(|s| (s, times(s))).filter(|(_, t)| *t < LEAST).collect();
            assert!(rare.is_empty(), "seed {seed}: {rare:?}");
        }
    }
}
