//! Elements that arrive split: a length is announced, portions are fed, and what was fed is read as one element.

use crate::element::{self, Cause, Reading, LONGEST_VALUE, SYNTACTICAL_IN_OPERATION};

/// A portion that would pass what was announced, or a state that no calls give.
pub const NOT_TAKEN: u8 = 13;
pub const FINISHED_EARLY: u8 = 14;

/// What was announced and what was fed of it. Octets past what was fed are zero, unless the state was made by hand.
#[derive(Clone, Copy, PartialEq, Eq, Debug)]
pub struct Portions {
    announced: u8,
    fed: u8,
    octets: [u8; LONGEST_VALUE],
}

/// Why no calls give a state.
#[derive(Clone, Copy, PartialEq, Eq, Debug)]
pub enum Unsound {
    MoreFedThanAnnounced,
    OctetPastFed,
}

impl Default for Portions {
    fn default() -> Portions {
        Portions::empty(0)
    }
}

impl Portions {
    fn empty(announced: u8) -> Portions {
        Portions { announced, fed: 0, octets: [0; LONGEST_VALUE] }
    }

    /// A state unchecked, with zero after the octets given; nothing where there is no room for them.
    pub fn by_hand(announced: u8, fed: u8, octets: &[u8]) -> Option<Portions> {
        let mut state = Portions { fed, ..Portions::empty(announced) };
        state.octets.get_mut(..octets.len())?.copy_from_slice(octets);
        Some(state)
    }

    pub fn announced(&self) -> usize {
        usize::from(self.announced)
    }

    /// All that was fed, be the state sound or not.
    pub fn fed(&self) -> &[u8] {
        &self.octets[..usize::from(self.fed)]
    }

    /// What follows all that was fed, up to the 255 octets that a state has.
    pub fn past_fed(&self) -> &[u8] {
        &self.octets[usize::from(self.fed)..]
    }

    /// A state is sound exactly if some calls give it, so announcing all of it and feeding its octets at once must.
    pub fn unsound(&self) -> Option<Unsound> {
        if self.fed > self.announced {
            Some(Unsound::MoreFedThanAnnounced)
        } else if self.past_fed().iter().any(|octet| *octet != 0) {
            Some(Unsound::OctetPastFed)
        } else {
            None
        }
    }

    /// 42 above 255, without a place as there is no value, and the state is then the one that announcing 0 gives.
    pub fn announce(&mut self, length: u16) -> Result<(), Cause> {
        let announced = u8::try_from(length).map_err(|_| SYNTACTICAL_IN_OPERATION);
        *self = Portions::empty(announced.unwrap_or(0));
        announced.map(|_| ())
    }

    /// Takes the portion and gives how much was fed in all; a refusal leaves everything as it was.
    pub fn feed(&mut self, portion: &[u8]) -> Result<u8, u8> {
        if self.unsound().is_some() {
            return Err(NOT_TAKEN);
        }
        let left = &mut self.octets[usize::from(self.fed)..usize::from(self.announced)];
        left.get_mut(..portion.len()).ok_or(NOT_TAKEN)?.copy_from_slice(portion);
        self.fed += portion.len() as u8;
        Ok(self.fed)
    }

    /// What the reader gives for all that was fed, or the finish is turned down: 13, then 14. The state stays, so a finish that came early can
    /// be made good.
    pub fn finish(&self) -> Result<Reading, u8> {
        if self.unsound().is_some() {
            return Err(NOT_TAKEN);
        }
        if self.fed < self.announced {
            return Err(FINISHED_EARLY);
        }
        Ok(element::read(self.fed()))
    }
}

#[cfg(test)]
mod tests {
    use super::*;
    use crate::random::Random;

    fn announced(length: usize) -> Portions {
        let mut state = Portions::default();
        assert_eq!(state.announce(length as u16), Ok(()));
        state
    }

    fn fed(mut state: Portions, portion: &[u8]) -> Portions {
        let before = state.fed().len();
        assert_eq!(state.feed(portion).map(usize::from), Ok(before + portion.len()));
        state
    }

    #[test]
    fn nothing_announced_finishes_with_42_at_0() {
        assert_eq!(announced(0), Portions::default());
        let refusal = Portions::default().finish().unwrap().unwrap_err();
        assert_eq!((refusal.cause(), refusal.place), (SYNTACTICAL_IN_OPERATION, 0));
    }

    #[test]
    fn announcing_forgets_whatever_stood() {
        let stood = [Portions::by_hand(9, 200, &[1; 255]).unwrap(), fed(announced(9), &[1; 9])];
        for (length, mut state) in (0..=u16::MAX).flat_map(|length| stood.map(|state| (length, state))) {
            let (expected, after) =
                if length > 255 { (Err(SYNTACTICAL_IN_OPERATION), 0) } else { (Ok(()), length) };
            assert_eq!(state.announce(length), expected, "{length}");
            assert_eq!(state, Portions { announced: after as u8, fed: 0, octets: [0; 255] }, "{length}");
        }
    }

    /// A call with anything: refused or not.
    fn any_call(state: &mut Portions, random: &mut Random) {
        let lengths = [random.below(300), random.below(9), 0, 254, 255, 256, 65535];
        let length = random.pick(&lengths);
        match random.below(12) {
            0 => drop(state.announce(length as u16)),
            1 => drop(state.finish()),
            2 => drop(state.feed(&vec![0; length.min(512)])),
            _ => drop(state.feed(&(0..random.below(30)).map(|_| random.octet()).collect::<Vec<_>>())),
        }
    }

    #[test]
    fn every_state_that_calls_give_is_sound() {
        let (mut random, mut state) = (Random::new(3), Portions::default());
        let mut full = 0;
        for _ in 0..200_000 {
            any_call(&mut state, &mut random);
            assert_eq!(state.unsound(), None);
            full += usize::from(state.fed().len() == LONGEST_VALUE);
        }
        assert!(full > 100);
    }

    /// Every pair of numbers, with octets up to what is fed and zero beyond.
    fn without_octets_past_fed(random: &mut Random) -> Vec<Portions> {
        let pairs = (0..=255u8).flat_map(|announced| (0..=255u8).map(move |fed| (announced, fed)));
        let mut octets = [0; LONGEST_VALUE];
        octets.fill_with(|| random.octet());
        pairs.map(|(a, f)| Portions::by_hand(a, f, &octets[..usize::from(f)]).unwrap()).collect()
    }

    #[test]
    fn every_sound_state_is_given_by_an_announcement_and_one_portion() {
        let states = without_octets_past_fed(&mut Random::new(4));
        let sound: Vec<_> = states.into_iter().filter(|state| state.unsound().is_none()).collect();
        assert_eq!(sound.len(), 256 * 257 / 2);
        for state in sound {
            assert_eq!(fed(announced(state.announced()), state.fed()), state);
        }
    }

    /// No call but a new announcement has an effect on such a state.
    fn is_refused(state: &Portions, why: Unsound) {
        assert_eq!(state.unsound(), Some(why));
        for length in [0, 1, 2, 255, 256, 512] {
            let mut after = *state;
            assert_eq!(after.feed(&vec![0; length]), Err(NOT_TAKEN));
            assert_eq!(after, *state);
        }
        assert_eq!(state.finish(), Err(NOT_TAKEN));
    }

    #[test]
    fn more_fed_than_announced_is_refused() {
        for state in without_octets_past_fed(&mut Random::new(5)) {
            if state.fed > state.announced {
                is_refused(&state, Unsound::MoreFedThanAnnounced);
            }
        }
    }

    #[test]
    fn one_octet_past_what_was_fed_is_refused() {
        let mut random = Random::new(6);
        for state in without_octets_past_fed(&mut random) {
            let (sound, any) = (state.unsound().is_none(), random.below(LONGEST_VALUE));
            for place in [usize::from(state.fed), any, LONGEST_VALUE - 1] {
                let mut away = state;
                if sound && away.octets.get(place) == Some(&0) && place >= state.fed().len() {
                    away.octets[place] = random.pick(&[1, 0x80, 0xFF]);
                    is_refused(&away, Unsound::OctetPastFed);
                }
            }
        }
    }

    #[test]
    fn an_octet_within_what_was_fed_may_be_any() {
        for place in 0..LONGEST_VALUE {
            for length in [place, place + 1, LONGEST_VALUE] {
                let mut state = Portions::by_hand(255, length as u8, &[]).unwrap();
                state.octets[place] = 1;
                let why = (place >= length).then_some(Unsound::OctetPastFed);
                assert_eq!(state.unsound(), why, "place {place}, {length} fed");
            }
        }
    }

    #[test]
    fn by_hand_there_is_room_for_255_octets() {
        assert!(Portions::by_hand(0, 0, &[1; 255]).is_some());
        assert!(Portions::by_hand(255, 255, &[0; 256]).is_none());
    }
}
