//! A list as the table holds one for each identity: at each precedence the uplink filter that a connection has there, or nothing.

use crate::filter::Octets256;

pub const POSITIONS: usize = 256;

/// A filter by where it stands.
#[derive(Clone, Copy, PartialEq, Eq, Debug)]
pub struct Entry {
    pub bearer: u8,
    pub identifier: u8,
}

impl Entry {
    /// As no bearer is 0, this is never 0.
    fn octet(self) -> u8 {
        self.bearer << 4 | self.identifier
    }

    fn of_octet(octet: u8) -> Entry {
        Entry { bearer: octet >> 4, identifier: octet & 15 }
    }
}

/// The positions that name a filter are marked, so that the others cost no time, and every position has an octet, 0 where it names none.
#[derive(Clone, Copy, PartialEq, Eq, Debug)]
pub struct List {
    named: Octets256,
    octets: [u8; POSITIONS],
}

impl Default for List {
    fn default() -> List {
        List { named: Octets256::default(), octets: [0; POSITIONS] }
    }
}

impl List {
    pub fn set(&mut self, position: u8, entry: Option<Entry>) {
        match entry {
            Some(_) => drop(self.named.add(position)),
            None => self.named.remove(position),
        }
        self.octets[usize::from(position)] = entry.map_or(0, Entry::octet);
    }

    pub fn at(&self, position: u8) -> Option<Entry> {
        self.named.has(position).then(|| Entry::of_octet(self.octets[usize::from(position)]))
    }

    /// Whether that is what stands there.
    pub fn has(&self, position: u8, entry: Option<Entry>) -> bool {
        self.octets[usize::from(position)] == entry.map_or(0, Entry::octet)
    }

    pub fn names_none_beside(&self, positions: &Octets256) -> bool {
        self.named.is_within(positions)
    }

    /// The positions that name a filter, rising, each with what it names.
    pub fn entries(&self) -> impl Iterator<Item = (u8, Entry)> + '_ {
        let entry = |position: u8| Entry::of_octet(self.octets[usize::from(position)]);
        self.named.numbers().map(move |position| (position, entry(position)))
    }
}

#[cfg(test)]
mod tests {
    use super::*;

    fn entry(bearer: u8, identifier: u8) -> Entry {
        Entry { bearer, identifier }
    }

    #[test]
    fn every_entry_is_had_at_every_position_and_nowhere_else() {
        for position in 0..=255 {
            for (bearer, identifier) in (5..=15).flat_map(|b| (0..=15).map(move |i| (b, i))) {
                let mut list = List::default();
                list.set(position, Some(entry(bearer, identifier)));
                assert!(list.has(position, Some(entry(bearer, identifier))));
                assert_eq!(list.at(position), Some(entry(bearer, identifier)));
                assert!(!list.has(position, None));
                assert!(!list.has(position, Some(entry(bearer, identifier ^ 1))));
                assert_eq!(
                    list.entries().collect::<Vec<_>>(),
                    [(position, entry(bearer, identifier))],
                    "{position}"
                );
                list.set(position, None);
                assert!(list == List::default() && list.has(position, None) && list.at(position).is_none());
            }
        }
    }

    #[test]
    fn entries_rise_whatever_the_order_in_which_they_were_set() {
        let mut list = List::default();
        let positions = (0..=255u8).map(|n| n.wrapping_mul(91)).filter(|position| position % 3 != 1);
        positions
            .clone()
            .for_each(|position| list.set(position, Some(entry(5 + position % 11, position >> 4))));
        let mut rising: Vec<u8> = positions.collect();
        rising.sort();
        let expected: Vec<_> = rising.into_iter().map(|p| (p, entry(5 + p % 11, p >> 4))).collect();
        assert_eq!(list.entries().collect::<Vec<_>>(), expected);
    }
}
