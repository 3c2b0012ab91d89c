//! The value of the EPS bearer context status element: the module's own, and the network's taken or compared.

use crate::calls::{Identities, NOT_WELL_FORMED};
use crate::element::BUFFER_TOO_SHORT;
use crate::table::{connection_of, identities, Bearer, Role, Table};

pub const NOT_TWO_OCTETS: u8 = 12;

/// Which bearers are active on both sides, here alone, and at the network alone.
#[derive(Clone, Copy, PartialEq, Eq, Debug)]
pub struct Comparison {
    pub both: Identities,
    pub here: Identities,
    pub network: Identities,
}

/// The bearers of the table that are not idle.
pub fn active(table: &Table) -> Identities {
    table.numbered().filter(|(_, bearer)| !bearer.is_idle()).fold(0, |set, (i, _)| set | 1 << i)
}

fn has(set: Identities, identity: u8) -> bool {
    set >> identity & 1 == 1
}

/// "identities 7 down to 0 in bits 8 to 1 of the first, 15 down to 8 in the second": the low octet of the set comes first.
fn octets_of(active: Identities) -> [u8; 2] {
    active.to_le_bytes()
}

/// Writes the module's value and gives how many octets it took; a refusal, 1 or then 9, leaves the buffer.
pub fn write(table: &Table, buffer: &mut [u8]) -> Result<usize, u8> {
    if !table.is_well_formed() {
        return Err(NOT_WELL_FORMED);
    }
    let value = octets_of(active(table));
    buffer.get_mut(..value.len()).ok_or(BUFFER_TOO_SHORT)?.copy_from_slice(&value);
    Ok(value.len())
}

/// The bearers that a received value shows active, "identities 0 to 4 [..] ignored on reading". Refusals: 1, then 12.
fn shown(table: &Table, octets: &[u8]) -> Result<Identities, u8> {
    if !table.is_well_formed() {
        return Err(NOT_WELL_FORMED);
    }
    let value = octets.try_into().map_err(|_| NOT_TWO_OCTETS)?;
    let all = Identities::from_le_bytes(value);
    Ok(identities().filter(|identity| has(all, *identity)).fold(0, |set, i| set | 1 << i))
}

/// Takes the network's value and gives the bearers that this deactivated.
pub fn synchronise(table: &mut Table, octets: &[u8]) -> Result<Identities, u8> {
    let shown = shown(table, octets)?;
    let goes = |identity, bearer: &Bearer| !bearer.is_idle() && !stays(shown, identity, bearer.role);
    let gone = table.numbered().filter(|(i, b)| goes(*i, b)).fold(0, |set, (i, _)| set | 1 << i);
    for identity in identities().filter(|identity| has(gone, *identity)) {
        table.deactivate(identity);
    }
    Ok(gone)
}

/// Shown active, and so is its default: "a default takes its connection [..] even where a dedicated one is shown active".
fn stays(shown: Identities, identity: u8, role: Role) -> bool {
    has(shown, identity) && connection_of(identity, role).is_some_and(|default| has(shown, default))
}

/// Compares by each bearer's own bit, and changes nothing.
pub fn compare(table: &Table, octets: &[u8]) -> Result<Comparison, u8> {
    let (network, here) = (shown(table, octets)?, active(table));
    Ok(Comparison { both: here & network, here: here & !network, network: network & !here })
}

#[cfg(test)]
mod tests {
    use super::*;
    use crate::calls;

    const FILTER: [u8; 6] = [0x21, 0x31, 0, 0x02, 0x30, 0x11];

    /// Defaults 5, 12 and 15; 6, 8 and 14 dedicated and linked to 12, 5 and 5; transactions open on some.
    fn table() -> Table {
        let mut table = Table::default();
        for default in [5, 12, 15] {
            calls::activate_default(&mut table, default);
        }
        for (bearer, link) in [(6, 12), (8, 5), (14, 5)] {
            let mut element = FILTER;
            element[2] = bearer;
            calls::activate_dedicated(&mut table, bearer, link, 0, &element);
        }
        for bearer in [5, 6, 14, 15] {
            calls::start(&mut table, 100 + bearer, bearer);
        }
        assert_eq!(active(&table), 1 << 5 | 1 << 6 | 1 << 8 | 1 << 12 | 1 << 14 | 1 << 15);
        table
    }

    fn values() -> impl Iterator<Item = [u8; 2]> {
        (0..=255).flat_map(|first| (0..=255).map(move |second| [first, second]))
    }

    /// By the text of the element: the bit of an identity in its octet.
    fn shows(value: [u8; 2], identity: u8) -> bool {
        let (octet, bit) = if identity < 8 { (value[0], identity + 1) } else { (value[1], identity - 7) };
        octet >> (bit - 1) & 1 == 1
    }

    #[test]
    fn synchronising_is_deactivating_each_bearer_shown_inactive() {
        for value in values() {
            let (mut by_call, mut by_trial) = (table(), table());
            for identity in identities().filter(|identity| !shows(value, *identity)) {
                by_trial.deactivate(identity);
            }
            let gone = synchronise(&mut by_call, &value);
            assert_eq!(by_call, by_trial, "{value:?}");
            assert_eq!(gone, Ok(active(&table()) & !active(&by_trial)), "{value:?}");
            assert!(by_call.is_well_formed(), "{value:?}");
        }
    }

    #[test]
    fn comparing_looks_at_each_bearer_alone() {
        let table = table();
        for value in values() {
            let among = |wanted: (bool, bool)| {
                let sides = |identity| (table.is_active(identity), shows(value, identity));
                identities().filter(|i| sides(*i) == wanted).fold(0, |set, i| set | 1 << i)
            };
            let (both, here, network) = (among((true, true)), among((true, false)), among((false, true)));
            assert_eq!(compare(&table, &value), Ok(Comparison { both, here, network }), "{value:?}");
        }
    }

    #[test]
    fn what_is_written_is_taken_without_a_change() {
        for value in values() {
            let mut table = table();
            synchronise(&mut table, &value).unwrap();
            let (before, mut own) = (table, [0; 2]);
            assert_eq!(write(&table, &mut own), Ok(2));
            assert!((0..16).all(|identity| shows(own, identity) == table.is_active(identity)));
            assert_eq!(synchronise(&mut table, &own), Ok(0));
            assert_eq!(table, before);
        }
    }

    fn is_refused(table: &Table, length: usize, number: u8) {
        let (mut after, octets) = (*table, vec![0; length]);
        assert_eq!(synchronise(&mut after, &octets), Err(number), "{length} octets");
        assert_eq!(compare(&after, &octets), Err(number), "{length} octets");
        assert_eq!(after, *table);
    }

    fn is_not_written(table: &Table, length: usize, number: u8) {
        let mut buffer = vec![0xEE; length];
        assert_eq!(write(table, &mut buffer), Err(number), "{length} octets");
        assert!(buffer.iter().all(|octet| *octet == 0xEE));
    }

    #[test]
    fn refusals_leave_the_table_and_the_buffer() {
        let (sound, mut broken) = (table(), table());
        broken.bearer_mut(7).unwrap().transaction = 1;
        for length in [0, 1, 2, 3, 512] {
            is_refused(&broken, length, NOT_WELL_FORMED);
            is_not_written(&broken, length, NOT_WELL_FORMED);
        }
        for length in [0, 1, 3, 4, 512] {
            is_refused(&sound, length, NOT_TWO_OCTETS);
        }
        for length in [0, 1] {
            is_not_written(&sound, length, BUFFER_TOO_SHORT);
        }
    }
}
