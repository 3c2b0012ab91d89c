//! Filters with ports and packets that have them: of TCP, UDP and SCTP, and of protocols whose number is near SCTP's.

use super::elements::{port, remote4, remote6};
use crate::filter::{Component, SCTP, TCP, UDP};
use crate::random::Random;

/// On either side of SCTP, and UDP-Lite, which has ports of its own that don't count.
const NEAR_SCTP: [u8; 3] = [131, 133, 136];

pub fn near_sctp(random: &mut Random) -> u8 {
    random.pick(&NEAR_SCTP)
}

/// Of a packet.
pub fn protocol(random: &mut Random) -> u8 {
    let near = near_sctp(random);
    random.pick(&[TCP, UDP, TCP, UDP, SCTP, SCTP, SCTP, near, near, 50, 51, 1])
}

/// A port or a range on one side or on both, beside a protocol that has them or beside none. Some packet fits.
pub fn fit_ports(random: &mut Random) -> Vec<Component> {
    let mut components = ports(random);
    match random.below(8) {
        0 | 1 => {}
        2 => components.push(Component::Protocol(random.pick(&[TCP, UDP]))),
        _ => components.push(Component::Protocol(SCTP)),
    }
    match random.below(8) {
        0 => components.push(remote4(random)),
        1 => components.push(remote6(random)),
        2 => components.push(Component::Class { class: 184, mask: random.pick(&[0, 0xFC]) }),
        _ => {}
    }
    random.shuffle(&mut components);
    components
}

/// The same beside a protocol that has none, or beside an index; or what SCTP hasn't. No packet fits.
pub fn unfit_ports(random: &mut Random) -> Vec<Component> {
    let mut components = match random.below(8) {
        0 => vec![Component::RemoteRange { low: 5061, high: 5060 }, Component::Protocol(SCTP)],
        1 => vec![Component::LocalRange { low: 65535, high: 0 }, Component::Protocol(SCTP)],
        2 => vec![Component::Index(7), Component::Protocol(SCTP)],
        3 => [ports(random), vec![Component::Index(7), Component::Protocol(SCTP)]].concat(),
        _ => [ports(random), vec![Component::Protocol(near_sctp(random))]].concat(),
    };
    random.shuffle(&mut components);
    components
}

fn ports(random: &mut Random) -> Vec<Component> {
    match random.below(5) {
        0 | 1 => vec![local(random)],
        2 | 3 => vec![remote(random)],
        _ => vec![local(random), remote(random)],
    }
}

fn local(random: &mut Random) -> Component {
    let (low, high) = rising(random);
    random.pick(&[Component::LocalPort(low), Component::LocalPort(high), Component::LocalRange { low, high }])
}

fn remote(random: &mut Random) -> Component {
    let (low, high) = rising(random);
    random.pick(&[
        Component::RemotePort(low),
        Component::RemotePort(high),
        Component::RemoteRange { low, high },
    ])
}

fn rising(random: &mut Random) -> (u16, u16) {
    let (one, other) = (port(random), port(random));
    (one.min(other), one.max(other))
}

#[cfg(test)]
mod tests {
    use super::super::script;
    use super::{NEAR_SCTP, SCTP};
    use crate::element::{read, write, Operation};
    use crate::filter::{Component, Filter, Header, Type};
    use crate::lines::LONGEST_LINE;
    use crate::route::route;
    use crate::script::{asked, Asked, Call};
    use crate::session::Session;
    use crate::table::{identities, Table};
    use std::collections::BTreeMap;

    const LEAST: usize = 3;

    /// SCTP made one near it, or one near it made SCTP. Other protocols stay.
    #[derive(Clone, Copy, PartialEq, Eq, PartialOrd, Ord, Debug)]
    enum Swap {
        FromSctp,
        ToSctp,
    }

    impl Swap {
        fn protocol(self, protocol: u8) -> u8 {
            match self {
                Swap::FromSctp if protocol == SCTP => NEAR_SCTP[2],
                Swap::ToSctp if NEAR_SCTP.contains(&protocol) => SCTP,
                _ => protocol,
            }
        }

        fn filter(self, filter: &Filter) -> Filter {
            let swapped = |component| match component {
                Component::Protocol(protocol) => Component::Protocol(self.protocol(protocol)),
                other => other,
            };
            let bare = Filter::bare(filter.precedence, filter.direction);
            filter.components().fold(bare, |filter, component| filter.with(&swapped(component)))
        }

        /// Every octet after one that reads as the type of a protocol, so also some that are none.
        fn octets(self, octets: &[u8]) -> Vec<u8> {
            let mut swapped = octets.to_vec();
            for at in (1..octets.len()).filter(|at| octets[at - 1] == Type::Protocol.octet()) {
                swapped[at] = self.protocol(octets[at]);
            }
            swapped
        }

        fn operation(self, operation: &Operation) -> Operation {
            Operation { row: operation.row.map(|filter| self.filter(&filter)), ..*operation }
        }

        fn table(self, table: &Table) -> Table {
            let mut swapped = *table;
            for identity in identities() {
                let row = &mut swapped.bearer_mut(identity).unwrap().row;
                *row = row.map(|filter| self.filter(&filter));
            }
            swapped.list_anew();
            swapped
        }

        fn header(self, header: &Header) -> Header {
            Header { protocol: self.protocol(header.protocol), ..*header }
        }
    }

    /// Where a call gives another outcome for the number of a protocol alone.
    #[derive(Default)]
    struct Watch {
        session: Session,
        seen: BTreeMap<(&'static str, Swap), usize>,
    }

    impl Watch {
        fn see(&mut self, place: &'static str, differs: impl Fn(&Session, Swap) -> bool) {
            for swap in [Swap::FromSctp, Swap::ToSctp] {
                let times = usize::from(differs(&self.session, swap));
                *self.seen.entry((place, swap)).or_default() += times;
            }
        }

        fn line(&mut self, number: usize, line: &[u8]) {
            let portions = self.session.portions;
            match asked(line) {
                Asked::Call { call: Call::Element { value } | Call::Rewrite { value, .. }, .. } => {
                    self.element("read", value.slice(&portions));
                }
                Asked::Call { call: Call::Modify { value, .. } | Call::Dedicated { value, .. }, .. } => {
                    self.element("on the table", value.slice(&portions));
                }
                Asked::Call { call: Call::Emit { .. }, .. } => self.see("written", |session, swap| {
                    let refused = |operation| write(&operation, &mut [0; 255]) == Err(10);
                    session.composed.is_some_and(|o| refused(o) != refused(swap.operation(&o)))
                }),
                Asked::Call { call: Call::Route { default, header }, .. } => {
                    self.see("routed", |session, swap| {
                        let routed = |header| route(&session.table, default, &header);
                        routed(header) != routed(swap.header(&header))
                    })
                }
                _ => {}
            }
            let placed = matches!(asked(line), Asked::Call { call: Call::Place { .. }, .. });
            self.session.do_line(number as u64, line, line.len() > LONGEST_LINE, &mut Vec::new());
            if placed {
                self.see("held", |session, swap| {
                    session.table.is_well_formed() != swap.table(&session.table).is_well_formed()
                });
            }
        }

        fn element(&mut self, place: &'static str, octets: &[u8]) {
            let is_unfit = |octets: &[u8]| read(octets).is_err_and(|refusal| refusal.cause() == 44);
            self.see(place, |_, swap| is_unfit(octets) != is_unfit(&swap.octets(octets)));
        }
    }

    #[test]
    fn sctp_and_protocols_near_it_make_a_difference_everywhere() {
        for seed in [0, 1, 20260401] {
            let mut watch = Watch::default();
            for (number, line) in script(seed, 25_100).split(|octet| *octet == b'\n').enumerate() {
                watch.line(number, line.strip_suffix(b"\r").unwrap_or(line));
            }
            assert_eq!(watch.seen.len(), 10);
            assert!(watch.seen.values().all(|times| *times >= LEAST), "seed {seed}: {:?}", watch.seen);
        }
    }
}
