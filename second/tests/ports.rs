//! Ports count for TCP, UDP and SCTP and for no other of the 256 protocols, wherever it is asked.

use second::element::{read, write, Kind, Operation};
use second::filter::{Component, Filter, Header, Type};
use second::route::{route, Route};
use second::table::{Role, Table};

const DEFAULT: u8 = 5;
const DEDICATED: u8 = 6;
const IDENTIFIER: u8 = 1;

fn has_ports(protocol: u8) -> bool {
    [6, 17, 132].contains(&protocol)
}

/// One of each type of port, with the numbers of both ports that it agrees with: 7 here and 9 there.
const PORTS: [Component; 4] = [
    Component::LocalPort(7),
    Component::LocalRange { low: 6, high: 8 },
    Component::RemotePort(9),
    Component::RemoteRange { low: 9, high: 9 },
];

fn header(version: u8, protocol: u8, local_port: u16, remote_port: u16) -> Header {
    Header { version, protocol, local_port, remote_port, ..Header::default() }
}

fn filter(components: &[Component]) -> Filter {
    components.iter().fold(Filter::bare(10, 3), |filter, component| filter.with(component))
}

/// A create of that filter alone, in octets.
fn element(components: &[Component]) -> Vec<u8> {
    let value = |component: &Component| match *component {
        Component::Protocol(protocol) => vec![protocol],
        Component::LocalPort(port) | Component::RemotePort(port) => port.to_be_bytes().to_vec(),
        Component::LocalRange { low, high } | Component::RemoteRange { low, high } => {
            [low.to_be_bytes(), high.to_be_bytes()].concat()
        }
        Component::Index(index) => index.to_be_bytes().to_vec(),
        _ => panic!("not asked for here"),
    };
    let octets = |component: &Component| [vec![component.kind().octet()], value(component)].concat();
    let contents: Vec<u8> = components.iter().flat_map(octets).collect();
    [vec![0x21, 0x30 | IDENTIFIER, 10, contents.len() as u8], contents].concat()
}

fn composed(filter: Filter) -> Operation {
    let mut operation = Operation::new(Kind::Create);
    operation.row[usize::from(IDENTIFIER)] = filter;
    operation
}

/// A default without TFT and a dedicated bearer with that filter, put there unchecked.
fn table(filter: Filter) -> Table {
    let mut table = Table::default();
    table.bearer_mut(DEFAULT).unwrap().role = Role::Default;
    let dedicated = table.bearer_mut(DEDICATED).unwrap();
    dedicated.role = Role::Dedicated { link: DEFAULT };
    dedicated.row[usize::from(IDENTIFIER)] = filter;
    table.list_anew();
    table
}

/// The reader, the writer and the table's test agree on whether a packet fits, and give 44, 10 and 1 where none does.
fn is_fit_for_some_packet(components: &[Component], expected: bool) {
    let filter = filter(components);
    let reading = if expected { Ok(composed(filter)) } else { Err((44, 1)) };
    assert_eq!(filter.fits_some_packet(), expected, "{components:?}");
    let read = read(&element(components)).map_err(|refusal| (refusal.cause(), refusal.place));
    assert_eq!(read, reading, "{components:?}");
    assert_eq!(write(&composed(filter), &mut [0; 255]).err(), (!expected).then_some(10), "{components:?}");
    assert_eq!(table(filter).is_well_formed(), expected, "{components:?}");
}

/// Fit, and the route of the packet.
fn is_fit_for(components: &[Component], header: &Header, expected: bool) {
    let filter = filter(components);
    let bearer = if expected { DEDICATED } else { DEFAULT };
    assert_eq!(filter.fits(header), expected, "{components:?} {header:?}");
    assert_eq!(route(&table(filter), DEFAULT, header), Route::Bearer(bearer), "{components:?} {header:?}");
}

#[test]
fn a_port_beside_a_protocol_is_44_but_for_the_three() {
    for protocol in 0..=255 {
        for port in PORTS {
            is_fit_for_some_packet(&[Component::Protocol(protocol), port], has_ports(protocol));
            is_fit_for_some_packet(&[port, Component::Protocol(protocol)], has_ports(protocol));
        }
        for (local, remote) in [(0, 2), (0, 3), (1, 2), (1, 3)] {
            let both = [Component::Protocol(protocol), PORTS[local], PORTS[remote]];
            is_fit_for_some_packet(&both, has_ports(protocol));
        }
    }
}

#[test]
fn a_reversed_range_is_44_beside_every_protocol() {
    for protocol in 0..=255 {
        for reversed in
            [Component::LocalRange { low: 8, high: 7 }, Component::RemoteRange { low: 65535, high: 0 }]
        {
            is_fit_for_some_packet(&[Component::Protocol(protocol), reversed], false);
        }
    }
}

#[test]
fn an_index_beside_a_protocol_is_as_ever() {
    for protocol in 0..=255 {
        let index = [Component::Protocol(protocol), Component::Index(3)];
        is_fit_for_some_packet(&index, matches!(protocol, 50 | 51));
        for port in PORTS {
            is_fit_for_some_packet(&[Component::Protocol(protocol), Component::Index(3), port], false);
            is_fit_for_some_packet(&[Component::Index(3), port], false);
        }
    }
}

#[test]
fn a_port_without_protocol_fits_packets_of_the_three() {
    for protocol in 0..=255 {
        for (version, port) in [4, 6].into_iter().flat_map(|version| PORTS.map(|port| (version, port))) {
            let local = matches!(port.kind(), Type::LocalPort | Type::LocalRange);
            is_fit_for(&[port], &header(version, protocol, 7, 9), has_ports(protocol));
            is_fit_for(&[port], &header(version, protocol, 7, 10), local && has_ports(protocol));
            is_fit_for(&[port], &header(version, protocol, 9, 9), !local && has_ports(protocol));
            is_fit_for(&[port], &header(version, protocol, 9, 7), false);
        }
    }
}

#[test]
fn both_ports_are_looked_at_beside_each_of_the_three() {
    for protocol in [6, 17, 132] {
        for of_packet in 0..=255 {
            for (local, remote) in [(0, 2), (0, 3), (1, 2), (1, 3)] {
                let filter = [Component::Protocol(protocol), PORTS[local], PORTS[remote]];
                for version in [4, 6] {
                    is_fit_for(&filter, &header(version, of_packet, 7, 9), of_packet == protocol);
                    is_fit_for(&filter, &header(version, of_packet, 7, 8), false);
                    is_fit_for(&filter, &header(version, of_packet, 9, 9), false);
                }
            }
        }
    }
}

/// "every other held filter fits what it fitted before": ports are not looked at where the filter has none.
#[test]
fn a_protocol_without_ports_fits_that_protocol_whatever_the_ports() {
    for protocol in 0..=255 {
        let filter = [Component::Protocol(protocol)];
        is_fit_for_some_packet(&filter, true);
        for of_packet in 0..=255 {
            is_fit_for(&filter, &header(4, of_packet, 7, 9), of_packet == protocol);
            is_fit_for(&filter, &header(6, of_packet, 0, 65535), of_packet == protocol);
        }
    }
}
