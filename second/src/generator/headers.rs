//! Headers that fit a filter, or miss it by little.

use super::elements::hex;
use super::ports;
use super::rubbish::bad_address;
use crate::filter::{Component, Filter, Header, SCTP};
use crate::random::Random;

pub fn words(random: &mut Random, header: &Header) -> String {
    format!(
        "{} {} {} {} {} {} {} {}",
        header.version,
        address(random, header),
        header.protocol,
        header.local_port,
        header.remote_port,
        header.index,
        header.class,
        header.label
    )
}

/// Often dotted for version 4, where the first four octets say it all, and now and then for the others.
fn address(random: &mut Random, header: &Header) -> String {
    let dotted_in = if header.version == 4 { 2 } else { 5 };
    if random.one_in(40) {
        bad_address(random)
    } else if random.one_in(dotted_in) {
        dotted(random, &header.address[..4])
    } else {
        hex(&header.address)
    }
}

/// Each number in one to three digits, some with leading zeros.
fn dotted(random: &mut Random, octets: &[u8]) -> String {
    let part = |octet: &u8| match random.below(6) {
        0 => format!("{octet:02}"),
        1 => format!("{octet:03}"),
        _ => octet.to_string(),
    };
    octets.iter().map(part).collect::<Vec<_>>().join(".")
}

pub fn close_to(random: &mut Random, filter: &Filter) -> Header {
    let mut header = any_header(random);
    for component in filter.components() {
        agree(random, &mut header, &component);
    }
    if random.one_in(3) {
        disturb(random, &mut header);
    }
    header
}

fn any_header(random: &mut Random) -> Header {
    let any = random.number();
    Header {
        version: random.pick(&[4, 4, 4, 6, 6]),
        address: std::array::from_fn(|_| random.octet()),
        protocol: ports::protocol(random),
        local_port: random.pick(&[0, 80, 443, 65535, any as u16]),
        remote_port: random.pick(&[0, 53, 443, 5060, 5061, any as u16]),
        index: random.pick(&[0, 1, 77, u32::MAX]),
        class: random.pick(&[0, 184, any as u8]),
        label: random.pick(&[0, 1, 7, 1_048_575, 1_048_574]),
    }
}

fn agree(random: &mut Random, header: &mut Header, component: &Component) {
    match *component {
        Component::Remote4 { address, mask } => {
            header.version = 4;
            for i in 0..4 {
                header.address[i] = address[i] & mask[i] | header.address[i] & !mask[i];
            }
        }
        Component::Remote6 { address, mask } => {
            header.version = 6;
            for i in 0..16 {
                header.address[i] = address[i] & mask[i] | header.address[i] & !mask[i];
            }
        }
        Component::Protocol(protocol) => header.protocol = protocol,
        Component::LocalPort(port) => header.local_port = port,
        Component::LocalRange { low, high } => header.local_port = random.pick(&[low, high]),
        Component::RemotePort(port) => header.remote_port = port,
        Component::RemoteRange { low, high } => header.remote_port = random.pick(&[low, high]),
        Component::Index(index) => header.index = index,
        Component::Class { class, mask } => header.class = class & mask | header.class & !mask,
        Component::Label(label) => {
            header.version = 6;
            header.label = label;
        }
    }
}

fn disturb(random: &mut Random, header: &mut Header) {
    let (near_sctp, any) = (ports::near_sctp(random), random.octet());
    match random.below(9) {
        0 => header.version = random.pick(&[4, 6, 5, 0, 255]),
        1 | 2 => header.address[random.below(16)] ^= 1 << random.below(8),
        3 => header.protocol = random.pick(&[SCTP, near_sctp, any, any]),
        4 => header.local_port = header.local_port.wrapping_add(random.pick(&[1, 65535])),
        5 => header.remote_port = header.remote_port.wrapping_add(random.pick(&[1, 65535])),
        6 => header.index = header.index.wrapping_add(1),
        7 => header.class ^= 1 << random.below(8),
        _ => header.label = random.pick(&[1_048_576, u32::MAX, header.label.wrapping_add(1)]),
    }
}
