//! Packet filters, their components, and when a filter fits a packet.

use std::iter::successors;

pub const LARGEST_LABEL: u32 = 1_048_575;
pub const LARGEST_DIRECTION: u8 = 3;
pub const DOWNLINK_ONLY: u8 = 1;

/// The ten component types, in rising type.
#[derive(Clone, Copy, PartialEq, Eq, Debug)]
pub enum Type {
    Remote4,
    Remote6,
    Protocol,
    LocalPort,
    LocalRange,
    RemotePort,
    RemoteRange,
    Index,
    Class,
    Label,
}

pub const TYPES: [Type; 10] = [
    Type::Remote4,
    Type::Remote6,
    Type::Protocol,
    Type::LocalPort,
    Type::LocalRange,
    Type::RemotePort,
    Type::RemoteRange,
    Type::Index,
    Type::Class,
    Type::Label,
];

impl Type {
    pub fn of_octet(octet: u8) -> Option<Type> {
        match octet {
            0x10 => Some(Type::Remote4),
            0x20 => Some(Type::Remote6),
            0x30 => Some(Type::Protocol),
            0x40 => Some(Type::LocalPort),
            0x41 => Some(Type::LocalRange),
            0x50 => Some(Type::RemotePort),
            0x51 => Some(Type::RemoteRange),
            0x60 => Some(Type::Index),
            0x70 => Some(Type::Class),
            0x80 => Some(Type::Label),
            _ => None,
        }
    }

    pub fn octet(self) -> u8 {
        match self {
            Type::Remote4 => 0x10,
            Type::Remote6 => 0x20,
            Type::Protocol => 0x30,
            Type::LocalPort => 0x40,
            Type::LocalRange => 0x41,
            Type::RemotePort => 0x50,
            Type::RemoteRange => 0x51,
            Type::Index => 0x60,
            Type::Class => 0x70,
            Type::Label => 0x80,
        }
    }

    /// How many octets the value of a component of this type has.
    pub fn length(self) -> usize {
        match self {
            Type::Remote4 => 8,
            Type::Remote6 => 32,
            Type::Protocol => 1,
            Type::LocalPort | Type::RemotePort => 2,
            Type::LocalRange | Type::RemoteRange => 4,
            Type::Index => 4,
            Type::Class => 2,
            Type::Label => 3,
        }
    }

    fn bit(self) -> u16 {
        1 << self as u16
    }

    /// The types that may not be held already when one of this type is added: itself and the other of its pair.
    fn barred_by(self) -> u16 {
        match self {
            Type::Remote4 | Type::Remote6 => Type::Remote4.bit() | Type::Remote6.bit(),
            Type::LocalPort | Type::LocalRange => Type::LocalPort.bit() | Type::LocalRange.bit(),
            Type::RemotePort | Type::RemoteRange => Type::RemotePort.bit() | Type::RemoteRange.bit(),
            Type::Protocol | Type::Index | Type::Class | Type::Label => self.bit(),
        }
    }
}

#[derive(Clone, Copy, PartialEq, Eq, Debug)]
pub enum Component {
    Remote4 { address: [u8; 4], mask: [u8; 4] },
    Remote6 { address: [u8; 16], mask: [u8; 16] },
    Protocol(u8),
    LocalPort(u16),
    LocalRange { low: u16, high: u16 },
    RemotePort(u16),
    RemoteRange { low: u16, high: u16 },
    Index(u32),
    Class { class: u8, mask: u8 },
    Label(u32),
}

impl Component {
    pub fn kind(&self) -> Type {
        match self {
            Component::Remote4 { .. } => Type::Remote4,
            Component::Remote6 { .. } => Type::Remote6,
            Component::Protocol(_) => Type::Protocol,
            Component::LocalPort(_) => Type::LocalPort,
            Component::LocalRange { .. } => Type::LocalRange,
            Component::RemotePort(_) => Type::RemotePort,
            Component::RemoteRange { .. } => Type::RemoteRange,
            Component::Index(_) => Type::Index,
            Component::Class { .. } => Type::Class,
            Component::Label(_) => Type::Label,
        }
    }
}

/// A packet's header as far as filters look at it. A version 4 address is the first four octets.
#[derive(Clone, Copy, PartialEq, Eq, Debug, Default)]
pub struct Header {
    pub version: u8,
    pub address: [u8; 16],
    pub protocol: u8,
    pub local_port: u16,
    pub remote_port: u16,
    pub index: u32,
    pub class: u8,
    pub label: u32,
}

impl Header {
    pub fn is_valid(&self) -> bool {
        self.version == 4 || (self.version == 6 && self.label <= LARGEST_LABEL)
    }
}

pub const TCP: u8 = 6;
pub const UDP: u8 = 17;
pub const SCTP: u8 = 132;

/// The one place that says which protocols have ports: fit, cause 44, the writer, the table's test and the routes all ask here.
fn ports_count(protocol: u8) -> bool {
    matches!(protocol, TCP | UDP | SCTP)
}

fn index_counts(protocol: u8) -> bool {
    protocol == 50 || protocol == 51
}

#[derive(Clone, Copy, PartialEq, Eq, Debug, Default)]
struct Range {
    low: u16,
    high: u16,
}

impl Range {
    fn only(port: u16) -> Range {
        Range { low: port, high: port }
    }

    fn has(self, port: u16) -> bool {
        self.low <= port && port <= self.high
    }

    fn is_empty(self) -> bool {
        self.low > self.high
    }
}

/// A filter, or an empty place of a row: no component, precedence 0 and direction 0. `held` has a bit for each type held, and
/// the fields of types not held are zero. A port is held as the range of that port alone.
#[derive(Clone, Copy, PartialEq, Eq, Debug, Default)]
pub struct Filter {
    held: u16,
    pub precedence: u8,
    pub direction: u8,
    protocol: u8,
    class: u8,
    class_mask: u8,
    local: Range,
    remote: Range,
    index: u32,
    label: u32,
    address: [u8; 16],
    mask: [u8; 16],
}

impl Filter {
    pub fn bare(precedence: u8, direction: u8) -> Filter {
        Filter { precedence, direction, ..Filter::default() }
    }

    pub fn holds(&self, kind: Type) -> bool {
        self.held & kind.bit() != 0
    }

    pub fn has_component(&self) -> bool {
        self.held != 0
    }

    pub fn is_nothing(&self) -> bool {
        !self.has_component() && self.precedence == 0 && self.direction == 0
    }

    /// "Uplink filters have direction 0, 2 or 3": no other, also where a table by hand has one.
    pub fn is_uplink(&self) -> bool {
        self.direction != DOWNLINK_ONLY && self.direction <= LARGEST_DIRECTION
    }

    /// "it comes back unchanged where the type is held already, is excluded by one held, or is a flow label above 1048575"
    pub fn takes(&self, component: &Component) -> bool {
        let too_large = matches!(component, Component::Label(label) if *label > LARGEST_LABEL);
        !too_large && self.held & component.kind().barred_by() == 0
    }

    pub fn with(mut self, component: &Component) -> Filter {
        if self.takes(component) {
            self.put(component);
        }
        self
    }

    fn put(&mut self, component: &Component) {
        self.held |= component.kind().bit();
        match *component {
            Component::Remote4 { address, mask } => {
                self.address[..4].copy_from_slice(&address);
                self.mask[..4].copy_from_slice(&mask);
            }
            Component::Remote6 { address, mask } => {
                self.address = address;
                self.mask = mask;
            }
            Component::Protocol(protocol) => self.protocol = protocol,
            Component::LocalPort(port) => self.local = Range::only(port),
            Component::LocalRange { low, high } => self.local = Range { low, high },
            Component::RemotePort(port) => self.remote = Range::only(port),
            Component::RemoteRange { low, high } => self.remote = Range { low, high },
            Component::Index(index) => self.index = index,
            Component::Class { class, mask } => {
                self.class = class;
                self.class_mask = mask;
            }
            Component::Label(label) => self.label = label,
        }
    }

    /// The components held, in rising type.
    pub fn components(&self) -> impl Iterator<Item = Component> + '_ {
        TYPES.into_iter().filter(|kind| self.holds(*kind)).map(|kind| self.component(kind))
    }

    fn component(&self, kind: Type) -> Component {
        let Range { low, high } =
            if matches!(kind, Type::LocalPort | Type::LocalRange) { self.local } else { self.remote };
        match kind {
            Type::Remote4 => {
                Component::Remote4 { address: first_four(&self.address), mask: first_four(&self.mask) }
            }
            Type::Remote6 => Component::Remote6 { address: self.address, mask: self.mask },
            Type::Protocol => Component::Protocol(self.protocol),
            Type::LocalPort => Component::LocalPort(low),
            Type::LocalRange => Component::LocalRange { low, high },
            Type::RemotePort => Component::RemotePort(low),
            Type::RemoteRange => Component::RemoteRange { low, high },
            Type::Index => Component::Index(self.index),
            Type::Class => Component::Class { class: self.class, mask: self.class_mask },
            Type::Label => Component::Label(self.label),
        }
    }

    /// "A filter fits if every component agrees."
    pub fn fits(&self, header: &Header) -> bool {
        self.protocol_agrees(header)
            && self.ports_agree(header)
            && self.address_agrees(header)
            && self.index_agrees(header)
            && self.class_agrees(header)
            && self.label_agrees(header)
    }

    fn address_agrees(&self, header: &Header) -> bool {
        let four =
            !self.holds(Type::Remote4) || (header.version == 4 && self.agrees_under_mask(&header.address, 4));
        let six = !self.holds(Type::Remote6)
            || (header.version == 6 && self.agrees_under_mask(&header.address, 16));
        four && six
    }

    fn agrees_under_mask(&self, address: &[u8; 16], octets: usize) -> bool {
        (0..octets).all(|i| (address[i] ^ self.address[i]) & self.mask[i] == 0)
    }

    fn protocol_agrees(&self, header: &Header) -> bool {
        !self.holds(Type::Protocol) || self.protocol == header.protocol
    }

    fn ports_agree(&self, header: &Header) -> bool {
        (!self.holds_local() || (ports_count(header.protocol) && self.local.has(header.local_port)))
            && (!self.holds_remote() || (ports_count(header.protocol) && self.remote.has(header.remote_port)))
    }

    fn holds_local(&self) -> bool {
        self.holds(Type::LocalPort) || self.holds(Type::LocalRange)
    }

    fn holds_remote(&self) -> bool {
        self.holds(Type::RemotePort) || self.holds(Type::RemoteRange)
    }

    pub fn holds_ports(&self) -> bool {
        self.holds_local() || self.holds_remote()
    }

    fn index_agrees(&self, header: &Header) -> bool {
        !self.holds(Type::Index) || (index_counts(header.protocol) && self.index == header.index)
    }

    fn class_agrees(&self, header: &Header) -> bool {
        !self.holds(Type::Class) || (header.class ^ self.class) & self.class_mask == 0
    }

    fn label_agrees(&self, header: &Header) -> bool {
        !self.holds(Type::Label) || (header.version == 6 && self.label == header.label)
    }

    /// "fits some packet": some version, some protocol and some ports are left by what the components ask for. A masked field
    /// and a single number are always met by the value itself.
    pub fn fits_some_packet(&self) -> bool {
        self.some_version_agrees() && self.some_protocol_agrees() && self.some_ports_agree()
    }

    fn some_version_agrees(&self) -> bool {
        let only_four = self.holds(Type::Remote4);
        let only_six = self.holds(Type::Remote6) || self.holds(Type::Label);
        !(only_four && only_six)
    }

    fn some_protocol_agrees(&self) -> bool {
        let ports = self.holds_ports();
        let index = self.holds(Type::Index);
        if self.holds(Type::Protocol) {
            (!ports || ports_count(self.protocol)) && (!index || index_counts(self.protocol))
        } else {
            !(ports && index)
        }
    }

    fn some_ports_agree(&self) -> bool {
        !self.local.is_empty() && !self.remote.is_empty()
    }

    /// Whether the reader could give this filter: well coded, and some packet fits it.
    pub fn is_sound(&self) -> bool {
        self.has_component()
            && self.direction <= LARGEST_DIRECTION
            && self.label <= LARGEST_LABEL
            && self.fits_some_packet()
    }
}

fn first_four(octets: &[u8; 16]) -> [u8; 4] {
    [octets[0], octets[1], octets[2], octets[3]]
}

pub const PLACES: usize = 16;
pub type Row = [Filter; PLACES];

pub fn row_is_empty(row: &Row) -> bool {
    row.iter().all(Filter::is_nothing)
}

/// A set of numbers 0 to 255.
#[derive(Clone, Copy, PartialEq, Eq, Debug, Default)]
pub struct Octets256([u64; 4]);

impl Octets256 {
    pub fn has(&self, number: u8) -> bool {
        self.0[usize::from(number >> 6)] >> (number & 63) & 1 == 1
    }

    /// Adds the number and says whether it is new.
    pub fn add(&mut self, number: u8) -> bool {
        let new = !self.has(number);
        self.0[usize::from(number >> 6)] |= 1 << (number & 63);
        new
    }

    pub fn remove(&mut self, number: u8) {
        self.0[usize::from(number >> 6)] &= !(1 << (number & 63));
    }

    pub fn is_within(&self, other: &Octets256) -> bool {
        self.0.iter().zip(other.0).all(|(own, others)| own & !others == 0)
    }

    /// Rising.
    pub fn numbers(&self) -> impl Iterator<Item = u8> + '_ {
        (0..4).flat_map(|word| bits(self.0[usize::from(word)]).map(move |bit| word << 6 | bit))
    }
}

/// The positions of the bits that are 1, rising.
fn bits(word: u64) -> impl Iterator<Item = u8> {
    let without_lowest = |left: &u64| Some(left & left.wrapping_sub(1));
    let left = successors(Some(word), without_lowest).take_while(|left| *left != 0);
    left.map(|left| left.trailing_zeros() as u8)
}

#[cfg(test)]
mod tests {
    use super::*;

    fn samples() -> Vec<Component> {
        vec![
            Component::Remote4 { address: [192, 0, 2, 1], mask: [255, 255, 255, 0] },
            Component::Remote6 { address: [7; 16], mask: [0xF0; 16] },
            Component::Protocol(6),
            Component::Protocol(132),
            Component::Protocol(51),
            Component::Protocol(1),
            Component::LocalPort(80),
            Component::LocalRange { low: 2, high: 1 },
            Component::LocalRange { low: 1, high: 2 },
            Component::RemotePort(0),
            Component::RemoteRange { low: 65535, high: 65535 },
            Component::RemoteRange { low: 9, high: 8 },
            Component::Index(77),
            Component::Class { class: 0xB8, mask: 0xFC },
            Component::Label(LARGEST_LABEL),
            Component::Label(LARGEST_LABEL + 1),
        ]
    }

    /// Tries the headers that are as close to the filter as a header can be, over both versions and all protocols.
    fn some_header_fits(filter: &Filter) -> bool {
        let close = |version: u8, protocol: u8| Header {
            version,
            address: filter.address,
            protocol,
            local_port: filter.local.low,
            remote_port: filter.remote.low,
            index: filter.index,
            class: filter.class,
            label: filter.label,
        };
        [4, 6].into_iter().any(|v| (0..=255).any(|p| filter.fits(&close(v, p))))
    }

    #[test]
    fn fits_some_packet_is_as_by_trial() {
        let samples = samples();
        for choice in 0..1u32 << samples.len() {
            let chosen = samples.iter().enumerate().filter(|(i, _)| choice >> i & 1 == 1);
            let filter = chosen.fold(Filter::default(), |f, (_, c)| f.with(c));
            assert_eq!(filter.fits_some_packet(), some_header_fits(&filter), "{filter:?}");
        }
    }

    #[test]
    fn a_type_is_known_by_its_octet_alone() {
        for octet in 0..=255 {
            let known = TYPES.into_iter().find(|kind| kind.octet() == octet);
            assert_eq!(Type::of_octet(octet), known);
        }
    }

    #[test]
    fn held_and_excluded_types_are_left_out() {
        let port = Filter::bare(1, 3).with(&Component::LocalPort(5));
        assert_eq!(port, port.with(&Component::LocalPort(6)));
        assert_eq!(port, port.with(&Component::LocalRange { low: 1, high: 2 }));
        assert_eq!(port, port.with(&Component::Label(LARGEST_LABEL + 1)));
        assert_ne!(port, port.with(&Component::Label(LARGEST_LABEL)));
    }

    #[test]
    fn components_come_back_as_they_were_put_in() {
        for component in samples().into_iter().filter(|c| *c != Component::Label(1 << 20)) {
            let filter = Filter::bare(0, 0).with(&component);
            assert_eq!(filter.components().collect::<Vec<_>>(), vec![component]);
        }
    }
}
