//! Elements: sound ones, ones that are almost so, and ones that were damaged on the way.

use super::{ports, Generator};
use crate::element::{filters_in, Kind, LARGEST_COUNT};
use crate::filter::{Component, Filter, LARGEST_LABEL, SCTP};
use crate::random::Random;
use crate::table::{connection_of, Role};

pub fn hex(octets: &[u8]) -> String {
    if octets.is_empty() {
        return "-".to_string();
    }
    octets.iter().map(|octet| format!("{octet:02X}")).collect()
}

/// `TYPE HEX` for each component, a label as four octets.
pub fn component_words(components: &[Component]) -> String {
    let words = |component: &Component| {
        let value = match component {
            Component::Label(label) => label.to_be_bytes().to_vec(),
            _ => value(component),
        };
        format!("{:02X} {}", component.kind().octet(), hex(&value))
    };
    components.iter().map(words).collect::<Vec<_>>().join(" ")
}

fn value(component: &Component) -> Vec<u8> {
    match *component {
        Component::Remote4 { address, mask } => [address, mask].concat(),
        Component::Remote6 { address, mask } => [address, mask].concat(),
        Component::Protocol(protocol) => vec![protocol],
        Component::LocalPort(port) | Component::RemotePort(port) => port.to_be_bytes().to_vec(),
        Component::LocalRange { low, high } | Component::RemoteRange { low, high } => {
            [low.to_be_bytes(), high.to_be_bytes()].concat()
        }
        Component::Index(index) => index.to_be_bytes().to_vec(),
        Component::Class { class, mask } => vec![class, mask],
        Component::Label(label) => label.to_be_bytes()[1..].to_vec(),
    }
}

pub fn contents(components: &[Component]) -> Vec<u8> {
    components.iter().flat_map(|c| [vec![c.kind().octet()], value(c)].concat()).collect()
}

pub fn port(random: &mut Random) -> u16 {
    let any = random.number() as u16;
    random.pick(&[0, 1, 53, 80, 443, 443, 5060, 5060, 5061, 65534, 65535, any])
}

fn range(random: &mut Random) -> (u16, u16) {
    let (one, other) = (port(random), port(random));
    if random.one_in(12) {
        (one.max(other), one.min(other))
    } else {
        (one.min(other), one.max(other))
    }
}

fn mask(random: &mut Random, octets: usize) -> Vec<u8> {
    let any = random.octet();
    let edge = random.pick(&[0xFF, 0x00, 0xF0, 0x01, 0xFC, any]);
    let whole = random.below(octets + 1);
    let octet = |i: usize| match i.cmp(&whole) {
        std::cmp::Ordering::Less => 0xFF,
        std::cmp::Ordering::Equal => edge,
        std::cmp::Ordering::Greater => 0,
    };
    (0..octets).map(octet).collect()
}

pub fn remote4(random: &mut Random) -> Component {
    let address = random.pick(&[[192, 0, 2, 1], [192, 0, 2, 77], [198, 51, 100, 9], [0; 4], [255; 4]]);
    Component::Remote4 { address, mask: mask(random, 4).try_into().unwrap() }
}

pub fn remote6(random: &mut Random) -> Component {
    let mut address = [0x20, 1, 0x0D, 0xB8, 0, 0, 0, 0, 0, 0, 0, 0, 0, 0, 0, random.below(3) as u8];
    address[random.below(16)] ^= random.pick(&[0, 0, 1, 0x80]);
    Component::Remote6 { address, mask: mask(random, 16).try_into().unwrap() }
}

fn label(random: &mut Random) -> u32 {
    let any = random.number() as u32 & LARGEST_LABEL;
    random.pick(&[0, 1, 7, LARGEST_LABEL, LARGEST_LABEL - 1, any])
}

fn any_component(random: &mut Random) -> Component {
    let any = random.number();
    let (near_sctp, (low, high)) = (ports::near_sctp(random), range(random));
    let protocols = [6, 17, 6, 17, 50, 51, 1, 0, 255, SCTP, SCTP, near_sctp, any as u8];
    match random.below(11) {
        0 | 1 => remote4(random),
        2 => remote6(random),
        3 | 4 => Component::Protocol(random.pick(&protocols)),
        5 => Component::LocalPort(port(random)),
        6 => Component::LocalRange { low, high },
        7 => Component::RemotePort(port(random)),
        8 => Component::RemoteRange { low, high },
        9 => Component::Index(random.pick(&[0, 1, 77, u32::MAX, any as u32])),
        _ if random.one_in(2) => {
            Component::Class { class: random.pick(&[0, 184, any as u8]), mask: mask(random, 1)[0] }
        }
        _ => Component::Label(if random.one_in(15) { LARGEST_LABEL + 1 } else { label(random) }),
    }
}

/// Up to six, types repeated and excluded as it comes.
pub fn any_components(random: &mut Random) -> Vec<Component> {
    (0..random.below(7)).map(|_| any_component(random)).collect()
}

/// Components of a filter that is well coded and fits some packet, in any order.
pub fn sound_components(random: &mut Random) -> Vec<Component> {
    if random.one_in(6) {
        return ports::fit_ports(random);
    }
    loop {
        let tried: Vec<Component> = (0..1 + random.below(4)).map(|_| any_component(random)).collect();
        let filter = tried.iter().fold(Filter::default(), |filter, c| filter.with(c));
        let mut held: Vec<Component> = filter.components().collect();
        if filter.is_sound() {
            random.shuffle(&mut held);
            return held;
        }
    }
}

/// Well coded, and no packet fits.
pub fn unfit_components(random: &mut Random) -> Vec<Component> {
    if random.one_in(2) {
        return ports::unfit_ports(random);
    }
    let (here, there) = (port(random), port(random));
    let (low, high) = (here.min(there), here.max(there));
    match random.below(5) {
        0 => vec![Component::Protocol(random.pick(&[1, 50, 0])), Component::RemotePort(here)],
        1 => vec![Component::Index(7), Component::LocalPort(there)],
        2 if low < high => vec![Component::RemoteRange { low: high, high: low }],
        3 => vec![remote4(random), Component::Label(label(random))],
        _ => vec![Component::Protocol(17), Component::Index(9)],
    }
}

pub fn with_remote6(random: &mut Random) -> Vec<Component> {
    let mut components = vec![remote6(random)];
    if random.one_in(2) {
        components.push(Component::Protocol(17));
    }
    if random.one_in(3) {
        components.push(Component::Class { class: 184, mask: 252 });
    }
    components
}

/// No contents, an unknown type, a component cut short, a type twice, and types that exclude each other.
pub const BADLY_CODED: &[&[u8]] = &[
    &[],
    &[0x31, 6],
    &[0x30],
    &[0x50, 0x13],
    &[0x30, 6, 0x30, 6],
    &[0x40, 0, 1, 0x41, 0, 1, 0, 2],
    &[0x51, 0, 1, 0, 2, 0x50, 0, 1],
];

fn entry(identifier: u8, direction: u8, precedence: u8, components: &[Component]) -> Vec<u8> {
    entry_of(direction << 4 | identifier, precedence, &contents(components))
}

pub fn entry_of(first: u8, precedence: u8, contents: &[u8]) -> Vec<u8> {
    [&[first, precedence, contents.len() as u8], contents].concat()
}

pub fn code(kind: Kind) -> u8 {
    match kind {
        Kind::Create => 1,
        Kind::DeleteTft => 2,
        Kind::Add => 3,
        Kind::Replace => 4,
        Kind::DeleteFilters => 5,
        Kind::None => 6,
    }
}

impl Generator {
    /// An element of this kind for a bearer: mostly sound.
    pub fn element_for(&mut self, kind: Kind, bearer: u8) -> Vec<u8> {
        let entries = match kind {
            Kind::DeleteFilters => self.deletions(bearer),
            Kind::DeleteTft | Kind::None => Vec::new(),
            _ => self.filter_entries(bearer),
        };
        let mut octets = self.assembled(kind, &entries);
        if self.random.one_in(7) {
            damage(&mut self.random, &mut octets);
        }
        octets
    }

    fn assembled(&mut self, kind: Kind, entries: &[Vec<u8>]) -> Vec<u8> {
        let mut octets = vec![code(kind) << 5 | (entries.len() as u8 & 0x0F)];
        octets.extend(entries.concat());
        if self.random.one_in(12) {
            octets[0] |= 0x10;
            octets.extend(self.parameters());
        }
        octets
    }

    /// Filters with one among them that no packet fits, that is badly coded, or that is there twice.
    pub fn spoilt_element_for(&mut self, bearer: u8) -> Vec<u8> {
        let kind = self.random.pick(&[Kind::Create, Kind::Create, Kind::Add, Kind::Replace]);
        let mut entries = self.filter_entries(bearer);
        let at = self.random.below(entries.len());
        let (first, precedence) = (entries[at][0], entries[at][1]);
        match self.random.below(4) {
            0 | 1 => {
                entries[at] = entry_of(first, precedence, &contents(&unfit_components(&mut self.random)))
            }
            2 => entries[at] = entry_of(first, precedence, self.random.pick(BADLY_CODED)),
            _ => entries.insert(0, entries[at].clone()),
        }
        entries.truncate(LARGEST_COUNT);
        self.assembled(kind, &entries)
    }

    pub fn deletions(&mut self, bearer: u8) -> Vec<Vec<u8>> {
        let held = self.held(bearer);
        let all = self.random.one_in(4);
        let count = if all { held.len().clamp(1, 15) } else { 1 + self.random.below(3) };
        let one = |i: usize, random: &mut Random| {
            let any = random.octet();
            let spare = if random.one_in(8) { any & 0xF0 } else { 0 };
            let absent = !all && random.one_in(3);
            spare | if absent || held.is_empty() { any & 0x0F } else { held[i % held.len()] }
        };
        let first = self.random.below(16);
        let start = if all { 0 } else { first };
        (0..count).map(|i| vec![one(start + i, &mut self.random)]).collect()
    }

    fn filter_entries(&mut self, bearer: u8) -> Vec<Vec<u8>> {
        let count = match self.random.below(30) {
            0 => 15,
            1..=3 => 5 + self.random.below(4),
            _ => 1 + self.random.below(3),
        };
        let careless = self.random.one_in(12);
        let identifiers = self.numbers(count, careless, |g| g.identifier_near(bearer));
        let precedences = self.numbers(count, careless, Generator::precedence);
        identifiers.into_iter().zip(precedences).map(|(i, p)| self.filter_entry(i, p)).collect()
    }

    /// That many numbers, distinct unless careless.
    pub fn numbers(&mut self, count: usize, careless: bool, next: impl Fn(&mut Generator) -> u8) -> Vec<u8> {
        let mut numbers = Vec::new();
        while numbers.len() < count {
            let number = next(self);
            if careless || !numbers.contains(&number) {
                numbers.push(number);
            }
        }
        numbers
    }

    /// One that the bearer holds, or any.
    pub fn identifier_near(&mut self, bearer: u8) -> u8 {
        let any = self.random.below(16) as u8;
        let held = self.held(bearer);
        if self.random.one_in(3) {
            self.random.any(&held).unwrap_or(any)
        } else {
            any
        }
    }

    fn filter_entry(&mut self, identifier: u8, precedence: u8) -> Vec<u8> {
        let direction = self.random.pick(&[0, 1, 1, 2, 3, 3]);
        let components = match self.random.below(40) {
            0 => unfit_components(&mut self.random),
            1 => any_components(&mut self.random),
            _ => sound_components(&mut self.random),
        };
        let mut octets = entry(identifier, direction, precedence, &components);
        if self.random.one_in(30) {
            octets[0] |= self.random.pick(&[0x40, 0x80, 0xC0]);
        }
        octets
    }

    /// Mostly one filter with a precedence that the connection's default holds.
    pub fn conflicting_element_for(&mut self, kind: Kind, bearer: u8) -> Vec<u8> {
        let role = self.table().bearer(bearer).map_or(Role::Idle, |bearer| bearer.role);
        let default = self.table().bearer(connection_of(bearer, role).unwrap_or(bearer));
        let held: Vec<u8> = default
            .map_or(Vec::new(), |default| filters_in(&default.row).map(|(_, f)| f.precedence).collect());
        self.element_against(kind, &held)
    }

    /// The same with one that a dedicated bearer of the connection holds.
    pub fn element_against_dedicated(&mut self, kind: Kind, bearer: u8) -> Vec<u8> {
        let role = self.table().bearer(bearer).map_or(Role::Idle, |bearer| bearer.role);
        let link = connection_of(bearer, role).unwrap_or(bearer);
        let of_connection = self.table().numbered().filter(|(_, b)| b.role == Role::Dedicated { link });
        let held: Vec<u8> =
            of_connection.flat_map(|(_, b)| filters_in(&b.row).map(|(_, f)| f.precedence)).collect();
        self.element_against(kind, &held)
    }

    fn element_against(&mut self, kind: Kind, held: &[u8]) -> Vec<u8> {
        let kind = if kind == Kind::Create { kind } else { self.random.pick(&[Kind::Add, Kind::Replace]) };
        let (identifier, any) = (self.random.below(16) as u8, self.precedence());
        let precedence = self.random.any(held).unwrap_or(any);
        let entry = self.filter_entry(identifier, precedence);
        self.assembled(kind, &[entry])
    }

    pub fn parameters(&mut self) -> Vec<u8> {
        let mut octets = Vec::new();
        for _ in 0..1 + self.random.below(3) {
            let length = self.random.pick(&[0, 1, 2, 5]);
            octets.extend([self.random.octet(), length]);
            octets.extend((0..length).map(|_| self.random.octet()));
        }
        octets
    }
}

/// One small damage.
fn damage(random: &mut Random, octets: &mut Vec<u8>) {
    let at = random.below(octets.len());
    match random.below(9) {
        0 => octets[at] ^= 1 << random.below(8),
        1 => octets[at] = random.octet(),
        2 => octets.truncate(at),
        3 => octets.push(random.octet()),
        4 => octets[0] = octets[0] & 0xF0 | random.below(16) as u8,
        5 => octets[0] = octets[0] & 0x1F | (random.below(8) as u8) << 5,
        6 => octets[0] ^= 0x10,
        7 => lengthen(random, octets),
        _ => {
            octets.remove(at);
        }
    }
}

/// To about 255 octets.
fn lengthen(random: &mut Random, octets: &mut Vec<u8>) {
    lengthen_to(random.pick(&[254, 255, 256, 257, 300]), octets);
}

/// A rightly framed parameter that takes the element to that many octets.
pub fn lengthen_to(goal: usize, octets: &mut Vec<u8>) {
    let room = (goal - octets.len().min(goal)).saturating_sub(2).min(255);
    octets[0] |= 0x10;
    octets.extend([1, room as u8]);
    octets.extend(vec![0xAA; room]);
}
