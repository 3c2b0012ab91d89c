//! The octets of the template element: the reader and the writer.

use crate::filter::{row_is_empty, Component, Filter, Octets256, Row, Type, PLACES};

pub const LONGEST_VALUE: usize = 255;
pub const LARGEST_COUNT: usize = 15;

/// The causes that the reader gives.
pub const SYNTACTICAL_IN_OPERATION: u8 = 42;
pub const SEMANTICAL_IN_FILTER: u8 = 44;
pub const SYNTACTICAL_IN_FILTER: u8 = 45;

pub type Cause = u8;

/// What is wrong with an element.
#[derive(Clone, Copy, PartialEq, Eq, Debug)]
pub enum Fault {
    Length,
    Operation,
    Count,
    EntryPastTheEnd,
    NoParameter,
    ParameterPastTheEnd,
    LeftOver,
    BadlyCoded,
    Unfit,
    Repeat,
}

impl Fault {
    pub fn cause(self) -> Cause {
        match self {
            Fault::Length | Fault::Operation | Fault::Count => SYNTACTICAL_IN_OPERATION,
            Fault::EntryPastTheEnd | Fault::NoParameter | Fault::ParameterPastTheEnd | Fault::LeftOver => {
                SYNTACTICAL_IN_OPERATION
            }
            Fault::BadlyCoded | Fault::Repeat => SYNTACTICAL_IN_FILTER,
            Fault::Unfit => SEMANTICAL_IN_FILTER,
        }
    }

    fn at(self, place: usize) -> Refusal {
        Refusal { fault: self, place }
    }
}

/// What the reader refuses an element for, and where it broke: the offset from 0 in the element's value.
#[derive(Clone, Copy, PartialEq, Eq, Debug)]
pub struct Refusal {
    pub fault: Fault,
    pub place: usize,
}

impl Refusal {
    pub fn cause(&self) -> Cause {
        self.fault.cause()
    }
}

/// What the reader gives.
pub type Reading = Result<Operation, Refusal>;

#[derive(Clone, Copy, PartialEq, Eq, Debug)]
pub enum Kind {
    Create,
    DeleteTft,
    Add,
    Replace,
    DeleteFilters,
    None,
}

impl Kind {
    fn of_code(code: u8) -> Option<Kind> {
        match code {
            1 => Some(Kind::Create),
            2 => Some(Kind::DeleteTft),
            3 => Some(Kind::Add),
            4 => Some(Kind::Replace),
            5 => Some(Kind::DeleteFilters),
            6 => Some(Kind::None),
            _ => None,
        }
    }

    fn code(self) -> u8 {
        match self {
            Kind::Create => 1,
            Kind::DeleteTft => 2,
            Kind::Add => 3,
            Kind::Replace => 4,
            Kind::DeleteFilters => 5,
            Kind::None => 6,
        }
    }

    fn is_bare(self) -> bool {
        matches!(self, Kind::DeleteTft | Kind::None)
    }
}

/// An operation: the filters that it brings stand in the places of their identifiers, `identifiers` has a bit for each one named.
#[derive(Clone, Copy, PartialEq, Eq, Debug)]
pub struct Operation {
    pub kind: Kind,
    pub row: Row,
    pub identifiers: u16,
}

impl Operation {
    pub fn new(kind: Kind) -> Operation {
        Operation { kind, row: [Filter::default(); PLACES], identifiers: 0 }
    }
}

/// Octet 1.
#[derive(Clone, Copy)]
pub struct Head {
    pub kind: Kind,
    parameters: bool,
    count: usize,
}

/// Step 4.
pub fn head(octets: &[u8]) -> Result<Head, Refusal> {
    if octets.is_empty() || octets.len() > LONGEST_VALUE {
        return Err(Fault::Length.at(0));
    }
    let kind = Kind::of_code(octets[0] >> 5).ok_or(Fault::Operation.at(0))?;
    let parameters = octets[0] & 0x10 != 0;
    Ok(Head { kind, parameters, count: usize::from(octets[0] & 0x0F) })
}

/// Steps 6 to 9, for an element whose octet 1 is `head`.
pub fn body(head: Head, octets: &[u8]) -> Reading {
    let framed = framed(head, octets)?;
    match head.kind {
        Kind::Create | Kind::Add | Kind::Replace => filter_set(head.kind, framed.entries()),
        Kind::DeleteFilters => Ok(identifier_set(framed.entries())),
        Kind::DeleteTft | Kind::None => Ok(Operation::new(head.kind)),
    }
}

pub fn read(octets: &[u8]) -> Reading {
    body(head(octets)?, octets)
}

/// One entry of the list, as framed: a deletion's has its first octet alone. Its place is that of its first octet.
#[derive(Clone, Copy, Default)]
struct Entry<'a> {
    place: usize,
    first: u8,
    precedence: u8,
    contents: &'a [u8],
}

impl Entry<'_> {
    fn identifier(&self) -> usize {
        usize::from(self.first & 0x0F)
    }

    fn direction(&self) -> u8 {
        self.first >> 4 & 3
    }
}

struct Framed<'a> {
    entries: [Entry<'a>; LARGEST_COUNT],
    count: usize,
}

impl<'a> Framed<'a> {
    fn entries(&self) -> &[Entry<'a>] {
        &self.entries[..self.count]
    }
}

/// Step 6: the entries, where count and framing are right.
fn framed(head: Head, octets: &[u8]) -> Result<Framed<'_>, Refusal> {
    if head.kind.is_bare() != (head.count == 0) {
        return Err(Fault::Count.at(0));
    }
    let end = octets.len();
    let mut rest = &octets[1..];
    let mut framed = Framed { entries: [Entry::default(); LARGEST_COUNT], count: head.count };
    for entry in &mut framed.entries[..head.count] {
        let place = end - rest.len();
        let next = next_entry(head.kind, &mut rest).ok_or(Fault::EntryPastTheEnd.at(end))?;
        *entry = Entry { place, ..next };
    }
    if head.parameters {
        parameters(rest).map_err(|fault| fault.at(end))?;
    } else if !rest.is_empty() {
        return Err(Fault::LeftOver.at(end - rest.len()));
    }
    Ok(framed)
}

fn take<'a>(rest: &mut &'a [u8], octets: usize) -> Option<&'a [u8]> {
    if octets > rest.len() {
        return None;
    }
    let (taken, left) = rest.split_at(octets);
    *rest = left;
    Some(taken)
}

fn next_entry<'a>(kind: Kind, rest: &mut &'a [u8]) -> Option<Entry<'a>> {
    if kind == Kind::DeleteFilters {
        let first = take(rest, 1)?[0];
        return Some(Entry { first, ..Entry::default() });
    }
    let lead = take(rest, 3)?;
    let contents = take(rest, usize::from(lead[2]))?;
    Some(Entry { first: lead[0], precedence: lead[1], contents, ..Entry::default() })
}

/// "parameters (identifier, length, contents) fill the rest, at least one"
fn parameters(mut rest: &[u8]) -> Result<(), Fault> {
    if rest.is_empty() {
        return Err(Fault::NoParameter);
    }
    while !rest.is_empty() {
        next_parameter(&mut rest).ok_or(Fault::ParameterPastTheEnd)?;
    }
    Ok(())
}

fn next_parameter(rest: &mut &[u8]) -> Option<()> {
    let lead = take(rest, 2)?;
    take(rest, usize::from(lead[1]))?;
    Some(())
}

fn identifier_set(entries: &[Entry]) -> Operation {
    let identifiers = entries.iter().fold(0, |set, entry| set | 1 << entry.identifier());
    Operation { identifiers, ..Operation::new(Kind::DeleteFilters) }
}

/// Steps 7, 8 and 9, each over all filters before the next, and the earliest filter that fails one is the place.
fn filter_set(kind: Kind, entries: &[Entry]) -> Reading {
    let mut filters = [Filter::default(); LARGEST_COUNT];
    for (filter, entry) in filters.iter_mut().zip(entries) {
        *filter = filter_of(entry).ok_or(Fault::BadlyCoded.at(entry.place))?;
    }
    if let Some((_, entry)) = filters.iter().zip(entries).find(|(filter, _)| !filter.fits_some_packet()) {
        return Err(Fault::Unfit.at(entry.place));
    }
    placed(kind, entries, &filters)
}

/// Step 9: the set, where no identifier and no precedence stands twice.
fn placed(kind: Kind, entries: &[Entry], filters: &[Filter]) -> Reading {
    let mut operation = Operation::new(kind);
    let mut identifiers = 0u16;
    let mut precedences = Octets256::default();
    for (entry, filter) in entries.iter().zip(filters) {
        let bit = 1 << entry.identifier();
        if identifiers & bit != 0 || !precedences.add(entry.precedence) {
            return Err(Fault::Repeat.at(entry.place));
        }
        identifiers |= bit;
        operation.row[entry.identifier()] = *filter;
    }
    Ok(operation)
}

/// Step 7 for one filter.
fn filter_of(entry: &Entry) -> Option<Filter> {
    let mut filter = Filter::bare(entry.precedence, entry.direction());
    let mut rest = entry.contents;
    if rest.is_empty() {
        return None;
    }
    while !rest.is_empty() {
        let component = next_component(&mut rest)?;
        if !filter.takes(&component) {
            return None;
        }
        filter = filter.with(&component);
    }
    Some(filter)
}

fn next_component(rest: &mut &[u8]) -> Option<Component> {
    let kind = Type::of_octet(take(rest, 1)?[0])?;
    let value = take(rest, kind.length())?;
    Some(component_of(kind, value))
}

fn two(octets: &[u8]) -> u16 {
    u16::from_be_bytes([octets[0], octets[1]])
}

fn four(octets: &[u8]) -> u32 {
    u32::from_be_bytes([octets[0], octets[1], octets[2], octets[3]])
}

fn array<const N: usize>(octets: &[u8]) -> [u8; N] {
    let mut array = [0; N];
    array.copy_from_slice(octets);
    array
}

/// The component of this type whose value octets, as many as the type has, are given.
pub fn component_of(kind: Type, value: &[u8]) -> Component {
    match kind {
        Type::Remote4 => Component::Remote4 { address: array(&value[..4]), mask: array(&value[4..]) },
        Type::Remote6 => Component::Remote6 { address: array(&value[..16]), mask: array(&value[16..]) },
        Type::Protocol => Component::Protocol(value[0]),
        Type::LocalPort => Component::LocalPort(two(value)),
        Type::LocalRange => Component::LocalRange { low: two(value), high: two(&value[2..]) },
        Type::RemotePort => Component::RemotePort(two(value)),
        Type::RemoteRange => Component::RemoteRange { low: two(value), high: two(&value[2..]) },
        Type::Index => Component::Index(four(value)),
        Type::Class => Component::Class { class: value[0], mask: value[1] },
        Type::Label => Component::Label(four(&[0, value[0] & 0x0F, value[1], value[2]])),
    }
}

/// What the writer refuses.
pub const BUFFER_TOO_SHORT: u8 = 9;
pub const NOT_READABLE: u8 = 10;
pub const VALUE_TOO_LONG: u8 = 11;

/// Writes the operation and gives how many octets it took; a refusal leaves the buffer.
pub fn write(operation: &Operation, buffer: &mut [u8]) -> Result<usize, u8> {
    if !could_be_read(operation) {
        return Err(NOT_READABLE);
    }
    let length = written_length(operation);
    if length > LONGEST_VALUE {
        return Err(VALUE_TOO_LONG);
    }
    if length > buffer.len() {
        return Err(BUFFER_TOO_SHORT);
    }
    let mut pen = Pen { buffer, at: 0 };
    pen.operation(operation);
    Ok(length)
}

/// Whether octets of some length read as this operation.
fn could_be_read(operation: &Operation) -> bool {
    let named = operation.identifiers.count_ones() as usize;
    match operation.kind {
        Kind::Create | Kind::Add | Kind::Replace => named == 0 && could_be_read_as_set(&operation.row),
        Kind::DeleteFilters => (1..=LARGEST_COUNT).contains(&named) && row_is_empty(&operation.row),
        Kind::DeleteTft | Kind::None => named == 0 && row_is_empty(&operation.row),
    }
}

fn could_be_read_as_set(row: &Row) -> bool {
    let mut precedences = Octets256::default();
    (1..=LARGEST_COUNT).contains(&filters_in(row).count())
        && filters_in(row).all(|(_, f)| f.is_sound() && precedences.add(f.precedence))
}

/// The filters of a row with their identifiers, rising.
pub fn filters_in(row: &Row) -> impl Iterator<Item = (usize, &Filter)> {
    row.iter().enumerate().filter(|(_, filter)| !filter.is_nothing())
}

fn contents_length(filter: &Filter) -> usize {
    filter.components().map(|component| 1 + component.kind().length()).sum()
}

fn written_length(operation: &Operation) -> usize {
    let filters = filters_in(&operation.row).map(|(_, filter)| 3 + contents_length(filter));
    1 + operation.identifiers.count_ones() as usize + filters.sum::<usize>()
}

struct Pen<'a> {
    buffer: &'a mut [u8],
    at: usize,
}

impl Pen<'_> {
    fn octet(&mut self, octet: u8) {
        self.buffer[self.at] = octet;
        self.at += 1;
    }

    fn octets(&mut self, octets: &[u8]) {
        self.buffer[self.at..self.at + octets.len()].copy_from_slice(octets);
        self.at += octets.len();
    }

    fn operation(&mut self, operation: &Operation) {
        let count = filters_in(&operation.row).count() as u8 + operation.identifiers.count_ones() as u8;
        self.octet(operation.kind.code() << 5 | count);
        for (identifier, filter) in filters_in(&operation.row) {
            self.filter(identifier as u8, filter);
        }
        for identifier in (0..PLACES as u8).filter(|i| operation.identifiers >> i & 1 == 1) {
            self.octet(identifier);
        }
    }

    fn filter(&mut self, identifier: u8, filter: &Filter) {
        self.octet(filter.direction << 4 | identifier);
        self.octet(filter.precedence);
        self.octet(contents_length(filter) as u8);
        for component in filter.components() {
            self.component(&component);
        }
    }

    fn component(&mut self, component: &Component) {
        self.octet(component.kind().octet());
        match *component {
            Component::Remote4 { address, mask } => self.pair(&address, &mask),
            Component::Remote6 { address, mask } => self.pair(&address, &mask),
            Component::Protocol(protocol) => self.octet(protocol),
            Component::LocalPort(port) | Component::RemotePort(port) => self.octets(&port.to_be_bytes()),
            Component::LocalRange { low, high } | Component::RemoteRange { low, high } => {
                self.pair(&low.to_be_bytes(), &high.to_be_bytes())
            }
            Component::Index(index) => self.octets(&index.to_be_bytes()),
            Component::Class { class, mask } => self.pair(&[class], &[mask]),
            Component::Label(label) => self.octets(&label.to_be_bytes()[1..]),
        }
    }

    fn pair(&mut self, first: &[u8], second: &[u8]) {
        self.octets(first);
        self.octets(second);
    }
}
