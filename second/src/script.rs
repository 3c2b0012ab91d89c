//! The bench language: what a line asks for.

use crate::element::{component_of, Kind};
use crate::filter::{Component, Filter, Header, Type};
use crate::list::Entry;
use crate::messages;
use crate::portions::Portions;
use crate::table::Role;
use crate::text;

pub const LONGEST_HEX: usize = 1024;
pub const LARGEST_BUFFER: usize = 512;
const MOST_DIGITS: usize = 10;
const MOST_DOTTED_DIGITS: usize = 3;
const MOST_REPEATS: u32 = 1_000_000;

/// The octets of a HEX word.
#[derive(Clone, Copy)]
pub struct Octets {
    octets: [u8; LONGEST_HEX / 2],
    length: usize,
}

impl Octets {
    pub fn slice(&self) -> &[u8] {
        &self.octets[..self.length]
    }
}

/// An element's octets: those of its HEX or, where the word `fed` stands for it, those that were fed by the time of the call.
#[derive(Clone, Copy)]
pub struct Value {
    octets: Option<Octets>,
}

impl Value {
    pub fn slice<'a>(&'a self, portions: &'a Portions) -> &'a [u8] {
        self.octets.as_ref().map_or(portions.fed(), Octets::slice)
    }
}

/// What `assemble` is given: a message, whether or not it could be read back, and the size of the buffer.
#[derive(Clone, Copy)]
pub struct Assembly {
    kind: messages::Kind,
    bearer: u8,
    transaction: u8,
    number: u8,
    tft: Option<Octets>,
    pub size: usize,
}

impl Assembly {
    pub fn message(&self) -> messages::Message<'_> {
        let Assembly { kind, bearer, transaction, number, ref tft, .. } = *self;
        messages::Message { kind, bearer, transaction, number, tft: tft.as_ref().map(Octets::slice) }
    }
}

/// One call.
#[derive(Clone, Copy)]
pub enum Call {
    Default { bearer: u8 },
    Dedicated { bearer: u8, link: u8, transaction: u8, value: Value },
    Modify { bearer: u8, transaction: u8, value: Value },
    Deactivate { bearer: u8, transaction: u8 },
    Start { transaction: u8, bearer: u8 },
    Reject { transaction: u8, cause: u8 },
    Route { default: u8, header: Header },
    Why { default: u8, header: Header },
    Check,
    Status { size: usize },
    Synchronise { octets: Octets },
    Compare { octets: Octets },
    Element { value: Value },
    Rewrite { value: Value, size: usize },
    Announce { length: u16 },
    Portion { octets: Octets },
    Finish,
    ForceFed { state: Portions },
    Parse { octets: Octets },
    Message { octets: Octets },
    Assemble { assembly: Assembly },
    Compose { kind: Kind },
    Filter { identifier: u8, filter: Filter },
    Identifier { identifier: u8 },
    Emit { size: usize },
    Force { bearer: u8, role: Role, transaction: u8 },
    Place { bearer: u8, identifier: u8, filter: Filter },
    List { identity: u8 },
    ForceEntry { identity: u8, position: u8, entry: Option<Entry> },
    Show,
    Echo { on: bool },
}

/// What a line is.
pub enum Asked {
    Nothing,
    Bad,
    Call { times: u32, call: Call },
}

pub fn asked(line: &[u8]) -> Asked {
    let mut words = Words { rest: line };
    words.pass_spaces();
    if words.rest.is_empty() || words.rest[0] == b'#' {
        return Asked::Nothing;
    }
    match repeated(words) {
        Some((times, call)) => Asked::Call { times, call },
        None => Asked::Bad,
    }
}

/// Words separated by one or more spaces.
#[derive(Clone, Copy)]
struct Words<'a> {
    rest: &'a [u8],
}

impl<'a> Words<'a> {
    fn pass_spaces(&mut self) {
        let start = self.rest.iter().position(|octet| *octet != b' ').unwrap_or(self.rest.len());
        self.rest = &self.rest[start..];
    }

    fn next(&mut self) -> Option<&'a [u8]> {
        self.pass_spaces();
        let end = self.rest.iter().position(|octet| *octet == b' ').unwrap_or(self.rest.len());
        let (word, rest) = self.rest.split_at(end);
        self.rest = rest;
        (!word.is_empty()).then_some(word)
    }

    fn number(&mut self, largest: u32) -> Option<u32> {
        number(self.next()?).filter(|n| *n <= u64::from(largest)).map(|n| n as u32)
    }

    /// Identities, transaction identities, causes, protocols, versions, precedences, directions and traffic classes.
    fn octet(&mut self) -> Option<u8> {
        self.number(255).map(|n| n as u8)
    }

    /// Ports, and lengths that are announced.
    fn two_octets(&mut self) -> Option<u16> {
        self.number(65535).map(|n| n as u16)
    }

    fn place(&mut self) -> Option<u8> {
        self.number(15).map(|n| n as u8)
    }

    fn size(&mut self) -> Option<usize> {
        self.number(LARGEST_BUFFER as u32).map(|n| n as usize)
    }

    /// A bearer of the table, for the lines that reach into it by hand or look at what is held there.
    fn bearer(&mut self) -> Option<u8> {
        self.octet().filter(|identity| (5..=15).contains(identity))
    }

    fn octets(&mut self) -> Option<Octets> {
        octets(self.next()?)
    }

    /// The lines that take the word `fed` for their HEX.
    fn value(&mut self) -> Option<Value> {
        let word = self.next()?;
        let octets = if word == b"fed" { None } else { Some(octets(word)?) };
        Some(Value { octets })
    }

    fn address(&mut self) -> Option<[u8; 16]> {
        let word = self.next()?;
        match octets(word) {
            Some(octets) => octets.slice().try_into().ok(),
            None => dotted(word),
        }
    }
}

fn number(word: &[u8]) -> Option<u64> {
    let right = word.len() <= MOST_DIGITS && word.iter().all(u8::is_ascii_digit);
    right.then(|| word.iter().fold(0, |n, digit| n * 10 + u64::from(digit - b'0')))
}

fn digit(octet: u8) -> Option<u8> {
    (octet as char).to_digit(16).map(|value| value as u8)
}

fn octets(word: &[u8]) -> Option<Octets> {
    let mut found = Octets { octets: [0; LONGEST_HEX / 2], length: 0 };
    if word == b"-" {
        return Some(found);
    }
    if word.len() > LONGEST_HEX || word.len() % 2 != 0 {
        return None;
    }
    for (octet, pair) in found.octets.iter_mut().zip(word.chunks_exact(2)) {
        *octet = digit(pair[0])? << 4 | digit(pair[1])?;
    }
    found.length = word.len() / 2;
    Some(found)
}

/// `A.B.C.D`: the first four octets of an address, and zero for the others.
fn dotted(word: &[u8]) -> Option<[u8; 16]> {
    let mut address = [0; 16];
    let mut parts = word.split(|octet| *octet == b'.');
    for octet in &mut address[..4] {
        *octet = part(parts.next()?)?;
    }
    parts.next().is_none().then_some(address)
}

/// A number of a dotted address, which has fewer digits than others.
fn part(word: &[u8]) -> Option<u8> {
    let right = (1..=MOST_DOTTED_DIGITS).contains(&word.len());
    number(word).filter(|_| right)?.try_into().ok()
}

fn repeated(mut words: Words) -> Option<(u32, Call)> {
    let mut after = words;
    let times = if after.next()? == b"repeat" {
        words = after;
        words.number(MOST_REPEATS).filter(|times| *times >= 1)?
    } else {
        1
    };
    let call = call(&mut words)?;
    words.next().is_none().then_some((times, call))
}

fn call(words: &mut Words) -> Option<Call> {
    match words.next()? {
        b"element" => Some(Call::Element { value: words.value()? }),
        b"rewrite" => Some(Call::Rewrite { value: words.value()?, size: words.size()? }),
        b"announce" => Some(Call::Announce { length: words.two_octets()? }),
        b"portion" => Some(Call::Portion { octets: words.octets()? }),
        b"finish" => Some(Call::Finish),
        b"force-fed" => Some(Call::ForceFed { state: state(words)? }),
        b"parse" => Some(Call::Parse { octets: words.octets()? }),
        b"assemble" => Some(Call::Assemble { assembly: assembly(words)? }),
        b"compose" => Some(Call::Compose { kind: kind(words.next()?)? }),
        b"filter" => Some(Call::Filter { identifier: words.place()?, filter: filter(words)? }),
        b"identifier" => Some(Call::Identifier { identifier: words.place()? }),
        b"emit" => Some(Call::Emit { size: words.size()? }),
        b"force" => force(words),
        b"place" => {
            let (bearer, identifier) = (words.bearer()?, words.place()?);
            Some(Call::Place { bearer, identifier, filter: filter(words)? })
        }
        b"list" => Some(Call::List { identity: words.bearer()? }),
        b"force-entry" => {
            let (identity, position) = (words.bearer()?, words.octet()?);
            Some(Call::ForceEntry { identity, position, entry: entry(words)? })
        }
        b"show" => Some(Call::Show),
        b"echo" => Some(Call::Echo { on: switch(words.next()?)? }),
        name => table_call(name, words),
    }
}

fn table_call(name: &[u8], words: &mut Words) -> Option<Call> {
    match name {
        b"default" => Some(Call::Default { bearer: words.octet()? }),
        b"dedicated" => {
            let (bearer, link) = (words.octet()?, words.octet()?);
            let (transaction, value) = (words.octet()?, words.value()?);
            Some(Call::Dedicated { bearer, link, transaction, value })
        }
        b"modify" => {
            let (bearer, transaction) = (words.octet()?, words.octet()?);
            Some(Call::Modify { bearer, transaction, value: words.value()? })
        }
        b"deactivate" => Some(Call::Deactivate { bearer: words.octet()?, transaction: words.octet()? }),
        b"start" => Some(Call::Start { transaction: words.octet()?, bearer: words.octet()? }),
        b"reject" => Some(Call::Reject { transaction: words.octet()?, cause: words.octet()? }),
        b"route" => Some(Call::Route { default: words.octet()?, header: header(words)? }),
        b"why" => Some(Call::Why { default: words.octet()?, header: header(words)? }),
        b"check" => Some(Call::Check),
        b"status" => Some(Call::Status { size: words.size()? }),
        b"synchronise" => Some(Call::Synchronise { octets: words.octets()? }),
        b"compare" => Some(Call::Compare { octets: words.octets()? }),
        b"message" => Some(Call::Message { octets: words.octets()? }),
        _ => None,
    }
}

fn header(words: &mut Words) -> Option<Header> {
    Some(Header {
        version: words.octet()?,
        address: words.address()?,
        protocol: words.octet()?,
        local_port: words.two_octets()?,
        remote_port: words.two_octets()?,
        index: words.number(u32::MAX)?,
        class: words.octet()?,
        label: words.number(u32::MAX)?,
    })
}

fn kind(word: &[u8]) -> Option<Kind> {
    match word {
        b"create" => Some(Kind::Create),
        b"add" => Some(Kind::Add),
        b"replace" => Some(Kind::Replace),
        b"delete-filters" => Some(Kind::DeleteFilters),
        b"delete-tft" => Some(Kind::DeleteTft),
        b"none" => Some(Kind::None),
        _ => None,
    }
}

/// `KIND E T X TFT N`
fn assembly(words: &mut Words) -> Option<Assembly> {
    let name = words.next()?;
    let kind = messages::KINDS.into_iter().find(|kind| text::message_kind(*kind).as_bytes() == name)?;
    let (bearer, transaction, number) = (words.octet()?, words.octet()?, words.octet()?);
    if number != 0 && !kind.has_number() {
        return None;
    }
    let word = words.next()?;
    let tft = if word == b"none" { None } else { Some(octets(word)?) };
    Some(Assembly { kind, bearer, transaction, number, tft, size: words.size()? })
}

fn switch(word: &[u8]) -> Option<bool> {
    match word {
        b"on" => Some(true),
        b"off" => Some(false),
        _ => None,
    }
}

fn force(words: &mut Words) -> Option<Call> {
    let bearer = words.bearer()?;
    let role = match words.next()? {
        b"idle" => Role::Idle,
        b"default" => Role::Default,
        b"dedicated" => Role::Dedicated { link: words.octet()? },
        _ => return None,
    };
    Some(Call::Force { bearer, role, transaction: words.octet()? })
}

/// `E I`, both 0 for nothing.
fn entry(words: &mut Words) -> Option<Option<Entry>> {
    match (words.octet()?, words.place()?) {
        (0, 0) => Some(None),
        (bearer @ 5..=15, identifier) => Some(Some(Entry { bearer, identifier })),
        _ => None,
    }
}

/// `A F HEX`, as long as a state has room for it.
fn state(words: &mut Words) -> Option<Portions> {
    let (announced, fed) = (words.octet()?, words.octet()?);
    Portions::by_hand(announced, fed, words.octets()?.slice())
}

/// `P D [TYPE HEX]..` up to the end of the line.
fn filter(words: &mut Words) -> Option<Filter> {
    let mut filter = Filter::bare(words.octet()?, words.octet()?);
    while let Some(word) = words.next() {
        let value = words.octets()?;
        filter = filter.with(&component(word, value.slice())?);
    }
    Some(filter)
}

fn component(word: &[u8], value: &[u8]) -> Option<Component> {
    let octet = octets(word).filter(|octet| octet.length == 1)?.octets[0];
    let kind = Type::of_octet(octet)?;
    if kind == Type::Label {
        // Four octets, so that a label above 1048575 can be tried.
        return Some(Component::Label(u32::from_be_bytes(value.try_into().ok()?)));
    }
    (value.len() == kind.length()).then(|| component_of(kind, value))
}
