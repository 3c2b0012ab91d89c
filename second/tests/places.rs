//! Where an element broke: places worked out by hand, places found from causes alone, and places passed on by the calls.

use second::calls::{activate_dedicated, activate_default, modify, Answer, Rejection};
use second::element::{read, LONGEST_VALUE};
use second::generator::{elements, script};
use second::messages::{handle, write, Kind, Message};
use second::portions::Portions;
use second::random::Random;
use second::session::Session;
use second::table::{Role, Table};

/// The cause and the place, where the element is refused.
fn refused(octets: &[u8]) -> Option<(u8, usize)> {
    read(octets).err().map(|refusal| (refusal.cause(), refusal.place))
}

fn octets(hex: &str) -> Vec<u8> {
    let digits: Vec<u8> = hex.bytes().filter(|octet| *octet != b' ').collect();
    let pair = |pair: &[u8]| u8::from_str_radix(std::str::from_utf8(pair).unwrap(), 16).unwrap();
    digits.chunks(2).map(pair).collect()
}

#[track_caller]
fn breaks(hex: &str, cause: u8, place: usize) {
    assert_eq!(refused(&octets(hex)), Some((cause, place)), "{hex}");
}

#[track_caller]
fn reads(hex: &str) {
    assert_eq!(refused(&octets(hex)), None, "{hex}");
}

#[test]
fn a_wrong_length_is_at_0() {
    breaks("", 42, 0);
    for length in [256, 257, 300, 512, 4000] {
        // A parameter that fills the rest could make these right, and a create could be cut, but for the length.
        assert_eq!(refused(&vec![0xC0; length]), Some((42, 0)));
        assert_eq!(
            refused(&[vec![0x21, 0x31, 0x0A, 2, 0x30, 6], vec![0; length - 6]].concat()),
            Some((42, 0))
        );
        assert_eq!(refused(&[vec![0x2F], vec![0x30; length - 1]].concat()), Some((42, 0)));
    }
}

#[test]
fn a_wrong_operation_is_at_0_whatever_follows() {
    for first in (0x00..=0x1F).chain(0xE0..=0xFF) {
        for after in ["", "00", "310A023006", "310A023006FF", "310A02", "0100"] {
            breaks(&format!("{first:02X}{after}"), 42, 0);
        }
    }
}

#[test]
fn a_wrong_count_is_at_0_before_anything_after_it() {
    for first in [0x20, 0x60, 0x80, 0xA0, 0x30, 0x70, 0x90, 0xB0] {
        for after in ["", "31", "310A023006", "0100", "01", "0105"] {
            breaks(&format!("{first:02X}{after}"), 42, 0);
        }
    }
    for first in (0x41..=0x4F).chain(0x51..=0x5F).chain(0xC1..=0xCF).chain(0xD1..=0xDF) {
        for after in ["", "01", "0100", "010203"] {
            breaks(&format!("{first:02X}{after}"), 42, 0);
        }
    }
}

#[test]
fn an_entry_past_the_end_is_at_the_length() {
    for (hex, length) in [
        ("21", 1),
        ("21 31", 2),
        ("21 31 0A", 3),
        ("21 31 0A 02", 4),
        ("21 31 0A 02 30", 5),
        ("21 31 0A FF 30 06", 6),
        ("22 31 0A 02 30 06", 6),
        ("22 31 0A 02 30 06 32", 7),
        ("62 31 0A 02 30 06 32 0B", 8),
        ("82 31 0A 02 30 06 32 0B 02", 9),
        ("82 31 0A 02 30 06 32 0B 02 30", 10),
        // A first filter that is badly coded, fits no packet or is repeated is not looked at.
        ("22 31 0A 00", 4),
        ("22 31 0A 02 31 11 32", 7),
        ("22 31 0A 05 30 01 50 13 C4 32", 10),
        ("23 31 0A 02 30 06 31 0A 02 30 06 31 0A", 13),
        ("A1", 1),
        ("A2 0F", 2),
        ("AF 01 02 03", 4),
        // With E too: no parameter is looked for before the entries are there.
        ("31", 1),
        ("B1", 1),
        ("B2 01", 2),
        ("31 31 0A 05 30 06", 6),
    ] {
        breaks(hex, 42, length);
    }
    let long = [vec![0x2F], vec![0xFF; 254]].concat();
    assert_eq!(refused(&long), Some((42, 255)));
}

#[test]
fn a_parameter_past_the_end_or_missing_is_at_the_length() {
    for (hex, length) in [
        // None at all.
        ("50", 1),
        ("D0", 1),
        ("B1 01", 2),
        ("31 31 0A 02 30 06", 6),
        // Without its length.
        ("D0 01", 2),
        ("50 01", 2),
        ("B1 01 07", 3),
        ("31 31 0A 02 30 06 07", 7),
        // Without some of its contents.
        ("D0 01 01", 3),
        ("D0 01 03 AA BB", 5),
        ("B2 01 02 07 FF", 5),
        ("91 31 0A 02 30 06 07 02 AA", 9),
        // The second one.
        ("D0 01 00 02", 4),
        ("D0 01 01 AA 02 02 BB", 7),
        // Badly coded filters are not looked at.
        ("31 31 0A 02 31 11", 6),
        ("31 31 0A 02 31 11 07", 7),
    ] {
        breaks(hex, 42, length);
    }
    reads("D0 01 00");
    reads("31 31 0A 02 30 06 07 01 AA");
    let full = [vec![0xD0, 1, 253], vec![0; 252]].concat();
    assert_eq!((full.len(), refused(&full)), (LONGEST_VALUE, Some((42, 255))));
}

#[test]
fn left_over_octets_are_at_the_first_of_them() {
    for (hex, first) in [
        ("40 00", 1),
        ("40 00 00 00", 1),
        ("C0 C0", 1),
        ("C0 01 00", 1),
        ("A1 01 00", 2),
        ("A1 01 02 03 04", 2),
        ("A3 01 01 01 07", 4),
        ("21 31 0A 02 30 06 00", 6),
        ("61 31 0A 02 30 06 32 0B 02 30 06", 6),
        ("82 31 0A 02 30 06 32 0B 05 30 11 50 13 C4 FF FF", 14),
        // The parameters that would be right with E.
        ("21 31 0A 02 30 06 03 01 AA", 6),
        // Badly coded filters are not looked at.
        ("21 31 0A 00 FF", 4),
        ("21 31 0A 02 31 11 FF", 6),
        ("22 31 0A 02 30 06 31 0A 02 30 06 FF", 11),
    ] {
        breaks(hex, 42, first);
    }
    assert_eq!(refused(&[0xC0; 255]), Some((42, 1)));
    let nearly = [vec![0x21, 0x31, 0x0A, 249], vec![0x31; 250]].concat();
    assert_eq!((nearly.len(), refused(&nearly)), (254, Some((42, 253))));
}

/// What no filter is coded as.
const BADLY_CODED: [&str; 8] = [
    "00",
    "01 30",
    "02 31 11",
    "04 50 13 C4 30",
    "04 30 06 30 06",
    "08 40 00 01 41 00 01 00 02",
    "01 FF",
    "02 50 13",
];

/// What is coded well and no packet fits.
const UNFIT: [&str; 4] = [
    "05 30 01 50 13 C4",
    "05 41 00 02 00 01",
    "07 30 06 60 00 00 00 01",
    "0D 10 C0 00 02 01 FF FF FF FF 80 00 00 01",
];

const SOUND: [&str; 3] = ["02 30 06", "05 30 11 50 13 C4", "03 40 00 00"];

#[derive(Clone, Copy, PartialEq, Eq, Debug)]
enum Sort {
    Sound,
    Unfit,
    BadlyCoded,
}

/// An element with filters of these sorts, none repeated, and where each of them begins.
fn element_of(random: &mut Random, first: u8, sorts: &[Sort]) -> (Vec<u8>, Vec<usize>) {
    let (mut value, mut places) = (vec![first | sorts.len() as u8], Vec::new());
    for (position, sort) in sorts.iter().enumerate() {
        let contents = match sort {
            Sort::Sound => random.pick(&SOUND),
            Sort::Unfit => random.pick(&UNFIT),
            Sort::BadlyCoded => random.pick(&BADLY_CODED),
        };
        places.push(value.len());
        let spare = random.pick(&[0x00, 0x10, 0x30, 0xC0, 0xF0]);
        value.extend([spare | position as u8, 100 + position as u8]);
        value.extend(octets(contents));
    }
    (value, places)
}

/// All lists of up to five filters of the three sorts.
#[test]
fn the_earliest_badly_coded_filter_else_the_earliest_that_no_packet_fits() {
    let mut random = Random::new(61);
    for count in 1..=5u32 {
        for choice in 0..3usize.pow(count) {
            let sort = |at: u32| [Sort::Sound, Sort::Unfit, Sort::BadlyCoded][choice / 3usize.pow(at) % 3];
            let sorts: Vec<Sort> = (0..count).map(sort).collect();
            let (value, places) = element_of(&mut random, [0x20, 0x60, 0x80][choice % 3], &sorts);
            let earliest = |wanted| sorts.iter().position(|sort| *sort == wanted).map(|at| places[at]);
            let expected = match (earliest(Sort::BadlyCoded), earliest(Sort::Unfit)) {
                (Some(place), _) => Some((45, place)),
                (None, Some(place)) => Some((44, place)),
                (None, None) => None,
            };
            assert_eq!(refused(&value), expected, "{sorts:?} {value:02X?}");
        }
    }
}

#[test]
fn places_of_filters_by_hand() {
    breaks("21 31 0A 02 31 11", 45, 1);
    breaks("21 31 0A 00", 45, 1);
    breaks("21 31 0A 05 30 01 50 13 C4", 44, 1);
    // The second, the third.
    breaks("22 31 0A 02 30 06 32 0B 02 31 06", 45, 6);
    breaks("22 31 0A 02 30 06 32 0B 05 30 01 50 13 C4", 44, 6);
    breaks("23 31 0A 02 30 06 32 0B 05 30 11 50 13 C4 33 0C 00", 45, 14);
    // Two of them.
    breaks("23 31 0A 02 30 06 32 0B 00 33 0C 00", 45, 6);
    breaks("23 31 0A 02 30 06 32 0B 05 41 00 02 00 01 33 0C 05 41 00 02 00 01", 44, 6);
    // The first fits no packet, but the second is badly coded, and that comes before.
    breaks("22 31 0A 05 30 01 50 13 C4 32 0B 01 30", 45, 9);
    // Both fit no packet and have one precedence: 44 comes before the repeat, and the repeat's place is not looked for.
    breaks("22 31 0A 05 41 00 02 00 01 32 0A 05 41 00 02 00 01", 44, 1);
    // A repeat before a filter that fits no packet, and before one that is badly coded.
    breaks("23 31 0A 02 30 06 31 0A 02 30 06 33 0C 05 41 00 02 00 01", 44, 11);
    breaks("23 31 0A 02 30 06 31 0A 02 30 06 33 0C 00", 45, 11);
    // Parameters after the list change no place.
    breaks("32 31 0A 02 30 06 32 0B 02 31 06 01 02 AA BB", 45, 6);
}

#[test]
fn repeats_by_hand() {
    // An identifier, a precedence, both.
    breaks("22 31 0A 02 30 06 31 0B 02 30 11", 45, 6);
    breaks("22 31 0A 02 30 06 32 0A 02 30 11", 45, 6);
    breaks("62 31 0A 02 30 06 31 0A 02 30 06", 45, 6);
    // The direction and the spare bits are no part of the identifier.
    breaks("82 31 0A 02 30 06 01 0B 02 30 11", 45, 6);
    breaks("82 31 0A 02 30 06 F1 0B 02 30 11", 45, 6);
    reads("82 31 0A 02 30 06 30 0B 02 30 11");
    // The identifier of the first and the precedence of the second, by the third.
    breaks("23 31 0A 02 30 06 32 0B 02 30 11 31 0B 02 30 06", 45, 11);
    // The third repeats the first, and the fourth the second: the third is the earlier.
    breaks("24 31 0A 02 30 06 32 0B 02 30 11 33 0A 02 30 06 32 0D 02 30 06", 45, 11);
    // The fourth by its identifier before the fifth by its precedence.
    breaks("25 31 0A 02 30 06 32 0B 02 30 11 33 0C 02 30 06 32 0D 02 30 06 35 0A 02 30 06", 45, 16);
    // Three times: the second is the first that repeats.
    breaks("23 31 0A 02 30 06 31 0B 02 30 11 31 0C 02 30 06", 45, 6);
    // Identifiers of a deletion may repeat.
    reads("A3 01 01 01");
}

/// The right rest for an octet 1, if there is one: filters that are well coded, distinct and fit, or identifiers, and a parameter.
fn completed(first: u8) -> Vec<u8> {
    let entry = |number: u8| match first >> 5 {
        1 | 3 | 4 => vec![number, number, 2, 0x30, 6],
        _ => vec![number],
    };
    let entries: Vec<u8> = (0..first & 0x0F).flat_map(entry).collect();
    let parameter = if first & 0x10 == 0 { vec![] } else { vec![0, 0] };
    [vec![first], entries, parameter].concat()
}

/// A list that is rightly framed, cut after so many of its filters.
struct List<'a> {
    value: &'a [u8],
}

impl List<'_> {
    /// Where each filter begins, and where the last one ends.
    fn places(&self) -> Vec<usize> {
        let mut places = vec![1];
        for _ in 0..self.value[0] & 0x0F {
            let at = *places.last().unwrap();
            places.push(at + 3 + usize::from(self.value[at + 2]));
        }
        places
    }

    fn first(&self, count: usize) -> Vec<u8> {
        let mut value = self.value[..self.places()[count]].to_vec();
        value[0] = value[0] & 0xE0 | count as u8;
        value
    }

    /// The same filters under identifiers and precedences that don't repeat.
    fn renumbered(&self) -> Vec<u8> {
        let mut value = self.value.to_vec();
        for (number, place) in self.places()[..usize::from(value[0] & 0x0F)].iter().enumerate() {
            value[*place] = number as u8;
            value[place + 1] = number as u8;
        }
        value
    }

    /// Where the last filter begins of the shortest list of the first ones that is refused with the cause.
    fn shortest(&self, cause: u8) -> Option<usize> {
        let is_refused = |count: &usize| cause_of(&self.first(*count)) == Some(cause);
        (1..self.places().len()).find(is_refused).map(|count| self.places()[count - 1])
    }
}

fn cause_of(octets: &[u8]) -> Option<u8> {
    read(octets).err().map(|refusal| refusal.cause())
}

/// The place found slowly, from causes alone: of the element, of its beginnings, of shorter lists, and of the list renumbered.
fn place_from_causes(value: &[u8]) -> Option<usize> {
    let list = List { value };
    match cause_of(value)? {
        42 if value.is_empty() || value.len() > LONGEST_VALUE => Some(0),
        42 if cause_of(&completed(value[0])) == Some(42) => Some(0),
        42 if value[0] & 0x10 == 0 => {
            let framed = |length: &usize| cause_of(&value[..*length]) != Some(42);
            Some((1..value.len()).find(framed).unwrap_or(value.len()))
        }
        42 => Some(value.len()),
        44 => list.shortest(44),
        _ => List { value: &list.renumbered() }.shortest(45).or(list.shortest(45)),
    }
}

/// Octets as they come, of the kind that elements have often.
fn any_value(random: &mut Random) -> Vec<u8> {
    let (length, count) = (random.below(40), random.below(4) as u8);
    let first = random.pick(&[0x20, 0x60, 0x80, 0xA0, 0x40, 0xC0, 0x30, 0xB0, 0xD0]) | count;
    let often = [0x30, 0x31, 0x32, 0x00, 0x01, 0x02, 0x02, 0x03, 0x05, 0x06, 0x11, 0x40, 0x50];
    let rest = (0..length).map(|_| {
        let any = random.octet();
        let often = random.pick(&often);
        random.pick(&[any, often, often, often, often])
    });
    [vec![first], rest.collect()].concat()
}

/// Lists that are rightly framed, with filters of every sort, repeats, parameters and octets left over now and then.
fn any_list(random: &mut Random) -> Vec<u8> {
    let count = 1 + random.below(6);
    let sorts: Vec<Sort> = (0..count)
        .map(|_| {
            random.pick(&[Sort::Sound, Sort::Sound, Sort::Sound, Sort::Sound, Sort::Unfit, Sort::BadlyCoded])
        })
        .collect();
    let first = random.pick(&[0x20, 0x60, 0x80]);
    let (mut value, places) = element_of(random, first, &sorts);
    for _ in 0..random.below(3) {
        let (one, other, octet) = (random.below(count), random.below(count), random.below(2));
        value[places[one] + octet] = value[places[other] + octet];
    }
    match random.below(8) {
        0 => value.push(random.octet()),
        1 => value.truncate(random.below(value.len())),
        2 => {
            value[0] |= 0x10;
            value.extend([random.octet(), 1, random.octet()]);
        }
        _ => {}
    }
    value
}

#[test]
fn places_are_those_found_from_causes_alone() {
    let mut random = Random::new(62);
    let mut values = elements(63, 3000);
    values.extend((0..60_000).map(|_| any_value(&mut random)));
    values.extend((0..40_000).map(|_| any_list(&mut random)));
    values.extend((0..=u16::MAX).map(|number| number.to_be_bytes().to_vec()));
    let mut seen = std::collections::BTreeMap::<(u8, bool, bool), usize>::new();
    for value in &values {
        let refused = refused(value);
        assert_eq!(refused.map(|(_, place)| place), place_from_causes(value), "{value:02X?}");
        if let Some((cause, place)) = refused {
            assert!(place <= value.len(), "{value:02X?}");
            *seen.entry((cause, place > 1, place == value.len())).or_default() += 1;
        }
    }
    for sort in
        [(42, false, false), (42, true, false), (42, true, true), (44, true, false), (45, true, false)]
    {
        assert!(seen.get(&sort).is_some_and(|times| *times > 1000), "{sort:?} {seen:?}");
    }
}

/// A sound filter that repeats nothing.
#[test]
fn a_filter_in_front_moves_the_place_by_its_length() {
    let mut random = Random::new(64);
    for _ in 0..20_000 {
        let value = any_list(&mut random);
        let in_front = octets("3F FF 05 30 11 50 13 C4");
        let Some((cause, place)) = refused(&value).filter(|_| !value.is_empty() && value[0] & 0x0F < 15)
        else {
            continue;
        };
        let longer = [&[value[0] + 1], &in_front[..], &value[1..]].concat();
        assert_eq!(refused(&longer), Some((cause, place + in_front.len())), "{value:02X?}");
    }
}

/// Tables as scripts build them, with some that are not well formed.
fn tables() -> Vec<Table> {
    let (mut session, mut tables) = (Session::default(), Vec::new());
    for (number, line) in script(65, 3000).split(|octet| *octet == b'\n').enumerate() {
        let line = line.strip_suffix(b"\r").unwrap_or(line);
        session.do_line(number as u64, line, line.len() > 2048, &mut Vec::new());
        if number % 10 == 0 {
            tables.push(session.table);
        }
    }
    tables
}

/// Where a call rejects for the element, it has the reader's cause and place, and any other reject has none.
fn passes_on(answer: Answer, value: &[u8], times: &mut [usize; 2]) {
    if let Answer::Reject { why, .. } = answer {
        let by_element = matches!(why.cause, 42 | 44 | 45);
        let expected = if by_element { refused(value) } else { Some((why.cause, 0)) };
        let place = expected.filter(|_| by_element).map(|(_, place)| place);
        assert_eq!(why, Rejection { cause: expected.unwrap().0, place }, "{value:02X?}");
        times[usize::from(by_element)] += 1;
    }
}

fn message(kind: Kind, bearer: u8, number: u8, tft: &[u8]) -> Vec<u8> {
    let mut buffer = [0; 512];
    let message = Message { kind, bearer, transaction: 0, number, tft: Some(tft) };
    let length = write(&message, &mut buffer).unwrap();
    buffer[..length].to_vec()
}

#[test]
fn calls_and_messages_pass_the_place_on() {
    let mut random = Random::new(66);
    let mut values: Vec<Vec<u8>> = (0..600).map(|_| any_list(&mut random)).chain(elements(67, 400)).collect();
    values.extend([vec![], vec![0x40], vec![0x41, 1], vec![0xA1, 1], vec![0xC0; 256]]);
    let (mut by_call, mut by_message) = ([[0; 2]; 2], [[0; 2]; 2]);
    for table in tables() {
        let defaults: Vec<u8> =
            table.numbered().filter(|(_, b)| b.role == Role::Default).map(|(identity, _)| identity).collect();
        for _ in 0..40 {
            let at = random.below(values.len());
            let value = values[at].as_slice();
            let (bearer, link) = (4 + random.below(12) as u8, random.any(&defaults).unwrap_or(5));
            let transaction = random.pick(&[0, 0, 0, 7]);
            let answer = modify(&mut table.clone(), bearer, transaction, value);
            passes_on(answer, value, &mut by_call[0]);
            let answer = activate_dedicated(&mut table.clone(), bearer, link, transaction, value);
            passes_on(answer, value, &mut by_call[1]);
            if value.len() <= LONGEST_VALUE {
                let octets = message(Kind::ModifyRequest, bearer, 0, value);
                passes_on(handle(&mut table.clone(), &octets).answer, value, &mut by_message[0]);
                let octets = message(Kind::DedicatedRequest, bearer, link, value);
                passes_on(handle(&mut table.clone(), &octets).answer, value, &mut by_message[1]);
            }
        }
    }
    let all = [by_call, by_message].concat();
    assert!(all.concat().iter().all(|times| *times > 200), "{all:?}");
}

#[test]
fn rejects_by_hand() {
    let mut table = Table::default();
    let place = |answer| match answer {
        Answer::Reject { why, .. } => Some((why.cause, why.place)),
        _ => None,
    };
    activate_default(&mut table, 5);
    // In use, outside 5 to 15, not open.
    assert_eq!(place(activate_default(&mut table, 5)), Some((43, None)));
    assert_eq!(place(activate_default(&mut table, 4)), Some((43, None)));
    assert_eq!(place(modify(&mut table, 6, 0, &[])), Some((43, None)));
    assert_eq!(place(modify(&mut table, 5, 9, &[])), Some((47, None)));
    assert_eq!(place(activate_dedicated(&mut table, 6, 7, 0, &[0x20])), Some((43, None)));
    // Step 4 comes before step 5.
    assert_eq!(place(activate_dedicated(&mut table, 6, 5, 0, &[0xE0])), Some((42, Some(0))));
    assert_eq!(place(activate_dedicated(&mut table, 6, 5, 0, &[])), Some((42, Some(0))));
    // Any other operation than create is 41 however it is framed, and has no place.
    assert_eq!(place(activate_dedicated(&mut table, 6, 5, 0, &octets("41 01"))), Some((41, None)));
    assert_eq!(place(activate_dedicated(&mut table, 6, 5, 0, &octets("61 31"))), Some((41, None)));
    assert_eq!(place(activate_dedicated(&mut table, 6, 5, 0, &octets("21 31"))), Some((42, Some(2))));
    activate_dedicated(&mut table, 6, 5, 0, &octets("21 31 0A 02 30 06"));
    assert_eq!(place(modify(&mut table, 6, 0, &octets("40"))), Some((41, None)));
    assert_eq!(place(modify(&mut table, 6, 0, &octets("40 00"))), Some((41, None)));
    assert_eq!(place(modify(&mut table, 5, 0, &octets("40 00"))), Some((42, Some(1))));
    // What empties the TFT is 41 after the framing was looked at.
    assert_eq!(place(modify(&mut table, 6, 0, &octets("A1 01"))), Some((41, None)));
    assert_eq!(place(modify(&mut table, 6, 0, &octets("A1 01 00"))), Some((42, Some(2))));
    assert_eq!(place(modify(&mut table, 6, 0, &octets("61 32 0B 02 31 11"))), Some((45, Some(1))));
}

/// Counted in the value, wherever in the message it stands.
#[test]
fn what_is_around_the_tft_changes_no_place() {
    let mut table = Table::default();
    activate_default(&mut table, 5);
    let why = Rejection { cause: 45, place: Some(6) };
    for before in ["", "27 00", "5B 03 01 02 03", "32 05", "C0 8F", "7B 00 01 36"] {
        for after in ["", "27 00", "7B 00 02 36 00", "CF"] {
            let hex = format!("52 00 C9 {before} 36 0B 22 31 0A 02 30 06 32 0B 02 31 06 {after}");
            let handled = handle(&mut table, &octets(&hex));
            assert_eq!(handled.answer, Answer::Reject { bearer: 5, why }, "{hex}");
            assert_eq!(handled.sent.map(|sent| sent.number), Some(45), "{hex}");
        }
    }
    for qos in ["00", "01 09", "05 01 02 03 04 05"] {
        let hex = format!("62 00 C5 05 {qos} 0B 22 31 0A 02 30 06 32 0B 02 31 06");
        let handled = handle(&mut table, &octets(&hex));
        assert_eq!(handled.answer, Answer::Reject { bearer: 6, why }, "{hex}");
    }
}

#[test]
fn a_finish_has_the_place_in_the_whole() {
    let value = octets("22 31 0A 02 30 06 32 0B 02 31 06");
    for cut in 0..=value.len() {
        let mut state = Portions::default();
        state.announce(value.len() as u16).unwrap();
        state.feed(&value[..cut]).unwrap();
        state.feed(&value[cut..]).unwrap();
        let refusal = state.finish().unwrap().unwrap_err();
        assert_eq!((refusal.cause(), refusal.place), (45, 6));
    }
}
