//! Whole messages: what is written reads back, elements that are skipped change nothing, cuts show, and handling is the call of the fields.

use second::calls::{self, Answer, Rejection};
use second::generator::{elements, script};
use second::messages::{handle, read, write, Kind, Message, BADLY_FRAMED, KINDS, NO_SUCH_MESSAGE};
use second::random::Random;
use second::session::Session;
use second::table::{Role, Table};

const BEFORE: u8 = 0xEE;
const LONGEST: usize = 512;

/// How a listed element is framed, with its identifier; of a half-octet one that is the upper half.
#[derive(Clone, Copy, PartialEq, Eq, Debug)]
enum Listed {
    Half(u8),
    Tv(u8),
    Tlv(u8),
    TlvE(u8),
}
use Listed::{Half, Tlv, TlvE, Tv};

/// The table of the standard, said once more and apart from the reader.
fn listed(kind: u8) -> &'static [Listed] {
    match kind {
        0xC5 => {
            &[Tlv(0x5D), Tlv(0x30), Tv(0x32), Half(8), Tlv(0x34), Tlv(0x27), Half(12), Tlv(0x33), TlvE(0x7B)]
        }
        0xC6 | 0xC7 | 0xCA | 0xCB => &[Tlv(0x27), Tlv(0x33), TlvE(0x7B)],
        0xC9 => &[
            Tlv(0x5B),
            Tlv(0x36),
            Tlv(0x30),
            Tv(0x32),
            Half(8),
            Tlv(0x34),
            Tlv(0x5E),
            Tlv(0x27),
            Half(12),
            Tlv(0x33),
            Tlv(0x66),
            TlvE(0x7B),
        ],
        0xCD => &[Tlv(0x27), Tlv(0x37), Half(12), Tlv(0x33), TlvE(0x7B)],
        0xCE => &[Tlv(0x27), TlvE(0x7B)],
        0xD7 => &[Tlv(0x27), Tlv(0x37), Tlv(0x6B), Tlv(0x33), TlvE(0x7B)],
        _ => panic!("no such type"),
    }
}

fn is_first(listed: Listed, octet: u8) -> bool {
    match listed {
        Half(upper) => octet >> 4 == upper,
        Tv(identifier) | Tlv(identifier) | TlvE(identifier) => octet == identifier,
    }
}

/// Elements with that identifier at lengths that matter; of a half-octet one all sixteen.
fn elements_of(listed: Listed) -> Vec<Vec<u8>> {
    // Octets that would be elements themselves if the framing were lost.
    let filling = |length: usize| [0x36, 0x01, 0x40, 0x27, 0x00, 0x7B].into_iter().cycle().take(length);
    match listed {
        Half(upper) => (0..16).map(|lower| vec![upper << 4 | lower]).collect(),
        Tv(identifier) => [0x00, 0x36, 0xFF].map(|octet| vec![identifier, octet]).to_vec(),
        Tlv(identifier) => [0, 1, 2, 7, 255]
            .map(|length| [identifier, length as u8].into_iter().chain(filling(length)).collect())
            .to_vec(),
        TlvE(identifier) => [0, 1, 2, 255, 256, 300]
            .map(|length: usize| {
                let [high, low] = (length as u16).to_be_bytes();
                [identifier, high, low].into_iter().chain(filling(length)).collect()
            })
            .to_vec(),
    }
}

/// Messages of a kind with each of these TFTs, and without one, where it may be so, and with every link or cause that the kind has.
fn messages_of(kind: Kind, tfts: &[Vec<u8>]) -> Vec<Message<'_>> {
    let numbers: Vec<u8> = match kind {
        Kind::DedicatedRequest => (0..16).collect(),
        _ if kind.has_cause() => (0..=255).collect(),
        _ => vec![0],
    };
    let mut with: Vec<Option<&[u8]>> = tfts.iter().map(|tft| Some(tft.as_slice())).collect();
    match kind {
        Kind::DedicatedRequest => {}
        Kind::ModifyRequest => with.push(None),
        _ => with = vec![None],
    }
    let of = |number, tft| Message { kind, bearer: 6, transaction: 7, number, tft };
    numbers.iter().flat_map(|number| with.iter().map(move |tft| of(*number, *tft))).collect()
}

fn written(message: &Message) -> Vec<u8> {
    let mut buffer = [BEFORE; LONGEST];
    let length = write(message, &mut buffer).expect("it can be read back");
    assert!(buffer[length..].iter().all(|octet| *octet == BEFORE));
    buffer[..length].to_vec()
}

fn reads_back(message: &Message) {
    assert_eq!(read(&written(message)), Ok(*message));
}

#[test]
fn what_is_written_reads_back() {
    let tfts: Vec<Vec<u8>> = (0..=255).map(|length| vec![0x36; length]).collect();
    for kind in KINDS {
        messages_of(kind, &tfts).iter().for_each(reads_back);
        for message in messages_of(kind, &tfts[9..10]) {
            for octet in 0..=255 {
                reads_back(&Message { transaction: octet, bearer: octet & 15, ..message });
            }
        }
    }
}

#[test]
fn what_could_not_be_read_back_is_15_before_the_buffer_is_looked_at() {
    let (tft, long) = (vec![0xC0], vec![0xC0; 256]);
    for kind in KINDS {
        let must = kind == Kind::DedicatedRequest;
        let may = must || kind == Kind::ModifyRequest;
        for message in messages_of(kind, std::slice::from_ref(&tft)) {
            let mut wrong: Vec<Message> = (16..=255).map(|bearer| Message { bearer, ..message }).collect();
            if must {
                wrong.extend((16..=255).map(|number| Message { number, ..message }));
                wrong.push(Message { tft: None, ..message });
            }
            if may {
                wrong.push(Message { tft: Some(&long), ..message });
            } else {
                wrong.extend([Some(&tft[..]), Some(&[][..])].map(|tft| Message { tft, ..message }));
            }
            for (message, size) in
                wrong.iter().flat_map(|message| [0, 3, LONGEST].map(|size| (message, size)))
            {
                let mut buffer = vec![BEFORE; size];
                assert_eq!(write(message, &mut buffer), Err(NO_SUCH_MESSAGE), "{message:?}");
                assert!(buffer.iter().all(|octet| *octet == BEFORE));
            }
        }
    }
}

#[test]
fn a_buffer_that_is_one_octet_too_short_is_9_and_stays() {
    let tfts: Vec<Vec<u8>> = [0, 1, 9, 255].map(|length| vec![0xC0; length]).to_vec();
    for message in KINDS.iter().flat_map(|kind| messages_of(*kind, &tfts)) {
        let octets = written(&message);
        for size in 0..octets.len() + 3 {
            let mut buffer = vec![BEFORE; size];
            let expected = if size < octets.len() { Err(9) } else { Ok(octets.len()) };
            assert_eq!(write(&message, &mut buffer), expected);
            let (head, rest) = buffer.split_at(expected.unwrap_or(0));
            assert!(head.is_empty() || head == octets);
            assert!(rest.iter().all(|octet| *octet == BEFORE));
        }
    }
}

/// The octets up to the last mandatory one, and elements that are all listed.
struct Parts {
    kind: u8,
    lead: Vec<u8>,
    elements: Vec<Vec<u8>>,
}

impl Parts {
    fn octets(&self) -> Vec<u8> {
        [self.lead.clone(), self.elements.concat()].concat()
    }

    fn with(&self, at: usize, element: &[u8]) -> Vec<u8> {
        let mut elements = self.elements.clone();
        elements.insert(at, element.to_vec());
        [self.lead.clone(), elements.concat()].concat()
    }

    /// Lengths at which a cut leaves a whole message; the position of each is how many elements are left then.
    fn boundaries(&self) -> Vec<usize> {
        let lengths = (0..=self.elements.len()).map(|count| self.elements[..count].concat().len());
        lengths.map(|length| self.lead.len() + length).collect()
    }
}

/// Of every kind: bare, and with one of each listed element, rising and falling. A modify request has its TFT among them.
fn parts() -> Vec<Parts> {
    let mut all = Vec::new();
    for kind in KINDS.map(Kind::octet) {
        let mandatory: &[u8] = match kind {
            0xC5 => &[0xF5, 2, 9, 0x36, 3, 0x21, 0x36, 0x00],
            0xC7 | 0xCB | 0xCD | 0xD7 => &[0x27],
            _ => &[],
        };
        let lead = [&[0x62, 0x07, kind], mandatory].concat();
        let elements: Vec<Vec<u8>> = listed(kind).iter().map(|one| elements_of(*one).remove(2)).collect();
        let backwards = elements.iter().rev().cloned().collect();
        for elements in [vec![], elements, backwards] {
            all.push(Parts { kind, lead: lead.clone(), elements });
        }
    }
    all
}

#[test]
fn a_listed_element_at_any_place_changes_nothing() {
    for parts in parts() {
        let octets = parts.octets();
        let base = read(&octets).expect("it is sound");
        for at in 0..=parts.elements.len() {
            for one in listed(parts.kind).iter().filter(|one| **one != Tlv(0x36)) {
                for element in elements_of(*one) {
                    assert_eq!(read(&parts.with(at, &element)), Ok(base), "{one:?} at {at} of {octets:02X?}");
                }
            }
        }
    }
}

#[test]
fn a_tft_may_stand_at_any_place_of_a_modify_request_and_once() {
    for parts in parts().iter().filter(|parts| parts.kind == 0xC9) {
        for at in 0..=parts.elements.len() {
            for element in elements_of(Tlv(0x36)) {
                let octets = parts.with(at, &element);
                let tft = read(&octets).map(|message| message.tft.map(<[u8]>::to_vec));
                let expected = if parts.elements.is_empty() {
                    Ok(Some(element[2..].to_vec()))
                } else {
                    Err(BADLY_FRAMED)
                };
                assert_eq!(tft.map_err(|fault| fault.number()), expected, "{octets:02X?}");
            }
        }
    }
}

#[test]
fn an_octet_that_begins_no_listed_element_is_16_at_any_place() {
    for parts in parts() {
        for first in 0..=255 {
            let is_listed = listed(parts.kind).iter().any(|one| is_first(*one, first));
            for at in (0..=parts.elements.len()).filter(|_| !is_listed) {
                // Whatever follows it: nothing, a length of 0, or a length that is kept.
                for after in [&[][..], &[0], &[1, 0], &[0, 1, 0]] {
                    let octets = parts.with(at, &[&[first], after].concat());
                    assert_eq!(read(&octets).map_err(|f| f.number()), Err(BADLY_FRAMED), "{octets:02X?}");
                }
            }
        }
    }
}

#[test]
fn a_cut_is_16_but_between_elements() {
    for parts in parts() {
        let (octets, boundaries) = (parts.octets(), parts.boundaries());
        let whole = read(&octets).expect("it is sound");
        for length in 0..octets.len() {
            let cut = read(&octets[..length]);
            match boundaries.iter().position(|boundary| *boundary == length) {
                None => {
                    assert_eq!(cut.map_err(|f| f.number()), Err(BADLY_FRAMED), "{:02X?}", &octets[..length])
                }
                Some(count) => {
                    let tft = parts.kind == 0xC5 || parts.elements[..count].iter().any(|e| e[0] == 0x36);
                    assert_eq!(cut, Ok(Message { tft: whole.tft.filter(|_| tft), ..whole }));
                }
            }
        }
    }
}

#[test]
fn spare_bits_are_ignored() {
    for link in 0..=255 {
        for qos in [&[0][..], &[1, 9], &[2, 0x36, 0x00]] {
            let octets = [&[0x62, 0, 0xC5, link], qos, &[1, 0xC0]].concat();
            let message = read(&octets).expect("it is sound");
            assert_eq!((message.number, message.tft), (link & 15, Some(&[0xC0][..])));
        }
    }
}

/// The same reader once more, a step at a time: nothing where it gives 16.
fn by_steps(octets: &[u8]) -> Option<(u8, Option<&[u8]>)> {
    let (kind, mut at) = (octets[2], 3);
    let (mut number, mut tft) = (0, None);
    let value = |start: usize, length: usize| octets.get(start..start + length);
    match kind {
        0xC5 => {
            number = octets.get(3)? & 15;
            let qos = usize::from(*octets.get(4)?);
            at = 5 + qos;
            let length = usize::from(*octets.get(at)?);
            tft = Some(value(at + 1, length)?);
            at += 1 + length;
        }
        0xC7 | 0xCB | 0xCD | 0xD7 => {
            number = *octets.get(3)?;
            at = 4;
        }
        _ => {}
    }
    while at < octets.len() {
        let one = listed(kind).iter().find(|one| is_first(**one, octets[at]))?;
        at = match one {
            Half(_) => at + 1,
            Tv(_) => at + 2,
            Tlv(identifier) => {
                let length = usize::from(*octets.get(at + 1)?);
                let held = value(at + 2, length)?;
                if *identifier == 0x36 && tft.replace(held).is_some() {
                    return None;
                }
                at + 2 + length
            }
            TlvE(_) => at + 3 + usize::from(*octets.get(at + 1)?) * 256 + usize::from(*octets.get(at + 2)?),
        };
    }
    (at == octets.len()).then_some((number, tft))
}

#[test]
fn octets_as_they_come_read_as_by_steps() {
    let mut random = Random::new(514);
    let often =
        [0x00, 0x01, 0x02, 0x27, 0x30, 0x32, 0x33, 0x34, 0x36, 0x37, 0x5B, 0x5D, 0x5E, 0x66, 0x6B, 0x7B];
    let (mut sound, mut refused) = (0, 0);
    for _ in 0..400_000 {
        let kind = random.pick(&KINDS).octet();
        let length = random.below(14);
        let mut octets = vec![0x52, 0, kind];
        octets.extend((0..length).map(|_| {
            let any = random.octet();
            let often = random.pick(&often);
            random.pick(&[any, often, often, often & 3])
        }));
        let expected = by_steps(&octets);
        let given = read(&octets).map(|message| (message.number, message.tft));
        assert_eq!(given.map_err(|fault| fault.number()), expected.ok_or(BADLY_FRAMED), "{octets:02X?}");
        sound += usize::from(expected.is_some());
        refused += usize::from(expected.is_none());
    }
    assert!(sound > 10_000 && refused > 10_000, "{sound} sound, {refused} refused");
}

/// A default 5 with a dedicated 6, as samples have them.
fn small_table() -> Table {
    let mut table = Table::default();
    calls::activate_default(&mut table, 5);
    calls::activate_dedicated(&mut table, 6, 5, 0, &[0x21, 0x31, 0x0A, 0x05, 0x30, 0x11, 0x50, 0x13, 0xC4]);
    calls::start(&mut table, 7, 6);
    table
}

fn refused(number: u8) -> Answer {
    Answer::Refused(number)
}

/// The mandatory parts of a type, and no octet for those that have none or are unknown.
fn mandatory(kind: u8) -> &'static [u8] {
    match kind {
        0xC5 => &[5, 0, 0],
        0xC7 | 0xCB | 0xCD | 0xD7 => &[43],
        _ => &[],
    }
}

fn reject(bearer: u8, cause: u8, place: Option<usize>) -> Answer {
    Answer::Reject { bearer, why: Rejection { cause, place } }
}

fn answer_to(kind: u8, bearer: u8) -> Answer {
    let accept = Answer::Accept { bearer, follow_up: 0 };
    match kind {
        0xC5 if bearer > 6 => reject(bearer, 42, Some(0)),
        0xC5 => reject(bearer, 43, None),
        0xC9 if bearer == 5 || bearer == 6 => accept,
        0xC9 => reject(bearer, 43, None),
        0xCD => accept,
        0xD7 => refused(3),
        _ => refused(NO_SUCH_MESSAGE),
    }
}

#[test]
fn of_all_types_and_discriminators_nine_and_one_are_read_and_four_and_one_handled() {
    for (first, kind) in (0..=255).flat_map(|first| (0..=255).map(move |kind| (first, kind))) {
        let octets = [&[first, 0, kind], mandatory(kind)].concat();
        let (bearer, discriminator) = (first >> 4, first & 15);
        let known = discriminator == 2 && KINDS.map(Kind::octet).contains(&kind);
        let read = read(&octets).map(|message| (message.kind.octet(), message.bearer));
        let expected = if known { Ok((kind, bearer)) } else { Err(NO_SUCH_MESSAGE) };
        assert_eq!(read.map_err(|fault| fault.number()), expected, "{octets:02X?}");
        let expected = if known { answer_to(kind, bearer) } else { refused(NO_SUCH_MESSAGE) };
        assert_eq!(handle(&mut small_table(), &octets).answer, expected, "{octets:02X?}");
    }
}

#[test]
fn refusals_come_in_their_order_and_leave_the_table() {
    let mut broken = small_table();
    broken.bearer_mut(9).unwrap().transaction = 1;
    let cases: [(&[u8], u8); 10] = [
        (&[], 16),
        (&[0x63], 16),
        (&[0x63, 7], 16),
        (&[0x63, 7, 0xC9], 15),
        (&[0x62, 7, 0xC8], 15),
        (&[0x63, 7, 0xC5], 15),
        (&[0x62, 7, 0xCA, 0x30], 15),
        (&[0x62, 7, 0xC7], 15),
        (&[0x62, 7, 0xC9, 0x36], 16),
        (&[0x62, 7, 0xCD], 16),
    ];
    for (octets, number) in cases {
        for (table, number) in [(small_table(), number), (broken, 1)] {
            let mut after = table;
            let handled = handle(&mut after, octets);
            assert_eq!((handled.answer, handled.sent), (refused(number), None), "{octets:02X?}");
            assert_eq!(after, table, "{octets:02X?}");
        }
    }
}

/// What the fields of a message say to the table, and the message that goes back where one does.
fn by_fields(table: &mut Table, message: &Message) -> (Answer, Option<Vec<u8>>) {
    let Message { kind, bearer, transaction, number, tft } = *message;
    let (answer, accept, reject) = match kind {
        Kind::DedicatedRequest => {
            (calls::activate_dedicated(table, bearer, number, transaction, tft.unwrap()), 0xC6, 0xC7)
        }
        Kind::ModifyRequest if tft.is_none() => (without_tft(table, bearer, transaction), 0xCA, 0xCB),
        Kind::ModifyRequest => (calls::modify(table, bearer, transaction, tft.unwrap()), 0xCA, 0xCB),
        Kind::DeactivateRequest => (calls::deactivate(table, bearer, transaction), 0xCE, 0),
        Kind::ModificationReject => (calls::reject(table, transaction, number), 0, 0),
        _ => panic!("a reply"),
    };
    let sent = match answer {
        Answer::Accept { bearer, .. } => Some(vec![bearer << 4 | 2, 0, accept]),
        Answer::Reject { bearer, why } => Some(vec![bearer << 4 | 2, 0, reject, why.cause]),
        _ => None,
    };
    (answer, sent)
}

/// A no operation element passes every step after 3, so it does what a modify without a TFT does.
fn without_tft(table: &mut Table, bearer: u8, transaction: u8) -> Answer {
    calls::modify(table, bearer, transaction, &[0xC0])
}

/// Tables as scripts build them, with some that are not well formed.
fn tables() -> Vec<Table> {
    let (mut session, mut tables) = (Session::default(), Vec::new());
    for (number, line) in script(514, 3000).split(|octet| *octet == b'\n').enumerate() {
        let line = line.strip_suffix(b"\r").unwrap_or(line);
        session.do_line(number as u64, line, line.len() > 2048, &mut Vec::new());
        if number % 7 == 0 {
            tables.push(session.table);
        }
    }
    tables
}

fn message_for<'a>(random: &mut Random, table: &Table, tft: &'a [u8]) -> Message<'a> {
    let kinds =
        [Kind::DedicatedRequest, Kind::ModifyRequest, Kind::DeactivateRequest, Kind::ModificationReject];
    let kind = random.pick(&kinds);
    let of_role = |wanted: fn(Role) -> bool| -> Vec<u8> {
        table.numbered().filter(|(_, b)| wanted(b.role)).map(|(identity, _)| identity).collect()
    };
    let (idle, active) = (of_role(|role| role == Role::Idle), of_role(|role| role != Role::Idle));
    let open: Vec<u8> = table.numbered().map(|(_, b)| b.transaction).filter(|t| *t != 0).collect();
    let (any, any_bearer) = (random.octet(), random.below(16) as u8);
    let wanted = if kind == Kind::DedicatedRequest { idle } else { active };
    let near = random.any(&wanted).unwrap_or(any_bearer);
    let bearer = random.pick(&[near, near, near, any_bearer]);
    let default = random.any(&of_role(|role| role == Role::Default)).unwrap_or(any_bearer);
    let number = match kind {
        Kind::DedicatedRequest => random.pick(&[default, default, default, any_bearer]),
        Kind::ModifyRequest => 0,
        _ => random.pick(&[43, any]),
    };
    let transaction = random.any(&open).filter(|_| random.one_in(2)).unwrap_or(random.pick(&[0, 0, any]));
    let tft = match kind {
        Kind::DedicatedRequest => Some(tft),
        Kind::ModifyRequest if !random.one_in(4) => Some(tft),
        _ => None,
    };
    Message { kind, bearer, transaction, number, tft }
}

#[test]
fn handling_is_the_call_of_the_fields() {
    let (mut random, tables, tfts) = (Random::new(515), tables(), elements(515, 600));
    let tfts: Vec<Vec<u8>> = tfts.into_iter().filter(|tft| tft.len() <= 255).chain([vec![]]).collect();
    let (mut answered, mut silent) = (0, 0);
    for table in &tables {
        for _ in 0..40 {
            let at = random.below(tfts.len());
            let message = message_for(&mut random, table, &tfts[at]);
            let (mut by_message, mut by_call) = (*table, *table);
            let handled = handle(&mut by_message, &written(&message));
            let (answer, sent) = by_fields(&mut by_call, &message);
            assert_eq!(handled.answer, answer, "{message:?}");
            assert_eq!(handled.sent.map(|sent| written(&sent)), sent, "{message:?}");
            assert_eq!(by_message, by_call, "{message:?}");
            answered += usize::from(sent.is_some());
            silent += usize::from(sent.is_none());
        }
    }
    assert!(answered > 1000 && silent > 1000, "{answered} answered, {silent} not");
}

#[test]
fn a_modify_without_a_tft_changes_nothing_but_a_closed_transaction() {
    for table in tables().into_iter().filter(Table::is_well_formed) {
        for (bearer, transaction) in (0..16).flat_map(|b| [0, 1, 7, 254, 255].map(|t| (b, t))) {
            let open: Vec<u8> = table.numbered().map(|(_, b)| b.transaction).filter(|t| *t != 0).collect();
            for transaction in [transaction].into_iter().chain(open.clone()) {
                let mut after = table;
                let answer = handle(&mut after, &[bearer << 4 | 2, transaction, 0xC9]).answer;
                let is_open = transaction == 0 || open.contains(&transaction);
                let expected = match (is_open, table.is_active(bearer)) {
                    (false, _) => reject(bearer, 47, None),
                    (true, false) => reject(bearer, 43, None),
                    (true, true) => Answer::Accept { bearer, follow_up: 0 },
                };
                assert_eq!(answer, expected);
                let mut closed = table;
                closed.close(transaction);
                assert_eq!(after, if is_open { closed } else { table });
            }
        }
    }
}

#[test]
fn a_tft_of_no_octets_is_there_and_gets_42_at_0() {
    let modify = (&[0x62, 0, 0xC9, 0x36, 0][..], Kind::ModifyReject);
    let dedicated = (&[0x72, 0, 0xC5, 5, 1, 9, 0][..], Kind::DedicatedReject);
    for (octets, kind) in [modify, dedicated] {
        let (mut table, bearer) = (small_table(), octets[0] >> 4);
        let handled = handle(&mut table, octets);
        assert_eq!(handled.answer, reject(bearer, 42, Some(0)));
        assert_eq!(handled.sent, Some(Message { kind, bearer, transaction: 0, number: 42, tft: None }));
        assert_eq!(table, small_table());
    }
}
