//! Lines that are bad, lines that are unusually written, and input that is no script at all.

use crate::lines::LONGEST_LINE;
use crate::random::Random;

const LINES: &[&str] = &[
    "default 5",
    "dedicated 6 5 0 21310A0530115013C4",
    "dedicated 6 5 0 21310A0530845013C4",
    "modify 5 0 C0",
    "deactivate 5 0",
    "start 1 5",
    "reject 1 43",
    "route 5 4 C0000201000000000000000000000000 17 1000 5060 0 0 0",
    "check",
    "element A10F",
    "rewrite C0 4",
    "compose none",
    "filter 1 10 3 30 11",
    "identifier 3",
    "emit 40",
    "force 5 default 0",
    "place 5 0 0 0 30 06",
    "show",
    "repeat 3 check",
    "repeat 0 check",
    "repeat 2 repeat 2 check",
    "repeat 7",
    "repeat 7 # nothing",
    "default 256",
    "route 5 4 C0000201 17 1000 5060 0 0 0",
    "element C",
    "filter 16 10 3 30 11",
    "place 4 0 0 0",
    "emit 513",
    "route 5 4 192.0.2.1 17 1000 5060 0 0 0",
    "route 5 4 192.0.2.1 132 1000 5060 0 0 0",
    "route 5 6 032.001.13.184 17 1000 5060 0 0 0",
    "element 192.0.2.1",
    "rewrite 192.0.2.1 20",
    "modify 5 0 192.0.2.1",
    "place 5 0 0 0 10 192.0.2.1",
    "filter 1 10 3 10 192.0.2.1/255.255.255.0",
    "echo on",
    "echo off",
    "repeat 2 echo on",
    "repeat 3 echo off",
    "status 2",
    "status 513",
    "synchronise FFFF",
    "synchronise -",
    "synchronise FFFFF",
    "compare 6000",
    "compare 60",
    "repeat 2 compare 60 00",
    "repeat 3 status 4",
    "announce 9",
    "announce 65536",
    "portion 2131",
    "portion -",
    "repeat 3 portion C0",
    "finish",
    "force-fed 9 4 21310A05",
    "force-fed 1 2 C0",
    "element fed",
    "rewrite fed 9",
    "modify 5 0 fed",
    "dedicated 6 5 0 fed",
    "portion fed",
    "parse 6200C9",
    "parse 6200C50501090921310A0530115013C4",
    "message 6200C50501090921310A0530115013C4",
    "message 6200CD24",
    "repeat 2 message 6200C93601C0",
    "message 0201D72B",
    "assemble modify-request 6 0 0 C0 8",
    "assemble modify-request 6 0 0 none 8",
    "assemble deactivate-accept 6 0 1 none 3",
    "assemble dedicated-request 6 0 5 - 7",
    "message fed",
    "list 5",
    "list 4",
    "repeat 2 list 6",
    "force-entry 5 10 6 1",
    "force-entry 5 10 0 0",
    "force-entry 5 10 0 1",
    "repeat 3 force-entry 6 0 0 0",
    "why 5 4 192.0.2.1 17 1000 5060 0 0 0",
    "why 6 6 20010DB8000000000000000000000001 6 80 443 0 0 7",
    "repeat 2 why 5 4 192.0.2.1 132 1000 5060 0 0 0",
];

const BAD_ECHOES: &[&str] = &[
    "echo",
    "echo on on",
    "echo off off",
    "echo on off",
    "echo off on",
    "echo on # now",
    "echo # on",
    "echo On",
    "echo OFF",
    "Echo off",
    "echoon",
    "echo-off",
    "echo 0",
    "echo 1",
    "echo -",
    "echo o",
    "echo of",
    "echo offf",
    "on",
    "off",
    "repeat 2 echo",
    "repeat 0 echo off",
    "repeat 1000001 echo on",
    "repeat echo on",
    "repeat 2 repeat 2 echo off",
];

pub fn bad_echo(random: &mut Random) -> &'static str {
    random.pick(BAD_ECHOES)
}

const BAD_STATUSES: &[&str] = &[
    "status",
    "status -",
    "status 2 2",
    "status 513",
    "status 4294967295",
    "status 00000000002",
    "status 0x2",
    "status +2",
    "status 2.",
    "status FF",
    "STATUS 2",
    "statuses 2",
    "repeat 2 status",
    "repeat 0 status 2",
    "synchronise",
    "synchronise FFF",
    "synchronise F",
    "synchronise FFFFF",
    "synchronise FF FF",
    "synchronise FFFF FFFF",
    "synchronise FF-FF",
    "synchronise FFFG",
    "synchronise 0xFFFF",
    "synchronise --",
    "synchronise - -",
    "synchronise FFFF 2",
    "synchronise 255.255",
    "synchronize FFFF",
    "synchronised FFFF",
    "synchronise # FFFF",
    "repeat 2 synchronise",
    "repeat 2 repeat 2 synchronise FFFF",
    "compare",
    "compare 600",
    "compare 6",
    "compare 60 00",
    "compare 6000 6000",
    "compare 6000 -",
    "compare 60,00",
    "compare 6O00",
    "compare 0x60",
    "Compare 6000",
    "compares 6000",
    "repeat 2 compare",
    "repeat compare 6000",
];

pub fn bad_status(random: &mut Random) -> &'static str {
    random.pick(BAD_STATUSES)
}

/// Near `announce`, `portion`, `finish`, `force-fed`, and the word `fed` for a HEX.
const BAD_PORTIONS: [&[&str]; 5] = [
    &[
        "announce",
        "announce -",
        "announce 65536",
        "announce 65791",
        "announce 4294967295",
        "announce 00000000009",
        "announce -1",
        "announce 9 9",
        "announce fed",
        "announce 0x9",
        "Announce 9",
        "announced 9",
        "repeat 2 announce",
    ],
    &[
        "portion",
        "portion 2",
        "portion 213",
        "portion 21 31",
        "portion - -",
        "portion --",
        "portion fed",
        "portion 0x21",
        "portion 2G",
        "portions 21",
        "PORTION 21",
        "repeat 2 portion",
        "repeat 0 portion 21",
        "repeat 2 portion fed",
    ],
    &[
        "finish -",
        "finish fed",
        "finish 9",
        "finish #",
        "Finish",
        "finished",
        "repeat finish",
        "repeat 2 finish 2",
        "repeat fed finish",
    ],
    &[
        "force-fed",
        "force-fed 1 1",
        "force-fed 1 1 C",
        "force-fed 1 1 C0 C0",
        "force-fed 1 1 fed",
        "force-fed 256 1 C0",
        "force-fed 1 256 C0",
        "force-fed fed 1 C0",
        "force-fed 1 C0",
        "force-fed - - -",
        "force fed 1 1 C0",
        "force_fed 1 1 C0",
        "forced-fed",
    ],
    &[
        "fed",
        "fed 1",
        "element Fed",
        "element FED",
        "element fed fed",
        "element fed 9",
        "element fe d",
        "element fed.",
        "element - fed",
        "elements fed",
        "rewrite fed",
        "rewrite fed 513",
        "rewrite fed -",
        "rewrite fed fed",
        "rewrite 9 fed",
        "rewrite FED 9",
        "modify fed",
        "modify 5 fed",
        "modify 5 0 FED",
        "modify 5 0 fed fed",
        "modify 5 fed 0",
        "modify fed 0 fed",
        "modify 5 0 fed C0",
        "dedicated fed",
        "dedicated 6 5 fed",
        "dedicated 6 5 0 Fed",
        "dedicated 6 5 0 fed 0",
        "dedicated 6 fed 0 fed",
        "dedicated 6 5 0 0 fed",
        "synchronise fed",
        "compare fed",
        "compare FED",
        "status fed",
        "emit fed",
        "route 5 4 fed 17 1000 5060 0 0 0",
        "place 5 0 0 0 30 fed",
        "identifier fed",
        "compose fed",
        "repeat 2 element fed fed",
        "repeat 2 modify 5 0 fed 0",
    ],
];

/// One of them, or a HEX that is longer than its place takes.
pub fn bad_portion(random: &mut Random) -> String {
    match random.below(16) {
        0 => format!("portion {}", "A5".repeat(513 + random.below(2))),
        1 => format!("force-fed 255 255 {}", "00".repeat(256 + random.below(258))),
        _ => {
            let near = BAD_PORTIONS[random.weighted(&[2, 2, 5, 2, 4])];
            random.pick(near).to_string()
        }
    }
}

/// Near `parse`, `message` and `assemble`.
const BAD_MESSAGES: [&[&str]; 3] = [
    &[
        "parse",
        "parse 6200C",
        "parse 62 00 C9",
        "parse 6200C9 -",
        "parse 6200C9 6200C9",
        "parse --",
        "parse fed",
        "parse none",
        "parse 0x6200C9",
        "parse 6200CG",
        "Parse 6200C9",
        "parsed 6200C9",
        "repeat 2 parse",
        "repeat 0 parse 6200C9",
        "repeat parse 6200C9",
    ],
    &[
        "message",
        "message 6200CD2",
        "message 62 00 CD 24",
        "message 6200CD24 24",
        "message - -",
        "message fed",
        "message none",
        "message 6200CD24 5",
        "message modify-request",
        "Message 6200CD24",
        "messages 6200CD24",
        "repeat 2 message",
        "repeat 2 repeat 2 message 6200CD24",
        "repeat 1000001 message 6200CD24",
        "send 6200CE",
    ],
    &[
        "assemble",
        "assemble modify-request",
        "assemble modify-request 6 0 0 none",
        "assemble modify-request 6 0 none 3",
        "assemble modify-request 6 0 0 3",
        "assemble modify-request 6 0 0 none 3 3",
        "assemble modify-request 6 0 0 none 513",
        "assemble modify-request 6 0 0 none -",
        "assemble modify-request 6 0 1 none 3",
        "assemble modify-request 6 0 255 C0 9",
        "assemble modify-request 6 0 256 none 3",
        "assemble modify-request 256 0 0 none 3",
        "assemble modify-request 6 256 0 none 3",
        "assemble modify-request 6 0 - none 3",
        "assemble modify-request 6 0 0 None 3",
        "assemble modify-request 6 0 0 NONE 3",
        "assemble modify-request 6 0 0 fed 3",
        "assemble modify-request 6 0 0 C 9",
        "assemble modify-request 6 0 0 C0 C0 9",
        "assemble modify_request 6 0 0 none 3",
        "assemble Modify-request 6 0 0 none 3",
        "assemble modify 6 0 0 none 3",
        "assemble C9 6 0 0 none 3",
        "assemble create 6 0 0 none 3",
        "assemble dedicated-accept 6 0 5 none 3",
        "assemble modify-accept 6 0 43 none 3",
        "assemble deactivate-accept 6 0 36 none 3",
        "assemble dedicated-reject 6 0 none 4",
        "assemble deactivate-request 6 0 256 none 4",
        "assemble resource-reject 6 0 43 none 4",
        "assemble dedicated-request 6 0 5 4",
        "repeat 2 assemble",
        "repeat 2 assemble modify-request 6 0 7 none 3",
    ],
];

/// One of them, or a HEX that is longer than a line takes.
pub fn bad_message(random: &mut Random) -> String {
    match random.below(20) {
        0 => format!("parse {}", "62".repeat(513 + random.below(2))),
        1 => format!("message {}", "62".repeat(513 + random.below(2))),
        2 => format!("assemble modify-request 6 0 0 {} 512", "C0".repeat(513 + random.below(2))),
        _ => {
            let near = BAD_MESSAGES[random.weighted(&[3, 3, 4])];
            random.pick(near).to_string()
        }
    }
}

/// Near `list`, `force-entry` and `why`.
const BAD_LISTS: [&[&str]; 3] = [
    &[
        "list",
        "list 0",
        "list 4",
        "list 16",
        "list 255",
        "list 256",
        "list 00000000005",
        "list -",
        "list -5",
        "list 5 5",
        "list 5 -",
        "list 5.",
        "list 0x5",
        "list fed",
        "list 5 #",
        "list all",
        "List 5",
        "lists 5",
        "listed 5",
        "repeat list 5",
        "repeat 2 list",
        "repeat 2 list 4",
        "repeat 2 list 5 5",
        "repeat 0 list 5",
    ],
    &[
        "force-entry",
        "force-entry 5",
        "force-entry 5 10",
        "force-entry 5 10 6",
        "force-entry 5 10 6 1 1",
        "force-entry 5 10 6 1 -",
        "force-entry 0 10 6 1",
        "force-entry 4 10 6 1",
        "force-entry 16 10 6 1",
        "force-entry 256 10 6 1",
        "force-entry 4 10 0 0",
        "force-entry 16 10 0 0",
        "force-entry 5 256 6 1",
        "force-entry 5 256 0 0",
        "force-entry 5 -1 6 1",
        "force-entry 5 10 1 1",
        "force-entry 5 10 1 0",
        "force-entry 5 10 4 0",
        "force-entry 5 10 4 15",
        "force-entry 5 10 16 0",
        "force-entry 5 10 255 0",
        "force-entry 5 10 256 0",
        "force-entry 5 10 0 1",
        "force-entry 5 10 0 15",
        "force-entry 5 10 0 16",
        "force-entry 5 10 6 16",
        "force-entry 5 10 15 255",
        "force-entry 5 10 - -",
        "force-entry 5 10 nothing",
        "force-entry 5 10 6.1",
        "force-entry 5 0x0A 6 1",
        "Force-entry 5 10 6 1",
        "force entry 5 10 6 1",
        "force_entry 5 10 6 1",
        "force-entries 5 10 6 1",
        "forced-entry",
        "force 5 10 6 1",
        "repeat force-entry 5 10 0 0",
        "repeat 2 force-entry",
        "repeat 2 force-entry 5 10 0 1",
        "repeat 0 force-entry 5 10 0 0",
    ],
    &[
        "why",
        "why 5",
        "why 5 4 192.0.2.1 17 1000 5060 0 0",
        "why 5 4 192.0.2.1 17 1000 5060 0 0 0 0",
        "why 4 192.0.2.1 17 1000 5060 0 0 0",
        "why 256 4 192.0.2.1 17 1000 5060 0 0 0",
        "why 5 256 192.0.2.1 17 1000 5060 0 0 0",
        "why 5 4 192.0.2 17 1000 5060 0 0 0",
        "why 5 4 192.0.2.256 17 1000 5060 0 0 0",
        "why 5 4 C0000201 17 1000 5060 0 0 0",
        "why 5 4 - 17 1000 5060 0 0 0",
        "why 5 4 fed 17 1000 5060 0 0 0",
        "why 5 4 192.0.2.1 256 1000 5060 0 0 0",
        "why 5 4 192.0.2.1 17 65536 5060 0 0 0",
        "why 5 4 192.0.2.1 17 1000 65536 0 0 0",
        "why 5 4 192.0.2.1 17 1000 5060 4294967296 0 0",
        "why 5 4 192.0.2.1 17 1000 5060 0 256 0",
        "why 5 4 192.0.2.1 17 1000 5060 0 0 4294967296",
        "why 5 4 192.0.2.1 udp 1000 5060 0 0 0",
        "why? 5 4 192.0.2.1 17 1000 5060 0 0 0",
        "why route 5 4 192.0.2.1 17 1000 5060 0 0 0",
        "route why 5 4 192.0.2.1 17 1000 5060 0 0 0",
        "Why 5 4 192.0.2.1 17 1000 5060 0 0 0",
        "repeat 2 why",
        "repeat why 5 4 192.0.2.1 17 1000 5060 0 0 0",
        "repeat 2 why 5 4 192.0.2.1 17 1000 5060 0 0",
    ],
];

pub fn bad_list(random: &mut Random) -> &'static str {
    let near = random.pick(&BAD_LISTS);
    random.pick(near)
}

/// Dotted, but for something.
const BAD_ADDRESSES: &[&str] = &[
    "256.0.2.1",
    "192.0.2.256",
    "192.999.2.1",
    "0192.0.2.1",
    "192.0.2.0001",
    "192.0.0000000002.1",
    "192.0.2",
    "192",
    "3221225985",
    "192.0.2.1.5",
    "0.0.0.0.0.0.0.0.0.0.0.0.0.0.0.0",
    "192..2.1",
    "192.0..1",
    ".192.0.2.1",
    "192.0.2.",
    "192.0.2.1.",
    "...",
    ".",
    "C0.0.2.1",
    "192.0.2.a",
    "0x1.0.2.1",
    "+192.0.2.1",
    "192.-0.2.1",
    "192.0.2.1/32",
    "192.0.2.1:5060",
    "192,0,2,1",
    "192. 0.2.1",
    "192.0.2.1000000000000000000000000",
    "C0000201.00000000000000000000000",
];

pub fn bad_address(random: &mut Random) -> String {
    random.pick(BAD_ADDRESSES).to_string()
}

/// A line of the language with something wrong about it, or nothing of the kind.
pub fn bad_line(random: &mut Random) -> Vec<u8> {
    let line = random.pick(LINES);
    match random.below(12) {
        0 => no_text(random),
        1 if random.one_in(3) => long_line(random),
        2 => with_word(random, line, "0"),
        3 => with_word(random, line, "-"),
        4 => with_word(random, line, "99999999999"),
        5 => without_word(random, line),
        6 => line.replace(' ', "\t").into_bytes(),
        7 => line.to_uppercase().into_bytes(),
        8 => line.as_bytes().to_vec(),
        _ => with_octet_changed(random, line.as_bytes()),
    }
}

fn not_lf(random: &mut Random) -> u8 {
    match random.octet() {
        b'\n' => b' ',
        octet => octet,
    }
}

fn with_octet_changed(random: &mut Random, line: &[u8]) -> Vec<u8> {
    let mut octets = line.to_vec();
    let at = random.below(octets.len());
    let any = not_lf(random);
    octets[at] = random.pick(&[b' ', b'\t', b'0', b'9', b'x', b'#', b'.', b'\r', 0, any]);
    octets
}

fn with_word(random: &mut Random, line: &str, word: &str) -> Vec<u8> {
    let mut words: Vec<&str> = line.split(' ').collect();
    words.insert(random.below(words.len() + 1), word);
    words.join(" ").into_bytes()
}

fn without_word(random: &mut Random, line: &str) -> Vec<u8> {
    let mut words: Vec<&str> = line.split(' ').collect();
    words.remove(random.below(words.len()));
    words.join(" ").into_bytes()
}

/// About as long as a line may be: a call, a comment or nothing, before or after many spaces, or seldom many of another octet.
pub fn long_line(random: &mut Random) -> Vec<u8> {
    let length = LONGEST_LINE - 2 + random.pick(&[0, 1, 2, 2, 3, 3, 4]);
    let texts = ["check", "# comment", "", "element C0", "show", "echo on", "echo off", "repeat 2 check"];
    let text = random.pick(&texts).as_bytes();
    let filling = vec![random.pick(b"    x#\r\xFF"); length - text.len()];
    if random.one_in(2) {
        [&filling, text].concat()
    } else {
        [text, &filling].concat()
    }
}

pub fn passed_over(random: &mut Random) -> Vec<u8> {
    let line: &[u8] = match random.below(8) {
        0 => b"",
        1 => b"   ",
        2 => b"# the table so far",
        3 => b"  #modify 5 0 C0",
        4 => b"# accept 5  ",
        5 => return vec![b' '; random.below(12)],
        6 => return [b"#".to_vec(), no_text(random)].concat(),
        _ => b"#",
    };
    line.to_vec()
}

fn no_text(random: &mut Random) -> Vec<u8> {
    (0..random.below(30)).map(|_| not_lf(random)).collect()
}

/// The same line, written as few would: more spaces, leading zeros, small letters, or one octet changed.
pub fn unusual(random: &mut Random, line: Vec<u8>) -> Vec<u8> {
    let text = String::from_utf8_lossy(&line).into_owned();
    match random.below(6) {
        0 => format!("  {text} ").into_bytes(),
        1 => text.replace(' ', "   ").into_bytes(),
        2 => text.replacen(' ', " 00", 1).into_bytes(),
        3 => text.to_lowercase().into_bytes(),
        4 => with_word(random, &text, "7"),
        _ => with_octet_changed(random, &line),
    }
}

/// A script with octets changed, left out and put in.
pub fn damaged(seed: u64, mut script: Vec<u8>) -> Vec<u8> {
    let mut random = Random::new(seed);
    for _ in 0..1 + script.len() / 200 {
        let at = random.below(script.len());
        match random.below(4) {
            0 => script[at] = random.octet(),
            1 => script[at] = random.pick(b" \n\r\t#0159-."),
            2 => script.insert(at, random.pick(b" \n\r0")),
            _ => {
                script.remove(at);
            }
        }
    }
    script
}

/// Octets of any kind, very long lines, words of the language, with or without an LF at the end; half of it with echo on from the start.
pub fn rubbish(seed: u64) -> Vec<u8> {
    let mut random = Random::new(seed);
    let mut octets = if random.one_in(2) { b"echo on\n".to_vec() } else { Vec::new() };
    for _ in 0..random.below(60) {
        octets.extend(rubbish_line(&mut random));
        octets.extend(random.pick::<&[u8]>(&[b"\n", b"\n", b"\r\n", b"\r\r\n", b"\n\r\n", b"\r", b""]));
    }
    octets
}

fn rubbish_line(random: &mut Random) -> Vec<u8> {
    match random.below(13) {
        0 => (0..random.below(300)).map(|_| random.octet()).collect(),
        1 => long_line(random),
        2 => vec![random.pick(b" #0C\0\xFF\r"); random.below(20_000)],
        3 => passed_over(random),
        4 => [b"element ".to_vec(), vec![b'A'; random.below(1030)]].concat(),
        5 => bad_line(random),
        6 => bad_echo(random).as_bytes().to_vec(),
        7 => bad_status(random).as_bytes().to_vec(),
        8 => bad_portion(random).into_bytes(),
        9 => bad_message(random).into_bytes(),
        10 => bad_list(random).as_bytes().to_vec(),
        _ => random.pick(LINES).as_bytes().to_vec(),
    }
}
