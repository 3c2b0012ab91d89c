//! The replies that stored/cases.txt says by hand are the ones given.

use std::str::from_utf8;

use second::lines::{Line, LONGEST_LINE};
use second::session::Session;

const CASES: &[u8] = include_bytes!("../stored/cases.txt");
const MARK: &[u8] = b"#>";

/// A line, or a stretch of lines from the one that turns echo on to the one that turns it off, and all that is written for it.
#[derive(Default)]
struct Case {
    number: u64,
    lines: Vec<Vec<u8>>,
    given: Vec<u8>,
    said: Vec<u8>,
}

impl Case {
    fn add(&mut self, line: Vec<u8>, given: Vec<u8>) {
        self.lines.push(line);
        self.given.extend(given);
    }

    /// The number of a bad line is never said by hand, and a line that is too long after the mark is not said out.
    fn note(&mut self, said: &[u8]) {
        let words: Vec<&str> = from_utf8(said).unwrap_or("").split(' ').collect();
        match words.as_slice() {
            ["bad", "line"] => self.said.extend(format!("bad line {}", self.number).bytes()),
            ["bad", "line", after] if after.starts_with('+') => {
                self.said.extend(format!("bad line {}", self.number + position(after)).bytes());
            }
            ["line", after] => self.said.extend(&self.lines[position(after) as usize]),
            _ => self.said.extend(said),
        }
        self.said.push(b'\n');
    }

    fn is_right(&self) -> bool {
        self.given == self.said
    }

    fn shown(&self) -> String {
        let shown = |octets: &[u8]| octets.escape_ascii().to_string().replace("\\n", "\n    ");
        let lines = shown(&self.lines.join(&b'\n'));
        let (said, given) = (shown(&self.said), shown(&self.given));
        format!("line {}\n    {lines}\n  said\n    {said}\n  given\n    {given}", self.number)
    }
}

/// `+K`: the K-th line after the first one of the case.
fn position(after: &str) -> u64 {
    after.strip_prefix('+').and_then(|number| number.parse().ok()).expect("+ and a number")
}

/// What a line says of the case before it. A mark without anything says an empty line.
fn said(line: &[u8]) -> Option<&[u8]> {
    let said = line.strip_prefix(MARK)?;
    if said.is_empty() {
        Some(said)
    } else {
        said.strip_prefix(b" ")
    }
}

fn cases() -> Vec<Case> {
    let mut session = Session::default();
    let mut line = Line::new(LONGEST_LINE);
    let mut input = CASES;
    let mut cases = vec![Case::default()];
    while line.next(&mut input).unwrap() {
        let (goes_on, mut given) = (session.echo, Vec::new());
        session.line(line.number, &line.octets, line.is_too_long(), &mut given);
        let (octets, last) = (line.octets.clone(), cases.last_mut().unwrap());
        match said(&octets) {
            _ if goes_on => last.add(octets, given),
            Some(said) => last.note(said),
            None if octets.is_empty() || octets.starts_with(b"# ") => {}
            None => cases.push(Case { number: line.number, lines: vec![octets], given, said: Vec::new() }),
        }
    }
    cases
}

#[test]
fn replies_are_as_said_by_hand() {
    let cases = cases();
    let wrong: Vec<String> = cases.iter().filter(|case| !case.is_right()).map(Case::shown).collect();
    assert!(wrong.is_empty(), "\n{}", wrong.join("\n"));
    assert!(cases.len() > 500);
}
