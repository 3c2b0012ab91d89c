//! `second`: the bench language on standard input, replies on standard output.
//! `second --echo`: the same with echo on from the start.
//! `second elements`: a line of hexadecimal for each element, 0 or the reader's cause and place for each.

use std::env::args_os;
use std::ffi::OsString;
use std::io::{self, stdin, stdout, BufReader, Write};
use std::process::ExitCode;

use second::element::{self, Reading};
use second::lines::{Line, LONGEST_LINE};
use second::session::Session;
use second::text::{self, Text};

const FULL: usize = 1 << 16;

fn main() -> ExitCode {
    let words: Vec<OsString> = args_os().skip(1).collect();
    let words: Vec<Option<&str>> = words.iter().map(|word| word.to_str()).collect();
    let done = match words.as_slice() {
        [] => bench(false),
        [Some("--echo")] => bench(true),
        [Some("elements")] => elements(),
        _ => {
            eprintln!("usage: second [--echo | elements]");
            return ExitCode::from(2);
        }
    };
    match done {
        Ok(()) => ExitCode::SUCCESS,
        Err(error) => {
            eprintln!("second: {error}");
            ExitCode::FAILURE
        }
    }
}

fn bench(echo: bool) -> io::Result<()> {
    let mut session = Session::default();
    session.echo = echo;
    each_line(LONGEST_LINE, |line, out| {
        session.line(line.number, &line.octets, line.is_too_long(), out);
    })
}

fn elements() -> io::Result<()> {
    each_line(usize::MAX, |line, out| match octets(&line.octets) {
        Some(octets) => number(&element::read(&octets), out),
        None => text::line(out, "bad line ", line.number),
    })
}

/// 0, or the cause and the place.
fn number(read: &Reading, out: &mut Text) {
    match read {
        Ok(_) => text::line(out, "", 0u8),
        Err(refusal) => text::refusal(out, "", refusal),
    }
}

fn octets(line: &[u8]) -> Option<Vec<u8>> {
    let digit = |octet: &u8| (*octet as char).to_digit(16);
    if line == b"-" {
        return Some(Vec::new());
    }
    let digits: Vec<u32> = line.iter().map(digit).collect::<Option<_>>()?;
    let even = digits.len() % 2 == 0;
    even.then(|| digits.chunks(2).map(|pair| (pair[0] << 4 | pair[1]) as u8).collect())
}

/// Does every line of standard input. Replies go out when there are many, and before a line is waited for.
fn each_line(longest: usize, mut each: impl FnMut(&Line, &mut Text)) -> io::Result<()> {
    let mut input = BufReader::with_capacity(FULL, stdin().lock());
    let mut line = Line::new(longest);
    let mut out = Text::with_capacity(2 * FULL);
    loop {
        let must_wait = !input.buffer().contains(&b'\n');
        if must_wait || out.len() >= FULL {
            flush(&mut out)?;
        }
        if !line.next(&mut input)? {
            return flush(&mut out);
        }
        each(&line, &mut out);
    }
}

fn flush(out: &mut Text) -> io::Result<()> {
    let mut output = stdout().lock();
    output.write_all(out)?;
    out.clear();
    output.flush()
}
