//! `play SECONDS PROGRAM_A PROGRAM_B` runs fresh scripts through both programs and compares what they write. The first difference is made as
//! short as it gets and printed. A program may be a command with arguments in one word, split at spaces.

use std::env::args;
use std::io::{Read, Write};
use std::process::{id, Child, Command, ExitCode, Stdio};
use std::thread;
use std::time::{Duration, Instant, SystemTime, UNIX_EPOCH};

use second::element::{read, write, Operation};
use second::filter::{Component, Filter, PLACES};
use second::generator::{damaged, rubbish, script};
use second::messages::{self, Message};
use second::random::Random;
use second::text::hexadecimal;

const LINES: u64 = 2000;
const LONGEST_RUN: Duration = Duration::from_secs(60);
const LONGEST_SHRINKING: Duration = Duration::from_secs(240);

fn main() -> ExitCode {
    let words: Vec<String> = args().skip(1).collect();
    let seconds = words.first().and_then(|word| word.parse().ok());
    let (Some(seconds), [_, a, b]) = (seconds, words.as_slice()) else {
        eprintln!("usage: play SECONDS PROGRAM_A PROGRAM_B");
        return ExitCode::from(2);
    };
    play(Duration::from_secs(seconds), &Pair { a, b })
}

/// What a program wrote and whether it ended well.
#[derive(PartialEq, Eq)]
struct Outcome {
    output: Vec<u8>,
    ending: String,
}

struct Pair<'a> {
    a: &'a str,
    b: &'a str,
}

impl Pair<'_> {
    fn outcomes(&self, script: &[u8]) -> (Outcome, Outcome) {
        thread::scope(|scope| {
            let other = scope.spawn(|| outcome(self.b, script));
            (outcome(self.a, script), other.join().expect("the other run ended"))
        })
    }

    /// Different, or not ended well.
    fn differ(&self, script: &[u8]) -> bool {
        let (a, b) = self.outcomes(script);
        a != b || a.ending != ENDED_WELL
    }
}

const ENDED_WELL: &str = "exit status: 0";

fn outcome(program: &str, script: &[u8]) -> Outcome {
    let mut words = program.split_whitespace();
    let mut command = Command::new(words.next().unwrap_or_default());
    command.args(words).stdin(Stdio::piped()).stdout(Stdio::piped());
    match command.spawn() {
        Ok(child) => finished(child, script),
        Err(error) => Outcome { output: Vec::new(), ending: format!("not started: {error}") },
    }
}

fn finished(mut child: Child, script: &[u8]) -> Outcome {
    let mut input = child.stdin.take().expect("piped");
    let mut from = child.stdout.take().expect("piped");
    thread::scope(|scope| {
        // A program that ends early leaves input unread; its output tells enough.
        scope.spawn(move || drop(input.write_all(script)));
        let reader = scope.spawn(move || {
            let mut output = Vec::new();
            from.read_to_end(&mut output).map(|_| output).unwrap_or_default()
        });
        let ending = ending(&mut child, || reader.is_finished());
        Outcome { output: reader.join().expect("reading ended"), ending }
    })
}

fn ending(child: &mut Child, closed: impl Fn() -> bool) -> String {
    let start = Instant::now();
    while !closed() && start.elapsed() < LONGEST_RUN {
        thread::sleep(Duration::from_micros(300));
    }
    if !closed() {
        let _ = child.kill();
    }
    match child.wait() {
        Ok(status) => status.to_string(),
        Err(error) => error.to_string(),
    }
}

fn play(time: Duration, pair: &Pair) -> ExitCode {
    let start = Instant::now();
    let first_seed = fresh_seed();
    println!("seed {first_seed}");
    let (mut scripts, mut lines) = (0u64, 0);
    while start.elapsed() < time {
        let input = input(first_seed.wrapping_add(scripts));
        scripts += 1;
        lines += input.iter().filter(|octet| **octet == b'\n').count();
        if pair.differ(&input) {
            println!("script {scripts} shows a difference; making it shorter");
            report(pair, &shortened(pair, input));
            return ExitCode::FAILURE;
        }
    }
    println!("{scripts} scripts, {lines} lines: no difference");
    ExitCode::SUCCESS
}

fn fresh_seed() -> u64 {
    let now = SystemTime::now().duration_since(UNIX_EPOCH).map_or(0, |time| time.as_nanos() as u64);
    Random::new(now ^ u64::from(id()) << 40).number()
}

/// Mostly scripts; some damaged; some that end with echo on and in a line without LF; some no scripts at all.
fn input(seed: u64) -> Vec<u8> {
    match seed % 10 {
        0 => rubbish(seed),
        1 => damaged(seed, script(seed, LINES / 4)),
        2 => [script(seed, LINES / 4), unended(seed)].concat(),
        _ => script(seed, LINES),
    }
}

fn unended(seed: u64) -> Vec<u8> {
    let lines =
        ["check", "check\r", "", "   ", "\r", "# the end", "# the end\r", "chck", "echo off", "echo off\r"];
    format!("echo on\n{}", Random::new(seed).pick(&lines)).into_bytes()
}

fn report(pair: &Pair, script: &[u8]) {
    let (a, b) = pair.outcomes(script);
    println!("--- script\n{}", shown(script));
    println!("--- {} ({})\n{}", pair.a, a.ending, shown(&a.output));
    println!("--- {} ({})\n{}", pair.b, b.ending, shown(&b.output));
}

/// As text, octets that are none written as escapes.
fn shown(octets: &[u8]) -> String {
    octets
        .split(|octet| *octet == b'\n')
        .map(|line| line.escape_ascii().to_string())
        .collect::<Vec<_>>()
        .join("\n")
}

type Lines = Vec<Vec<u8>>;

/// Joined by LF, so that the last line has none where the script had none.
fn joined(lines: &Lines) -> Vec<u8> {
    lines.join(&b'\n')
}

fn shortened(pair: &Pair, script: Vec<u8>) -> Vec<u8> {
    let end = Instant::now() + LONGEST_SHRINKING;
    let shows = |lines: &Lines| Instant::now() < end && pair.differ(&joined(lines));
    let mut lines: Lines = script.split(|octet| *octet == b'\n').map(<[u8]>::to_vec).collect();
    loop {
        let before = lines.clone();
        lines = with_fewer_lines(lines, &shows);
        lines = with_simpler_lines(lines, &shows);
        if lines == before {
            return joined(&lines);
        }
    }
}

/// Leaves out chunks of lines, each half as long as the ones before, down to single lines.
fn with_fewer_lines(mut lines: Lines, shows: &impl Fn(&Lines) -> bool) -> Lines {
    let mut chunk = lines.len().div_ceil(2);
    while chunk > 0 {
        lines = without_chunks(lines, chunk, shows);
        chunk /= 2;
    }
    lines
}

fn without_chunks(mut lines: Lines, chunk: usize, shows: &impl Fn(&Lines) -> bool) -> Lines {
    let mut at = 0;
    while at < lines.len() {
        let mut fewer = lines.clone();
        fewer.drain(at..(at + chunk).min(lines.len()));
        if shows(&fewer) {
            lines = fewer;
        } else {
            at += chunk;
        }
    }
    lines
}

fn with_simpler_lines(mut lines: Lines, shows: &impl Fn(&Lines) -> bool) -> Lines {
    for at in 0..lines.len() {
        while let Some(simpler) = simpler_at(&lines, at, shows) {
            lines[at] = simpler;
        }
    }
    lines
}

/// The first simpler form of a line with which the difference still shows.
fn simpler_at(lines: &Lines, at: usize, shows: &impl Fn(&Lines) -> bool) -> Option<Vec<u8>> {
    let still_shows = |simpler: &Vec<u8>| {
        let mut tried = lines.clone();
        tried[at] = simpler.clone();
        shows(&tried)
    };
    simpler_lines(&lines[at]).into_iter().find(still_shows)
}

/// Forms of a line that are shorter, or as long and smaller.
fn simpler_lines(line: &[u8]) -> Vec<Vec<u8>> {
    let words: Lines = line.split(|octet| *octet == b' ').map(<[u8]>::to_vec).collect();
    let mut simpler = vec![line[..line.len().saturating_sub(1)].to_vec()];
    for at in 0..words.len() {
        // Two at once where neither goes alone: `repeat N`, `TYPE HEX`.
        simpler.extend([1, 2].map(|count| without_words(&words, at, count)));
        for word in simpler_words(&words[at]) {
            let mut changed = words.clone();
            changed[at] = word;
            simpler.push(changed.join(&b' '));
        }
    }
    let smaller = |new: &Vec<u8>| (new.len(), new.as_slice()) < (line.len(), line);
    simpler.into_iter().filter(smaller).collect()
}

fn without_words(words: &Lines, at: usize, count: usize) -> Vec<u8> {
    let after = (at + count).min(words.len());
    [&words[..at], &words[after..]].concat().join(&b' ')
}

/// A small number, a simpler element, message or address, or the word without a half, without two digits, or with two digits 0.
fn simpler_words(word: &[u8]) -> Lines {
    let mut simpler: Lines = [b"0", b"1", b"5", b"6", b"-"].iter().map(|word| word.to_vec()).collect();
    if word.len() < 2 {
        return simpler;
    }
    simpler.extend(simpler_elements(word));
    simpler.extend(simpler_messages(word));
    simpler.extend(simpler_addresses(word));
    simpler.push(word[..word.len() / 4 * 2].to_vec());
    for at in (0..word.len() - 1).step_by(2) {
        simpler.push([&word[..at], &word[at + 2..]].concat());
        simpler.push([&word[..at], b"00", &word[at + 2..]].concat());
    }
    simpler.retain(|word| !word.is_empty());
    simpler
}

/// Where the word is an element that reads well: the same with a filter, an identifier or a component less.
fn simpler_elements(word: &[u8]) -> Lines {
    let Some(operation) = octets(word).and_then(|octets| read(&octets).ok()) else {
        return Lines::new();
    };
    let mut simpler = Vec::new();
    for place in 0..PLACES {
        let mut fewer = operation;
        fewer.row[place] = Filter::default();
        fewer.identifiers &= !(1 << place);
        simpler.push(fewer);
        for filter in with_fewer_components(&operation.row[place]) {
            let mut fewer = operation;
            fewer.row[place] = filter;
            simpler.push(fewer);
        }
    }
    simpler.iter().filter_map(written).collect()
}

/// Where the word is a message that reads well: the same without what is skipped, or with a simpler TFT as well.
fn simpler_messages(word: &[u8]) -> Lines {
    let octets_of_message = octets(word).unwrap_or_default();
    let Ok(message) = messages::read(&octets_of_message) else {
        return Lines::new();
    };
    let tft = message.tft.map(hex).unwrap_or_default();
    let tfts: Lines = simpler_elements(&tft).iter().filter_map(|tft| octets(tft)).collect();
    let others = tfts.iter().map(|tft| Message { tft: Some(tft), ..message });
    [message].into_iter().chain(others).filter_map(|message| written_message(&message)).collect()
}

fn written_message(message: &Message) -> Option<Vec<u8>> {
    let mut buffer = [0; 512];
    let length = messages::write(message, &mut buffer).ok()?;
    Some(hex(&buffer[..length]))
}

fn hex(octets: &[u8]) -> Vec<u8> {
    let mut word = Vec::new();
    hexadecimal(&mut word, octets);
    word
}

/// Where the word is dotted: the same with a number less, or with one 0.
fn simpler_addresses(word: &[u8]) -> Lines {
    let parts: Vec<&[u8]> = word.split(|octet| *octet == b'.').collect();
    let dotted = if parts.len() > 1 { parts.len() } else { 0 };
    let with_zero = |at: usize| [&parts[..at], &[&b"0"[..]], &parts[at + 1..]].concat().join(&b'.');
    let without = |at: usize| [&parts[..at], &parts[at + 1..]].concat().join(&b'.');
    (0..dotted).flat_map(|at| [without(at), with_zero(at)]).collect()
}

fn with_fewer_components(filter: &Filter) -> Vec<Filter> {
    let bare = Filter::bare(filter.precedence, filter.direction);
    let without = |left_out: Component| {
        filter.components().filter(|c| *c != left_out).fold(bare, |filter, c| filter.with(&c))
    };
    filter.components().map(without).collect()
}

fn octets(word: &[u8]) -> Option<Vec<u8>> {
    let digits: Option<Vec<u32>> = word.iter().map(|octet| (*octet as char).to_digit(16)).collect();
    Some(
        digits?.chunks(2).map(|pair| pair.iter().fold(0, |octet, digit| octet << 4 | *digit as u8)).collect(),
    )
}

fn written(operation: &Operation) -> Option<Vec<u8>> {
    let mut buffer = [0; 255];
    let length = write(operation, &mut buffer).ok()?;
    Some(hex(&buffer[..length]))
}
