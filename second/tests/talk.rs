//! The built program as people use it: answered line by line, with its options.

use std::io::{BufRead, BufReader, Write};
use std::process::{Child, ChildStdin, Command, Output, Stdio};
use std::sync::mpsc::{channel, Receiver};
use std::thread;
use std::time::Duration;

const LONGEST_WAIT: Duration = Duration::from_secs(20);
const A_WHILE: Duration = Duration::from_millis(100);

fn second(words: &[&str]) -> Child {
    let mut command = Command::new(env!("CARGO_BIN_EXE_second"));
    command.args(words).stdin(Stdio::piped()).stdout(Stdio::piped()).stderr(Stdio::piped());
    command.spawn().expect("the program starts")
}

/// A program that is spoken to while it runs.
struct Talk {
    child: Child,
    input: Option<ChildStdin>,
    replies: Receiver<String>,
}

impl Talk {
    fn new(words: &[&str]) -> Talk {
        let mut child = second(words);
        let (input, output) = (child.stdin.take(), child.stdout.take().unwrap());
        let (sender, replies) = channel();
        // A reply that does not come would be waited for without end, so the waiting is done elsewhere.
        thread::spawn(move || {
            BufReader::new(output).lines().map_while(Result::ok).all(|line| sender.send(line).is_ok())
        });
        Talk { child, input, replies }
    }

    fn say(&mut self, octets: &str) {
        self.input.as_mut().unwrap().write_all(octets.as_bytes()).unwrap();
    }

    fn hear(&self, lines: &[&str]) {
        for line in lines {
            assert_eq!(self.replies.recv_timeout(LONGEST_WAIT).as_deref(), Ok(*line));
        }
    }

    fn hear_nothing(&self) {
        assert!(self.replies.recv_timeout(A_WHILE).is_err());
    }

    /// Ends the input, and hears these lines and no more.
    fn end(mut self, lines: &[&str]) {
        self.input = None;
        self.hear(lines);
        assert!(self.child.wait().unwrap().success());
        assert!(self.replies.recv_timeout(LONGEST_WAIT).is_err());
    }
}

/// What the program gives for a whole input.
fn given(words: &[&str], input: &[u8]) -> Output {
    let mut child = second(words);
    // A program that refuses its words reads nothing.
    let _ = child.stdin.take().unwrap().write_all(input);
    child.wait_with_output().unwrap()
}

#[test]
fn a_line_is_answered_before_the_next_is_said() {
    let mut talk = Talk::new(&[]);
    talk.say("default 5\n");
    talk.hear(&["accept 5"]);
    talk.say("che");
    talk.hear_nothing();
    talk.say("ck\n");
    talk.hear(&["well formed"]);
    talk.say("# nothing\n\nchck\n");
    talk.hear(&["bad line 5"]);
    talk.say("default 6\r\ndefault 7\nsh");
    talk.hear(&["accept 6", "accept 7"]);
    talk.say("ow\r");
    talk.hear_nothing();
    talk.say("\n");
    let bearers = ["bearer 5 default transaction 0", "bearer 6 default transaction 0"];
    talk.hear(&bearers);
    talk.hear(&["bearer 7 default transaction 0", "end"]);
    talk.say("check");
    talk.hear_nothing();
    talk.end(&["well formed"]);
}

#[test]
fn a_long_line_is_answered_when_it_ends() {
    let mut talk = Talk::new(&[]);
    talk.say(&format!("check\n{}", " ".repeat(200_000)));
    talk.hear(&["well formed"]);
    talk.hear_nothing();
    talk.say("\n");
    talk.hear(&["bad line 2"]);
    talk.end(&[]);
}

#[test]
fn what_is_echoed_comes_with_the_line() {
    let mut talk = Talk::new(&[]);
    talk.say("echo on\n");
    talk.hear(&["echo on"]);
    talk.say("# a comment\n");
    talk.hear(&["# a comment"]);
    talk.say("\n");
    talk.hear(&[""]);
    talk.say("check");
    talk.hear_nothing();
    talk.say("\r\n");
    talk.hear(&["check", "well formed"]);
    talk.say("echo off\n");
    talk.hear(&["echo off", "echo off"]);
    talk.say("# a comment\ncheck\n");
    talk.hear(&["well formed"]);
    talk.end(&[]);
}

#[test]
fn the_option_starts_with_echo_on() {
    let mut talk = Talk::new(&["--echo"]);
    talk.hear_nothing();
    talk.say("chck\n");
    talk.hear(&["chck", "bad line 1"]);
    talk.say("echo on\necho off\nchck\n");
    talk.hear(&["echo on", "echo on", "echo off", "echo off", "bad line 4"]);
    talk.end(&[]);
    assert_eq!(given(&["--echo"], b"").stdout, b"");
}

#[test]
fn a_last_line_without_lf_is_echoed_with_one() {
    let ends: [(&[u8], &[u8]); 8] = [
        (b"check\n", b"check\nwell formed\n"),
        (b"check", b"check\nwell formed\n"),
        (b"check\r", b"check\r\nbad line 1\n"),
        (b"# the end", b"# the end\n"),
        (b"# the end\r", b"# the end\r\n"),
        (b"   ", b"   \n"),
        (b"\n", b"\n"),
        (b"echo off", b"echo off\necho off\n"),
    ];
    for (input, output) in ends {
        assert_eq!(
            given(&["--echo"], input).stdout.escape_ascii().to_string(),
            output.escape_ascii().to_string()
        );
    }
}

#[test]
fn elements_are_answered_with_cause_and_place() {
    let mut talk = Talk::new(&["elements"]);
    talk.say("C0\n4");
    talk.hear(&["0"]);
    talk.say("101\n");
    talk.hear(&["42 at 0"]);
    talk.say("echo on\n");
    talk.hear(&["bad line 3"]);
    talk.say("21310A0530115013\n-\n\nA10100\n22310A0230063214023106\n21310A054100020001\n21310A023006\n");
    talk.hear(&["42 at 8", "42 at 0", "42 at 0", "42 at 2", "45 at 6", "44 at 1", "0"]);
    talk.end(&[]);
}

#[test]
fn other_words_are_refused_in_one_line() {
    let refused: [&[&str]; 8] = [
        &["--echos"],
        &["-echo"],
        &["echo"],
        &["--Echo"],
        &[""],
        &["--echo", "--echo"],
        &["elements", "--echo"],
        &["--echo", "elements"],
    ];
    for words in refused {
        let output = given(words, b"check\n");
        assert_eq!(output.status.code(), Some(2), "{words:?}");
        assert!(output.stdout.is_empty(), "{words:?}");
        assert_eq!(output.stderr, b"usage: second [--echo | elements]\n", "{words:?}");
    }
}
