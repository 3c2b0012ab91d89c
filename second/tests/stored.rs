//! What is stored is what the programs make today.

use std::fs::{read, read_dir};
use std::path::{Path, PathBuf};

use second::generator::script;
use second::lines::{Line, LONGEST_LINE};
use second::session::Session;

fn root() -> PathBuf {
    Path::new(env!("CARGO_MANIFEST_DIR")).join("..")
}

fn replies(mut input: &[u8], echo: bool) -> Vec<u8> {
    let (mut session, mut line, mut out) = (Session::default(), Line::new(LONGEST_LINE), Vec::new());
    session.echo = echo;
    while line.next(&mut input).unwrap() {
        session.line(line.number, &line.octets, line.is_too_long(), &mut out);
    }
    out
}

#[test]
fn stored_session_is_cases_and_generated_lines() {
    let cases = read(root().join("second/stored/cases.txt")).unwrap();
    let stored = read(root().join("crates/session/stdin")).unwrap();
    assert!(stored == [cases, script(20260401, 25_100)].concat(), "second/store makes another input");
    let output = read(root().join("crates/session/stdout")).unwrap();
    assert!(output == replies(&stored, false), "second/store makes another output");
}

#[test]
fn examples_give_the_transcripts_beside_them() {
    let files = read_dir(root().join("docs/examples")).unwrap().map(|file| file.unwrap().path());
    let scripts: Vec<PathBuf> = files.filter(|path| path.extension().is_some_and(|e| e == "txt")).collect();
    assert!(!scripts.is_empty());
    for script in scripts {
        let expected = read(script.with_extension("out")).unwrap();
        assert!(replies(&read(&script).unwrap(), true) == expected, "{}", script.display());
    }
}
