//! `count SCRIPT` reads the output of a script, prints how often each form of reply stands in it, echoed lines left out, and fails where one
//! stands there less than ten times, a line has no form, or the output is not the one of that script.

use std::env::args_os;
use std::fs;
use std::io::{self, stdin, Read};
use std::path::Path;
use std::process::ExitCode;

use second::forms::{count, played};

fn main() -> ExitCode {
    let words: Vec<_> = args_os().skip(1).collect();
    let [script] = words.as_slice() else {
        eprintln!("usage: count SCRIPT < REPLIES");
        return ExitCode::from(2);
    };
    match counted(Path::new(script)) {
        Ok(true) => ExitCode::SUCCESS,
        Ok(false) => ExitCode::FAILURE,
        Err(error) => {
            eprintln!("count: {error}");
            ExitCode::FAILURE
        }
    }
}

/// Prints the counts and what is wrong, and says whether nothing is.
fn counted(script: &Path) -> io::Result<bool> {
    let script = fs::read(script)?;
    let mut output = Vec::new();
    stdin().read_to_end(&mut output)?;
    let (expected, replies) = played(&script);
    if output != expected {
        println!("not the output of that script");
        return Ok(false);
    }
    let (counts, wrong) = count(&replies);
    for (form, times) in counts {
        println!("{times:7} {form}");
    }
    for fault in &wrong {
        println!("{fault}");
    }
    Ok(wrong.is_empty())
}
