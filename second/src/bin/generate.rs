//! `generate SEED LINES` writes a script of about that many lines, the same for the same seed.

use std::env::args;
use std::io::{stdout, Write};
use std::process::ExitCode;

use second::generator::script;

fn main() -> ExitCode {
    let numbers: Option<Vec<u64>> = args().skip(1).map(|word| word.parse().ok()).collect();
    match numbers.as_deref() {
        Some([seed, lines]) => match stdout().write_all(&script(*seed, *lines)) {
            Ok(()) => ExitCode::SUCCESS,
            Err(_) => ExitCode::FAILURE,
        },
        _ => {
            eprintln!("usage: generate SEED LINES");
            ExitCode::from(2)
        }
    }
}
