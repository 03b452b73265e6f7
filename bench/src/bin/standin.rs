//! The independent implementation in the place of the built programs: standard input to text.

use independent::fault::{Fault, Wrong};
use independent::rules::Document;
use independent::subject::Target;
use std::io::{Read, Write};
use std::process::ExitCode;

const USAGE: &str = "standin program|probe|exported|live|kept|shared [FAULT]";

/// Prints the text for standard input.
fn main() -> ExitCode {
    let words: Vec<String> = std::env::args().skip(1).collect();
    let target = Target::ALL.into_iter().find(|target| words.first().is_some_and(|word| word == target.name()));
    let fault = words.get(1).map(|name| Fault::all().into_iter().find(|fault| format!("{fault:?}") == *name));
    let (Some(target), None | Some(Some(_))) = (target, fault) else {
        eprintln!("{USAGE}");
        return ExitCode::from(2);
    };
    let mut input = Vec::new();
    let _ = std::io::stdin().read_to_end(&mut input);
    let text = match fault.flatten() {
        None => target.text(&input, &Document),
        Some(fault) => target.text(&input, &Wrong(fault)),
    };
    match std::io::stdout().write_all(text.as_bytes()) {
        Ok(()) => ExitCode::SUCCESS,
        Err(_) => ExitCode::FAILURE,
    }
}
