//! The proved register's calls on an image in the place of a built program: standard input to text.

use independent::live::told;
use independent::proved::Live;
use std::io::{Read, Write};
use std::process::ExitCode;

/// Prints the text for standard input.
fn main() -> ExitCode {
    let mut input = Vec::new();
    let read = std::io::stdin().read_to_end(&mut input);
    let text = told(&input, &mut Live);
    match read.and_then(|_| std::io::stdout().write_all(text.as_bytes())) {
        Ok(()) => ExitCode::SUCCESS,
        Err(_) => ExitCode::FAILURE,
    }
}
