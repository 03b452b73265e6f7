//! What a comparison prints.

use crate::bytes::hex;
use crate::compare::{Difference, Found};
use crate::readable::{line, pieces};
use crate::tally::Tally;
use std::collections::BTreeMap;

/// Prints the counts, the differences and the last line; says whether nothing failed.
pub fn print(found: &Found) -> bool {
    for (target, tally) in &found.tallies {
        println!("{}: {} streams, {} bytes", target.name(), tally.streams, tally.bytes);
        print_tally(tally);
    }
    for example in &found.wrong_examples {
        println!("docs/REGISTER.md, {}: the {} should end in", example.name, example.target.name());
        println!("{}", example.ends_in);
    }
    for target in &found.wrong_unread {
        println!("{}: input that cannot be read is not taken as empty input", target.name());
    }
    for difference in &found.differences {
        print_difference(difference);
    }
    for lack in &found.lacking {
        println!("not reached: {lack}");
    }
    println!("{} passed, {} failed", found.passed, found.failed);
    found.failed == 0
}

/// Prints the counts of one program's streams.
fn print_tally(tally: &Tally) {
    print_counts("lines", &tally.lines);
    print_counts("refusals", &tally.refusals);
    print_counts("outcomes", &tally.outcomes);
    print_counts("reasons", &tally.reasons);
    println!("  balances   0: {}, 1000000: {}", tally.emptied, tally.filled);
    if tally.longest > 0 {
        println!("  calls of 323 bytes   {}", tally.longest);
    }
    print_counts("entries read", &tally.read);
    print_counts("frames from 64 on", &tally.later);
    print_counts("runs", &tally.runs);
    print_counts("images", &tally.images);
    for (clause, count) in &tally.alone {
        println!("  calls where only this is broken: {clause}   {count}");
    }
}

/// Prints counts by their keys, where there are any.
fn print_counts<K: std::fmt::Display>(name: &str, counts: &BTreeMap<K, u64>) {
    if !counts.is_empty() {
        let counts: Vec<String> = counts.iter().map(|(key, count)| format!("{key}: {count}")).collect();
        println!("  {name:<10} {}", counts.join(", "));
    }
}

/// Lines of a stream that are printed at most.
const LINES: usize = 60;

/// Prints a difference: the short stream in words and in hex, and where the texts part.
fn print_difference(difference: &Difference) {
    let target = difference.stream.target;
    let short = pieces(target, &difference.shrunk);
    let long = pieces(target, &difference.stream.bytes).len();
    println!();
    let Difference { seed, number, stream, .. } = difference;
    println!(
        "difference: {} stream {number} ({}); again by --seed {seed} --only {number}",
        target.name(),
        stream.after
    );
    println!("shrunk from {long} pieces to {}:", short.len());
    for piece in short.iter().take(LINES) {
        println!("  {}", line(target, piece));
    }
    if short.len() > LINES {
        println!("  .. and {} more", short.len() - LINES);
    }
    if difference.shrunk.len() <= 1_000 {
        println!("as hex: {}", hex(&difference.shrunk));
    }
    print_parting(&difference.expected, &difference.got);
    println!();
}

/// Prints both texts from the last line that they share to the first that differs.
fn print_parting(expected: &str, got: &Result<Vec<u8>, String>) {
    let got = match got {
        Ok(bytes) => String::from_utf8_lossy(bytes).into_owned(),
        Err(failure) => {
            println!("the model prints {} lines; got no text: {failure}", expected.lines().count());
            return;
        }
    };
    let shared = expected.lines().zip(got.lines()).take_while(|(left, right)| left == right).count();
    let after = |text: &str| text.lines().nth(shared).unwrap_or("(nothing more)").to_string();
    println!("after {shared} equal lines");
    println!("  model: {}", after(expected));
    println!("  got:   {}", after(&got));
    if after(expected) == after(&got) {
        println!("  the lines agree, the bytes do not (line ends?)");
    }
}
