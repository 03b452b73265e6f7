//! Compares the built programs with the independent implementation.

use independent::compare::{compare, shortest, streams_until, Plan};
use independent::fault::Fault;
use independent::readable::{line, pieces};
use independent::report;
use independent::subject::{Built, Subject, Target};
use std::process::ExitCode;
use std::time::{Duration, Instant, SystemTime, UNIX_EPOCH};

const USAGE: &str = "compare [--program COMMAND] [--probe COMMAND] [--exported COMMAND] [--live COMMAND]
        [--kept COMMAND] [--shared COMMAND] [--seed N|clock] [--streams N] [--seconds N] [--long] [--only N] [--faults]
COMMAND is the path of a built program, or words that start it. What is not given is not compared.";

/// What the command line asks for.
struct Options {
    built: Built,
    seed: u64,
    streams: u64,
    seconds: Option<u64>,
    only: Option<u64>,
    faults: bool,
}

/// Prints what was found; status 1 where something failed, 2 where the words are not understood.
fn main() -> ExitCode {
    let Some(options) = options(std::env::args().skip(1)) else {
        eprintln!("{USAGE}");
        return ExitCode::from(2);
    };
    if options.faults {
        return exit(print_faults(options.seed, options.streams));
    }
    let plan = Plan {
        seed: options.seed,
        first: options.only.unwrap_or(0),
        count: if options.only.is_some() { 1 } else { options.streams },
        until: options.seconds.map(|seconds| Instant::now() + Duration::from_secs(seconds)),
    };
    println!("seed {}, up to {} streams each", plan.seed, plan.count);
    if let Some(obstacle) = options.built.obstacle() {
        println!("{obstacle}");
        println!("0 passed, 1 failed");
        return ExitCode::FAILURE;
    }
    let mut found = compare(&options.built, &plan);
    if options.only.is_none() {
        found.count_reached();
    }
    exit(report::print(&found))
}

/// Reads the options; none where they cannot be understood, or nothing is given to compare.
fn options(mut words: impl Iterator<Item = String>) -> Option<Options> {
    let mut options =
        Options { built: Built::default(), seed: 1, streams: 500, seconds: Some(25), only: None, faults: false };
    while let Some(word) = words.next() {
        match word.as_str() {
            "--program" => options.built.program = command(&words.next()?),
            "--probe" => options.built.probe = command(&words.next()?),
            "--exported" => options.built.exported = command(&words.next()?),
            "--live" => options.built.live = command(&words.next()?),
            "--kept" => options.built.kept = command(&words.next()?),
            "--shared" => options.built.shared = command(&words.next()?),
            "--seed" => options.seed = seed(&words.next()?)?,
            "--streams" => options.streams = words.next()?.parse().ok()?,
            "--seconds" => options.seconds = Some(words.next()?.parse().ok()?),
            "--long" => (options.streams, options.seconds) = (20_000, None),
            "--only" => options.only = Some(words.next()?.parse().ok()?),
            "--faults" => options.faults = true,
            _ => return None,
        }
    }
    let given = options.faults || Target::ALL.iter().any(|target| options.built.has(*target));
    given.then_some(options)
}

/// The words of a command.
fn command(text: &str) -> Vec<String> {
    text.split_whitespace().map(str::to_string).collect()
}

/// A seed, or one from the clock.
fn seed(word: &str) -> Option<u64> {
    if word == "clock" {
        return SystemTime::now().duration_since(UNIX_EPOCH).ok().map(|time| time.as_nanos() as u64);
    }
    word.parse().ok()
}

/// Lists every fault with the number of streams until it is found, and a short stream that shows it.
fn print_faults(seed: u64, most: u64) -> bool {
    println!(
        "seed {seed}, up to {most} streams each; streams until found by program, probe, exported run and live calls"
    );
    let (mut passed, mut failed) = (0, 0);
    for fault in Fault::all() {
        let counts = Target::FINDING.map(|target| (target, streams_until(fault, target, seed, most)));
        let shown = counts.map(|(_, count)| count.map_or("-".to_string(), |count| count.to_string()));
        println!("{:>4} {:>4} {:>4} {:>4}  {}", shown[0], shown[1], shown[2], shown[3], fault.says());
        let Some((target, streams)) = counts.into_iter().find_map(|(target, count)| Some((target, count?))) else {
            failed += 1;
            continue;
        };
        passed += 1;
        let short = pieces(target, &shortest(fault, target, seed, streams));
        short.iter().take(12).for_each(|piece| println!("                       {}", line(target, piece)));
        if short.len() > 12 {
            println!("                       .. and {} more", short.len() - 12);
        }
    }
    println!("{passed} passed, {failed} failed");
    failed == 0
}

/// The exit status: 0 where nothing failed.
fn exit(passed: bool) -> ExitCode {
    if passed {
        ExitCode::SUCCESS
    } else {
        ExitCode::FAILURE
    }
}
