//! Messages a second of the proved register against the independent implementation, and who waits.

use independent::contention::{simulate, Outcome, Pattern, Setting};
use independent::measure::{agree, agree_on_entries, times, Runner};
use independent::plot::{svg, Chart, Line};
use independent::proved;
use independent::run::room;
use independent::workload::{accepted, steady, undecided, IN_PROGRESS};
use std::process::ExitCode;

const USAGE: &str = "benchmark [--rounds N] [--messages N] [--ticks N] [--seed N] [--plot FILE]
          [--profile N [--of VERSION]]";

/// Further columns of the first table: one version against another.
const AGAINST: [(Runner, Runner); 4] = [
    (Runner::Proved, Runner::Judged),
    (Runner::Proved, Runner::OneAtATime),
    (Runner::Proved, Runner::Limit),
    (Runner::Live, Runner::Proved),
];

/// What the command line asks for.
struct Options {
    rounds: usize,
    messages: u32,
    ticks: u64,
    seed: u64,
    /// Where the picture of the first table goes.
    plot: Option<String>,
    /// For a profiler: one run of a version with so many events in progress, and no tables.
    profile: Option<u32>,
    of: String,
}

/// Prints the tables; status 1 where the versions differ, or the picture cannot be written.
fn main() -> ExitCode {
    let Some(options) = options(std::env::args().skip(1)) else {
        eprintln!("{USAGE}");
        return ExitCode::from(2);
    };
    print_head();
    if let Some(in_progress) = options.profile {
        return profile(&options, in_progress);
    }
    let (throughput, lines) = print_throughput(&options);
    let drawn = options.plot.as_ref().is_none_or(|file| draw(file, lines));
    let growth = print_growth(&options);
    let contention = print_contention(&options);
    let same = throughput && growth && contention;
    if !same {
        println!("the versions differ in their entries, or refuse messages of the streams");
    }
    if same && drawn {
        ExitCode::SUCCESS
    } else {
        ExitCode::FAILURE
    }
}

/// Reads the options; none where they cannot be understood.
fn options(mut words: impl Iterator<Item = String>) -> Option<Options> {
    let (rounds, messages, ticks, seed) = (9, 20_000, 100_000, 1);
    let of = Runner::Proved.name().to_string();
    let mut options = Options { rounds, messages, ticks, seed, plot: None, profile: None, of };
    while let Some(word) = words.next() {
        let value = words.next()?;
        let number = value.parse::<u64>().ok();
        match word.as_str() {
            "--rounds" => options.rounds = number?.max(1) as usize,
            "--messages" => options.messages = number?.clamp(2, 10_000_000) as u32,
            "--ticks" => options.ticks = number?,
            "--seed" => options.seed = number?,
            "--plot" => options.plot = Some(value),
            "--profile" => options.profile = Some(number?.min(8) as u32),
            "--of" => options.of = value,
            _ => return None,
        }
    }
    Some(options)
}

/// One run of one version; status 2 where there is no such version here.
fn profile(options: &Options, in_progress: u32) -> ExitCode {
    let Some(runner) = Runner::all().into_iter().find(|runner| runner.name() == options.of) else {
        println!("no version is called {}", options.of);
        return ExitCode::from(2);
    };
    let stream = steady(in_progress, options.messages / 2);
    println!("{} messages met", runner.run(&stream, &mut room(&stream)).met);
    ExitCode::SUCCESS
}

/// Prints the command and the machine.
fn print_head() {
    let words: Vec<String> = std::env::args().collect();
    println!("command: {}", words.join(" "));
    let about = std::fs::read_to_string("/proc/cpuinfo").unwrap_or_default();
    let model = about.lines().find_map(|line| line.strip_prefix("model name")?.split(": ").nth(1)).unwrap_or("unknown");
    let cores = std::thread::available_parallelism().map_or(1, |cores| cores.get());
    println!("machine: {} {}, {cores} cores, {model}", std::env::consts::ARCH, std::env::consts::OS);
    println!("proved register: {}", if proved::LINKED { "linked" } else { "not linked (feature `proved` is off)" });
}

/// Prints messages a second for each number in progress; says whether the versions agree, and gives a line of millions
/// for each of them.
fn print_throughput(options: &Options) -> (bool, Vec<Line>) {
    let runners = Runner::all();
    let against: Vec<_> = AGAINST.into_iter().filter(|(runner, _)| runners.contains(runner)).collect();
    println!();
    println!("Messages a second with so many events in progress, all versions on the same stream in turn.");
    println!("The first column is absolute; the others are times as fast as the independent implementation.");
    print!("| in progress | independent |");
    runners[1..].iter().for_each(|runner| print!(" {} |", runner.name()));
    against.iter().for_each(|(runner, other)| print!(" {} against {} |", runner.name(), other.name()));
    println!();
    println!("|{}", "---|".repeat(1 + runners.len() + against.len()));
    let mut same = true;
    let line = |runner: &Runner| Line { name: runner.name().to_string(), points: Vec::new() };
    let mut lines: Vec<Line> = runners.iter().map(line).collect();
    for in_progress in IN_PROGRESS {
        let stream = steady(in_progress, options.messages / 2);
        same &= agree(&stream, &runners);
        let times = times(&stream, &runners, options.rounds);
        let time = |runner: Runner| runners.iter().position(|other| *other == runner).map_or(0.0, |at| times[at]);
        print!("| {in_progress} | {:.0} |", 1e9 / times[0]);
        times[1..].iter().for_each(|time| print!(" {:.2} |", times[0] / time));
        against.iter().for_each(|(runner, other)| print!(" {:.2} |", time(*other) / time(*runner)));
        println!();
        lines.iter_mut().zip(&times).for_each(|(line, time)| line.points.push((in_progress.into(), 1e3 / time)));
    }
    (same, lines)
}

/// Draws messages a second by events in progress into a file; says whether that could be done.
fn draw(file: &str, lines: Vec<Line>) -> bool {
    let title = "Messages a second by events in progress";
    let chart = Chart { title, across: "events in progress", upward: "million messages a second", lines };
    match std::fs::write(file, svg(&chart)) {
        Ok(()) => true,
        Err(error) => {
            println!("cannot write {file}: {error}");
            false
        }
    }
}

/// Prints the cost of a request for each number of undecided events; says whether the versions agree.
fn print_growth(options: &Options) -> bool {
    let mut same = true;
    let runners = Runner::all().into_iter().filter(|runner| *runner != Runner::OneAtATime).collect::<Vec<_>>();
    for (title, stream) in [
        ("a request that every outcome rejects", undecided as fn(u32, u32) -> Vec<u8>),
        ("a request that every outcome accepts, and its abort (the mean of the two)", accepted),
    ] {
        println!();
        println!("Cost of {title}, by undecided events: nanoseconds, and times the cost with none.");
        print!("| undecided | outcomes |");
        runners.iter().for_each(|runner| print!(" {} | times |", runner.name()));
        println!();
        println!("|{}", "---|".repeat(2 * runners.len() + 2));
        let mut first = Vec::new();
        for events in 0..8 {
            let stream = stream(events, options.messages / 4);
            same &= agree(&stream, &runners);
            let times = times(&stream, &runners, options.rounds);
            first = if first.is_empty() { times.clone() } else { first };
            print!("| {events} | {} |", 1 << events);
            times.iter().zip(&first).for_each(|(time, first)| print!(" {time:.0} | {:.2} |", time / first));
            println!();
        }
    }
    same
}

/// Prints who waits under contention with 8 places and with 1; says whether the versions agree.
fn print_contention(options: &Options) -> bool {
    println!();
    println!("Waiting, {} ticks, seed {}: 8 places against 1.", options.ticks, options.seed);
    println!("Waits are in messages that the register handled meanwhile.");
    print!("| transfers | users | places | per 1000 ticks | 8 against 1 | requests | held ");
    println!("| mean wait | 9 of 10 within | longest | refused 7 | aborted |");
    println!("|{}", "---|".repeat(12));
    let mut same = true;
    for (name, pattern) in [
        ("own account", Pattern::Own),
        ("any to any of 16", Pattern::Spread),
        ("quiet to busy", Pattern::Busy),
        ("busy with few steps", Pattern::Tight),
    ] {
        for users in [2, 4, 8, 16] {
            let results = [8, 1].map(|places| {
                let setting = Setting { pattern, users, places, ticks: options.ticks, seed: options.seed };
                (places, simulate(setting))
            });
            let ratio = results[0].1.transfers as f64 / results[1].1.transfers.max(1) as f64;
            for (places, result) in &results {
                let shown = if *places == 8 { format!("{ratio:.2}") } else { String::new() };
                print_waits(name, users, *places, &shown, result, options.ticks);
            }
            same &= agree_on_entries(&results[0].1.messages, &Runner::all());
        }
    }
    same
}

/// Prints a line of the waiting table.
fn print_waits(name: &str, users: u32, places: usize, ratio: &str, result: &Outcome, ticks: u64) {
    let mut waits = result.waits.clone();
    waits.sort_unstable();
    let mean = waits.iter().sum::<u64>() as f64 / waits.len().max(1) as f64;
    let last = waits.len().saturating_sub(1);
    let at = |tenths: usize| waits.get(last * tenths / 10).copied().unwrap_or(0);
    let rate = result.transfers as f64 * 1_000.0 / ticks as f64;
    let held = 100.0 * waits.len() as f64 / result.requests.max(1) as f64;
    print!("| {name} | {users} | {places} | {rate:.1} | {ratio} | {} | {held:.1} % ", result.requests);
    println!("| {mean:.1} | {} | {} | {} | {} |", at(9), at(10), result.refused, result.aborted);
}
