//! The examples of `docs/REGISTER.md` as streams: the sample is that of 12.6, case 1 is 14.1 and so on; there is what
//! programs get wrong that look right (the end of 14), the first reason that applies (3.4), the outcome that it is taken
//! from (4.7), and the longest call (9.5).

use crate::message::{Head, Message, KINDS};
use crate::subject::Target;

/// A stream with the end of the text that it should give.
#[derive(Clone, Debug)]
pub struct Example {
    pub name: &'static str,
    pub target: Target,
    pub input: Vec<u8>,
    pub ends_in: String,
}

/// The program's sample, whole.
pub const SAMPLE: &str = include_str!("../../samples/first.text");

/// The sample's messages, and the bytes of its entries as hex.
const SAMPLE_MESSAGES: &str = "open 1 100, commit 1, withdraw 2 60, withdraw 3 60, abort 2, commit 3";
const SAMPLE_ENTRIES: [&str; 9] = [
    "110000000100000000006401000000640001",
    "1400000001000000000064",
    "1500000001000000000064010000006400000064",
    "1100000002000000000064020000003c0001",
    "1300000003000000000064020000003c0002",
    "1600000002000000000064020000003c",
    "1100000003000000000064020000003c0001",
    "1400000003000000000064",
    "1500000003000000000064020000003c00000028",
];

/// States that the cases start from.
const HUNDRED: &str = "open 1 100, commit 1";
const SIXTY: &str = "open 1 100, commit 1, withdraw 2 60";
const FORTY: &str = "open 1 100, commit 1, withdraw 2 60, withdraw 3 40";
const NEARLY: &str = "open 1 999990, commit 1";
const SEVEN: &str = "open 1 100, commit 1, withdraw 2 1, withdraw 3 1, withdraw 4 1, withdraw 5 1, withdraw 6 1, \
                     withdraw 7 1, withdraw 8 1";
const EIGHT_HELD: &str = "deposit 9 1, close 10, close 11, close 12, close 13, close 14, close 15, close 16, close 17";

/// Requests weighed alone: the case, the state, the request, the line that answers it.
const WEIGHED: [(&str, &str, &str, &str); 33] = [
    ("case 1", "", "deposit 1 5", "rejected 1 0 100 deposit 5 1 1"),
    ("case 1", "", "open 1 0", "accepted 1 0 100 open 0 1"),
    ("case 1", "", "open 1 1000000", "accepted 1 0 100 open 1000000 1"),
    ("case 1", "", "open 1 1000001", "rejected 1 0 100 open 1000001 1 4"),
    ("case 2", HUNDRED, "withdraw 2 100", "accepted 2 0 100 withdraw 100 1"),
    ("case 2", HUNDRED, "withdraw 2 101", "rejected 2 0 100 withdraw 101 1 3"),
    ("case 2", HUNDRED, "withdraw 2 0", "rejected 2 0 100 withdraw 0 1 2"),
    ("case 3", SIXTY, "withdraw 3 40", "accepted 3 0 100 withdraw 40 2"),
    ("case 3", SIXTY, "withdraw 3 41", "held 3 0 100 withdraw 41 2"),
    ("case 3", SIXTY, "withdraw 3 101", "rejected 3 0 100 withdraw 101 2 3"),
    ("case 4", NEARLY, "deposit 2 10", "accepted 2 0 100 deposit 10 1"),
    ("case 4", NEARLY, "deposit 2 11", "rejected 2 0 100 deposit 11 1 4"),
    ("case 4", "open 1 999990, commit 1, withdraw 2 1", "deposit 3 11", "held 3 0 100 deposit 11 2"),
    ("case 5", FORTY, "withdraw 4 1", "held 4 0 100 withdraw 1 4"),
    ("case 5", FORTY, "deposit 4 1", "accepted 4 0 100 deposit 1 4"),
    ("case 7", "open 1 10", "open 2 1", "held 2 0 100 open 1 2"),
    ("case 7", "open 1 10", "withdraw 2 5", "held 2 0 100 withdraw 5 2"),
    ("case 7", "open 1 10", "withdraw 2 11", "rejected 2 0 100 withdraw 11 2 1"),
    ("case 8", "open 1 100, commit 1, close 2", "withdraw 3 101", "rejected 3 0 100 withdraw 101 2 3"),
    ("case 8", "open 1 100, commit 1, close 2", "deposit 3 1", "held 3 0 100 deposit 1 2"),
    ("case 9", SEVEN, "deposit 9 1", "accepted 9 0 100 deposit 1 128"),
    ("case 9", SEVEN, "deposit 9 1, deposit 10 1", "held 10 0 100 deposit 1 0"),
    ("case 9", SEVEN, EIGHT_HELD, "held 17 0 100 close 0 0"),
    (
        "only all and none weighed",
        "open 1 100, commit 1, deposit 2 50, withdraw 3 50",
        "withdraw 4 80",
        "held 4 0 100 withdraw 80 4",
    ),
    (
        "a new request passes a held one",
        "open 1 100, commit 1, withdraw 2 60, withdraw 3 60",
        "deposit 4 1",
        "held 4 0 100 deposit 1 0",
    ),
    ("the first reason", "", "withdraw 1 0", "rejected 1 0 100 withdraw 0 1 1"),
    ("the first reason", HUNDRED, "open 2 1000001", "rejected 2 0 100 open 1000001 1 1"),
    ("the first reason", HUNDRED, "deposit 2 0", "rejected 2 0 100 deposit 0 1 2"),
    ("the first reason", HUNDRED, "withdraw 2 4294967295", "rejected 2 0 100 withdraw 4294967295 1 3"),
    ("the first reason", HUNDRED, "deposit 2 4294967295", "rejected 2 0 100 deposit 4294967295 1 4"),
    ("the reason of outcome 0", "open 1 10", "open 2 1000001", "rejected 2 0 100 open 1000001 2 4"),
    ("the reason of outcome 0", "open 1 10", "withdraw 2 0", "rejected 2 0 100 withdraw 0 2 1"),
    (
        "the reason of outcome 0, with what is committed",
        "open 1 100, commit 1, withdraw 2 60, close 3, commit 3",
        "withdraw 4 101",
        "rejected 4 0 100 withdraw 101 2 1",
    ),
];

/// Every example.
pub fn examples() -> Vec<Example> {
    let mut examples = vec![told("the sample", SAMPLE_MESSAGES, SAMPLE)];
    examples.extend(WEIGHED.iter().map(weighed));
    examples.push(told("case 6", &join(FORTY, "commit 3"), "withdraw 40 2\nnoted 3 0 100\nend 5 0\n"));
    let settled = "noted 3 0 100\ndropped 2 0 100 withdraw 60\napplied 3 0 100 withdraw 40 60\nend 6 0\n";
    examples.push(told("case 6", &join(FORTY, "commit 3, abort 2"), settled));
    let one_more = join(&join(SEVEN, EIGHT_HELD), "deposit 18 1");
    examples.push(told("case 9", &one_more, "held 17 0 100 close 0 0\nrefused 7\nend 19 1\n"));
    examples.push(told("no input", "", "register 1\nend 0 0\n"));
    let turned = "accepted 2 0 100 withdraw 5 1\nrejected 3 0 100 withdraw 20 2 3\nend 4 0\n";
    examples.push(told("the reason on its turn", "open 1 10, withdraw 2 5, withdraw 3 20, commit 1", turned));
    let turned = "rejected 3 0 100 withdraw 30 1 1\nrejected 4 0 100 withdraw 300 1 1\nend 6 0\n";
    let closed = join(HUNDRED, "close 2, withdraw 3 30, withdraw 4 300, commit 2");
    examples.push(told("the reason on its turn", &closed, turned));
    examples.push(longest_call());
    let outcomes = "outcome opened 100 0\noutcome opened 40 1\noutcome opened 60 1\noutcome opened 0 2\nrefused 12\n";
    examples.push(asked("case 5", FORTY, 5, &format!("{outcomes}end 9\n")));
    let outcomes = "outcome opened 60 0\noutcome opened 0 1\nrefused 12\n";
    examples.push(asked("case 6", &join(FORTY, "commit 3"), 3, &format!("{outcomes}end 8\n")));
    examples.push(rooms());
    examples.extend(lengths());
    examples.push(run("the sample", SAMPLE_MESSAGES, 473, "6 0 78 150", &SAMPLE_ENTRIES.concat()));
    examples.push(run("case 10", "open 1 7", 322, "1 1 15 0", ""));
    examples.push(run("case 10", "open 1 7", 323, "1 0 15 18", "110000000100000000006401000000070001"));
    examples.push(run("no input", "", 0, "0 0 0 0", ""));
    examples
}

/// Messages to the exported call with so much room: the four counts, the last of which it returns, and the entries as
/// hex; the rest of the buffer stays as it was in the second run.
fn run(name: &'static str, words: &str, room: usize, counts: &str, entries: &str) -> Example {
    let head = [&(room as u32).to_be_bytes()[1..], &[4]].concat();
    let input = [head, messages(words).concat()].concat();
    let mut buffer = entries.to_string() + &"5a".repeat(room - entries.len() / 2);
    let written = counts.rsplit(' ').next().unwrap_or_default();
    let mut ends_in = format!("returned {written}\ncounts {counts}\nkept\n");
    while !buffer.is_empty() {
        let after = buffer.split_off(buffer.len().min(64));
        ends_in += &format!("{buffer}\n");
        buffer = after;
    }
    Example { name, target: Target::Exported, input, ends_in: ends_in + "end\n" }
}

/// The longest input that is processed, and one byte more.
fn lengths() -> Vec<Example> {
    let mut all = messages(&["deposit 1 5, ".repeat(4_361), "abort 1, ".repeat(11)].concat()).concat();
    let longest = |target, input: &[u8], ends_in: &str| Example {
        name: "the longest input",
        target,
        input: input.to_vec(),
        ends_in: ends_in.to_string(),
    };
    let frames = frame(3, &[0; 65_533]);
    let mut examples = vec![longest(Target::Program, &all, "refused 8\nend 4372 11\n")];
    examples.push(longest(Target::Probe, &frames, "probe 1\nrefused 2\nend 1\n"));
    all.push(6);
    examples.push(longest(Target::Program, &all, "register 1\ntoo long\n"));
    examples.push(longest(Target::Probe, &[&frames[..], &[6]].concat(), "probe 1\ntoo long\n"));
    examples
}

/// A request weighed alone.
fn weighed((name, state, request, line): &(&'static str, &str, &str, &str)) -> Example {
    let all = join(state, request);
    let count = messages(&all).len();
    told(name, &all, &format!("{line}\nend {count} 0\n"))
}

/// Messages to the program, and the end of its text.
fn told(name: &'static str, words: &str, ends_in: &str) -> Example {
    let input = messages(words).concat();
    Example { name, target: Target::Program, input, ends_in: ends_in.to_string() }
}

/// Messages to the probe, then the outcome question on numbers from 0 on.
fn asked(name: &'static str, words: &str, numbers: u32, ends_in: &str) -> Example {
    let calls = messages(words).into_iter().flat_map(|message| frame(1, &[&[1, 67], &message[..]].concat()));
    let questions = (0..numbers).flat_map(|number| frame(2, &[&[0, 0], &number.to_be_bytes()[..]].concat()));
    let input = calls.chain(questions).collect();
    Example { name, target: Target::Probe, input, ends_in: ends_in.to_string() }
}

/// Case 10: a buffer of 322 bytes, then one of 323.
fn rooms() -> Example {
    let open = &messages("open 1 7")[0];
    let input = [frame(1, &[&[1, 66], &open[..]].concat()), frame(1, &[&[1, 67], &open[..]].concat())].concat();
    let ends_in = "probe 1\nrefused 4 kept\ntaken 15 18 110000000100000000006401000000070001 kept\nend 2\n";
    Example { name: "case 10", target: Target::Probe, input, ends_in: ends_in.to_string() }
}

/// Eight deposits in progress, eight withdrawals held behind them; the deposits are committed from the newest on, and
/// with the last commit all are applied, and the withdrawals rejected: 108 steps are left, 109 were asked for.
fn longest_call() -> Example {
    let deposits: String = (2..10).map(|number| format!(", deposit {number} 1")).collect();
    let withdrawals: String = (10..18).map(|number| format!(", withdraw {number} 109")).collect();
    let commits: String = (2..10).rev().map(|number| format!(", commit {number}")).collect();
    let all = messages(&[HUNDRED, &deposits, &withdrawals, &commits].concat());
    let applied = |number: u32| format!("15{number:08x}0000000000640300000001{:08x}", 99 + number);
    let rejected = |number: u32| format!("17{number:08x}000000000064020000006d000103");
    let written: String = (2..10).map(applied).chain((10..18).map(rejected)).collect();
    let ends_in = format!("taken 11 323 1400000002000000000064{written} kept\nend {}\n", all.len());
    let input = all.iter().flat_map(|message| frame(1, &[&[1, 67], &message[..]].concat())).collect();
    Example { name: "the longest call", target: Target::Probe, input, ends_in }
}

/// A frame of the probe.
fn frame(code: u8, payload: &[u8]) -> Vec<u8> {
    [&[code], &(payload.len() as u16).to_be_bytes()[..], payload].concat()
}

/// Two runs of messages, one after the other.
fn join(first: &str, second: &str) -> String {
    if first.is_empty() {
        second.to_string()
    } else {
        format!("{first}, {second}")
    }
}

/// The bytes of messages given as words: name, transaction, perhaps an amount; account 0, second 100.
pub fn messages(words: &str) -> Vec<Vec<u8>> {
    let all = words.split(',').map(str::trim).filter(|message| !message.is_empty());
    all.map(|message| {
        let words: Vec<&str> = message.split_whitespace().collect();
        let number = |at: usize| words.get(at).and_then(|word| word.parse().ok()).unwrap_or(0);
        let kind = KINDS.iter().find(|kind| kind.1 == words[0]).map_or(0, |kind| kind.0);
        let head = Head { transaction: number(1), account: 0, second: 100 };
        Message::of(kind, head, number(2)).map_or(Vec::new(), |message| message.bytes())
    })
    .collect()
}
