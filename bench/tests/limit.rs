//! The limit against the independent implementation: runs byte for byte, single calls on any register, order on any
//! account.

use independent::bytes::Numbers;
use independent::compare::{compare, Plan};
use independent::exported;
use independent::limit;
use independent::limits::{ACCOUNTS, LONGEST};
use independent::order::{broken, Clause};
use independent::probe::{split, ProbeRules, WIDEST};
use independent::register::{Register, RegisterRules};
use independent::rules::Document;
use independent::run::{room, run, Ran};
use independent::streams::stream;
use independent::subject::{Subject, Target};

/// The limit in the place of the exported call.
struct Limit;

impl Subject for Limit {
    fn has(&self, target: Target) -> bool {
        target == Target::Exported
    }

    fn answer(&self, _: Target, input: &[u8]) -> Result<Vec<u8>, String> {
        let text = exported::told(input, |messages, entries, counts| {
            let Ran { met, refused, consumed, written } = limit::run(messages, entries);
            counts.iter_mut().zip([met, refused, consumed, written]).for_each(|(place, count)| *place = count);
            written
        });
        Ok(text.into_bytes())
    }
}

/// All that the exported call is compared on: streams of every kind, and every example.
#[test]
fn runs_as_the_exported_call() {
    let plan = Plan { seed: 7, first: 0, count: 150, until: None };
    let mut found = compare(&Limit, &plan);
    found.count_reached();
    assert_eq!((found.failed, found.lacking.len()), (0, 0));
    assert!(found.passed > 150);
}

/// The streams of the program, with room enough.
#[test]
fn runs_of_the_programs_streams() {
    for number in 0..150 {
        let messages = stream(Target::Program, 7, number).bytes;
        let right = run(&messages, &Document);
        let mut entries = room(&messages);
        let ran = limit::run(&messages, &mut entries);
        assert_eq!((ran.met, ran.refused), (right.met, right.refused), "stream {number}");
        assert_eq!(entries[..ran.written as usize], right.entries, "stream {number}");
    }
}

/// What the limit was asked in the streams of the probe.
#[derive(Debug, Default)]
struct Asked {
    taken: u64,
    /// Refused calls by their number.
    refused: [u64; 12],
    /// Accounts whose order was judged.
    judged: u64,
    /// Those out of order, by the clauses that each breaks, and by the one that it breaks alone.
    broken: [u64; Clause::ALL.len()],
    alone: [u64; Clause::ALL.len()],
}

/// A call on both registers: the same answer, the same bytes in the buffer, the same accounts after it.
fn call_both(room: usize, message: &[u8], right: &mut Register, fast: &mut limit::Register, asked: &mut Asked) {
    let (mut expected, mut got) = (vec![165; room], vec![165; room]);
    let answer = Document.call(right, message, &mut expected);
    assert_eq!(fast.call(message, &mut got), answer);
    assert_eq!(got, expected);
    match answer {
        Ok(_) => asked.taken += 1,
        Err(number) => asked.refused[usize::from(number)] += 1,
    }
}

/// Puts the accounts of the one register in the place of the other's, and compares how their order is judged.
fn follow(right: &Register, fast: &mut limit::Register, asked: &mut Asked) {
    for at in 0..ACCOUNTS {
        let image = right.image(at);
        if fast.image(at) == image {
            continue;
        }
        fast.put(at, &image);
        assert_eq!(fast.image(at), image);
        assert_eq!(fast.in_order(at), right.in_order(at, &Document), "{image:?}");
        asked.judged += 1;
        let broken = broken(&image, &Document);
        let place = |clause: &Clause| Clause::ALL.iter().position(|other| other == clause).unwrap_or(0);
        broken.iter().for_each(|clause| asked.broken[place(clause)] += 1);
        if let [clause] = &broken[..] {
            asked.alone[place(clause)] += 1;
        }
    }
}

/// Every call in the streams of the probe, on registers in order and disturbed.
#[test]
fn calls_on_any_register() {
    let mut asked = Asked::default();
    for number in 0..240 {
        let bytes = stream(Target::Probe, 7, number).bytes;
        let mut rest = if bytes.len() > LONGEST { &[] } else { &bytes[..] };
        let (mut right, mut fast) = (Register::fresh(), limit::Register::fresh());
        while let Some((code, payload, after)) = split(rest) {
            rest = after;
            let mut numbers = Numbers { bytes: payload };
            if code == 1 && payload.len() >= 2 {
                let room = numbers.next(2) as usize;
                if room <= WIDEST {
                    call_both(room, numbers.bytes, &mut right, &mut fast, &mut asked);
                    (0..ACCOUNTS).for_each(|at| assert_eq!(fast.image(at), right.image(at)));
                }
            } else {
                Document.frame(&mut right, code, payload);
                follow(&right, &mut fast, &mut asked);
            }
        }
    }
    println!("{asked:?}");
    assert!(asked.taken > 1_000);
    assert!(asked.refused[1..].iter().chain(&asked.broken).chain(&asked.alone).all(|count| *count > 0));
}
