//! The comparison: the same stream to the model and to the subject, their text byte for byte.

use crate::document::{examples, Example};
use crate::fault::{Fault, Wrong};
use crate::rules::Document;
use crate::shrink::shrink;
use crate::streams::{stream, Stream};
use crate::subject::{Subject, Target, Version};
use crate::tally::Tally;
use std::time::Instant;

/// How much is compared.
#[derive(Clone, Copy, Debug)]
pub struct Plan {
    pub seed: u64,
    /// The numbers of the streams, for each program.
    pub first: u64,
    pub count: u64,
    /// No new stream after this.
    pub until: Option<Instant>,
}

impl Plan {
    /// Whether the time is up.
    fn over(&self) -> bool {
        self.until.is_some_and(|until| Instant::now() > until)
    }
}

/// A stream on which the two texts differ.
#[derive(Clone, Debug)]
pub struct Difference {
    pub seed: u64,
    pub number: u64,
    pub stream: Stream,
    /// The stream made short, and the two answers to it.
    pub shrunk: Vec<u8>,
    pub expected: String,
    pub got: Result<Vec<u8>, String>,
}

/// What a comparison found.
#[derive(Debug, Default)]
pub struct Found {
    pub passed: u64,
    pub failed: u64,
    pub differences: Vec<Difference>,
    pub tallies: Vec<(Target, Tally)>,
    /// The examples that did not come out.
    pub wrong_examples: Vec<Example>,
    /// The programs that answer otherwise where their input cannot be read.
    pub wrong_unread: Vec<Target>,
    /// What the streams should have reached and did not.
    pub lacking: Vec<String>,
}

/// So many differences of a program are shrunk and told, the others only counted.
const TOLD: usize = 2;

/// Compares the subject's programs with the model, as planned.
pub fn compare(subject: &dyn Subject, plan: &Plan) -> Found {
    let mut found = Found::default();
    let targets: Vec<Target> = Target::ALL.into_iter().filter(|target| subject.has(*target)).collect();
    found.tallies = targets.iter().map(|target| (*target, Tally::default())).collect();
    compare_examples(subject, &targets, plan, &mut found);
    compare_unread(subject, &targets, &mut found);
    for number in plan.first..plan.first + plan.count {
        if plan.over() {
            break;
        }
        for (at, target) in targets.iter().enumerate() {
            let stream = stream(*target, plan.seed, number);
            let expected = stream.target.text(&stream.bytes, &Document);
            found.tallies[at].1.add(stream.target, &stream.bytes, &expected);
            let same = subject.answer(stream.target, &stream.bytes).is_ok_and(|got| got == expected.as_bytes());
            found.count(same);
            if !same && found.told(stream.target) < TOLD {
                found.differences.push(tell(subject, plan.seed, number, stream));
            }
        }
    }
    found
}

impl Found {
    /// Counts one comparison.
    fn count(&mut self, same: bool) {
        self.passed += u64::from(same);
        self.failed += u64::from(!same);
    }

    /// How many differences of a program are told.
    fn told(&self, target: Target) -> usize {
        self.differences.iter().filter(|difference| difference.stream.target == target).count()
    }

    /// Counts what a whole run should have reached.
    pub fn count_reached(&mut self) {
        for at in 0..self.tallies.len() {
            let (target, tally) = &self.tallies[at];
            let lacking = tally.lacking(*target);
            self.failed += lacking.len() as u64;
            self.passed += u64::from(lacking.is_empty());
            self.lacking.extend(lacking.iter().map(|lack| format!("{}: {lack}", target.name())));
        }
    }
}

/// Compares the examples of `docs/REGISTER.md` with what is said of them there.
fn compare_examples(subject: &dyn Subject, targets: &[Target], plan: &Plan, found: &mut Found) {
    for example in examples().into_iter().filter(|example| targets.contains(&example.target)) {
        if plan.over() {
            break;
        }
        let got = subject.answer(example.target, &example.input);
        let same = got.is_ok_and(|got| got.ends_with(example.ends_in.as_bytes()));
        found.count(same);
        if !same {
            found.wrong_examples.push(example);
        }
    }
}

/// Compares the text where the input cannot be read: that counts as the end of the input.
fn compare_unread(subject: &dyn Subject, targets: &[Target], found: &mut Found) {
    for target in targets {
        let Some(got) = subject.answer_unread(*target) else { continue };
        let same = got.is_ok_and(|got| got == target.text(&[], &Document).into_bytes());
        found.count(same);
        if !same {
            found.wrong_unread.push(*target);
        }
    }
}

/// A difference with its stream made short.
fn tell(subject: &dyn Subject, seed: u64, number: u64, stream: Stream) -> Difference {
    let target = stream.target;
    let shrunk = shrink(target, &stream.bytes, |bytes| differs(subject, target, bytes));
    let expected = target.text(&shrunk, &Document);
    let got = subject.answer(target, &shrunk);
    Difference { seed, number, stream, shrunk, expected, got }
}

/// Whether the subject answers otherwise than the model.
pub fn differs(subject: &dyn Subject, target: Target, input: &[u8]) -> bool {
    let expected = target.text(input, &Document);
    subject.answer(target, input).map_or(true, |got| got != expected.as_bytes())
}

/// How many streams of a program it takes to find a fault; none if more than `most`.
pub fn streams_until(fault: Fault, target: Target, seed: u64, most: u64) -> Option<u64> {
    let wrong = Version(Wrong(fault));
    let found = (0..most).find(|number| differs(&wrong, target, &stream(target, seed, *number).bytes))?;
    Some(found + 1)
}

/// A short stream that shows a fault, made from the stream that found it.
pub fn shortest(fault: Fault, target: Target, seed: u64, streams: u64) -> Vec<u8> {
    let wrong = Version(Wrong(fault));
    let bytes = stream(target, seed, streams - 1).bytes;
    shrink(target, &bytes, |bytes| differs(&wrong, target, bytes))
}
