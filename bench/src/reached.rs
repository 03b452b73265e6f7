//! What the streams of a run should have reached.

use crate::entry;
use crate::order::Clause;
use crate::subject::Target;
use crate::tally::Tally;

/// Further lines of the program and of the probe, and further lines of the probe.
const LINES: [&str; 3] = ["refused", "end", "too"];
const PROBE_LINES: [&str; 10] =
    ["taken", "outcome", "message", "written", "set", "account", "entry", "none", "unknown", "torn"];
/// What a run can be lent.
const RUNS: [&str; 13] = [
    "0 places",
    "1 places",
    "2 places",
    "3 places",
    "4 places",
    "5 places",
    "room 0",
    "room below 322",
    "room 322",
    "room 323",
    "room above 323",
    "room that runs out",
    "no message",
];

/// What the words of an account can be, and what a line can be.
const IMAGES: [&str; 16] = [
    "an account",
    "too few words",
    "a life above 2",
    "an event above 3",
    "a Close with an amount",
    "a decision above 1",
    "0 places",
    "1 place",
    "2 places",
    "3 places",
    "a line",
    "a rejection's line",
    "a rejection's line without a reason",
    "no entry",
    "line with room 71",
    "line with room below 71",
];

impl Tally {
    /// What the streams of a run should have reached and did not.
    pub fn lacking(&self, target: Target) -> Vec<String> {
        let mut checks = self.common(target);
        match target {
            Target::Program => checks.extend(self.seen_lines(&LINES)),
            Target::Kept | Target::Shared => checks.extend(self.seen_lines(&["refused", "end", "account"])),
            Target::Live => {
                checks.extend(IMAGES.map(|image| (format!("image: {image}"), self.images.contains_key(image))))
            }
            Target::Probe => {
                checks.extend(self.seen_lines(&LINES));
                checks.extend(self.seen_lines(&PROBE_LINES));
                checks.push(("a call of 323 bytes".into(), self.longest > 0));
                let kinds = entry::KINDS.map(|kind| u32::from(kind.0));
                checks.extend(kinds.map(|kind| (format!("entry of kind {kind} read"), self.read.contains_key(&kind))));
                let clauses = Clause::ALL.iter().map(|clause| clause.says());
                checks.extend(clauses.map(|says| (format!("broken alone: {says}"), self.alone.contains_key(says))));
                let later = later().into_iter().map(|key| (format!("frame {key}"), self.later.contains_key(&key)));
                checks.extend(later);
            }
            Target::Exported => checks.extend(RUNS.map(|run| (format!("run: {run}"), self.runs.contains_key(run)))),
        }
        checks.into_iter().filter(|check| !check.1).map(|check| check.0).collect()
    }

    /// What every target should reach: entries, refusals, counts of outcomes, reasons, balances at either end.
    fn common(&self, target: Target) -> Vec<(String, bool)> {
        let refusals: &[u32] = match target {
            Target::Program | Target::Kept | Target::Shared => &[1, 2, 3, 6, 7, 8, 9, 10, 11],
            Target::Probe | Target::Live => &[1, 2, 3, 4, 5, 6, 7, 8, 9, 10, 11, 12],
            Target::Exported => &[1, 2, 3, 4, 6, 7, 8, 9, 10, 11],
        };
        let mut checks: Vec<(String, bool)> = self.seen_lines(&entries()).collect();
        checks.extend(refusals.iter().map(|n| (format!("refusal {n}"), self.refusals.contains_key(n))));
        let counts = (0..=7).map(|u| 1 << u).chain([0]);
        checks.extend(counts.map(|n| (format!("{n} outcomes"), self.outcomes.contains_key(&n))));
        checks.extend((1..=4).map(|n| (format!("reason {n}"), self.reasons.contains_key(&n))));
        checks.push(("a balance of 0".into(), self.emptied > 0));
        checks.push(("a balance of 1,000,000".into(), self.filled > 0));
        checks
    }

    /// Whether each of the words begins a line.
    fn seen_lines<'a>(&'a self, words: &'a [&str]) -> impl Iterator<Item = (String, bool)> + 'a {
        words.iter().map(|word| (format!("line {word}"), self.lines.contains_key(*word)))
    }
}

/// The names of the entries, which every target's streams should reach.
fn entries() -> [&'static str; entry::KINDS.len()] {
    entry::KINDS.map(|kind| kind.1)
}

/// Answers to the frames from 64 on: both orders, runs taken whole and in part, every line of text, every refusal of a
/// step, the longest step.
fn later() -> Vec<String> {
    let lines = entries().into_iter().map(|entry| format!("67 {entry}"));
    let refusals = (5..=11).map(|number| format!("68 refused {number}"));
    let runs = ["nothing", "whole", "refused", "in part"].map(|run| format!("65 ran {run}"));
    let others = ["64 order yes", "64 order no", "67 none", "68 taken 1", "68 taken 17"].map(str::to_string);
    lines.chain(refusals).chain(runs).chain(others).collect()
}
