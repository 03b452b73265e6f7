//! The benchmark's streams do what their names say.

use independent::contention::{simulate, Outcome, Pattern, Setting};
use independent::entry::{Entry, EntryRules};
use independent::measure::{agree, Runner};
use independent::rules::Document;
use independent::run::run;
use independent::workload::{accepted, steady, undecided, IN_PROGRESS};

/// The counts of outcomes weighed, in the order of the votes.
fn counts(messages: &[u8]) -> Vec<u32> {
    let entries = run(messages, &Document).entries;
    let mut rest = entries.as_slice();
    let mut counts = Vec::new();
    while let Some((entry, _, length)) = Document.read_entry(rest) {
        counts.extend(entry.last().filter(|_| matches!(entry, Entry::Voted { .. })));
        rest = &rest[length..];
    }
    counts
}

/// No version refuses anything, and those that keep every rule agree.
#[test]
fn versions_agree() {
    for in_progress in IN_PROGRESS {
        assert!(agree(&steady(in_progress, 200), &Runner::all()));
    }
}

/// A request meets as many undecided events as the stream's name says.
#[test]
fn outcomes_weighed() {
    for in_progress in [0, 2, 4, 6] {
        assert_eq!(counts(&steady(in_progress, 50)).last(), Some(&(1 << in_progress)));
    }
    assert_eq!(counts(&steady(8, 50))[51..55], [0, 128, 0, 128]);
    for events in 0..8 {
        assert_eq!(counts(&undecided(events, 9)).last(), Some(&(1 << events)));
        assert_eq!(counts(&accepted(events, 9)).last(), Some(&(1 << events)));
    }
}

/// Nobody waits on an account of one's own; on a busy one nobody waits with 8 places, many with 1.
#[test]
fn waiting() {
    let outcome =
        |pattern, places| -> Outcome { simulate(Setting { pattern, users: 8, places, ticks: 20_000, seed: 1 }) };
    assert!(outcome(Pattern::Own, 1).waits.is_empty());
    assert!(outcome(Pattern::Busy, 8).waits.is_empty());
    let (eight, one) = (outcome(Pattern::Busy, 8), outcome(Pattern::Busy, 1));
    assert!(!one.waits.is_empty());
    assert!(eight.transfers > 2 * one.transfers);
    let replayed = run(&eight.messages, &Document);
    assert_eq!(replayed.refused, 0);
}
