//! Timing: the same stream through each version in turn, round after round.

use crate::limit;
use crate::proved;
use crate::rules::{Document, Judged, Places};
use crate::run::{self, room, Ran, Run};
use std::hint::black_box;
use std::time::Instant;

/// A version that runs messages through a fresh register.
#[derive(Clone, Copy, PartialEq, Eq, Debug)]
pub enum Runner {
    /// The independent implementation.
    Independent,
    /// The same, judging at every call that the account is in order.
    Judged,
    /// The same as the first with one event in progress at a time, the two-phase-locking way.
    OneAtATime,
    /// The one made by hand for speed, with every check.
    Limit,
    /// The proved register.
    Proved,
    /// The same, a call on an image for each message.
    Live,
}

impl Runner {
    /// The versions at hand: the proved one where it is linked.
    pub fn all() -> Vec<Runner> {
        let mut runners = vec![Runner::Independent, Runner::Judged, Runner::OneAtATime, Runner::Limit];
        if proved::LINKED {
            runners.extend([Runner::Proved, Runner::Live]);
        }
        runners
    }

    /// The head of its column.
    pub fn name(self) -> &'static str {
        match self {
            Runner::Independent => "independent",
            Runner::Judged => "order judged",
            Runner::OneAtATime => "one at a time",
            Runner::Limit => "limit",
            Runner::Proved => "proved",
            Runner::Live => "live",
        }
    }

    /// Runs the messages; `room` is for those that write where they are told.
    pub fn run(self, messages: &[u8], room: &mut [u8]) -> Run {
        match self {
            Runner::Independent => run::run(messages, &Document),
            Runner::Judged => run::run(messages, &Judged),
            Runner::OneAtATime => run::run(messages, &Places(1)),
            Runner::Limit => {
                let Ran { met, refused, written, .. } = limit::run(messages, room);
                Run { met, refused, entries: room[..written as usize].to_vec() }
            }
            Runner::Proved => proved::run(messages, room),
            Runner::Live => proved::live_run(messages, room),
        }
    }
}

/// Nanoseconds a message of each version in its fastest round; the versions take turns.
///
/// What else runs on the machine only slows a round, so the fastest says most.
pub fn times(messages: &[u8], runners: &[Runner], rounds: usize) -> Vec<f64> {
    let mut room = room(messages);
    let mut fastest = vec![f64::INFINITY; runners.len()];
    for _ in 0..rounds {
        for (runner, fastest) in runners.iter().zip(&mut fastest) {
            let start = Instant::now();
            let run = black_box(runner.run(black_box(messages), &mut room));
            *fastest = fastest.min(start.elapsed().as_nanos() as f64 / run.met.max(1) as f64);
        }
    }
    fastest
}

/// Whether the versions that keep every rule agree on the stream, and no version refuses any of it.
pub fn agree(messages: &[u8], runners: &[Runner]) -> bool {
    let mut room = room(messages);
    let taken = |runner: &Runner| runner.run(messages, &mut room).refused == 0;
    runners.iter().all(taken) && agree_on_entries(messages, runners)
}

/// Whether the versions that keep every rule agree on the stream: messages met and refused, and entries.
pub fn agree_on_entries(messages: &[u8], runners: &[Runner]) -> bool {
    let mut room = room(messages);
    let right = run::run(messages, &Document);
    let mut others = runners.iter().filter(|runner| **runner != Runner::OneAtATime);
    others.all(|runner| runner.run(messages, &mut room) == right)
}
