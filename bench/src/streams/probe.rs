//! Streams for the probe: frames one after the other, and what is not frames.

use crate::limits::LONGEST;
use crate::random::Random;
use crate::streams::frames::Frames;
use crate::streams::{codecs, disturbance, runs};

/// The kinds of streams, each with what it is after.
pub const KINDS: [&str; 12] = [
    "calls on one account at a time",
    "calls on four accounts",
    "rooms and torn messages",
    "readers and writers",
    "each clause of order alone",
    "fields set at random",
    "accounts built field by field",
    "frames that do not fit",
    "arbitrary bytes",
    "single steps among calls",
    "runs among calls",
    "the longest input",
];

/// A stream of the kind.
pub fn stream(kind: usize, mut random: Random) -> Vec<u8> {
    let count = random.length(3, 700);
    let accounts = if matches!(kind, 0 | 2 | 4) { 1 } else { 4 };
    let mut frames = Frames::on(random, accounts);
    match kind {
        0 | 1 => (0..count).for_each(|_| frames.step(10)),
        2 => (0..count).for_each(|_| codecs::rooms(&mut frames)),
        3 => (0..count).for_each(|_| codecs::readers_and_writers(&mut frames)),
        4 => disturbance::clauses(&mut frames, count.min(60)),
        5 => disturbance::at_random(&mut frames, count),
        6 => disturbance::built(&mut frames, count.min(40)),
        7 => codecs::misfits(&mut frames, count),
        8 => codecs::arbitrary(&mut frames),
        9 => (0..count).for_each(|_| frames.step(85)),
        10 => (0..count.min(60)).for_each(|_| runs::frame(&mut frames)),
        _ => longest(&mut frames),
    }
    if kind != 11 {
        frames.bytes.truncate(LONGEST);
    }
    frames.bytes
}

/// Input about as long as the probe takes, or longer.
fn longest(frames: &mut Frames) {
    if frames.traffic.random.chance(12) {
        return longest_lines(frames);
    }
    let length = match frames.traffic.random.below(4) {
        0 => LONGEST,
        1 => LONGEST + 1 + frames.traffic.random.below(5_000) as usize,
        2 => LONGEST - frames.traffic.random.below(16) as usize,
        _ => LONGEST + 1,
    };
    while frames.bytes.len() + 100 < length {
        frames.step(10);
    }
    if frames.traffic.random.chance(60) {
        let left = length - frames.bytes.len() - 3;
        let payload = frames.traffic.random.bytes(left);
        frames.frame(3, &[&payload]);
    }
    frames.bytes.resize(length, 6);
}

/// As many of the longest lines as an input can ask for: every number of an account is the highest.
fn longest_lines(frames: &mut Frames) {
    let most = u32::MAX;
    let account = frames.traffic.random.below(16) as u16;
    for change in [(0, 0, 1), (1, 0, most), (2, 0, most), (3, 0, most)] {
        frames.disturb(account, change);
    }
    for place in 0..16 {
        for change in [(4, place, most), (5, place, most), (6, place, 3), (7, place, most), (8, place, 1)] {
            frames.disturb(account, change);
        }
    }
    while frames.bytes.len() + 5 <= LONGEST {
        frames.show(account);
    }
}
