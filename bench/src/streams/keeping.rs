//! Streams for the examples that keep a register: messages one after the other, many of them once.

use crate::limits::ROOM;
use crate::random::Random;
use crate::streams::messages;
use crate::streams::traffic::Traffic;

/// The kinds of streams, each with what it is after.
pub const KINDS: [&str; 7] = [
    "very many calls on sixteen accounts",
    "one account at a time",
    "three accounts",
    "a torn end",
    "an unknown kind within",
    "messages at random",
    "arbitrary bytes",
];

/// The calls of the first stream, and of the others of its kind.
pub const CALLS: usize = 100_000;
const FEWER: usize = 3_000;

/// The kind of a request to close.
const CLOSE: u8 = 4;

/// A stream of the kind; the first of all is the long one.
pub fn stream(kind: usize, number: u64, random: Random) -> Vec<u8> {
    match kind {
        0 => many(random, if number == 0 { CALLS } else { FEWER }),
        1 | 2 => messages::stream(kind - 1, random),
        _ => messages::stream(kind, random),
    }
}

/// So many calls on sixteen accounts; accounts are closed only towards the end, since a closed one rejects everything.
fn many(random: Random, count: usize) -> Vec<u8> {
    let mut traffic = Traffic::on(random, 16);
    let mut sent = Vec::with_capacity(count);
    while sent.len() < count {
        let message = traffic.compose();
        if message.kind() != CLOSE || sent.len() > count - count / 20 {
            traffic.receive(&message.bytes(), ROOM);
            sent.push(message.bytes());
        }
    }
    sent.concat()
}
