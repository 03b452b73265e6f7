//! Streams for the program: messages one after the other, and what is not messages.

use crate::event::Event;
use crate::limits::LONGEST;
use crate::message::{Head, Message};
use crate::random::Random;
use crate::streams::traffic::{of_kind, Traffic};

/// The kinds of streams, each with what it is after.
pub const KINDS: [&str; 8] = [
    "one account at a time",
    "three accounts",
    "sixteen accounts",
    "a torn end",
    "an unknown kind within",
    "messages at random",
    "arbitrary bytes",
    "the longest input",
];

/// A stream of the kind.
pub fn stream(kind: usize, mut random: Random) -> Vec<u8> {
    let count = random.length(4, 2_000);
    counted(kind, random, count)
}

/// A stream of the kind with so many messages, or about so many, where its kind does not say otherwise.
pub fn counted(kind: usize, mut random: Random, count: usize) -> Vec<u8> {
    match kind {
        0 => traffic(random, 1, count),
        1 => traffic(random, 3, count),
        2 => traffic(random, 16, count),
        3 => torn(random, count),
        4 => unknown(random, count),
        5 => (0..count).flat_map(|_| at_random(&mut random)).collect(),
        6 => arbitrary(random),
        _ => longest(random),
    }
}

/// So many guided messages on so many accounts.
fn traffic(random: Random, accounts: usize, count: usize) -> Vec<u8> {
    let mut traffic = Traffic::on(random, accounts);
    (0..count).flat_map(|_| traffic.send().bytes()).collect()
}

/// Guided messages, the last of them cut; now and then it shows account 16.
fn torn(mut random: Random, count: usize) -> Vec<u8> {
    let mut bytes = traffic(Random::of(random.number(), 0), 2, count.min(200));
    let account = random.pick(&[0, 15, 16, 256, 65_535]);
    let kind = random.between(1, 6) as u8;
    let last = of_kind(kind, Head { transaction: 9, account, second: 100 }, 7).bytes();
    let left = random.between(0, last.len() as u64 - 1) as usize;
    bytes.extend(&last[..left]);
    bytes
}

/// Guided messages, a kind that is not listed, and messages behind it.
fn unknown(mut random: Random, count: usize) -> Vec<u8> {
    let mut bytes = traffic(Random::of(random.number(), 0), 2, count.min(100));
    let kind = random.pick(&[0, 7, 8, 16, 17, 33, 65, 128, 255]);
    bytes.push(kind);
    if random.chance(70) {
        bytes.extend(traffic(Random::of(random.number(), 1), 1, 3));
    }
    bytes
}

/// A message with numbers at random from small ranges.
pub fn at_random(random: &mut Random) -> Vec<u8> {
    let kind = random.between(1, 6) as u8;
    let transaction = random.between(1, 12) as u32;
    let account = random.pick(&[0, 0, 0, 1, 15, 16]);
    let second = random.between(0, 2) as u32;
    let amount = random.pick(&[0, 1, 2, 10, 50, 100, 999_999, 1_000_000, 1_000_001]);
    of_kind(kind, Head { transaction, account, second }, amount).bytes()
}

/// Arbitrary bytes; half of the time with low first bytes, so that some are messages.
fn arbitrary(mut random: Random) -> Vec<u8> {
    let count = random.length(1, 400);
    let mut bytes = random.bytes(count);
    if random.chance(50) {
        for byte in &mut bytes {
            *byte = if random.chance(80) { *byte % 7 } else { *byte };
        }
    }
    if random.chance(5) {
        Vec::new()
    } else {
        bytes
    }
}

/// Input about as long as the program takes, or longer.
fn longest(mut random: Random) -> Vec<u8> {
    let over = random.pick(&[1, 2, 15, 1_000, 4_096, 65_536, 100_000]);
    let length = match random.below(4) {
        0 => LONGEST,
        1 => LONGEST + over,
        2 => LONGEST - random.below(16) as usize,
        _ => LONGEST + 1,
    };
    let whole = random.chance(60);
    let mut traffic = Traffic::on(random, 4);
    let mut bytes = Vec::with_capacity(length);
    while bytes.len() + 200 < length {
        bytes.extend(traffic.send().bytes());
    }
    if whole {
        finish(&mut bytes, length);
    }
    bytes.resize(length, 1);
    bytes
}

/// Adds whole messages of 11 and 15 bytes that end exactly at the length.
fn finish(bytes: &mut Vec<u8>, length: usize) {
    let mut transaction = 0;
    while bytes.len() < length {
        transaction += 1;
        let head = Head { transaction, account: 15, second: 0 };
        let fits = (length - bytes.len()).is_multiple_of(15);
        let message = if fits { Message::request(head, Event::Withdraw(1)) } else { Message::Abort(head) };
        bytes.extend(message.bytes());
    }
}
