//! Streams for the exported call, and frames of the probe: what a run is lent, and its messages.

use crate::exported::MOST_ROOM;
use crate::limits::ROOM;
use crate::probe::WIDEST;
use crate::random::Random;
use crate::rules::Document;
use crate::run::run;
use crate::streams::frames::Frames;
use crate::streams::messages;

/// The kinds of streams, each with what it is after.
pub const KINDS: [&str; 6] = [
    "room enough",
    "room that runs out within",
    "room for one call",
    "room of 322 bytes and less",
    "room that the entries leave for one call more or not",
    "no messages, or arbitrary bytes",
];

/// A stream of the kind.
pub fn stream(kind: usize, mut random: Random) -> Vec<u8> {
    let longest = messages::KINDS.len() - 1;
    let sort = match kind {
        5 => random.pick(&[3, 6, 6]),
        _ if random.chance(4) => longest,
        _ => random.below(longest as u64) as usize,
    };
    let mut sent = messages::stream(sort, Random::of(random.number(), 0));
    if kind == 5 && random.chance(30) {
        sent.clear();
    }
    let entries = run(&sent, &Document).entries.len();
    let room = match kind {
        0 => entries + ROOM + random.below(200) as usize,
        1 => random.length(ROOM, ROOM.max(entries)),
        2 => random.pick(&[ROOM, ROOM, ROOM + 1, ROOM + 17, ROOM + 18, ROOM + 19]),
        3 => random.pick(&[0, 1, 18, 100, ROOM - 1, ROOM - 1]),
        4 => (entries + ROOM).saturating_sub(random.below(40) as usize),
        _ => random.pick(&[0, ROOM - 1, ROOM, 1_000, 5_000]),
    };
    let places = random.pick(&[0, 1, 2, 3, 4, 4, 5]);
    let head = &(room.min(MOST_ROOM) as u32).to_be_bytes()[1..];
    [head, &[places], &sent].concat()
}

/// Frame 65, and the next message of the probe's own register after it.
pub fn frame(frames: &mut Frames) {
    let random = &mut frames.traffic.random;
    let kind = random.below(messages::KINDS.len() as u64 - 1) as usize;
    let count = random.length(1, 40) - 1;
    let sent = messages::counted(kind, Random::of(random.number(), 0), count);
    let any = random.below(WIDEST as u64) as usize;
    let room = random.pick(&[0, ROOM - 1, ROOM, ROOM, ROOM + 18, ROOM + 49, any, WIDEST, WIDEST, WIDEST, WIDEST + 1]);
    frames.run(room, &sent);
    frames.step(10);
}
