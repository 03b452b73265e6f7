//! Frames for the readers and writers, for rooms, and frames that do not fit.

use crate::limits::ROOM;
use crate::message::{self, HEAD};
use crate::probe::WIDEST;
use crate::random::Random;
use crate::rules::Document;
use crate::run::run;
use crate::streams::frames::Frames;
use crate::streams::messages::at_random;

const ROOMS: [usize; 14] = [0, 1, 10, 11, 14, 15, 100, 322, 322, 323, 323, 324, WIDEST, WIDEST + 1];
/// Codes, and lengths of payloads that fit those which are listed.
const FITTING: [(u8, usize); 19] = [
    (1, 2),
    (1, 17),
    (2, 6),
    (3, 0),
    (3, 15),
    (4, 17),
    (5, 8),
    (6, 2),
    (7, 11),
    (64, 2),
    (65, 2),
    (65, 28),
    (67, 19),
    (68, 15),
    (0, 0),
    (8, 0),
    (63, 1),
    (66, 2),
    (69, 15),
];
const ACCOUNT_EDGES: [u16; 10] = [0, 1, 7, 15, 15, 16, 255, 256, 257, 65_535];

/// A call in any room; now and then its message is cut, empty, followed by bytes, or of no kind.
pub fn rooms(frames: &mut Frames) {
    let message = frames.traffic.compose();
    let mut bytes = message.bytes();
    let random = &mut frames.traffic.random;
    let room = if random.chance(60) { ROOM } else { random.pick(&ROOMS) };
    match random.below(10) {
        0 => bytes.truncate(random.below(bytes.len() as u64) as usize),
        1 => bytes[0] = random.pick(&[0, 7, 8, 17, 255]),
        2 | 3 => {
            let more = random.length(1, 40);
            bytes.extend(random.bytes(more));
        }
        4 => bytes[5..7].copy_from_slice(&random.pick(&ACCOUNT_EDGES).to_be_bytes()),
        _ => {}
    }
    frames.call(room, &bytes);
    frames.look(message.head().account);
}

/// One of the frames 3, 4, 7 and 67.
pub fn readers_and_writers(frames: &mut Frames) {
    let random = &mut frames.traffic.random;
    match random.below(4) {
        0 => {
            let mut bytes = at_random(random);
            spoil(random, &mut bytes);
            frames.frame(3, &[&bytes]);
        }
        1 => {
            let payload = writing(random);
            frames.frame(4, &[&payload]);
        }
        _ => {
            let mut bytes = an_entry(random);
            spoil(random, &mut bytes);
            let code = random.pick(&[7, 67]);
            frames.frame(code, &[&bytes]);
        }
    }
}

/// The payload of frame 4.
fn writing(random: &mut Random) -> Vec<u8> {
    let kind = random.pick(&[1, 2, 3, 4, 5, 6, 1, 2, 3, 4, 5, 6, 0, 7, 33, 255]);
    let any = |random: &mut Random| random.number() as u32;
    let second = any(random);
    let (transaction, account) = (any(random), random.pick(&ACCOUNT_EDGES));
    let length = message::length(kind).unwrap_or(HEAD);
    let room = random.pick(&[length - 1, length, length + 1, 0, 14, 15, 11, WIDEST, WIDEST + 1, 65_535]);
    let mut payload = vec![kind];
    payload.extend(transaction.to_be_bytes());
    payload.extend(account.to_be_bytes());
    payload.extend(second.to_be_bytes());
    payload.extend(any(random).to_be_bytes());
    payload.extend((room as u16).to_be_bytes());
    payload
}

/// The bytes of an entry: one that some calls wrote, or one of any numbers.
fn an_entry(random: &mut Random) -> Vec<u8> {
    if random.chance(40) {
        let messages: Vec<u8> = (0..6).flat_map(|_| at_random(random)).collect();
        return run(&messages, &Document).entries;
    }
    let kind = random.pick(&[17, 18, 18, 19, 20, 21, 22, 23, 23]);
    let mut bytes = vec![kind];
    bytes.extend(random.bytes(4));
    let account = if random.chance(60) { random.below(16) as u16 } else { random.pick(&ACCOUNT_EDGES) };
    bytes.extend(account.to_be_bytes());
    bytes.extend(random.bytes(4));
    let event = random.pick(&[1, 2, 3, 1, 2, 3, 4, 4, 4, 0, 5, 7, 255]);
    bytes.push(event);
    let amount = if random.chance(60) { vec![0; 4] } else { random.bytes(4) };
    bytes.extend(amount);
    bytes.extend(random.bytes(2));
    let any = random.number() as u8;
    bytes.push(random.pick(&[0, 1, 2, 3, 4, 5, any, any]));
    bytes.push(any);
    bytes
}

/// Now and then cuts the bytes, adds some, or changes one.
fn spoil(random: &mut Random, bytes: &mut Vec<u8>) {
    match random.below(8) {
        0 => bytes.truncate(random.below(bytes.len() as u64 + 1) as usize),
        1 => bytes.extend(random.bytes(9)),
        2 if !bytes.is_empty() => {
            let at = random.below(bytes.len() as u64) as usize;
            bytes[at] = random.number() as u8;
        }
        3 if bytes.len() > 6 => bytes[5..7].copy_from_slice(&random.pick(&ACCOUNT_EDGES).to_be_bytes()),
        _ => {}
    }
}

/// Frames with payloads too short or too long, codes that are not listed, and a torn end.
pub fn misfits(frames: &mut Frames, count: usize) {
    for _ in 0..count {
        let random = &mut frames.traffic.random;
        if random.chance(40) {
            frames.step(10);
            continue;
        }
        let (code, fitting) = random.pick(&FITTING);
        let length = match random.below(4) {
            0 => fitting,
            1 => fitting + 1,
            2 => usize::saturating_sub(fitting, 1),
            _ => random.below(24) as usize,
        };
        let mut payload = random.bytes(length);
        if random.chance(60) {
            payload.iter_mut().for_each(|byte| *byte %= 9);
        }
        frames.frame(code, &[&payload]);
        frames.show(0);
    }
    if frames.traffic.random.chance(70) {
        let cut = frames.traffic.random.between(1, 6) as usize;
        frames.bytes.truncate(frames.bytes.len() - cut.min(frames.bytes.len()));
    }
}

/// Arbitrary bytes, or frames of arbitrary payloads.
pub fn arbitrary(frames: &mut Frames) {
    let random = &mut frames.traffic.random;
    let length = random.length(1, 300);
    match random.below(3) {
        0 => frames.bytes = random.bytes(length),
        1 => {
            frames.bytes = random.bytes(length);
            frames.bytes.iter_mut().for_each(|byte| *byte = if *byte < 200 { *byte % 8 } else { *byte });
        }
        _ => {
            for _ in 0..length {
                let random = &mut frames.traffic.random;
                let (code, fitting) = random.pick(&FITTING);
                let length = random.pick(&[fitting, fitting, 0, 2, 6, 8, 13, 15, 17]);
                let mut payload = random.bytes(length);
                payload.iter_mut().for_each(|byte| *byte = if *byte < 230 { *byte % 7 } else { *byte });
                frames.frame(code, &[&payload]);
            }
        }
    }
}
