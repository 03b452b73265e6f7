//! Streams for the calls on an image: frames of `crate::live`, among them words of any content.

use crate::bytes::Numbers;
use crate::entry::{self, REJECTED, UNEXPLAINED};
use crate::limits::{ACCOUNTS, PLACES, ROOM};
use crate::live::{MOST_ROOM, WORDS};
use crate::probe::split;
use crate::random::Random;
use crate::register::RegisterRules;
use crate::rules::Document;
use crate::streams::frames::Frames;
use crate::streams::{codecs, disturbance};
use crate::words::{words_of, ACCOUNT, HEAD, PLACE};

/// The kinds of streams, each with what it is after.
pub const KINDS: [&str; 9] = [
    "calls on one account at a time",
    "calls on sixteen accounts",
    "rooms, places and torn messages",
    "words that no account has",
    "each clause of order alone",
    "words set at random",
    "images too short",
    "lines of entries",
    "frames that do not fit",
];

/// A stream of the kind.
pub fn stream(kind: usize, mut random: Random) -> Vec<u8> {
    let count = random.length(3, 500);
    let mut images = Images { frames: Frames::on(random, if matches!(kind, 0 | 3 | 6) { 1 } else { 16 }) };
    match kind {
        0 | 1 => (0..count).for_each(|_| images.step()),
        2 => (0..count).for_each(|_| images.rooms()),
        3 => (0..count).for_each(|_| images.unknown_word()),
        4 => return translated(|frames| disturbance::clauses(frames, count.min(40)), images.frames.traffic.random),
        5 => return translated(|frames| disturbance::at_random(frames, count), images.frames.traffic.random),
        6 => (0..count).for_each(|_| images.short()),
        7 => (0..count).for_each(|_| images.lines()),
        _ => codecs::misfits(&mut images.frames, count),
    }
    images.frames.bytes
}

/// Frames of `crate::live`, with the traffic that they drive.
struct Images {
    frames: Frames,
}

impl Images {
    /// A random number of the traffic's.
    fn random(&mut self) -> &mut Random {
        &mut self.frames.traffic.random
    }

    /// A call, and the traffic's register goes on by it.
    fn call(&mut self, room: usize, message: &[u8]) {
        let places = self.random().pick(&[0, 1, 2, 2, 2, 3]);
        self.frames.frame(1, &[&(room as u16).to_be_bytes(), &[places], message]);
        self.frames.traffic.receive(message, room.min(MOST_ROOM));
    }

    /// The outcome question about an account, below, at or above 2 to the power u.
    fn outlook(&mut self, account: u16) {
        let kept = self.frames.traffic.register.account(usize::from(account) % ACCOUNTS);
        let outcomes = kept.map_or(1, |kept| kept.outcomes().len() as u64);
        let any = self.random().number();
        let below = self.random().below(outcomes);
        let number = self.random().pick(&[below, below, below, outcomes - 1, outcomes, any]) as u32;
        let account = if self.random().chance(4) { self.random().pick(&[16, 255, 65_535]) } else { account };
        let places = self.random().pick(&[0, 1, 2, 3, 3, 3, 4]);
        self.frames.frame(2, &[&account.to_be_bytes(), &number.to_be_bytes(), &[places]]);
    }

    /// The next message in a call, and now and then the question.
    fn step(&mut self) {
        let message = self.frames.traffic.compose();
        self.call(ROOM, &message.bytes());
        if self.random().chance(25) {
            self.outlook(message.head().account);
        }
    }

    /// A message with more or less room than it needs, cut, or with bytes behind it.
    fn rooms(&mut self) {
        let mut bytes = self.frames.traffic.compose().bytes();
        let room = self.random().pick(&[0, 1, 100, ROOM - 1, ROOM, ROOM, ROOM + 1, MOST_ROOM]);
        match self.random().below(4) {
            0 => {
                let left = self.random().below(bytes.len() as u64) as usize;
                bytes.truncate(left);
            }
            1 => bytes.extend(self.random().bytes(9)),
            _ => {}
        }
        self.call(room, &bytes);
    }

    /// Sets a word of an account.
    fn set(&mut self, account: u16, at: usize, word: u32) {
        let at = (usize::from(account) * ACCOUNT + at) as u16;
        self.frames.frame(3, &[&at.to_be_bytes(), &word.to_be_bytes()]);
    }

    /// A word that its field does not have, a message and a question to that account or another, and the word as it was.
    fn unknown_word(&mut self) {
        self.step();
        let message = self.frames.traffic.compose();
        let account = message.head().account;
        if usize::from(account) >= ACCOUNTS {
            return;
        }
        let words = words_of(&self.frames.traffic.register.image(usize::from(account)));
        let place = HEAD + PLACE * self.random().below(2 * PLACES as u64) as usize;
        let closes = (0..2 * PLACES).map(|at| HEAD + PLACE * at).find(|at| words[at + 2] == 3);
        let high = self.random().pick(&[1, 7, 1 << 8, 1 << 16, u32::MAX - 4]);
        let (at, word) = match self.random().below(4) {
            0 => (0, 2 + high),
            1 => (place + 2, 3 + high),
            2 => closes.map_or((place + 4, 1 + high), |close| (close + 3, high)),
            _ => (place + 4, 1 + high),
        };
        self.set(account, at, word);
        // the traffic's register is as it was: what it composes meets an account that is not in order
        self.frames.frame(1, &[&(ROOM as u16).to_be_bytes(), &[2], &message.bytes()]);
        self.outlook(account);
        self.set(account, at, words[at]);
        self.call(ROOM, &message.bytes());
    }

    /// Fewer words, at the end of an account's or beside it, a message and a question, and all of them again.
    fn short(&mut self) {
        self.step();
        let message = self.frames.traffic.compose();
        let account = message.head().account;
        let end = (usize::from(account) % ACCOUNTS + 1) * ACCOUNT;
        let words =
            self.random().pick(&[0, 1, end - ACCOUNT, end - 1, end - 1, end, end, end + 1, WORDS, WORDS + ACCOUNT]);
        self.frames.frame(4, &[&(words as u16).to_be_bytes()]);
        if words < end && usize::from(account) < ACCOUNTS {
            self.frames.frame(1, &[&(ROOM as u16).to_be_bytes(), &[2], &message.bytes()]);
        } else {
            self.call(ROOM, &message.bytes());
        }
        self.outlook(account);
        self.frames.frame(4, &[&(WORDS as u16).to_be_bytes()]);
    }

    /// The entries of a message, one after the other and spoilt, with more or less room for a line.
    fn lines(&mut self) {
        let message = self.frames.traffic.compose();
        let mut buffer = [0; ROOM];
        let taken = Document.call(&mut self.frames.traffic.register.clone(), &message.bytes(), &mut buffer);
        self.call(ROOM, &message.bytes());
        let (mut at, written) = (0, taken.map_or(0, |taken| taken.1));
        while at < written {
            let mut entry = buffer[at..written].to_vec();
            at += entry::kind(entry[0]).map_or(written, |kind| kind.1);
            if entry[0] == REJECTED && self.random().chance(40) {
                // the same rejection in the older kind, or one with another reason
                let reason = self.random().number() as u8;
                (entry[0], entry[18]) = self.random().pick(&[(UNEXPLAINED, entry[18]), (REJECTED, reason)]);
            }
            if self.random().chance(20) {
                let spoilt = self.random().below(entry.len() as u64) as usize;
                entry[spoilt] = self.random().pick(&[0, 1, 4, 15, 16, 17, 18, 22, 23, 255]);
            }
            if self.random().chance(10) {
                let left = self.random().below(entry.len() as u64) as usize;
                entry.truncate(left);
            }
            let room = self.random().pick(&[0, 68, 71, 72, 72, 72, 73, 100]) as u16;
            let places = self.random().pick(&[0, 1, 2, 2, 3]);
            self.frames.frame(5, &[&room.to_be_bytes(), &[places], &entry]);
        }
    }
}

/// Frames of the probe as frames of `crate::live`: calls, questions, and fields set, whatever their value.
fn translated(make: impl Fn(&mut Frames), random: Random) -> Vec<u8> {
    let mut probe = Frames::on(random.clone(), 4);
    make(&mut probe);
    let mut images = Images { frames: Frames::on(random, 1) };
    let mut rest = probe.bytes.as_slice();
    while let Some((code, payload, after)) = split(rest) {
        let mut numbers = Numbers { bytes: payload };
        match (code, payload.len()) {
            (1, 2..) => {
                let room = (numbers.next(2) as usize).min(MOST_ROOM) as u16;
                images.frames.frame(1, &[&room.to_be_bytes(), &[2], numbers.bytes]);
            }
            (2, 6) => images.frames.frame(2, &[payload, &[3]]),
            (5, 8) => {
                let (account, field, place) = (numbers.next(2), numbers.next(1) as usize, numbers.next(1) as usize);
                let value = numbers.next(4);
                let at =
                    if field < HEAD { field } else { HEAD + place % (2 * PLACES) * PLACE + (field - HEAD) % PLACE };
                let word = if field == 6 { value.wrapping_sub(1) } else { value };
                images.set(account as u16 % ACCOUNTS as u16, at, word);
            }
            _ => {}
        }
        rest = after;
    }
    images.frames.bytes
}
