//! The calls on an image as their caller sees them: a stream sets words, makes calls and asks; its text is all that
//! these return and leave.
//!
//! A stream has frames, as the probe's has: a code, the length of what follows (2 bytes), and that.
//!
//! | Code | Frame |
//! |---|---|
//! | 1 | a call: room of the entry buffer (2 bytes), places for counts (1), message |
//! | 2 | the outcome question: account (2), number (4), places for the state (1) |
//! | 3 | a word is set: its number (2), its value (4) |
//! | 4 | how many words are lent from now on (2) |
//! | 5 | a line: room (2), places for counts (1), entry |

use crate::bytes::{hex, Numbers};
use crate::image::Image;
use crate::limits::{ACCOUNTS, PLACES};
use crate::probe::split;
use crate::register::Register;
use crate::run::RunRules;
use crate::words::{words_of, WordRules, ACCOUNT, LIVES};

/// The words of a register; so many are lent at first, and never more than this many beyond.
pub const WORDS: usize = ACCOUNTS * ACCOUNT;
/// The most room and the most places that are lent; a larger number stands for these.
pub const MOST_ROOM: usize = 400;
const MOST_PLACES: usize = 8;
/// The room that every line asks for.
const LINE_ROOM: usize = 72;
/// So much stands on each side of what is lent.
const BESIDE: usize = 8;

/// Who answers: the model, or the library.
pub trait Lender {
    fn call(&mut self, image: &mut [u32], message: &[u8], entries: &mut [u8], counts: &mut [u64]) -> u64;
    fn outlook(&mut self, image: &[u32], account: u16, number: u32, state: &mut [u32]) -> u64;
    fn line(&mut self, entry: &[u8], line: &mut [u8], counts: &mut [u64]) -> u64;
}

/// The rules of calls on an image (`docs/REGISTER.md`, 15.6 to 15.9).
pub trait LiveRules: RunRules + WordRules {
    /// The register of which the account with these words is known, and the others are fresh.
    fn register_of(&self, image: &[u32], account: usize) -> Register {
        let mut register = Register::fresh();
        let words = image.get(account * ACCOUNT..).unwrap_or_default();
        // what is no account stands as one that is not in order
        let none = Image { in_progress: PLACES as u32 + 1, ..Image::FRESH };
        register.put(account, self.account_of(words).unwrap_or(none), self);
        register
    }

    /// The call: the words of the account that is named are stored where the message is taken.
    fn live_call(&self, image: &mut [u32], message: &[u8], entries: &mut [u8]) -> Result<(usize, usize), u8> {
        call(image, message, entries, self)
    }

    /// The outcome question: life, balance and number applied.
    fn live_outlook(&self, image: &[u32], account: u16, number: u32) -> Result<[u32; 3], u8> {
        let known = usize::from(account).min(ACCOUNTS - 1);
        let (state, applied) = self.register_of(image, known).outcome(account, number, self)?;
        let life = LIVES.iter().position(|life| *life == state.life).unwrap_or_default() as u32;
        Ok([life, state.balance, applied])
    }
}

/// The call on an image.
pub fn call(
    image: &mut [u32],
    message: &[u8],
    entries: &mut [u8],
    rules: &impl LiveRules,
) -> Result<(usize, usize), u8> {
    let account = usize::from(rules.read(message)?.0.head().account);
    let mut register = rules.register_of(image, account);
    let taken = rules.call(&mut register, message, entries)?;
    let words = words_of(&register.image(account));
    image.iter_mut().skip(account * ACCOUNT).zip(words).for_each(|(word, stored)| *word = stored);
    Ok(taken)
}

/// The model in the place of the library.
struct Model<'a, R>(&'a R);

impl<R: LiveRules> Lender for Model<'_, R> {
    fn call(&mut self, image: &mut [u32], message: &[u8], entries: &mut [u8], counts: &mut [u64]) -> u64 {
        let called = self.0.live_call(image, message, entries);
        let (consumed, written) = called.unwrap_or_default();
        store(counts, &[consumed as u64, written as u64]);
        called.map_or_else(u64::from, |_| 0)
    }

    fn outlook(&mut self, image: &[u32], account: u16, number: u32, state: &mut [u32]) -> u64 {
        let found = self.0.live_outlook(image, account, number);
        found.map_or_else(u64::from, |found| {
            store(state, &found);
            0
        })
    }

    fn line(&mut self, entry: &[u8], line: &mut [u8], counts: &mut [u64]) -> u64 {
        let read = self.0.read_entry(entry).filter(|_| line.len() >= LINE_ROOM);
        let text =
            read.as_ref().map(|(entry, account, _)| self.0.entry_line(entry, *account) + "\n").unwrap_or_default();
        store(line, text.as_bytes());
        store(counts, &[read.map_or(0, |read| read.2 as u64), text.len() as u64]);
        text.len() as u64
    }
}

/// Stores items in the first places, as many as there are.
fn store<T: Copy>(places: &mut [T], items: &[T]) {
    places.iter_mut().zip(items).for_each(|(place, item)| *place = *item);
}

/// The text of a stream by the model.
pub fn text(input: &[u8], rules: &impl LiveRules) -> String {
    told(input, &mut Model(rules))
}

/// The text of a stream by who answers.
pub fn told(input: &[u8], lender: &mut impl Lender) -> String {
    let mut kept = Kept { image: Lent::of(0, WORDS + ACCOUNT), words: WORDS, fill: 0 };
    let mut text = String::from("live 1\n");
    let (mut rest, mut lines) = (input, 0);
    while !rest.is_empty() {
        let (line, after) = match split(rest) {
            Some((code, payload, after)) => (kept.frame(code, payload, lender).unwrap_or("unknown".into()), after),
            None => ("torn".into(), &[][..]),
        };
        text += &format!("{line}\n");
        (rest, lines) = (after, lines + 1);
    }
    text + &format!("end {lines}\n")
}

/// What is lent, between what is not.
struct Lent<T> {
    all: Vec<T>,
    lent: usize,
}

impl<T: Copy + PartialEq> Lent<T> {
    /// So many items, all alike at first, as are those on both sides.
    fn of(first: T, lent: usize) -> Lent<T> {
        Lent { all: vec![first; BESIDE + lent + BESIDE], lent }
    }

    /// What is lent.
    fn part(&mut self) -> &mut [T] {
        &mut self.all[BESIDE..][..self.lent]
    }

    /// The items before the last that is no longer as it was, or none.
    fn changed(&mut self, first: T) -> &[T] {
        let last = self.part().iter().rposition(|item| *item != first).map_or(0, |at| at + 1);
        &self.part()[..last]
    }

    /// Whether both sides are as they were.
    fn apart(&self, first: T) -> bool {
        self.all[..BESIDE].iter().chain(&self.all[BESIDE + self.lent..]).all(|item| *item == first)
    }
}

/// The image over the frames of a stream, how many of its words are lent, and how many frames there were.
struct Kept {
    image: Lent<u32>,
    words: usize,
    fill: u8,
}

impl Kept {
    /// The line of a frame, none where it is unknown.
    fn frame(&mut self, code: u8, payload: &[u8], lender: &mut impl Lender) -> Option<String> {
        self.fill = self.fill.wrapping_mul(5).wrapping_add(29);
        let mut numbers = Numbers { bytes: payload };
        match (code, payload.len()) {
            (1, 3..) => Some(self.call(numbers.next(2), numbers.next(1), numbers.bytes, lender)),
            (2, 7) => Some(self.outlook(numbers.next(2), numbers.next(4), numbers.next(1), lender)),
            (3, 6) => {
                let (at, word) = (numbers.next(2) as usize, numbers.next(4));
                let place = self.image.part().get_mut(at)?;
                *place = word;
                Some("set".into())
            }
            (4, 2) => {
                self.words = (numbers.next(2) as usize).min(WORDS + ACCOUNT);
                Some("lent".into())
            }
            (5, 3..) => Some(self.line(numbers.next(2), numbers.next(1), numbers.bytes, lender)),
            _ => None,
        }
    }

    /// A call: what it returns and counts, whether all that was not lent is as it was, the buffer, the words that changed.
    fn call(&mut self, room: u32, places: u32, message: &[u8], lender: &mut impl Lender) -> String {
        let (mut entries, mut counts) = (self.buffer(room), self.places(places));
        let before = self.image.all.clone();
        let sent = message.to_vec();
        let returned = lender.call(&mut self.image.part()[..self.words], &sent, entries.part(), counts.part());
        let kept = sent == message && entries.apart(self.fill) && counts.apart(u64::MAX);
        let shown = hex(entries.changed(self.fill));
        format!("{} {shown}{}", stored("call", returned, counts.part(), kept), self.turned(&before))
    }

    /// The outcome question: what it returns and stores.
    fn outlook(&mut self, account: u32, number: u32, places: u32, lender: &mut impl Lender) -> String {
        let mut state = Lent::of(u32::MAX, (places as usize).min(MOST_PLACES));
        let before = self.image.all.clone();
        let image = &self.image.all[BESIDE..][..self.words];
        let returned = lender.outlook(image, account as u16, number, state.part());
        let kept = state.apart(u32::MAX);
        format!("{}{}", stored("outlook", returned, state.part(), kept), self.turned(&before))
    }

    /// A line: what it returns and counts, and the buffer.
    fn line(&mut self, room: u32, places: u32, entry: &[u8], lender: &mut impl Lender) -> String {
        let (mut line, mut counts) = (self.buffer(room), self.places(places));
        let given = entry.to_vec();
        let returned = lender.line(&given, line.part(), counts.part());
        let kept = given == entry && line.apart(self.fill) && counts.apart(u64::MAX);
        let shown = hex(line.changed(self.fill));
        format!("{} {shown}", stored("line", returned, counts.part(), kept))
    }

    /// A buffer of so many bytes, and so many places for counts.
    fn buffer(&self, room: u32) -> Lent<u8> {
        Lent::of(self.fill, (room as usize).min(MOST_ROOM))
    }

    fn places(&self, places: u32) -> Lent<u64> {
        Lent::of(u64::MAX, (places as usize).min(MOST_PLACES))
    }

    /// The words that are no longer as they were, lent or not.
    fn turned(&self, before: &[u32]) -> String {
        let pairs = before.iter().zip(&self.image.all).enumerate().filter(|(_, (old, new))| old != new);
        pairs.map(|(at, (_, new))| format!(" {}={new}", at as i64 - BESIDE as i64)).collect()
    }
}

/// What was returned and stored, and whether the rest is as it was.
fn stored<T: std::fmt::Display>(name: &str, returned: u64, places: &[T], kept: bool) -> String {
    let places: String = places.iter().map(|item| format!(" {item}")).collect();
    format!("{name} {returned} stored{places}{}", if kept { " kept" } else { " spoilt" })
}
