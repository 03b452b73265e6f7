//! The register of recalibration events, proved, for Rust: a safe and small wrapper of the calls in
//! `include/nacozteya.h`, with the standard library alone.
//!
//! The library that it links is `target/staticlib/liblive.a`, which `tools/build live` makes for
//! x86-64 Linux. What the calls do is written down in `docs/REGISTER.md`; that they do it is proved.
//!
//! ```
//! use nacozteya::{lines, Register, ROOM};
//!
//! let mut register = Register::new();
//! let mut entries = [0; ROOM];
//! // Open 500 under transaction 7 on account 3, second 101
//! let message = [1, 0, 0, 0, 7, 0, 3, 0, 0, 0, 101, 0, 0, 1, 244];
//! let taken = register.call(&message, &mut entries)?;
//! assert_eq!(taken.consumed, 15);
//! let text: Vec<String> = lines(&entries[..taken.written]).collect();
//! assert_eq!(text, ["accepted 7 3 101 open 500 1\n"]);
//! // the same once more: 6, and nothing changes
//! assert_eq!(register.call(&message, &mut entries).unwrap_err().number(), 6);
//! # Ok::<(), nacozteya::Refusal>(())
//! ```

mod linked;

use std::error::Error;
use std::fmt;

/// The room that a call asks for in the entry buffer.
pub const ROOM: usize = 323;

/// The bytes of the longest line.
pub const LONGEST_LINE: usize = 72;

/// The kind of a rejection, whose last byte is the reason; and the kind without it, which is read and never written.
pub const REJECTED: u8 = 23;
pub const REJECTED_BEFORE: u8 = 18;

/// The words of an account, and of a register, as an image.
pub const ACCOUNT_WORDS: usize = 84;
pub const REGISTER_WORDS: usize = ACCOUNT_WORDS * Register::ACCOUNTS;

/// A message that was taken: the bytes that it had, and the bytes of its entries.
#[derive(Clone, Copy, PartialEq, Eq, Debug)]
pub struct Taken {
    pub consumed: usize,
    pub written: usize,
}

/// The number of a refusal, 1 to 12 (`docs/REGISTER.md`, 10.1). Nothing was changed.
#[derive(Clone, Copy, PartialEq, Eq, Debug)]
pub struct Refusal(u8);

/// The reason of a rejection, 1 to 4 in those that the register writes (`docs/REGISTER.md`, 3.4).
#[derive(Clone, Copy, PartialEq, Eq, Debug)]
pub struct Reason(u8);

/// What an account is.
#[derive(Clone, Copy, PartialEq, Eq, Debug)]
pub enum Life {
    New,
    Opened,
    Closed,
}

/// An account in one outcome of its undecided events.
#[derive(Clone, Copy, PartialEq, Eq, Debug)]
pub struct Outlook {
    pub life: Life,
    pub balance: u32,
    /// How many undecided events are applied in this outcome.
    pub applied: u32,
}

/// A register of sixteen accounts. It is plain data: a clone is another register.
#[derive(Clone, PartialEq, Eq)]
pub struct Register {
    image: Box<[u32; REGISTER_WORDS]>,
}

impl Register {
    /// The accounts of a register, numbered from 0.
    pub const ACCOUNTS: usize = 16;

    /// A fresh register.
    pub fn new() -> Register {
        Register::from_words([0; REGISTER_WORDS])
    }

    /// The register that these words are, perhaps saved before. Any words will do: those of an
    /// account that no calls can have left are not in order, and every message to it gets 5.
    pub fn from_words(words: [u32; REGISTER_WORDS]) -> Register {
        Register { image: Box::new(words) }
    }

    /// The words that the register is, to be saved.
    pub fn words(&self) -> &[u32; REGISTER_WORDS] {
        &self.image
    }

    /// Sends the message that the bytes begin with; its entries stand at the beginning of the buffer.
    pub fn call(&mut self, message: &[u8], entries: &mut [u8]) -> Result<Taken, Refusal> {
        call(&mut self.image[..], message, entries)
    }

    /// The state of an account in the outcome of a number. Outcome 0 applies no undecided event.
    pub fn outlook(&self, account: u16, number: u32) -> Result<Outlook, Refusal> {
        outlook(&self.image[..], account, number)
    }
}

impl Default for Register {
    fn default() -> Register {
        Register::new()
    }
}

impl fmt::Debug for Register {
    fn fmt(&self, f: &mut fmt::Formatter<'_>) -> fmt::Result {
        let states = (0..Register::ACCOUNTS as u16).map(|account| self.outlook(account, 0));
        f.debug_list().entries(states).finish()
    }
}

/// A call on an image that is kept elsewhere, of any length and content.
pub fn call(image: &mut [u32], message: &[u8], entries: &mut [u8]) -> Result<Taken, Refusal> {
    let mut counts = [0; 2];
    refusal(linked::call(image, message, entries, &mut counts))?;
    Ok(Taken { consumed: counts[0] as usize, written: counts[1] as usize })
}

/// The outcome question of an image that is kept elsewhere, of any length and content.
pub fn outlook(image: &[u32], account: u16, number: u32) -> Result<Outlook, Refusal> {
    let mut state = [0; 3];
    refusal(linked::outlook(image, account, number, &mut state))?;
    let life = match state[0] {
        0 => Life::New,
        1 => Life::Opened,
        _ => Life::Closed,
    };
    Ok(Outlook { life, balance: state[1], applied: state[2] })
}

/// The line of the entry that the bytes begin with, its newline included, and the bytes of that entry; none where they
/// begin with no entry.
pub fn line(entry: &[u8]) -> Option<(String, usize)> {
    let (mut line, mut counts) = ([0; LONGEST_LINE], [0; 2]);
    let length = linked::line(entry, &mut line, &mut counts) as usize;
    let text = line[..length].iter().map(|byte| char::from(*byte)).collect();
    (length > 0).then_some((text, counts[0] as usize))
}

/// The reason of the rejection that the bytes begin with; none where they begin with another entry, with a rejection
/// that has none, or with no entry.
pub fn reason(entry: &[u8]) -> Option<Reason> {
    let (_, length) = line(entry)?;
    (entry[0] == REJECTED).then(|| Reason(entry[length - 1]))
}

/// The lines of the entries that stand one behind the other from the beginning of the bytes on.
pub fn lines(entries: &[u8]) -> impl Iterator<Item = String> + '_ {
    let mut rest = entries;
    std::iter::from_fn(move || {
        let (text, length) = line(rest)?;
        rest = &rest[length..];
        Some(text)
    })
}

/// The refusal of a number; none where it is 0.
fn refusal(number: u64) -> Result<(), Refusal> {
    match number {
        0 => Ok(()),
        _ => Err(Refusal(number as u8)),
    }
}

impl Reason {
    /// The number.
    pub fn number(self) -> u8 {
        self.0
    }
}

impl fmt::Display for Reason {
    fn fmt(&self, f: &mut fmt::Formatter<'_>) -> fmt::Result {
        f.write_str(match self.0 {
            1 => "the account is not in the life that the event asks for",
            2 => "the amount is 0",
            3 => "fewer steps are left than are to be withdrawn",
            4 => "the account would have more steps than 1,000,000",
            _ => "unknown",
        })
    }
}

impl Refusal {
    /// The number, 1 to 12.
    pub fn number(self) -> u8 {
        self.0
    }
}

impl fmt::Display for Refusal {
    fn fmt(&self, f: &mut fmt::Formatter<'_>) -> fmt::Result {
        let says = match self.0 {
            1 => "no whole message",
            2 => "unknown kind of message",
            3 => "no such account",
            4 => "too little room for entries",
            5 => "the account is not in order",
            6 => "the transaction is in progress or held already",
            7 => "eight requests are held already",
            8 => "the transaction is neither in progress nor held",
            9 => "the transaction is held",
            10 => "the event is committed already",
            11 => "the event is committed",
            _ => "no such outcome",
        };
        write!(f, "refused with {}: {says}", self.0)
    }
}

impl Error for Refusal {}
