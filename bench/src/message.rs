//! Messages: what they carry, their reader, their writer.

use crate::bytes::Numbers;
use crate::event::Event;
use crate::limits::ACCOUNTS;
use crate::request::Request;

/// Each kind with its name and its whole length.
pub const KINDS: [(u8, &str, usize); 6] = [
    (1, "open", 15),
    (2, "withdraw", 15),
    (3, "deposit", 15),
    (4, "close", 11),
    (COMMIT, "commit", 11),
    (ABORT, "abort", 11),
];
pub const COMMIT: u8 = 5;
pub const ABORT: u8 = 6;
/// The length of what every message has: its kind, transaction, account and second.
pub const HEAD: usize = 11;

/// What every message names.
#[derive(Clone, Copy, PartialEq, Eq, Debug)]
pub struct Head {
    pub transaction: u32,
    pub account: u16,
    pub second: u32,
}

/// A message.
#[derive(Clone, Copy, PartialEq, Eq, Debug)]
pub enum Message {
    Request { account: u16, request: Request },
    Commit(Head),
    Abort(Head),
}

/// The name and the whole length of a kind, none for a kind that is not listed.
pub fn kind(number: u8) -> Option<(&'static str, usize)> {
    KINDS.iter().find(|kind| kind.0 == number).map(|kind| (kind.1, kind.2))
}

/// The whole length of a kind's message, none for a kind that is not listed.
pub fn length(number: u8) -> Option<usize> {
    kind(number).map(|kind| kind.1)
}

/// Reader and writer by themselves.
pub trait MessageRules {
    /// The message at the beginning of the bytes with its length, or refusal 1, 2 or 3.
    fn read(&self, bytes: &[u8]) -> Result<(Message, usize), u8> {
        let kind = *bytes.first().ok_or(1)?;
        let whole = length(kind).ok_or(2)?;
        let mut numbers = Numbers { bytes: bytes.get(1..whole).ok_or(1)? };
        let head = Head { transaction: numbers.next(4), account: numbers.next(2) as u16, second: numbers.next(4) };
        let message = Message::of(kind, head, numbers.next(whole - HEAD)).ok_or(2)?;
        if usize::from(head.account) >= ACCOUNTS {
            return Err(3);
        }
        Ok((message, whole))
    }

    /// The length written into the buffer, or refusal 3 or 4 with the buffer as it was.
    fn write(&self, message: &Message, buffer: &mut [u8]) -> Result<usize, u8> {
        if usize::from(message.head().account) >= ACCOUNTS {
            return Err(3);
        }
        let bytes = message.bytes();
        buffer.get_mut(..bytes.len()).ok_or(4)?.copy_from_slice(&bytes);
        Ok(bytes.len())
    }
}

impl Message {
    /// The message of a kind, none for a kind that is not listed; the amount is not looked at where the kind has none.
    pub fn of(kind: u8, head: Head, amount: u32) -> Option<Message> {
        match kind {
            COMMIT => Some(Message::Commit(head)),
            ABORT => Some(Message::Abort(head)),
            _ => Some(Message::request(head, Event::of(kind, amount)?)),
        }
    }

    /// The request of an event.
    pub fn request(Head { transaction, account, second }: Head, event: Event) -> Message {
        Message::Request { account, request: Request { transaction, second, event } }
    }

    /// What it names.
    pub fn head(&self) -> Head {
        match *self {
            Message::Request { account, request } => {
                Head { transaction: request.transaction, account, second: request.second }
            }
            Message::Commit(head) | Message::Abort(head) => head,
        }
    }

    /// Its kind, 1 to 6.
    pub fn kind(&self) -> u8 {
        match self {
            Message::Request { request, .. } => request.event.kind(),
            Message::Commit(_) => COMMIT,
            Message::Abort(_) => ABORT,
        }
    }

    /// The amount, 0 where the kind has none.
    pub fn amount(&self) -> u32 {
        match self {
            Message::Request { request, .. } => request.event.amount(),
            Message::Commit(_) | Message::Abort(_) => 0,
        }
    }

    /// The bytes of the layout, whatever the account.
    pub fn bytes(&self) -> Vec<u8> {
        let Head { transaction, account, second } = self.head();
        let mut bytes = Vec::with_capacity(15);
        bytes.push(self.kind());
        bytes.extend(transaction.to_be_bytes());
        bytes.extend(account.to_be_bytes());
        bytes.extend(second.to_be_bytes());
        if length(self.kind()) > Some(HEAD) {
            bytes.extend(self.amount().to_be_bytes());
        }
        bytes
    }
}
