//! Streams for the benchmark: a steady number in progress, and a growing number undecided.

use crate::event::Event;
use crate::limits::LIMIT;
use crate::message::{Head, Message};

/// The numbers in progress that the benchmark looks at.
pub const IN_PROGRESS: [u32; 5] = [0, 2, 4, 6, 8];

/// So many pairs of a request and the commit of the oldest, with so many events in progress between them.
///
/// Commits come in arrival order, so that the same stream is taken whole with one event at a time:
/// there the others are held, at most 8.
pub fn steady(in_progress: u32, pairs: u32) -> Vec<u8> {
    let mut bytes = opened();
    for number in 0..in_progress + pairs {
        let event = if number % 2 == 0 { Event::Withdraw(1) } else { Event::Deposit(1) };
        bytes.extend(request(event, number));
        if number >= in_progress {
            bytes.extend(commit(number - in_progress));
        }
    }
    bytes
}

/// So many undecided withdrawals, then so many requests that every outcome rejects.
pub fn undecided(events: u32, requests: u32) -> Vec<u8> {
    let mut bytes = withdrawals(events);
    for number in events..events + requests {
        bytes.extend(request(Event::Withdraw(LIMIT), number));
    }
    bytes
}

/// So many undecided withdrawals, then so many pairs of a request that every outcome accepts and its abort.
pub fn accepted(events: u32, pairs: u32) -> Vec<u8> {
    let mut bytes = withdrawals(events);
    for number in events..events + pairs {
        bytes.extend(request(Event::Deposit(1), number));
        bytes.extend(Message::Abort(head(number)).bytes());
    }
    bytes
}

/// An opened account with so many undecided withdrawals.
fn withdrawals(events: u32) -> Vec<u8> {
    let requests = (0..events).flat_map(|number| request(Event::Withdraw(1), number));
    opened().into_iter().chain(requests).collect()
}

/// Account 0 opened half full, and committed.
fn opened() -> Vec<u8> {
    let first = u32::MAX;
    [request(Event::Open(LIMIT / 2), first), commit(first)].concat()
}

/// A request on account 0.
fn request(event: Event, transaction: u32) -> Vec<u8> {
    Message::request(head(transaction), event).bytes()
}

/// A commit on account 0.
fn commit(transaction: u32) -> Vec<u8> {
    Message::Commit(head(transaction)).bytes()
}

/// What a message on account 0 names.
fn head(transaction: u32) -> Head {
    Head { transaction, account: 0, second: transaction }
}
