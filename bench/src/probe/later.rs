//! Frames from 64 on: an account's order, a run of messages, an entry's line of text, an account's single step.

use super::lent::{account, lent, rest_kept};
use crate::bytes::{hex, Numbers};
use crate::entry::{Entry, EntryRules};
use crate::message::{Head, Message};
use crate::register::{Register, RegisterRules};
use crate::run::{Ran, RunRules};

/// The line of a frame, none where it is unknown.
pub fn answer(register: &mut Register, code: u8, payload: &[u8], rules: &impl RunRules) -> Option<String> {
    let mut numbers = Numbers { bytes: payload };
    match (code, payload.len()) {
        (64, 2) => order(register, numbers.next(2), rules),
        (65, 2..) => run(numbers.next(2), numbers.bytes, rules),
        (67, _) => Some(line(payload, rules)),
        (68, 15) => step(register, &mut numbers, rules),
        _ => None,
    }
}

/// Frame 64: whether an account is in order.
fn order(register: &Register, number: u32, rules: &impl RegisterRules) -> Option<String> {
    let yes = register.in_order(account(number)?, rules);
    Some(format!("order {}", if yes { "yes" } else { "no" }))
}

/// Frame 65: a run of messages through a fresh register of its own.
fn run(room: u32, messages: &[u8], rules: &impl RunRules) -> Option<String> {
    let mut buffer = lent(room)?;
    let Ran { met, refused, consumed, written } = rules.run(messages, &mut buffer, &mut Register::fresh());
    let (entries, rest) = buffer.split_at(written as usize);
    Some(format!("ran {met} {refused} {consumed} {written} {} {}", hex(entries), rest_kept(rest)))
}

/// Frame 67: the line of text of an entry.
fn line(bytes: &[u8], rules: &impl EntryRules) -> String {
    rules.read_entry(bytes).map_or("none".into(), |(entry, account, _)| rules.entry_line(&entry, account))
}

/// Frame 68: a single step of an account.
fn step(register: &mut Register, numbers: &mut Numbers, rules: &impl RegisterRules) -> Option<String> {
    let account = account(numbers.next(2))? as u16;
    let kind = numbers.next(1) as u8;
    let head = Head { transaction: numbers.next(4), account, second: numbers.next(4) };
    let message = Message::of(kind, head, numbers.next(4))?;
    let (mut line, entries) = match rules.single(register, &message) {
        Ok(entries) => (format!("taken {}", entries.len()), entries),
        Err(number) => (format!("refused {number} 0"), Vec::new()),
    };
    for (place, entry) in entries.iter().enumerate().filter(|(_, entry)| **entry != Entry::BLANK) {
        let (kind, (transaction, second), numbers) = (entry.kind(), entry.filed(), entry.numbers(':'));
        line += &format!(" {place}={kind}:{transaction}:{second}{numbers}");
    }
    Some(line)
}
