//! Frames 1 to 7: the call, the outcome question, readers and writers, an account set and shown.

use super::lent::{account, lent, rest_kept};
use crate::bytes::{hex, Numbers};
use crate::entry::EntryRules;
use crate::event::EventRules;
use crate::image::{Image, Place};
use crate::message::{Head, Message, MessageRules};
use crate::register::{Register, RegisterRules};

/// The line of a frame, none where it is unknown.
pub fn answer(register: &mut Register, code: u8, payload: &[u8], rules: &impl RegisterRules) -> Option<String> {
    let mut numbers = Numbers { bytes: payload };
    match (code, payload.len()) {
        (1, 2..) => call(register, numbers.next(2), numbers.bytes, rules),
        (2, 6) => Some(outcome(register, numbers.next(2) as u16, numbers.next(4), rules)),
        (3, _) => Some(read(payload, rules)),
        (4, 17) => write(&mut numbers, rules),
        (5, 8) => disturb(register, &mut numbers, rules),
        (6, 2) => show(register, numbers.next(2)),
        (7, _) => Some(entry(payload, rules)),
        _ => None,
    }
}

/// Frame 1: the call.
fn call(register: &mut Register, room: u32, bytes: &[u8], rules: &impl RegisterRules) -> Option<String> {
    let mut buffer = lent(room)?;
    Some(match rules.call(register, bytes, &mut buffer) {
        Ok((consumed, written)) => {
            let hex = hex(&buffer[..written]);
            format!("taken {consumed} {written} {hex} {}", rest_kept(&buffer[written..]))
        }
        Err(number) => format!("refused {number} {}", rest_kept(&buffer)),
    })
}

/// Frame 2: the outcome question.
fn outcome(register: &Register, account: u16, number: u32, rules: &impl RegisterRules) -> String {
    match register.outcome(account, number, rules) {
        Ok((state, applied)) => format!("outcome {} {} {applied}", state.life.name(), state.balance),
        Err(number) => format!("refused {number}"),
    }
}

/// Frame 3: the message reader.
fn read(bytes: &[u8], rules: &impl MessageRules) -> String {
    match rules.read(bytes) {
        Ok((message, length)) => {
            let Head { transaction, account, second } = message.head();
            format!("message {} {transaction} {account} {second} {} {length}", message.kind(), message.amount())
        }
        Err(number) => format!("refused {number}"),
    }
}

/// Frame 4: the message writer.
fn write(numbers: &mut Numbers, rules: &impl MessageRules) -> Option<String> {
    let kind = numbers.next(1) as u8;
    let head = Head { transaction: numbers.next(4), account: numbers.next(2) as u16, second: numbers.next(4) };
    let message = Message::of(kind, head, numbers.next(4))?;
    let mut buffer = lent(numbers.next(2))?;
    Some(match rules.write(&message, &mut buffer) {
        Ok(length) => {
            let hex = hex(&buffer[..length]);
            format!("written {length} {hex} {}", rest_kept(&buffer[length..]))
        }
        Err(number) => format!("refused {number} {}", rest_kept(&buffer)),
    })
}

/// Frame 5: one field of the register is set.
fn disturb(register: &mut Register, numbers: &mut Numbers, rules: &impl EventRules) -> Option<String> {
    let at = account(numbers.next(2))?;
    let mut image = register.image(at);
    let (field, place, value) = (numbers.next(1) as u8, numbers.next(1) as u8, numbers.next(4));
    image.disturb(field, place, value).then(|| {
        register.put(at, image, rules);
        "set".into()
    })
}

/// Frame 6: an account as it is stored.
fn show(register: &Register, number: u32) -> Option<String> {
    let Image { state, in_progress, held, places } = register.image(account(number)?);
    let mut line = format!("account {} {} {in_progress} {held}", state.life.name(), state.balance);
    for (number, place) in places.iter().enumerate().filter(|(_, place)| **place != Place::BLANK) {
        let Place { request, committed } = place;
        let decision = if *committed { 'c' } else { 'u' };
        let (kind, amount) = (request.event.kind(), request.event.amount());
        line += &format!(" {number}={}:{}:{kind}:{amount}:{decision}", request.transaction, request.second);
    }
    Some(line)
}

/// Frame 7: the entry reader.
fn entry(bytes: &[u8], rules: &impl EntryRules) -> String {
    let Some((entry, account, length)) = rules.read_entry(bytes) else {
        return "none".into();
    };
    let (kind, (transaction, second), numbers) = (entry.kind(), entry.filed(), entry.numbers(' '));
    format!("entry {kind} {transaction} {account} {second}{numbers} {length}")
}
