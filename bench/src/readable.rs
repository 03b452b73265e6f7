//! Streams in readable form, piece by piece: a piece is a message or a frame.

use crate::bytes::{hex, Numbers};
use crate::exported::{asked, HEAD};
use crate::message::{self, Head, Message};
use crate::probe::split;
use crate::subject::Target;
use crate::words::ACCOUNT;

/// The messages or frames of a stream, and as the last piece what is neither; a run's head is its first piece.
pub fn pieces(target: Target, bytes: &[u8]) -> Vec<Vec<u8>> {
    let mut pieces = Vec::new();
    let mut rest = bytes;
    while !rest.is_empty() {
        let length = match target {
            Target::Exported if pieces.is_empty() => Some(HEAD.min(rest.len())),
            Target::Probe | Target::Live => split(rest).map(|(_, payload, _)| 3 + payload.len()),
            _ => message::length(rest[0]).filter(|length| *length <= rest.len()),
        };
        let (piece, after) = rest.split_at(length.unwrap_or(rest.len()));
        pieces.push(piece.to_vec());
        rest = after;
    }
    pieces
}

/// A line for a piece.
pub fn line(target: Target, piece: &[u8]) -> String {
    match target {
        Target::Exported if piece.len() <= HEAD => {
            let (room, places, _) = asked(piece);
            format!("run, room {room}, {places} places for counts")
        }
        Target::Probe | Target::Live => match split(piece) {
            Some((code, payload, _)) if target == Target::Live => live_line(code, payload),
            Some((code, payload, _)) => frame_line(code, payload),
            None => format!("torn {}", shortened(piece)),
        },
        _ => message_line(piece),
    }
}

/// A message in words, or its bytes where it is none.
fn message_line(bytes: &[u8]) -> String {
    let kind = message::kind(*bytes.first().unwrap_or(&0)).filter(|(_, whole)| *whole <= bytes.len());
    let Some((name, whole)) = kind else {
        return format!("bytes {}", shortened(bytes));
    };
    let mut numbers = Numbers { bytes: &bytes[1..] };
    let (transaction, account, second) = (numbers.next(4), numbers.next(2), numbers.next(4));
    let mut line = format!("{name} transaction {transaction} account {account} second {second}");
    if whole > message::HEAD {
        line += &format!(" amount {}", numbers.next(4));
    }
    match &bytes[whole..] {
        [] => line,
        after => format!("{line}, then bytes {}", shortened(after)),
    }
}

/// A frame in words.
fn frame_line(code: u8, payload: &[u8]) -> String {
    let mut numbers = Numbers { bytes: payload };
    match (code, payload.len()) {
        (1, 2..) => format!("call, room {}: {}", numbers.next(2), message_line(&payload[2..])),
        (2, 6) => format!("outcome of account {}, number {}", numbers.next(2), numbers.next(4)),
        (3, _) => format!("read message: {}", message_line(payload)),
        (4, 17) => write_line(&mut numbers),
        (5, 8) => disturb_line(&mut numbers),
        (6, 2) => format!("show account {}", numbers.next(2)),
        (7, _) => format!("read entry: bytes {}", shortened(payload)),
        (64, 2) => format!("order of account {}", numbers.next(2)),
        (65, 2..) => format!("run, room {}: bytes {}", numbers.next(2), shortened(&payload[2..])),
        (67, _) => format!("line of text: bytes {}", shortened(payload)),
        (68, 15) => step_line(&mut numbers),
        _ => format!("frame {code}: bytes {}", shortened(payload)),
    }
}

/// A frame of the calls on an image in words.
fn live_line(code: u8, payload: &[u8]) -> String {
    let mut numbers = Numbers { bytes: payload };
    match (code, payload.len()) {
        (1, 3..) => {
            let (room, places) = (numbers.next(2), numbers.next(1));
            format!("call, room {room}, {places} places: {}", message_line(numbers.bytes))
        }
        (2, 7) => {
            let (account, number) = (numbers.next(2), numbers.next(4));
            format!("outcome of account {account}, number {number}, {} places", numbers.next(1))
        }
        (3, 6) => {
            let at = numbers.next(2) as usize;
            format!("word {at} (account {}, its word {}) set to {}", at / ACCOUNT, at % ACCOUNT, numbers.next(4))
        }
        (4, 2) => format!("{} words lent", numbers.next(2)),
        (5, 3..) => {
            let (room, places) = (numbers.next(2), numbers.next(1));
            format!("line, room {room}, {places} places: bytes {}", shortened(numbers.bytes))
        }
        _ => format!("frame {code}: bytes {}", shortened(payload)),
    }
}

/// Frame 4 in words.
fn write_line(numbers: &mut Numbers) -> String {
    let kind = numbers.next(1) as u8;
    let head = Head { transaction: numbers.next(4), account: numbers.next(2) as u16, second: numbers.next(4) };
    let line = kind_line(kind, head, numbers.next(4));
    format!("write message, room {}: {line}", numbers.next(2))
}

/// Frame 68 in words.
fn step_line(numbers: &mut Numbers) -> String {
    let (account, kind) = (numbers.next(2) as u16, numbers.next(1) as u8);
    let head = Head { transaction: numbers.next(4), account, second: numbers.next(4) };
    format!("single step: {}", kind_line(kind, head, numbers.next(4)))
}

/// A message of a kind in words, or that there is none.
fn kind_line(kind: u8, head: Head, amount: u32) -> String {
    let message = Message::of(kind, head, amount);
    message.map_or(format!("no message, kind {kind}"), |message| message_line(&message.bytes()))
}

/// Frame 5 in words.
fn disturb_line(numbers: &mut Numbers) -> String {
    let names = ["life", "balance", "in progress", "held", "transaction", "second", "event kind", "amount", "decision"];
    let (account, field, place) = (numbers.next(2), numbers.next(1) as usize, numbers.next(1));
    let name = names.get(field).copied().unwrap_or("no field");
    let value = numbers.next(4);
    match field {
        0..=3 => format!("set account {account} {name} ({field}) to {value}"),
        _ => format!("set account {account} place {place} {name} ({field}) to {value}"),
    }
}

/// Bytes as hex, long runs cut.
pub fn shortened(bytes: &[u8]) -> String {
    if bytes.len() <= 40 {
        return hex(bytes);
    }
    format!("{} .. ({} bytes)", hex(&bytes[..40]), bytes.len())
}
