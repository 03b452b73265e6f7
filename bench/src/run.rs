//! A run of messages: one after the other to a fresh register, their entries one after the other in a buffer.

use crate::limits::ROOM;
use crate::message;
use crate::register::{Register, RegisterRules};

/// What a run comes to: messages met, messages refused, bytes of messages passed, bytes of entries written.
#[derive(Clone, Copy, PartialEq, Eq, Debug, Default)]
pub struct Ran {
    pub met: u64,
    pub refused: u64,
    pub consumed: u64,
    pub written: u64,
}

/// What follows a refusal, and runs as a whole (`docs/REGISTER.md`, 11.5).
pub trait RunRules: RegisterRules {
    /// The length by which a refused message of a kind is skipped, none where reading stops at it.
    fn skipped(&self, kind: u8, number: u8) -> Option<usize> {
        message::length(kind).filter(|_| number > 2)
    }

    /// Sends the messages one after the other. `send` gets the rest of the messages and gives the consumed length or
    /// the refusal's number.
    fn pass(&self, messages: &[u8], send: impl FnMut(&[u8]) -> Result<usize, u8>) -> Ran {
        pass(messages, send, self)
    }

    /// Runs messages through a register; each call gets what is left of the entry buffer.
    fn run(&self, messages: &[u8], entries: &mut [u8], register: &mut Register) -> Ran {
        run_into(messages, entries, register, self)
    }
}

/// Sends the messages one after the other; a refused one counts as met too.
pub fn pass(messages: &[u8], mut send: impl FnMut(&[u8]) -> Result<usize, u8>, rules: &impl RunRules) -> Ran {
    let mut ran = Ran::default();
    let mut at = 0;
    while at < messages.len() {
        ran.met += 1;
        let passed = send(&messages[at..]).or_else(|number| {
            ran.refused += 1;
            rules.skipped(messages[at], number).ok_or(number)
        });
        let Ok(passed) = passed else { break };
        at += passed;
    }
    Ran { consumed: at as u64, ..ran }
}

/// Runs messages through a register.
pub fn run_into(messages: &[u8], entries: &mut [u8], register: &mut Register, rules: &impl RunRules) -> Ran {
    let mut at = 0;
    let ran = rules.pass(messages, |rest| {
        let (consumed, written) = rules.call(register, rest, &mut entries[at..])?;
        at += written;
        Ok(consumed)
    });
    Ran { written: at as u64, ..ran }
}

/// A run with room enough: how many messages were met and refused, and the entries' bytes.
#[derive(Clone, PartialEq, Eq, Debug, Default)]
pub struct Run {
    pub met: u64,
    pub refused: u64,
    pub entries: Vec<u8>,
}

/// Runs messages through a fresh register, with room enough.
pub fn run(messages: &[u8], rules: &impl RunRules) -> Run {
    let mut entries = room(messages);
    let Ran { met, refused, written, .. } = rules.run(messages, &mut entries, &mut Register::fresh());
    entries.truncate(written as usize);
    Run { met, refused, entries }
}

/// Room enough for a run: a request with its decision gives at most 4 bytes of entries for each byte of theirs.
pub fn room(messages: &[u8]) -> Vec<u8> {
    vec![0; 2 * ROOM + messages.len() * 4]
}
