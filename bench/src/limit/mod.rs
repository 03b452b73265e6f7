//! The limit: how fast a register can be that makes every check of `docs/REGISTER.md`, 10, at every call, by hand, in
//! place, in safe Rust, with nothing proved. It is a measure for the others and shares no rule with the independent
//! implementation.

mod place;
mod outlook;
mod writer;
mod account;
mod order;
mod stored;

use crate::image::Image;
use crate::limits::{ACCOUNTS, ROOM};
use crate::run::Ran;
use account::Account;
use place::{Place, CLOSE, DEPOSIT, OPEN, WITHDRAW};
use writer::Writer;

const COMMIT: u8 = 5;
const ABORT: u8 = 6;

/// Sixteen accounts side by side.
pub struct Register {
    accounts: [Account; ACCOUNTS],
}

/// Runs messages through a fresh register, each call with what is left of the entry buffer.
pub fn run(messages: &[u8], entries: &mut [u8]) -> Ran {
    let mut register = Register::fresh();
    let mut ran = Ran::default();
    let (mut at, mut written) = (0, 0);
    while at < messages.len() {
        ran.met += 1;
        match register.call(&messages[at..], &mut entries[written..]) {
            Ok((consumed, length)) => {
                at += consumed;
                written += length;
            }
            Err(number) => {
                ran.refused += 1;
                match whole(messages[at]).filter(|_| number > 2) {
                    Some(length) => at += length,
                    None => break,
                }
            }
        }
    }
    Ran { consumed: at as u64, written: written as u64, ..ran }
}

impl Register {
    /// A fresh register.
    pub fn fresh() -> Register {
        Register { accounts: [Account::FRESH; ACCOUNTS] }
    }

    /// The call: consumed length and length written, or the refusal's number with nothing changed.
    pub fn call(&mut self, bytes: &[u8], entries: &mut [u8]) -> Result<(usize, usize), u8> {
        let kind = *bytes.first().ok_or(1)?;
        let length = whole(kind).ok_or(2)?;
        let body = bytes.get(1..length).and_then(|body| body.split_first_chunk::<10>());
        let (head, amount) = body.ok_or(1)?;
        let [t0, t1, t2, t3, a0, a1, s0, s1, s2, s3] = *head;
        let number = u16::from_be_bytes([a0, a1]);
        let account = self.accounts.get_mut(usize::from(number)).ok_or(3)?;
        let mut writer = Writer::on(entries.first_chunk_mut::<ROOM>().ok_or(4)?, number);
        let outlook = account.judge().ok_or(5)?;
        let (transaction, second) = (u32::from_be_bytes([t0, t1, t2, t3]), u32::from_be_bytes([s0, s1, s2, s3]));
        match kind {
            COMMIT => account.commit(transaction, second, &mut writer)?,
            ABORT => account.abort(transaction, &mut writer)?,
            _ => {
                let amount = amount.first_chunk().map_or(0, |amount| u32::from_be_bytes(*amount));
                account.request(Place::of(transaction, second, kind, amount), &outlook, &mut writer)?;
            }
        }
        Ok((length, writer.written()))
    }

    /// Whether an account is in order.
    pub fn in_order(&self, at: usize) -> bool {
        self.accounts[at].judge().is_some()
    }

    /// The stored form of an account.
    pub fn image(&self, at: usize) -> Image {
        self.accounts[at].image()
    }

    /// Puts a stored form in the place of an account, whatever order it breaks.
    pub fn put(&mut self, at: usize, image: &Image) {
        self.accounts[at] = Account::stored(image);
    }
}

/// The whole length of a message of the kind, none for a kind that is not listed.
fn whole(kind: u8) -> Option<usize> {
    match kind {
        OPEN | WITHDRAW | DEPOSIT => Some(15),
        CLOSE | COMMIT | ABORT => Some(11),
        _ => None,
    }
}
