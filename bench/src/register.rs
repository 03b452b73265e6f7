//! The register: sixteen accounts, the call, the single step, the outcome question.

use crate::account::{Account, AccountRules};
use crate::entry::{Entry, EntryRules};
use crate::event::{EventRules, State};
use crate::image::Image;
use crate::limits::{ACCOUNTS, ROOM};
use crate::message::{Message, MessageRules};
use crate::order::{broken, OrderRules};

/// An account of the register: one that is known to be in order, or stored fields.
#[derive(Clone, Debug)]
enum Kept {
    InOrder(Account),
    Stored(Box<Image>),
}

/// Sixteen accounts.
#[derive(Clone, Debug)]
pub struct Register {
    accounts: Vec<Kept>,
}

/// What a taken call gives.
#[derive(Clone, Debug)]
pub struct Taken {
    pub consumed: usize,
    pub account: u16,
    pub entries: Vec<Entry>,
}

/// The rules of a call (`docs/REGISTER.md`, 10 and 11.1).
pub trait RegisterRules: AccountRules + OrderRules + MessageRules + EntryRules {
    /// The room that every call asks for.
    fn room(&self) -> usize {
        ROOM
    }

    /// Whether an account that is known to be in order is judged all the same.
    fn judged(&self) -> bool {
        false
    }

    /// The call on bytes: consumed length and length written, or the refusal's number.
    fn call(&self, register: &mut Register, bytes: &[u8], buffer: &mut [u8]) -> Result<(usize, usize), u8> {
        register.call(bytes, buffer, self)
    }

    /// The call with its entries as values; `room` is the length of the entry buffer.
    fn take(&self, register: &mut Register, bytes: &[u8], room: usize) -> Result<Taken, u8> {
        register.take(bytes, room, self)
    }

    /// The single step of the account that a message names: its entries, or refusal 5 to 11.
    fn single(&self, register: &mut Register, message: &Message) -> Result<Vec<Entry>, u8> {
        register.single(message, self)
    }
}

impl Register {
    /// A fresh register.
    pub fn fresh() -> Register {
        Register { accounts: vec![Kept::InOrder(Account::of(State::FRESH)); ACCOUNTS] }
    }

    /// The call on bytes.
    pub fn call(&mut self, bytes: &[u8], buffer: &mut [u8], rules: &impl RegisterRules) -> Result<(usize, usize), u8> {
        let taken = rules.take(self, bytes, buffer.len())?;
        let mut written = 0;
        for entry in &taken.entries {
            let (bytes, rest) = (rules.write_entry(entry, taken.account), &mut buffer[written..]);
            let length = bytes.len().min(rest.len());
            rest[..length].copy_from_slice(&bytes[..length]);
            written += length;
        }
        Ok((taken.consumed, written))
    }

    /// Refusals 1 to 3 by the reader, then 4, then those of the step.
    pub fn take(&mut self, bytes: &[u8], room: usize, rules: &impl RegisterRules) -> Result<Taken, u8> {
        let (message, consumed) = rules.read(bytes)?;
        if room < rules.room() {
            return Err(4);
        }
        let entries = rules.single(self, &message)?;
        Ok(Taken { consumed, account: message.head().account, entries })
    }

    /// Refusal 5, then those of the account.
    pub fn single(&mut self, message: &Message, rules: &impl RegisterRules) -> Result<Vec<Entry>, u8> {
        let at = usize::from(message.head().account);
        if !self.in_order(at, rules) {
            return Err(5);
        }
        match &mut self.accounts[at] {
            Kept::InOrder(account) => rules.step(account, message),
            Kept::Stored(image) => {
                let mut account = Account::stored(image, rules);
                let entries = rules.step(&mut account, message)?;
                self.accounts[at] = Kept::InOrder(account);
                Ok(entries)
            }
        }
    }

    /// The outcome question: state and number applied, or refusal 3, 5 or 12.
    pub fn outcome(&self, account: u16, number: u32, rules: &impl RegisterRules) -> Result<(State, u32), u8> {
        let at = usize::from(account);
        if at >= ACCOUNTS {
            return Err(3);
        }
        if !self.in_order(at, rules) {
            return Err(5);
        }
        let answer = match &self.accounts[at] {
            Kept::InOrder(account) => rules.outcome(account, number),
            Kept::Stored(image) => rules.outcome(&Account::stored(image, rules), number),
        };
        answer.ok_or(12)
    }

    /// Whether an account is in order.
    pub fn in_order(&self, at: usize, rules: &impl RegisterRules) -> bool {
        match &self.accounts[at] {
            Kept::InOrder(account) => !rules.judged() || rules.in_order(&account.image()),
            Kept::Stored(image) => rules.in_order(image),
        }
    }

    /// The account, where it is known to be in order.
    pub fn account(&self, at: usize) -> Option<&Account> {
        match &self.accounts[at] {
            Kept::InOrder(account) => Some(account),
            Kept::Stored(_) => None,
        }
    }

    /// The stored form of an account.
    pub fn image(&self, at: usize) -> Image {
        match &self.accounts[at] {
            Kept::InOrder(account) => account.image(),
            Kept::Stored(image) => **image,
        }
    }

    /// Puts a stored form in the place of an account, whatever order it breaks.
    pub fn put(&mut self, at: usize, image: Image, rules: &impl EventRules) {
        self.accounts[at] = if broken(&image, rules).is_empty() {
            Kept::InOrder(Account::stored(&image, rules))
        } else {
            Kept::Stored(Box::new(image))
        };
    }
}
