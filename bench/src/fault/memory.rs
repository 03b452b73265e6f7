//! The wrong version that needs a memory of its own: it keeps, with each held request, the reason that was found then.

use crate::account::AccountRules;
use crate::entry::{Entry, EntryRules};
use crate::event::EventRules;
use crate::live::LiveRules;
use crate::message::{Message, MessageRules};
use crate::order::OrderRules;
use crate::outcomes::Vote;
use crate::probe::ProbeRules;
use crate::register::{Register, RegisterRules};
use crate::rules::{Document, Rules};
use crate::run::RunRules;
use crate::words::WordRules;
use std::cell::RefCell;
use std::collections::HashMap;

/// The reasons of held requests, by account and transaction.
pub type Kept = RefCell<HashMap<(u16, u32), u8>>;

/// The model, with the reasons that it kept.
#[derive(Clone, Copy)]
pub struct Remembers<'a>(pub &'a Kept);

impl RegisterRules for Remembers<'_> {
    fn single(&self, register: &mut Register, message: &Message) -> Result<Vec<Entry>, u8> {
        let account = message.head().account;
        let before = register.account(usize::from(account)).map(|account| account.outcomes().to_vec());
        let mut entries = register.single(message, self)?;
        for entry in &mut entries {
            match (message, entry) {
                (Message::Request { request, .. }, Entry::Voted { vote: Vote::Held, .. }) => {
                    let mut states = before.iter().flatten();
                    let found = states.find_map(|state| Document.reason(request.event, *state)).unwrap_or(0);
                    self.0.borrow_mut().insert((account, request.transaction), found);
                }
                (Message::Commit(_) | Message::Abort(_), Entry::Voted { request, reason: Some(reason), .. }) => {
                    let kept = self.0.borrow_mut().remove(&(account, request.transaction));
                    *reason = kept.unwrap_or(*reason);
                }
                _ => {}
            }
        }
        Ok(entries)
    }
}

impl EventRules for Remembers<'_> {}
impl MessageRules for Remembers<'_> {}
impl EntryRules for Remembers<'_> {}
impl AccountRules for Remembers<'_> {}
impl OrderRules for Remembers<'_> {}
impl RunRules for Remembers<'_> {}
impl ProbeRules for Remembers<'_> {}
impl WordRules for Remembers<'_> {}
impl LiveRules for Remembers<'_> {}
impl Rules for Remembers<'_> {}
