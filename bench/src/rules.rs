//! The rules as a whole, and who keeps them: `docs/REGISTER.md` as it stands, and the variations that the benchmark
//! measures.
//!
//! Each file of the model has a trait whose methods are the rules on its subject. A version of the model is a type with
//! these traits; what it does not say otherwise it does as it is told.

use crate::account::AccountRules;
use crate::entry::EntryRules;
use crate::event::EventRules;
use crate::live::{self, LiveRules};
use crate::message::MessageRules;
use crate::order::OrderRules;
use crate::probe::{self, ProbeRules};
use crate::register::RegisterRules;
use crate::run::RunRules;
use crate::words::WordRules;
use crate::{exported, kept, program};

/// What each target prints on an input.
pub trait Rules: ProbeRules + LiveRules + Copy {
    fn program_text(&self, input: &[u8]) -> String {
        program::text(input, self)
    }

    fn probe_text(&self, input: &[u8]) -> String {
        probe::text(input, self)
    }

    fn exported_text(&self, input: &[u8]) -> String {
        exported::text(input, self)
    }

    fn live_text(&self, input: &[u8]) -> String {
        live::text(input, self)
    }

    fn kept_text(&self, input: &[u8]) -> String {
        kept::text(input, self)
    }
}

/// Gives a version the traits in which it does as it is told.
macro_rules! as_told {
    ($version:ident: $($rules:ident)*) => { $(impl $rules for $version {})* };
}

/// The rules as they stand.
#[derive(Clone, Copy, PartialEq, Eq, Debug)]
pub struct Document;

as_told!(Document: EventRules MessageRules EntryRules AccountRules OrderRules RegisterRules RunRules ProbeRules);
as_told!(Document: WordRules LiveRules Rules);

/// The same, and each call judges anew that its account is in order.
#[derive(Clone, Copy, PartialEq, Eq, Debug)]
pub struct Judged;

as_told!(Judged: EventRules MessageRules EntryRules AccountRules OrderRules RunRules ProbeRules WordRules LiveRules Rules);

impl RegisterRules for Judged {
    fn judged(&self) -> bool {
        true
    }
}

/// The rules with another number of events in progress at once: 1 is the two-phase-locking way.
#[derive(Clone, Copy, PartialEq, Eq, Debug)]
pub struct Places(pub usize);

as_told!(Places: EventRules MessageRules EntryRules OrderRules RegisterRules RunRules ProbeRules WordRules LiveRules Rules);

impl AccountRules for Places {
    fn places(&self) -> usize {
        self.0
    }
}
