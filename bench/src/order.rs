//! In order (`docs/REGISTER.md`, 6): each clause told apart.

use crate::event::{EventRules, Life};
use crate::image::{Image, Place};
use crate::limits::{LIMIT, PLACES};
use crate::outcomes::{Outcomes, Vote};

/// One of the things that order asks of an account.
#[derive(Clone, Copy, PartialEq, Eq, Debug)]
pub enum Clause {
    InProgressWithin,
    HeldWithin,
    BalanceWithin,
    TransactionsDiffer,
    BlanksBlank,
    BalanceOfUnopened,
    GuardsTrue,
    OldestUndecided,
    OldestHeldStays,
    HeldHasNoDecision,
}

impl Clause {
    /// Every clause.
    pub const ALL: [Clause; 10] = [
        Clause::InProgressWithin,
        Clause::HeldWithin,
        Clause::BalanceWithin,
        Clause::TransactionsDiffer,
        Clause::BlanksBlank,
        Clause::BalanceOfUnopened,
        Clause::GuardsTrue,
        Clause::OldestUndecided,
        Clause::OldestHeldStays,
        Clause::HeldHasNoDecision,
    ];

    /// The clause in words.
    pub fn says(self) -> &'static str {
        match self {
            Clause::InProgressWithin => "the number in progress is within 8",
            Clause::HeldWithin => "the number held is within 8",
            Clause::BalanceWithin => "the balance is within 1,000,000",
            Clause::TransactionsDiffer => "transactions in progress and held all differ",
            Clause::BlanksBlank => "blanks are blank",
            Clause::BalanceOfUnopened => "a new or closed account has balance 0",
            Clause::GuardsTrue => "each event's guard holds in all outcomes of the events before it",
            Clause::OldestUndecided => "the oldest event is undecided",
            Clause::OldestHeldStays => "the oldest held request would stay held",
            Clause::HeldHasNoDecision => "a held request has no decision",
        }
    }

    /// Whether the stored account keeps this clause; counts above 8 are read as 8.
    pub fn kept(self, image: &Image, rules: &impl EventRules) -> bool {
        match self {
            Clause::InProgressWithin => image.in_progress as usize <= PLACES,
            Clause::HeldWithin => image.held as usize <= PLACES,
            Clause::BalanceWithin => image.state.balance <= LIMIT,
            Clause::TransactionsDiffer => {
                let used = image.progress_places().iter().chain(image.held_places());
                let mut transactions: Vec<u32> = used.map(|place| place.request.transaction).collect();
                transactions.sort_unstable();
                transactions.windows(2).all(|pair| pair[0] != pair[1])
            }
            Clause::BlanksBlank => image.unused_places().all(|place| *place == Place::BLANK),
            Clause::BalanceOfUnopened => image.state.life == Life::Opened || image.state.balance == 0,
            Clause::GuardsTrue => outcomes(image, rules).is_some(),
            Clause::OldestUndecided => !image.places[0].committed || image.in_progress == 0,
            Clause::OldestHeldStays => stays(image, rules),
            Clause::HeldHasNoDecision => image.held_places().iter().all(|place| !place.committed),
        }
    }
}

/// All clauses together.
pub trait OrderRules: EventRules {
    /// Whether the stored account is in order.
    fn in_order(&self, image: &Image) -> bool {
        Clause::ALL.iter().all(|clause| clause.kept(image, self))
    }
}

/// The clauses that the stored account breaks.
pub fn broken(image: &Image, rules: &impl EventRules) -> Vec<Clause> {
    Clause::ALL.into_iter().filter(|clause| !clause.kept(image, rules)).collect()
}

/// The outcomes of the events in progress; none from the first guard that fails in one of them.
fn outcomes(image: &Image, rules: &impl EventRules) -> Option<Outcomes> {
    let mut outcomes = Outcomes::of(image.state);
    for place in image.progress_places() {
        let event = place.request.event;
        if outcomes.vote(|state| rules.guard(event, state)) != Vote::Accepted {
            return None;
        }
        if place.committed {
            outcomes.apply(|state| rules.effect(event, state));
        } else {
            outcomes.double(|state| rules.effect(event, state));
        }
    }
    Some(outcomes)
}

/// Whether the oldest of the held requests is one that stays held, or nothing is held. Where a guard fails before it,
/// this cannot be said and is left to that clause.
fn stays(image: &Image, rules: &impl EventRules) -> bool {
    let Some(oldest) = image.held_places().first() else {
        return true;
    };
    if image.in_progress as usize >= PLACES {
        return true;
    }
    let held = |outcomes: Outcomes| outcomes.vote(|state| rules.guard(oldest.request.event, state)) == Vote::Held;
    outcomes(image, rules).is_none_or(held)
}
