//! Whether an account is in order, whatever it holds.

use super::account::Account;
use super::outlook::{Outlook, Vote, OPENED};
use super::place::Place;
use crate::limits::{LIMIT, PLACES};

impl Account {
    /// What occurs among the outcomes, none where the account is not in order.
    pub fn judge(&self) -> Option<Outlook> {
        let (in_progress, held) = (self.in_progress as usize, self.held as usize);
        let within = in_progress <= PLACES && held <= PLACES && self.balance <= LIMIT;
        if !within || self.life != OPENED && self.balance != 0 {
            return None;
        }
        let (progress, unused) = self.progress.split_at(in_progress);
        let (holding, unused_holding) = self.holding.split_at(held);
        if !(Place::all_blank(unused) && Place::all_blank(unused_holding)) {
            return None;
        }
        let outlook = Outlook::of(self.life, self.balance);
        if in_progress == 0 && held == 0 {
            return Some(outlook);
        }
        all_differ(progress, holding).then(|| in_turn(progress, holding, outlook)).flatten()
    }
}

/// The outlook after the events in progress; none where a guard fails in an outcome, the oldest is decided, a held
/// request is, or the oldest held request would not stay held.
fn in_turn(progress: &[Place], holding: &[Place], mut outlook: Outlook) -> Option<Outlook> {
    if progress.first().is_some_and(|oldest| oldest.committed()) {
        return None;
    }
    if !progress.iter().all(|place| outlook.take_up(*place)) {
        return None;
    }
    let stays = |oldest: &Place| progress.len() == PLACES || outlook.weigh(*oldest) == Vote::Held;
    let kept = holding.iter().all(|place| !place.committed()) && holding.first().is_none_or(stays);
    kept.then_some(outlook)
}

/// Whether the transactions all differ. Unused places get numbers that no transaction is and no two have, so that the
/// same pairs are compared whatever is used.
fn all_differ(progress: &[Place], holding: &[Place]) -> bool {
    if progress.len() + holding.len() < 2 {
        return true;
    }
    let first = numbers(progress, 1 << 32);
    if holding.is_empty() {
        return !repeats(&first);
    }
    let second = numbers(holding, 1 << 33);
    let across = |number: &u64| first.iter().fold(false, |same, other| same | (number == other));
    let among = holding.len() > 1 && repeats(&second);
    !(among || repeats(&first) || second[..holding.len()].iter().any(across))
}

/// The transactions of a row, and for its unused places the numbers from `unused` on.
fn numbers(row: &[Place], unused: u64) -> [u64; PLACES] {
    let mut numbers: [u64; PLACES] = std::array::from_fn(|at| unused + at as u64);
    numbers.iter_mut().zip(row).for_each(|(number, place)| *number = place.transaction().into());
    numbers
}

/// Whether a number stands there twice.
fn repeats(numbers: &[u64; PLACES]) -> bool {
    let mut same = false;
    for at in 1..PLACES {
        for other in 0..at {
            same |= numbers[at] == numbers[other];
        }
    }
    same
}
