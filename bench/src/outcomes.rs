//! The outcomes of an account, listed: the state in each, at the place of its number.

use crate::event::State;

/// How a request is decided.
#[derive(Clone, Copy, PartialEq, Eq, Debug)]
pub enum Vote {
    Accepted,
    Rejected,
    Held,
}

/// The states in all outcomes; there is always one.
#[derive(Clone, PartialEq, Eq, Debug)]
pub struct Outcomes {
    states: Vec<State>,
}

impl Outcomes {
    /// The one outcome of an account with nothing in progress.
    pub fn of(applied: State) -> Outcomes {
        Outcomes { states: vec![applied] }
    }

    /// The states, in the order of the numbers.
    pub fn states(&self) -> &[State] {
        &self.states
    }

    /// How many there are.
    pub fn count(&self) -> usize {
        self.states.len()
    }

    /// The vote: what all outcomes say, or held where they do not say the same (`docs/REGISTER.md`, 4.5).
    pub fn vote(&self, holds: impl Fn(State) -> bool) -> Vote {
        vote(&self.states, holds)
    }

    /// An undecided event more, the newest: beside each outcome without it stands one with it.
    pub fn double(&mut self, effect: impl Fn(State) -> State) {
        for number in 0..self.states.len() {
            self.states.push(effect(self.states[number]));
        }
    }

    /// A committed event more, the newest: it is applied in every outcome.
    pub fn apply(&mut self, effect: impl Fn(State) -> State) {
        self.states.iter_mut().for_each(|state| *state = effect(*state));
    }

    /// An undecided event less: the outcomes are left in which its bit is set, or those in which it is not.
    pub fn halve(&mut self, bit: usize, set: bool) {
        let mut number = 0;
        self.states.retain(|_| {
            number += 1;
            (number - 1) >> bit & 1 == usize::from(set)
        });
    }
}

/// The vote of some states.
pub fn vote(states: &[State], holds: impl Fn(State) -> bool) -> Vote {
    match states.iter().filter(|state| holds(**state)).count() {
        0 => Vote::Rejected,
        yes if yes == states.len() => Vote::Accepted,
        _ => Vote::Held,
    }
}
