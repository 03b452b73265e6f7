//! What occurs among the outcomes of an account: enough to weigh any request, without a list of them.
//!
//! Each balance of an opened outcome comes of the same events, taken or left, so the lowest of them takes every
//! withdrawal and no deposit that is open to choice, and the highest the other way about. A guard asks for a life and
//! for a balance on one side of a line: the two ends tell whether it holds everywhere, somewhere or nowhere.

use super::place::{Place, DEPOSIT, OPEN, WITHDRAW};
use crate::limits::LIMIT;

/// The three lives, each a bit.
pub const NEW: u8 = 1;
pub const OPENED: u8 = 2;
pub const CLOSED: u8 = 4;

/// How a request is decided: the kind of its entry.
#[derive(Clone, Copy, PartialEq, Eq, Debug)]
pub enum Vote {
    Accepted = 17,
    Rejected = 23,
    Held = 19,
}

/// Which lives occur among the outcomes, the lowest and the highest balance of the opened ones, how many events are open
/// to choice, and the life where none of these is applied.
#[derive(Clone, Copy, PartialEq, Eq, Debug)]
pub struct Outlook {
    pub lives: u8,
    pub lowest: u32,
    pub highest: u32,
    pub undecided: u32,
    pub life: u8,
}

impl Outlook {
    /// The one outcome of an account with nothing in progress.
    pub fn of(life: u8, balance: u32) -> Outlook {
        Outlook { lives: life, lowest: balance, highest: balance, undecided: 0, life }
    }

    /// The number of outcomes.
    pub fn count(&self) -> u16 {
        1 << self.undecided
    }

    /// The vote on a request, from its guard at the two ends.
    pub fn weigh(&self, place: Place) -> Vote {
        let amount = place.amount();
        // From 1 to a bound: less than the bound after 1 is taken off, since 0 then turns into the highest number.
        let within = |bound: u32| amount.wrapping_sub(1) < bound;
        let (life, always, ever) = match place.event() {
            OPEN => (NEW, amount <= LIMIT, amount <= LIMIT),
            WITHDRAW => (OPENED, within(self.lowest), within(self.highest)),
            DEPOSIT => (OPENED, within(LIMIT - self.highest), within(LIMIT - self.lowest)),
            _ => (OPENED, true, true),
        };
        if !ever || self.lives & life == 0 {
            Vote::Rejected
        } else if always && self.lives == life {
            Vote::Accepted
        } else {
            Vote::Held
        }
    }

    /// The reason of a rejection: the first that applies where nothing open to choice is applied. The guard is false
    /// there too, so that the life and the amount tell which part of it is.
    pub fn reason(&self, place: Place) -> u8 {
        let asked = if place.event() == OPEN { NEW } else { OPENED };
        if self.life != asked {
            1
        } else if place.amount() == 0 {
            2
        } else if place.event() == WITHDRAW {
            3
        } else {
            4
        }
    }

    /// Takes up an event: applied where it is committed, else applied or not. Says whether its guard fails nowhere;
    /// where it fails in an outcome, the outlook says nothing any more.
    pub fn take_up(&mut self, place: Place) -> bool {
        let amount = place.amount();
        let (surely, left) = if place.committed() { (amount, 0) } else { (0, self.lives) };
        self.undecided += u32::from(!place.committed());
        let before = *self;
        match place.event() {
            WITHDRAW => {
                self.lowest = before.lowest.wrapping_sub(amount);
                self.highest = before.highest.wrapping_sub(surely);
                before.lives == OPENED && amount.wrapping_sub(1) < before.lowest
            }
            DEPOSIT => {
                self.lowest = before.lowest.wrapping_add(surely);
                self.highest = before.highest.wrapping_add(amount);
                before.lives == OPENED && amount.wrapping_sub(1) < LIMIT - before.highest
            }
            OPEN => {
                (self.lives, self.lowest, self.highest) = (left | OPENED, amount, amount);
                self.life = if left == 0 { OPENED } else { before.life };
                before.lives == NEW && amount <= LIMIT
            }
            _ => {
                self.lives = left | CLOSED;
                self.life = if left == 0 { CLOSED } else { before.life };
                before.lives == OPENED
            }
        }
    }
}
