//! One account, changed in its place: counts, and eight places in progress and eight held.

use super::outlook::{Outlook, Vote, CLOSED, NEW, OPENED};
use super::place::{Place, CLOSE, OPEN, WITHDRAW};
use super::writer::Writer;
use crate::limits::PLACES;

/// An account as it is stored, in order or not.
#[derive(Clone, Copy, PartialEq, Eq, Debug)]
pub struct Account {
    /// One of the three bits of a life.
    pub life: u8,
    pub balance: u32,
    pub in_progress: u32,
    pub held: u32,
    pub progress: [Place; PLACES],
    pub holding: [Place; PLACES],
}

/// Where a transaction stands.
enum Standing {
    InProgress(usize),
    Held(usize),
}

impl Account {
    /// A fresh account.
    pub const FRESH: Account = Account {
        life: NEW,
        balance: 0,
        in_progress: 0,
        held: 0,
        progress: [Place::BLANK; PLACES],
        holding: [Place::BLANK; PLACES],
    };

    /// A request: refusal 6 or 7, or its vote.
    pub fn request(&mut self, request: Place, outlook: &Outlook, writer: &mut Writer) -> Result<(), u8> {
        if self.standing(request.transaction()).is_some() {
            return Err(6);
        }
        if self.held as usize == PLACES {
            return Err(7);
        }
        if self.held > 0 || self.in_progress as usize == PLACES {
            self.hold(request);
            writer.voted(Vote::Held, request, 0);
            return Ok(());
        }
        let vote = outlook.weigh(request);
        match vote {
            Vote::Accepted => self.admit(request),
            Vote::Rejected => {}
            Vote::Held => self.hold(request),
        }
        writer.weighed(vote, request, outlook);
        Ok(())
    }

    /// A commit: refusal 8, 9 or 10, or the event is marked and all that follows from it is done.
    pub fn commit(&mut self, transaction: u32, second: u32, writer: &mut Writer) -> Result<(), u8> {
        let at = match self.standing(transaction).ok_or(8)? {
            Standing::Held(_) => return Err(9),
            Standing::InProgress(at) => at,
        };
        if self.progress[at].committed() {
            return Err(10);
        }
        self.progress[at] = self.progress[at].commit();
        writer.noted(transaction, second);
        if at == 0 {
            self.settle(writer);
        }
        self.drain(writer);
        Ok(())
    }

    /// An abort: refusal 8 or 11, or the event or the held request goes, and all that follows from it is done.
    pub fn abort(&mut self, transaction: u32, writer: &mut Writer) -> Result<(), u8> {
        match self.standing(transaction).ok_or(8)? {
            Standing::Held(at) => writer.dropped(take_out(&mut self.holding, &mut self.held, at)),
            Standing::InProgress(at) if self.progress[at].committed() => return Err(11),
            Standing::InProgress(at) => {
                writer.dropped(take_out(&mut self.progress, &mut self.in_progress, at));
                if at == 0 {
                    self.settle(writer);
                }
            }
        }
        self.drain(writer);
        Ok(())
    }

    /// Applies the oldest event while it is committed; those behind move up once for all of them.
    fn settle(&mut self, writer: &mut Writer) {
        let mut ended = 0;
        for place in &self.progress[..self.in_progress as usize] {
            if !place.committed() {
                break;
            }
            (self.life, self.balance) = match place.event() {
                OPEN => (OPENED, place.amount()),
                CLOSE => (CLOSED, 0),
                WITHDRAW => (OPENED, self.balance - place.amount()),
                _ => (OPENED, self.balance + place.amount()),
            };
            writer.applied(*place, self.balance);
            ended += 1;
        }
        move_up(&mut self.progress, &mut self.in_progress, ended);
    }

    /// Weighs the held requests from the oldest on, until one is to stay held.
    fn drain(&mut self, writer: &mut Writer) {
        if self.held == 0 || self.in_progress as usize == PLACES {
            return;
        }
        let mut outlook = Outlook::of(self.life, self.balance);
        for place in &self.progress[..self.in_progress as usize] {
            outlook.take_up(*place);
        }
        let mut decided = 0;
        while decided < self.held as usize && (self.in_progress as usize) < PLACES {
            let request = self.holding[decided];
            let vote = outlook.weigh(request);
            if vote == Vote::Held {
                break;
            }
            writer.weighed(vote, request, &outlook);
            if vote == Vote::Accepted {
                self.admit(request);
                outlook.take_up(request);
            }
            decided += 1;
        }
        move_up(&mut self.holding, &mut self.held, decided);
    }

    /// Takes a request in progress; there is room.
    fn admit(&mut self, request: Place) {
        self.progress[self.in_progress as usize] = request;
        self.in_progress += 1;
    }

    /// Takes a request into holding; there is room.
    fn hold(&mut self, request: Place) {
        self.holding[self.held as usize] = request;
        self.held += 1;
    }

    /// Where a transaction stands here, if anywhere.
    fn standing(&self, transaction: u32) -> Option<Standing> {
        let same = |place: &Place| place.transaction() == transaction;
        if let Some(at) = self.progress[..self.in_progress as usize].iter().position(same) {
            return Some(Standing::InProgress(at));
        }
        self.holding[..self.held as usize].iter().position(same).map(Standing::Held)
    }
}

/// Takes a place out; those behind it move up.
fn take_out(places: &mut [Place; PLACES], used: &mut u32, at: usize) -> Place {
    let out = places[at];
    places.copy_within(at + 1.., at);
    places[PLACES - 1] = Place::BLANK;
    *used -= 1;
    out
}

/// Takes the first places out, so many; those behind them move up.
fn move_up(places: &mut [Place; PLACES], used: &mut u32, count: usize) {
    let before = PLACES.min(*used as usize);
    for at in count..before {
        places[at - count] = places[at];
    }
    for place in &mut places[before - count..before] {
        *place = Place::BLANK;
    }
    *used -= count as u32;
}
