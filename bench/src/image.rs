//! An account as it is stored, in order or not: counts, and sixteen places.

use crate::event::{Event, Life, State};
use crate::limits::PLACES;
use crate::request::Request;

/// What a place holds; a held request has no decision, its mark is `false`.
#[derive(Clone, Copy, PartialEq, Eq, Debug)]
pub struct Place {
    pub request: Request,
    pub committed: bool,
}

/// The stored fields of an account: places 0 to 7 in progress, 8 to 15 held.
#[derive(Clone, Copy, PartialEq, Eq, Debug)]
pub struct Image {
    pub state: State,
    pub in_progress: u32,
    pub held: u32,
    pub places: [Place; 2 * PLACES],
}

impl Place {
    /// The one blank.
    pub const BLANK: Place =
        Place { request: Request { transaction: 0, second: 0, event: Event::Open(0) }, committed: false };
}

impl Image {
    /// A fresh account.
    pub const FRESH: Image = Image { state: State::FRESH, in_progress: 0, held: 0, places: [Place::BLANK; 2 * PLACES] };

    /// The used places in progress; a count above 8 means all of them.
    pub fn progress_places(&self) -> &[Place] {
        &self.places[..PLACES.min(self.in_progress as usize)]
    }

    /// The used places held; a count above 8 means all of them.
    pub fn held_places(&self) -> &[Place] {
        &self.places[PLACES..PLACES + PLACES.min(self.held as usize)]
    }

    /// The places that are not used.
    pub fn unused_places(&self) -> impl Iterator<Item = &Place> {
        let in_progress = PLACES.min(self.in_progress as usize);
        let held = PLACES.min(self.held as usize);
        self.places[in_progress..PLACES].iter().chain(&self.places[PLACES + held..])
    }

    /// Sets one field to a value, by the numbers of frame 5; false, and nothing changed, where it is unknown.
    pub fn disturb(&mut self, field: u8, place: u8, value: u32) -> bool {
        match field {
            0 => self.set_life(value),
            1 => set(&mut self.state.balance, value),
            2 => set(&mut self.in_progress, value),
            3 => set(&mut self.held, value),
            _ => match self.places.get_mut(usize::from(place)) {
                Some(place) => place.disturb(field, value),
                None => false,
            },
        }
    }

    /// Sets the life: 0 new, 1 opened, 2 closed.
    fn set_life(&mut self, value: u32) -> bool {
        let Some(life) = [Life::New, Life::Opened, Life::Closed].get(value as usize).copied() else {
            return false;
        };
        self.state.life = life;
        true
    }
}

impl Place {
    /// Sets one field of a place: 4 transaction, 5 second, 6 event kind, 7 amount, 8 decision.
    fn disturb(&mut self, field: u8, value: u32) -> bool {
        let event = self.request.event;
        match field {
            4 => set(&mut self.request.transaction, value),
            5 => set(&mut self.request.second, value),
            6 => self.set_event(u8::try_from(value).unwrap_or(0), event.amount()),
            7 if event != Event::Close => self.set_event(event.kind(), value),
            8 if value < 2 => set(&mut self.committed, value == 1),
            _ => false,
        }
    }

    /// Puts the event of a kind here; false where there is none.
    fn set_event(&mut self, kind: u8, amount: u32) -> bool {
        Event::of(kind, amount).map(|event| self.request.event = event).is_some()
    }
}

/// Puts the value there and says yes.
fn set<T>(there: &mut T, value: T) -> bool {
    *there = value;
    true
}
