//! An account in words, for a caller that keeps the register (`docs/REGISTER.md`, 15.2 and 15.3).

use crate::event::{Event, Life, State};
use crate::image::{Image, Place};
use crate::limits::PLACES;
use crate::request::Request;

/// The words before the places, of a place, and of an account.
pub const HEAD: usize = 4;
pub const PLACE: usize = 5;
pub const ACCOUNT: usize = HEAD + 2 * PLACES * PLACE;

/// The lives in the order of their words.
pub const LIVES: [Life; 3] = [Life::New, Life::Opened, Life::Closed];

/// Words and the account that they are.
pub trait WordRules {
    /// The account that the first words are; none where there are too few, or one that its field does not have.
    fn account_of(&self, words: &[u32]) -> Option<Image> {
        account_of(words.get(..ACCOUNT)?)
    }
}

/// The account of so many words.
pub fn account_of(words: &[u32]) -> Option<Image> {
    let (head, places) = words.split_at(HEAD);
    let life = *LIVES.get(head[0] as usize)?;
    let state = State { life, balance: head[1] };
    let mut image = Image { state, in_progress: head[2], held: head[3], ..Image::FRESH };
    for (place, words) in image.places.iter_mut().zip(places.chunks(PLACE)) {
        *place = place_of(words)?;
    }
    Some(image)
}

/// The place of its words.
fn place_of(words: &[u32]) -> Option<Place> {
    let &[transaction, second, event, amount, decision] = words else { return None };
    let event =
        Event::of(u8::try_from(event).ok()?.checked_add(1)?, amount).filter(|event| event.amount() == amount)?;
    let request = Request { transaction, second, event };
    (decision < 2).then_some(Place { request, committed: decision == 1 })
}

/// The words of an account.
pub fn words_of(image: &Image) -> Vec<u32> {
    let life = LIVES.iter().position(|life| *life == image.state.life).unwrap_or_default() as u32;
    let mut words = vec![life, image.state.balance, image.in_progress, image.held];
    for Place { request, committed } in &image.places {
        let kind = u32::from(request.event.kind()) - 1;
        words.extend([request.transaction, request.second, kind, request.event.amount(), u32::from(*committed)]);
    }
    words
}
