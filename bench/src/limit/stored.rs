//! The account to and from the stored form that the comparison has of it, in order or not.

use super::account::Account;
use super::outlook::{CLOSED, NEW, OPENED};
use super::place::Place;
use crate::event::{Event, Life, State};
use crate::image::{self, Image};
use crate::limits::PLACES;
use crate::request::Request;

/// Lives and their bits.
const LIVES: [(Life, u8); 3] = [(Life::New, NEW), (Life::Opened, OPENED), (Life::Closed, CLOSED)];

impl Account {
    /// The account of a stored form.
    pub fn stored(image: &Image) -> Account {
        let life = LIVES.iter().find(|life| life.0 == image.state.life).map_or(NEW, |life| life.1);
        let mut account = Account { life, balance: image.state.balance, ..Account::FRESH };
        (account.in_progress, account.held) = (image.in_progress, image.held);
        let (progress, held) = image.places.split_at(PLACES);
        account.progress.iter_mut().zip(progress).for_each(|(place, stored)| *place = packed(stored));
        account.holding.iter_mut().zip(held).for_each(|(place, stored)| *place = packed(stored));
        account
    }

    /// The stored form.
    pub fn image(&self) -> Image {
        let life = LIVES.iter().find(|life| life.1 == self.life).map_or(Life::New, |life| life.0);
        let state = State { life, balance: self.balance };
        let mut image = Image { state, in_progress: self.in_progress, held: self.held, ..Image::FRESH };
        let places = self.progress.iter().chain(&self.holding);
        image.places.iter_mut().zip(places).for_each(|(stored, place)| *stored = unpacked(*place));
        image
    }
}

/// A place from its stored form.
fn packed(stored: &image::Place) -> Place {
    let Request { transaction, second, event } = stored.request;
    let place = Place::of(transaction, second, event.kind(), event.amount());
    if stored.committed {
        place.commit()
    } else {
        place
    }
}

/// The stored form of a place.
fn unpacked(place: Place) -> image::Place {
    let event = Event::of(place.event(), place.amount()).unwrap_or(Event::Close);
    let request = Request { transaction: place.transaction(), second: place.second(), event };
    image::Place { request, committed: place.committed() }
}
