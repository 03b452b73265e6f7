//! What wrong versions do otherwise in the register's calls and in runs of them.

use super::list::{Fault, Wrong};
use crate::entry::Entry;
use crate::image::{Image, Place};
use crate::limits::{ACCOUNTS, PLACES, ROOM};
use crate::message::{Message, MessageRules};
use crate::register::{Register, RegisterRules, Taken};
use crate::rules::Document;
use crate::run::{pass, run_into, Ran, RunRules};

impl RegisterRules for Wrong {
    fn room(&self) -> usize {
        ROOM - usize::from(self.0 == Fault::RoomOneShort)
    }

    fn call(&self, register: &mut Register, bytes: &[u8], buffer: &mut [u8]) -> Result<(usize, usize), u8> {
        let called = register.call(bytes, buffer, self);
        if let (Fault::RefusalSpoils, Err(number @ 5..)) = (self.0, called) {
            buffer[0] = number;
        }
        called
    }

    fn take(&self, register: &mut Register, bytes: &[u8], room: usize) -> Result<Taken, u8> {
        if self.0 == Fault::OrderBeforeRoom {
            let account = Document.read(bytes)?.0.head().account;
            if !register.in_order(usize::from(account), self) {
                return Err(5);
            }
        }
        register.take(bytes, room, self)
    }

    fn single(&self, register: &mut Register, message: &Message) -> Result<Vec<Entry>, u8> {
        let at = usize::from(message.head().account);
        if self.0 == Fault::NumberOfAllAccounts && register.in_order(at, self) && stands_elsewhere(register, message) {
            return Err(6);
        }
        let before = register.image(at);
        let entries = register.single(message, self)?;
        if self.0 == Fault::FreedPlaceKept {
            let mut image = register.image(at);
            unused(&image).for_each(|place| image.places[place] = before.places[place]);
            if image.places.iter().any(|place| *place != Place::BLANK) {
                register.put(at, image, self);
            }
        }
        Ok(entries)
    }
}

/// Whether a request's transaction stands on another account than its own.
fn stands_elsewhere(register: &Register, message: &Message) -> bool {
    let Message::Request { account, request } = message else { return false };
    let others = (0..ACCOUNTS).filter(|at| *at != usize::from(*account));
    others.filter_map(|at| register.account(at)).any(|account| account.standing(request.transaction).is_some())
}

/// The places that are not used.
pub fn unused(image: &Image) -> impl Iterator<Item = usize> {
    let (in_progress, held) = (image.progress_places().len(), image.held_places().len());
    (in_progress..PLACES).chain(PLACES + held..2 * PLACES)
}

impl RunRules for Wrong {
    fn skipped(&self, kind: u8, number: u8) -> Option<usize> {
        match self.0 {
            Fault::StopsWithoutRoom if number == 4 => None,
            Fault::SkipsFifteen => Document.skipped(kind, number).map(|_| 15),
            _ => Document.skipped(kind, number),
        }
    }

    fn pass(&self, messages: &[u8], mut send: impl FnMut(&[u8]) -> Result<usize, u8>) -> Ran {
        let mut taken = 0;
        let ran = pass(messages, |rest| send(rest).inspect(|consumed| taken += *consumed as u64), self);
        let stopped = u64::from(ran.consumed < messages.len() as u64);
        match self.0 {
            Fault::RefusedNotMet => Ran { met: ran.met - ran.refused, ..ran },
            Fault::StopNotCounted => Ran { met: ran.met - stopped, refused: ran.refused - stopped, ..ran },
            Fault::SkippedNotPassed => Ran { consumed: taken, ..ran },
            _ => ran,
        }
    }

    fn run(&self, messages: &[u8], entries: &mut [u8], register: &mut Register) -> Ran {
        let ran = run_into(messages, entries, register, self);
        if let (Fault::NextByteTouched, Some(next)) = (self.0, entries.get_mut(ran.written as usize)) {
            *next = 0;
        }
        ran
    }
}
