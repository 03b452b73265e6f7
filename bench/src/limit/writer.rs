//! The entries of one call, written where they belong.

use super::outlook::{Outlook, Vote};
use super::place::{Place, OPEN};
use crate::limits::ROOM;

const NOTED: u8 = 20;
const APPLIED: u8 = 21;
const DROPPED: u8 = 22;

/// The room of one call, and how much of it is written.
pub struct Writer<'a> {
    entries: &'a mut [u8; ROOM],
    account: u16,
    written: usize,
}

impl Writer<'_> {
    /// Nothing written yet, for entries on an account.
    pub fn on(entries: &mut [u8; ROOM], account: u16) -> Writer<'_> {
        Writer { entries, account, written: 0 }
    }

    /// The length written.
    pub fn written(&self) -> usize {
        self.written
    }

    /// A vote, with the number of outcomes weighed.
    pub fn voted(&mut self, vote: Vote, request: Place, count: u16) {
        self.put(&request.bytes(vote as u8, self.account));
        self.put(&count.to_be_bytes());
    }

    /// The vote on a request that was weighed; the reason stands last in a rejection.
    pub fn weighed(&mut self, vote: Vote, request: Place, outlook: &Outlook) {
        self.voted(vote, request, outlook.count());
        if vote == Vote::Rejected {
            self.put(&[outlook.reason(request)]);
        }
    }

    /// A commit noted, with the commit's own second: the first eleven bytes of what any event would have.
    pub fn noted(&mut self, transaction: u32, second: u32) {
        let [noted @ .., _, _, _, _, _] = Place::of(transaction, second, OPEN, 0).bytes(NOTED, self.account);
        self.put(&noted);
    }

    /// An event applied, with the balance after it.
    pub fn applied(&mut self, event: Place, balance: u32) {
        self.put(&event.bytes(APPLIED, self.account));
        self.put(&balance.to_be_bytes());
    }

    /// An event or a held request dropped.
    pub fn dropped(&mut self, request: Place) {
        self.put(&request.bytes(DROPPED, self.account));
    }

    /// Bytes behind those written.
    fn put<const LENGTH: usize>(&mut self, bytes: &[u8; LENGTH]) {
        self.entries[self.written..][..LENGTH].copy_from_slice(bytes);
        self.written += LENGTH;
    }
}
