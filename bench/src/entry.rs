//! Entries: what they carry, their bytes, their reader, their line of text.

use crate::bytes::Numbers;
use crate::event::Event;
use crate::limits::ACCOUNTS;
use crate::outcomes::Vote;
use crate::request::Request;

/// Each kind with its name and its whole length.
pub const KINDS: [(u8, &str, usize); 7] = [
    (ACCEPTED, "accepted", 18),
    (UNEXPLAINED, "rejected", 18),
    (HELD, "held", 18),
    (NOTED, "noted", 11),
    (APPLIED, "applied", 20),
    (DROPPED, "dropped", 16),
    (REJECTED, "rejected", 19),
];
pub const ACCEPTED: u8 = 17;
/// A rejection without its reason: read, never written.
pub const UNEXPLAINED: u8 = 18;
pub const HELD: u8 = 19;
pub const NOTED: u8 = 20;
pub const APPLIED: u8 = 21;
pub const DROPPED: u8 = 22;
pub const REJECTED: u8 = 23;

/// An entry; the account it is on stands beside it.
#[derive(Clone, Copy, PartialEq, Eq, Debug)]
pub enum Entry {
    /// A vote, with the number of outcomes weighed; a rejection has its reason, but for one read in the older kind.
    Voted { vote: Vote, request: Request, outcomes: u16, reason: Option<u8> },
    /// A commit noted, with the commit's own second.
    Noted { transaction: u32, second: u32 },
    /// An event applied, with the balance after it.
    Applied { request: Request, balance: u32 },
    /// An event in progress or a held request dropped.
    Dropped { request: Request },
}

impl Entry {
    /// What stands in a place for an entry that has none.
    pub const BLANK: Entry = Entry::Noted { transaction: 0, second: 0 };

    /// The kind.
    pub fn kind(&self) -> u8 {
        match self {
            Entry::Voted { vote: Vote::Accepted, .. } => ACCEPTED,
            Entry::Voted { vote: Vote::Rejected, reason: None, .. } => UNEXPLAINED,
            Entry::Voted { vote: Vote::Rejected, .. } => REJECTED,
            Entry::Voted { vote: Vote::Held, .. } => HELD,
            Entry::Noted { .. } => NOTED,
            Entry::Applied { .. } => APPLIED,
            Entry::Dropped { .. } => DROPPED,
        }
    }

    /// The request that it is of, where it has one.
    pub fn request(&self) -> Option<Request> {
        match *self {
            Entry::Voted { request, .. } | Entry::Applied { request, .. } | Entry::Dropped { request } => Some(request),
            Entry::Noted { .. } => None,
        }
    }

    /// The transaction and the second.
    pub fn filed(&self) -> (u32, u32) {
        match (*self, self.request()) {
            (Entry::Noted { transaction, second }, _) => (transaction, second),
            (_, request) => request.map_or((0, 0), |request| (request.transaction, request.second)),
        }
    }

    /// The outcomes weighed or the balance after, where the entry has them.
    pub fn last(&self) -> Option<u32> {
        match *self {
            Entry::Voted { outcomes, .. } => Some(outcomes.into()),
            Entry::Applied { balance, .. } => Some(balance),
            Entry::Noted { .. } | Entry::Dropped { .. } => None,
        }
    }

    /// The reason of a rejection, where the entry has one.
    pub fn reason(&self) -> Option<u8> {
        match *self {
            Entry::Voted { reason, .. } => reason,
            Entry::Noted { .. } | Entry::Applied { .. } | Entry::Dropped { .. } => None,
        }
    }

    /// What the kind has of event kind, amount, outcomes, balance and reason, each behind the separator.
    pub fn numbers(&self, separator: char) -> String {
        let event = self.request().map(|request| [u32::from(request.event.kind()), request.event.amount()]);
        let all = event.into_iter().flatten().chain(self.last()).chain(self.reason().map(u32::from));
        all.map(|number| format!("{separator}{number}")).collect()
    }

    /// The bytes of the layout.
    pub fn bytes(&self, account: u16) -> Vec<u8> {
        let (transaction, second) = self.filed();
        let mut bytes = Vec::with_capacity(20);
        bytes.push(self.kind());
        bytes.extend(transaction.to_be_bytes());
        bytes.extend(account.to_be_bytes());
        bytes.extend(second.to_be_bytes());
        if let Some(Request { event, .. }) = self.request() {
            bytes.push(event.kind());
            bytes.extend(event.amount().to_be_bytes());
        }
        match self {
            Entry::Voted { outcomes, .. } => bytes.extend(outcomes.to_be_bytes()),
            Entry::Applied { balance, .. } => bytes.extend(balance.to_be_bytes()),
            Entry::Noted { .. } | Entry::Dropped { .. } => {}
        }
        bytes.extend(self.reason());
        bytes
    }

    /// The line of the program, without its newline.
    pub fn line(&self, account: u16) -> String {
        let (transaction, second) = self.filed();
        let name = kind(self.kind()).map_or("", |kind| kind.0);
        let mut line = format!("{name} {transaction} {account} {second}");
        if let Some(Request { event, .. }) = self.request() {
            line += &format!(" {} {}", event.name(), event.amount());
        }
        for number in self.last().into_iter().chain(self.reason().map(u32::from)) {
            line += &format!(" {number}");
        }
        line
    }
}

/// The name and the whole length of a kind, none for a kind that is not listed.
pub fn kind(number: u8) -> Option<(&'static str, usize)> {
    KINDS.iter().find(|kind| kind.0 == number).map(|kind| (kind.1, kind.2))
}

/// Reader, bytes and line by themselves.
pub trait EntryRules {
    /// The bytes that a call writes for an entry.
    fn write_entry(&self, entry: &Entry, account: u16) -> Vec<u8> {
        entry.bytes(account)
    }

    /// The line of an entry, without its newline.
    fn entry_line(&self, entry: &Entry, account: u16) -> String {
        entry.line(account)
    }

    /// The entry at the beginning of the bytes, with its account and length, by the layout alone.
    fn read_entry(&self, bytes: &[u8]) -> Option<(Entry, u16, usize)> {
        let number = *bytes.first()?;
        let (_, whole) = kind(number)?;
        let mut numbers = Numbers { bytes: bytes.get(1..whole)? };
        let transaction = numbers.next(4);
        let account = numbers.next(2) as u16;
        let second = numbers.next(4);
        let entry = match number {
            NOTED => Entry::Noted { transaction, second },
            _ => of_request(number, transaction, second, &mut numbers)?,
        };
        (usize::from(account) < ACCOUNTS).then_some((entry, account, whole))
    }
}

/// An entry of a kind that has a request; none where its event kind is not listed, or a Close has an amount.
fn of_request(kind: u8, transaction: u32, second: u32, numbers: &mut Numbers) -> Option<Entry> {
    let event_kind = numbers.next(1) as u8;
    let amount = numbers.next(4);
    let event = Event::of(event_kind, amount).filter(|event| event.amount() == amount)?;
    let request = Request { transaction, second, event };
    let mut voted = |vote| Entry::Voted {
        vote,
        request,
        outcomes: numbers.next(2) as u16,
        reason: (kind == REJECTED).then(|| numbers.next(1) as u8),
    };
    Some(match kind {
        ACCEPTED => voted(Vote::Accepted),
        UNEXPLAINED | REJECTED => voted(Vote::Rejected),
        HELD => voted(Vote::Held),
        APPLIED => Entry::Applied { request, balance: numbers.next(4) },
        _ => Entry::Dropped { request },
    })
}
