//! One account, kept as the list of its outcomes: a request looks along the list,
//! an acceptance doubles it, a commit or an abort keeps one half of it.

use crate::entry::Entry;
use crate::event::{Event, EventRules, State};
use crate::image::{Image, Place};
use crate::limits::PLACES;
use crate::message::{Head, Message};
use crate::outcomes::{Outcomes, Vote};
use crate::request::Request;
use std::collections::{HashMap, VecDeque};

/// Where a transaction stands on the account.
#[derive(Clone, Copy, PartialEq, Eq, Debug)]
pub enum Standing {
    Undecided,
    Committed,
    Held,
}

/// An account in order.
#[derive(Clone, Debug)]
pub struct Account {
    applied: State,
    /// Events in progress, oldest first.
    progress: VecDeque<Place>,
    held: VecDeque<Request>,
    standing: HashMap<u32, Standing>,
    outcomes: Outcomes,
}

/// The rules on requests, commits and aborts (`docs/REGISTER.md`, 4 and 5).
pub trait AccountRules: EventRules {
    /// So many events can be in progress.
    fn places(&self) -> usize {
        PLACES
    }

    /// So many requests can be held.
    fn most_held(&self) -> usize {
        PLACES
    }

    /// Whether as many are in progress as there can be, committed ones included.
    fn full(&self, account: &Account) -> bool {
        account.progress.len() >= self.places()
    }

    /// Whether a new request is held without being weighed.
    fn unweighed(&self, account: &Account) -> bool {
        !account.held.is_empty() || self.full(account)
    }

    /// How a request is decided by the outcomes.
    fn weigh(&self, account: &Account, event: Event) -> Vote {
        account.outcomes.vote(|state| self.guard(event, state))
    }

    /// The reason in a rejection: that of outcome 0, as the outcomes are when it is written.
    fn given(&self, account: &Account, event: Event) -> Option<u8> {
        self.reason(event, *account.outcomes().first()?)
    }

    /// The number in the entry of a request that was weighed.
    fn count(&self, account: &Account) -> u16 {
        account.outcomes.count() as u16
    }

    /// The number in the entry of a request that was not.
    fn count_unweighed(&self, _: &Account) -> u16 {
        0
    }

    /// Whether a request is refused: its transaction stands here, or the most are held.
    fn request_refusal(&self, account: &Account, standing: Option<Standing>) -> Option<u8> {
        match standing {
            Some(_) => Some(6),
            None => (account.held.len() >= self.most_held()).then_some(7),
        }
    }

    /// Whether a commit is refused, by where its transaction stands.
    fn commit_refusal(&self, standing: Option<Standing>) -> Option<u8> {
        match standing {
            None => Some(8),
            Some(Standing::Held) => Some(9),
            Some(Standing::Committed) => Some(10),
            Some(Standing::Undecided) => None,
        }
    }

    /// Whether an abort is refused, by where its transaction stands.
    fn abort_refusal(&self, standing: Option<Standing>) -> Option<u8> {
        match standing {
            None => Some(8),
            Some(Standing::Committed) => Some(11),
            Some(Standing::Held | Standing::Undecided) => None,
        }
    }

    /// An accepted request goes behind those in progress.
    fn admit(&self, account: &mut Account, request: Request) {
        account.admit(request, self);
    }

    /// The place in progress of the event that is applied next: the oldest, where it is committed.
    fn next_applied(&self, account: &Account) -> Option<usize> {
        account.progress.front().is_some_and(|oldest| oldest.committed).then_some(0)
    }

    /// The place in holding of the request that is weighed next: the oldest, where there is room in progress.
    fn next_weighed(&self, account: &Account) -> Option<usize> {
        (!account.held.is_empty() && !self.full(account)).then_some(0)
    }

    /// Applies what can be applied, after the call's own entry.
    fn settle(&self, account: &mut Account, entries: &mut Vec<Entry>) {
        while let Some(entry) = account.apply_next(self) {
            entries.push(entry);
        }
    }

    /// Decides the held requests that can be decided, after the applied entries.
    fn drain(&self, account: &mut Account, entries: &mut Vec<Entry>) {
        while let Some(entry) = account.decide_next(self) {
            entries.push(entry);
        }
    }

    /// The transaction number of an event that has ended may return.
    fn release(&self, account: &mut Account, transaction: u32) {
        account.standing.remove(&transaction);
    }

    /// The outcome question: state and number applied, none from 2 to the power u on.
    fn outcome(&self, account: &Account, number: u32) -> Option<(State, u32)> {
        account.outcomes().get(number as usize).map(|state| (*state, number.count_ones()))
    }

    /// A message as a whole: its entries, or the number of its refusal with nothing changed.
    fn step(&self, account: &mut Account, message: &Message) -> Result<Vec<Entry>, u8> {
        account.step(message, self)
    }
}

impl Account {
    /// The entries of a message, or the number of its refusal.
    pub fn step(&mut self, message: &Message, rules: &impl AccountRules) -> Result<Vec<Entry>, u8> {
        let standing = self.standing(message.head().transaction);
        let refusal = match message {
            Message::Request { .. } => rules.request_refusal(self, standing),
            Message::Commit(_) => rules.commit_refusal(standing),
            Message::Abort(_) => rules.abort_refusal(standing),
        };
        if let Some(number) = refusal {
            return Err(number);
        }
        Ok(match message {
            Message::Request { request, .. } => vec![self.request(*request, rules)],
            Message::Commit(head) => {
                let own = self.commit(head);
                self.follow(own, rules)
            }
            Message::Abort(head) => {
                let own = self.abort(head.transaction);
                self.follow(own, rules)
            }
        })
    }

    /// The entries of a commit or an abort, its own first.
    fn follow(&mut self, own: Entry, rules: &impl AccountRules) -> Vec<Entry> {
        let mut entries = vec![own];
        rules.settle(self, &mut entries);
        rules.drain(self, &mut entries);
        entries
    }

    /// Decides a request: held unweighed, or weighed.
    fn request(&mut self, request: Request, rules: &impl AccountRules) -> Entry {
        if rules.unweighed(self) {
            let outcomes = rules.count_unweighed(self);
            self.hold(request);
            return Entry::Voted { vote: Vote::Held, request, outcomes, reason: None };
        }
        let vote = rules.weigh(self, request.event);
        let entry = self.voted(vote, request, rules);
        match vote {
            Vote::Accepted => rules.admit(self, request),
            Vote::Rejected => {}
            Vote::Held => self.hold(request),
        }
        entry
    }

    /// The entry of a request that was weighed, before anything changes by it.
    pub fn voted(&self, vote: Vote, request: Request, rules: &impl AccountRules) -> Entry {
        let reason = if vote == Vote::Rejected { rules.given(self, request.event) } else { None };
        Entry::Voted { vote, request, outcomes: rules.count(self), reason }
    }

    /// Marks an undecided event: the outcomes in which it is applied are left.
    fn commit(&mut self, head: &Head) -> Entry {
        let at = self.place(head.transaction);
        self.outcomes.halve(self.bit(at), true);
        self.progress[at].committed = true;
        self.standing.insert(head.transaction, Standing::Committed);
        Entry::Noted { transaction: head.transaction, second: head.second }
    }

    /// Takes out an event in progress, or else a held request: the outcomes without it are left.
    pub fn abort(&mut self, transaction: u32) -> Entry {
        let request = if self.standing.remove(&transaction) == Some(Standing::Held) {
            let at = self.held.iter().position(|request| request.transaction == transaction).unwrap_or(0);
            self.held.remove(at)
        } else {
            let at = self.place(transaction);
            self.outcomes.halve(self.bit(at), false);
            self.progress.remove(at).map(|place| place.request)
        };
        Entry::Dropped { request: request.unwrap_or(Place::BLANK.request) }
    }

    /// Ends the event that is applied next, if any: its effect is applied.
    pub fn apply_next(&mut self, rules: &impl AccountRules) -> Option<Entry> {
        let Place { request, .. } = self.progress.remove(rules.next_applied(self)?)?;
        self.applied = rules.effect(request.event, self.applied);
        rules.release(self, request.transaction);
        Some(Entry::Applied { request, balance: self.applied.balance })
    }

    /// Weighs the held request that is weighed next, if any, as if nothing were held; none where it stays held.
    pub fn decide_next(&mut self, rules: &impl AccountRules) -> Option<Entry> {
        let at = rules.next_weighed(self)?;
        let request = self.held[at];
        let vote = rules.weigh(self, request.event);
        if vote == Vote::Held {
            return None;
        }
        let entry = self.voted(vote, request, rules);
        self.held.remove(at);
        self.standing.remove(&request.transaction);
        if vote == Vote::Accepted {
            rules.admit(self, request);
        }
        Some(entry)
    }

    /// Takes a request in progress, undecided, as the newest.
    pub fn admit(&mut self, request: Request, rules: &impl EventRules) {
        self.outcomes.double(|state| rules.effect(request.event, state));
        self.standing.insert(request.transaction, Standing::Undecided);
        self.progress.push_back(Place { request, committed: false });
    }

    /// Takes a request into holding, as the newest.
    fn hold(&mut self, request: Request) {
        self.standing.insert(request.transaction, Standing::Held);
        self.held.push_back(request);
    }

    /// The place of a transaction among the events in progress.
    fn place(&self, transaction: u32) -> usize {
        self.progress.iter().position(|place| place.request.transaction == transaction).unwrap_or(0)
    }

    /// The bit that the undecided event at a place has in an outcome's number.
    fn bit(&self, at: usize) -> usize {
        self.progress.iter().take(at).filter(|place| !place.committed).count()
    }
}

/// What can be asked of an account, and its stored form.
impl Account {
    /// An account with nothing in progress or held.
    pub fn of(applied: State) -> Account {
        Account {
            applied,
            progress: VecDeque::new(),
            held: VecDeque::new(),
            standing: HashMap::new(),
            outcomes: Outcomes::of(applied),
        }
    }

    /// The account of a stored form that is in order.
    pub fn stored(image: &Image, rules: &impl EventRules) -> Account {
        let mut account = Account::of(image.state);
        for place in image.progress_places() {
            account.admit(place.request, rules);
            if place.committed {
                let Request { transaction, second, .. } = place.request;
                account.commit(&Head { transaction, account: 0, second });
            }
        }
        image.held_places().iter().for_each(|place| account.hold(place.request));
        account
    }

    /// The stored form.
    pub fn image(&self) -> Image {
        let mut image = Image { state: self.applied, ..Image::FRESH };
        image.in_progress = self.progress.len() as u32;
        image.held = self.held.len() as u32;
        let (first, second) = image.places.split_at_mut(PLACES);
        first.iter_mut().zip(&self.progress).for_each(|(place, event)| *place = *event);
        second.iter_mut().zip(&self.held).for_each(|(place, request)| place.request = *request);
        image
    }

    /// How many events are undecided.
    pub fn undecided(&self) -> usize {
        self.bit(self.progress.len())
    }

    /// The events in progress, oldest first.
    pub fn progress(&self) -> impl ExactSizeIterator<Item = &Place> {
        self.progress.iter()
    }

    /// The held requests, oldest first.
    pub fn held(&self) -> impl ExactSizeIterator<Item = &Request> {
        self.held.iter()
    }

    /// Where a transaction stands here, if anywhere.
    pub fn standing(&self, transaction: u32) -> Option<Standing> {
        self.standing.get(&transaction).copied()
    }

    /// The transactions with a standing, oldest first.
    pub fn with(&self, standing: Standing) -> Vec<u32> {
        let progress = self.progress.iter().map(|place| place.request.transaction);
        let held = self.held.iter().map(|request| request.transaction);
        progress.chain(held).filter(|transaction| self.standing(*transaction) == Some(standing)).collect()
    }

    /// The state in each outcome, at the place of the outcome's number.
    pub fn outcomes(&self) -> &[State] {
        self.outcomes.states()
    }
}
