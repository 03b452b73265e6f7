//! What wrong versions do otherwise within an account: guards, weighing, commits and aborts, order.

use super::list::{Fault, Wrong};
use crate::account::{Account, AccountRules, Standing};
use crate::entry::Entry;
use crate::event::{Event, EventRules, Life, State, AMOUNT_ZERO, OTHER_LIFE, OVER_THE_LIMIT, TOO_FEW_STEPS};
use crate::image::{Image, Place};
use crate::limits::{LIMIT, PLACES};
use crate::message::Message;
use crate::order::{Clause, OrderRules};
use crate::outcomes::{vote, Vote};
use crate::request::Request;
use crate::rules::Document;

impl EventRules for Wrong {
    fn reason(&self, event: Event, state: State) -> Option<u8> {
        let right = Document.reason(event, state);
        let zero = matches!(event, Event::Withdraw(0) | Event::Deposit(0));
        match (self.0, event, right) {
            (Fault::LimitOneShort, Event::Open(LIMIT), None) => Some(OVER_THE_LIMIT),
            (Fault::LimitOneShort, Event::Deposit(amount), None) if state.balance + amount == LIMIT => {
                Some(OVER_THE_LIMIT)
            }
            (Fault::WithdrawNeedsMore, Event::Withdraw(amount), None) if state.balance == amount => Some(TOO_FEW_STEPS),
            (Fault::AmountZeroTaken, _, Some(AMOUNT_ZERO)) => None,
            (Fault::DepositWraps, Event::Deposit(_), Some(OVER_THE_LIMIT)) => {
                right.filter(|_| self.effect(event, state).balance > LIMIT)
            }
            (Fault::OpenOverLimit, Event::Open(_), Some(OVER_THE_LIMIT)) => None,
            (Fault::ClosedOpensAgain, Event::Open(_), Some(OTHER_LIFE)) if state.life == Life::Closed => {
                Document.reason(event, State::FRESH)
            }
            (Fault::CloseNeedsEmpty, Event::Close, None) if state.balance > 0 => Some(TOO_FEW_STEPS),
            (Fault::ZeroBeforeLife, _, Some(_)) if zero => Some(AMOUNT_ZERO),
            (Fault::LimitBeforeLife, Event::Open(_), Some(_)) => {
                Document.reason(event, State::FRESH).or(Some(OTHER_LIFE))
            }
            (Fault::TooFewForDeposit, Event::Deposit(_), Some(OVER_THE_LIMIT)) => Some(TOO_FEW_STEPS),
            (Fault::LimitForWithdraw, Event::Withdraw(amount), Some(TOO_FEW_STEPS)) if amount > LIMIT => {
                Some(OVER_THE_LIMIT)
            }
            _ => right,
        }
    }

    fn effect(&self, event: Event, state: State) -> State {
        let right = Document.effect(event, state);
        match (self.0, event) {
            (Fault::CloseKeepsBalance, Event::Close) => State { balance: state.balance, ..right },
            _ => right,
        }
    }
}

impl AccountRules for Wrong {
    fn places(&self) -> usize {
        PLACES + usize::from(self.0 == Fault::NinePlaces)
    }

    fn most_held(&self) -> usize {
        PLACES + usize::from(self.0 == Fault::NineHeld)
    }

    fn full(&self, account: &Account) -> bool {
        let counted = match self.0 {
            Fault::UndecidedFillPlaces => account.undecided(),
            _ => account.progress().len(),
        };
        counted >= self.places()
    }

    fn unweighed(&self, account: &Account) -> bool {
        let behind = account.held().len() > 0 && self.0 != Fault::RequestPassesHeld;
        behind || self.full(account)
    }

    fn weigh(&self, account: &Account, event: Event) -> Vote {
        let outcomes = account.outcomes();
        match self.0 {
            Fault::OnlyAllOrNone => {
                vote(&[outcomes[0], outcomes[outcomes.len() - 1]], |state| self.guard(event, state))
            }
            _ => vote(outcomes, |state| self.guard(event, state)),
        }
    }

    fn given(&self, account: &Account, event: Event) -> Option<u8> {
        let outcomes = account.outcomes();
        let first = self.reason(event, *outcomes.first()?);
        let reasons = || outcomes.iter().map(|state| self.reason(event, *state));
        match self.0 {
            Fault::ReasonOfAllApplied => reasons().next_back().flatten(),
            Fault::ReasonOfNewestAlone => self.reason(event, outcomes[outcomes.len() / 2]),
            Fault::ReasonOfFirstOther => reasons().find(|reason| *reason != first).unwrap_or(first),
            Fault::ReasonLowest => reasons().min().flatten(),
            Fault::ReasonHighest => reasons().max().flatten(),
            Fault::ReasonWithoutCommitted => self.reason(event, account.image().state).or(Some(0)),
            Fault::ReasonZero => Some(0),
            Fault::OldKindWritten => None,
            _ => first,
        }
    }

    fn count(&self, account: &Account) -> u16 {
        match self.0 {
            Fault::CountOfInProgress => 1 << account.progress().len(),
            _ => Document.count(account),
        }
    }

    fn count_unweighed(&self, account: &Account) -> u16 {
        match self.0 {
            Fault::CountOfUnweighed => Document.count(account),
            _ => Document.count_unweighed(account),
        }
    }

    fn request_refusal(&self, account: &Account, standing: Option<Standing>) -> Option<u8> {
        let seven = (account.held().len() >= self.most_held()).then_some(7);
        let six = standing.map(|_| 6);
        match self.0 {
            Fault::SevenBeforeSix => seven.or(six),
            _ => six.or(seven),
        }
    }

    fn commit_refusal(&self, standing: Option<Standing>) -> Option<u8> {
        match (self.0, Document.commit_refusal(standing)) {
            (Fault::EightForHeld, Some(9)) => Some(8),
            (Fault::TenElevenSwapped, Some(10)) => Some(11),
            (_, right) => right,
        }
    }

    fn abort_refusal(&self, standing: Option<Standing>) -> Option<u8> {
        match (self.0, Document.abort_refusal(standing)) {
            (Fault::AbortOfCommitted, Some(11)) => None,
            (Fault::TenElevenSwapped, Some(11)) => Some(10),
            (_, right) => right,
        }
    }

    fn admit(&self, account: &mut Account, request: Request) {
        account.admit(request, self);
        let key: fn(&Place) -> u32 = match self.0 {
            Fault::FiledByTransaction => |place| place.request.transaction,
            Fault::FiledBySecond => |place| place.request.second,
            _ => return,
        };
        let mut image = account.image();
        image.places[..account.progress().len()].sort_by_key(key);
        *account = Account::stored(&image, self);
    }

    fn next_applied(&self, account: &Account) -> Option<usize> {
        match self.0 {
            Fault::CommitAppliedAtOnce => account.progress().position(|place| place.committed),
            _ => Document.next_applied(account),
        }
    }

    fn next_weighed(&self, account: &Account) -> Option<usize> {
        let passed =
            |request: &Request| self.0 == Fault::LaterHeldPasses && self.weigh(account, request.event) == Vote::Held;
        account.held().position(|request| !passed(request)).filter(|_| !self.full(account))
    }

    fn settle(&self, account: &mut Account, entries: &mut Vec<Entry>) {
        while let Some(entry) = account.apply_next(self) {
            entries.push(entry);
            if self.0 == Fault::OneAppliedACall {
                break;
            }
        }
        if self.0 == Fault::BalanceAfterCall {
            let after = account.image().state.balance;
            for entry in entries {
                if let Entry::Applied { balance, .. } = entry {
                    *balance = after;
                }
            }
        }
    }

    fn drain(&self, account: &mut Account, entries: &mut Vec<Entry>) {
        let applied = entries.iter().any(|entry| matches!(entry, Entry::Applied { .. }));
        if self.0 == Fault::HeldNeedsApplication && !applied {
            return;
        }
        while let Some(entry) = account.decide_next(self) {
            entries.push(entry);
            if self.0 == Fault::OneHeldACall {
                break;
            }
        }
        if self.0 == Fault::EntryForStaying && !self.full(account) {
            entries.extend(account.held().next().map(|request| account.voted(Vote::Held, *request, self)));
        }
    }

    fn release(&self, account: &mut Account, transaction: u32) {
        if self.0 != Fault::NumberNeverReturns {
            Document.release(account, transaction);
        }
    }

    fn outcome(&self, account: &Account, number: u32) -> Option<(State, u32)> {
        let count = account.outcomes().len() as u32;
        let asked = match self.0 {
            Fault::OutcomeOneMore if number == count => 0,
            Fault::BitsFromNewest if number < count => {
                (0..account.undecided()).fold(0, |turned, bit| turned << 1 | number >> bit & 1)
            }
            _ => number,
        };
        Document.outcome(account, asked).map(|(state, _)| (state, number.count_ones()))
    }

    fn step(&self, account: &mut Account, message: &Message) -> Result<Vec<Entry>, u8> {
        let head = message.head();
        let held = account.standing(head.transaction) == Some(Standing::Held);
        if let (Fault::AbortOfHeldDrainsNothing, Message::Abort(_), true) = (self.0, message, held) {
            return Ok(vec![account.abort(head.transaction)]);
        }
        let mut entries = account.step(message, self)?;
        for entry in &mut entries {
            match (self.0, entry) {
                (Fault::CommitSecondInApplied, Entry::Applied { request, .. }) => request.second = head.second,
                (Fault::AbortSecondInDropped, Entry::Dropped { request }) => request.second = head.second,
                _ => {}
            }
        }
        Ok(entries)
    }
}

impl OrderRules for Wrong {
    fn in_order(&self, image: &Image) -> bool {
        let checked = |clause: &&Clause| self.0 != Fault::Unchecked(**clause);
        Clause::ALL.iter().filter(checked).all(|clause| clause.kept(image, self))
    }
}
