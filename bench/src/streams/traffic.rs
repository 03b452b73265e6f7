//! Messages that lead somewhere: each is chosen with the state in view that it will meet.

use crate::account::{Account, Standing};
use crate::event::{Event, Life};
use crate::limits::{ACCOUNTS, LIMIT, PLACES, ROOM};
use crate::message::{Head, Message, ABORT, COMMIT};
use crate::random::Random;
use crate::register::{Register, RegisterRules};
use crate::rules::Document;
use crate::streams::amount::{edge, hopeless, lives_differ, possible, small, squeezing, unopened};

/// What the next messages are after.
#[derive(Clone, Copy, PartialEq, Eq, Debug)]
enum Mood {
    /// Events in progress and held requests, as many as there is room for.
    Fill,
    /// Requests that some outcomes allow and others do not.
    Squeeze,
    /// Commits and aborts, out of order.
    Decide,
    /// Amounts on each side of a line.
    Edge,
    /// The balance driven to 0 or to 1,000,000.
    Pole,
    /// Messages that are refused.
    Wrong,
    /// Eight committed behind one undecided, eight held, then all at once.
    Longest,
    /// The same with eight held that are rejected then.
    LongestRejected,
    /// Requests that no outcome allows, for reasons that may differ among the outcomes.
    Reasons,
}

/// A source of messages, with the register that they have led to.
pub struct Traffic {
    pub random: Random,
    pub register: Register,
    accounts: Vec<u16>,
    account: u16,
    mood: Mood,
    left: u64,
    /// Transaction numbers are drawn from 1 to this, or from all where it is 0.
    pool: u64,
    /// The second of the next message, and by how much it may grow.
    second: (u32, u32),
}

impl Traffic {
    /// Traffic on so many accounts, from a fresh register.
    pub fn on(mut random: Random, count: usize) -> Traffic {
        let first = random.below(16);
        let accounts: Vec<u16> = (0..count as u64).map(|at| ((first + at) % 16) as u16).collect();
        let pool = random.pick(&[0, 18, 20, 24, 40]);
        let growth = random.pick(&[0, 0, 1, u32::MAX]);
        let register = Register::fresh();
        let account = accounts[0];
        let second = (random.pick(&[0, 100, u32::MAX]), growth);
        Traffic { random, register, accounts, account, mood: Mood::Fill, left: 0, pool, second }
    }

    /// The next message, sent to the register with room for its entries.
    pub fn send(&mut self) -> Message {
        let message = self.compose();
        self.receive(&message.bytes(), ROOM);
        message
    }

    /// Lets the register have what was sent.
    pub fn receive(&mut self, bytes: &[u8], room: usize) {
        let _ = Document.take(&mut self.register, bytes, room);
    }

    /// The next message, not yet sent.
    pub fn compose(&mut self) -> Message {
        if self.left == 0 {
            self.turn();
        }
        self.left -= 1;
        let account = self.account;
        self.compose_for(account)
    }

    /// A message for the account, as the mood has it.
    pub fn compose_for(&mut self, at: u16) -> Message {
        let Some(account) = self.register.account(usize::from(at)).cloned() else {
            return self.anything(at);
        };
        if self.random.chance(2) {
            return self.anything(at);
        }
        match self.mood {
            Mood::Fill => self.fill(at, &account),
            Mood::Squeeze => self.squeeze(at, &account),
            Mood::Decide => self.decide(at, &account),
            Mood::Edge => {
                let event = edge(&mut self.random, &account);
                self.request(at, &account, event)
            }
            Mood::Pole => self.pole(at, &account),
            Mood::Wrong => self.wrong(at, &account),
            Mood::Longest => self.longest(at, &account, small),
            Mood::LongestRejected => self.longest(at, &account, hopeless),
            Mood::Reasons => self.reasons(at, &account),
        }
    }

    /// Chooses the next mood and the account it is for.
    fn turn(&mut self) {
        let longest = self.random.pick(&[Mood::Longest, Mood::LongestRejected]);
        let moods =
            [Mood::Fill, Mood::Squeeze, Mood::Decide, Mood::Edge, Mood::Pole, Mood::Wrong, Mood::Reasons, longest];
        self.mood = self.random.pick(&moods);
        self.left = match self.mood {
            Mood::Fill | Mood::Squeeze | Mood::Reasons => self.random.between(4, 24),
            Mood::Longest | Mood::LongestRejected => 34,
            Mood::Wrong => self.random.between(1, 5),
            _ => self.random.between(3, 16),
        };
        let at = self.random.below(self.accounts.len() as u64) as usize;
        if self.ended(self.accounts[at]) && self.random.chance(90) {
            // A closed account rejects everything: another takes its turn.
            let others: Vec<u16> = (0..ACCOUNTS as u16).filter(|account| !self.ended(*account)).collect();
            self.accounts[at] = self.random.any(&others).unwrap_or(self.accounts[at]);
        }
        self.account = self.accounts[at];
    }

    /// Whether the account is closed for good.
    fn ended(&self, at: u16) -> bool {
        let account = self.register.account(usize::from(at));
        account.is_some_and(|account| account.outcomes().iter().all(|state| state.life == Life::Closed))
    }

    /// Whether three in four accounts and more are not closed for good.
    fn many_last(&self) -> bool {
        (0..ACCOUNTS as u16).filter(|at| self.ended(*at)).count() * 4 <= ACCOUNTS
    }

    /// Turns to filling the account, for so many messages.
    pub fn turn_to_fill(&mut self, account: u16, messages: u64) {
        (self.mood, self.account, self.left) = (Mood::Longest, account, messages);
    }

    /// A request that finds room in progress, mostly; now and then a commit that must wait.
    fn fill(&mut self, at: u16, account: &Account) -> Message {
        let undecided = account.with(Standing::Undecided);
        if undecided.len() > 1 && self.random.chance(10) {
            let transaction = self.random.pick(&undecided[1..]);
            return self.message(transaction, at, Message::Commit);
        }
        if account.with(Standing::Held).len() == PLACES && self.random.chance(70) {
            return self.decide(at, account);
        }
        if unopened(account) && !undecided.is_empty() && self.random.chance(70) {
            return self.message(undecided[0], at, Message::Commit);
        }
        let event = small(&mut self.random, account);
        self.request(at, account, event)
    }

    /// A request between the lowest and the highest outcome, mostly.
    fn squeeze(&mut self, at: u16, account: &Account) -> Message {
        if self.random.chance(25) {
            return self.decide(at, account);
        }
        let event = squeezing(&mut self.random, account);
        self.request(at, account, event)
    }

    /// A commit or an abort of what is undecided, the newest as often as the oldest; or an abort of what is held.
    fn decide(&mut self, at: u16, account: &Account) -> Message {
        if self.random.chance(8) {
            return self.wrong(at, account);
        }
        let undecided = account.with(Standing::Undecided);
        let held = account.with(Standing::Held);
        if undecided.is_empty() || !held.is_empty() && self.random.chance(20) {
            let oldest = self.random.chance(50);
            return match if oldest { held.first().copied() } else { self.random.any(&held) } {
                Some(transaction) => self.message(transaction, at, Message::Abort),
                None => self.fill(at, account),
            };
        }
        let transaction = match self.random.below(4) {
            0 => undecided[0],
            1 => undecided[undecided.len() - 1],
            _ => self.random.pick(&undecided),
        };
        let decision = if self.random.chance(65) { Message::Commit } else { Message::Abort };
        self.message(transaction, at, decision)
    }

    /// All of the balance withdrawn, or deposited up to the limit, and committed.
    fn pole(&mut self, at: u16, account: &Account) -> Message {
        if let Some(oldest) = account.with(Standing::Undecided).first() {
            return self.message(*oldest, at, Message::Commit);
        }
        if unopened(account) {
            return self.fill(at, account);
        }
        let balance = account.outcomes()[0].balance;
        let choices = [Event::Withdraw(balance), Event::Deposit(LIMIT.wrapping_sub(balance))];
        let event = self.random.pick(&choices);
        self.request(at, account, event)
    }

    /// A message that the register refuses, where there is occasion for it.
    fn wrong(&mut self, at: u16, account: &Account) -> Message {
        let (undecided, committed, held) =
            (account.with(Standing::Undecided), account.with(Standing::Committed), account.with(Standing::Held));
        let far = self.random.pick(&[16, 17, 31, 128, 255, 256, 257, 271, 4_096, 32_768, 65_535, at + 256]);
        let used = [undecided, committed.clone(), held.clone()].concat();
        let mut occasions = vec![
            (self.random.pick(&[1, 2, 3, 4]), self.random.any(&used), at),
            (COMMIT, self.random.any(&held), at),
            (COMMIT, self.random.any(&committed), at),
            (ABORT, self.random.any(&committed), at),
            (self.random.pick(&[COMMIT, ABORT]), Some(self.number(account)), at),
            (self.random.pick(&[1, 2, 3, 4, 5, 6]), Some(self.number(account)), far),
        ];
        occasions.retain(|occasion| occasion.1.is_some());
        let (kind, transaction, account_number) = self.random.pick(&occasions);
        let transaction = transaction.unwrap_or_else(|| self.number(account));
        let amount = self.random.between(0, 9) as u32;
        self.message(transaction, account_number, |head| of_kind(kind, head, amount))
    }

    /// Eight in progress, eight of the others held, commits from the newest to the oldest.
    fn longest(&mut self, at: u16, account: &Account, other: fn(&mut Random, &Account) -> Event) -> Message {
        let undecided = account.with(Standing::Undecided);
        let held = account.with(Standing::Held).len();
        if unopened(account) {
            return self.fill(at, account);
        }
        if let (PLACES, Some(newest)) = (held, undecided.last()) {
            return self.message(*newest, at, Message::Commit);
        }
        let full = account.progress().len() == PLACES;
        let event = if full { other(&mut self.random, account) } else { small(&mut self.random, account) };
        let transaction = self.free(account);
        self.message(transaction, at, |head| Message::request(head, event))
    }

    /// A request that no outcome allows, mostly beside an Open or a Close that is undecided: there outcomes reject it for
    /// different reasons. One that some outcome allows is held before it now and then, so that it is held too, and has
    /// another reason on its turn.
    fn reasons(&mut self, at: u16, account: &Account) -> Message {
        let newest = account.with(Standing::Undecided).last().copied();
        let held = account.with(Standing::Held).len();
        let differ = lives_differ(account);
        let decided = match (self.left, held) {
            (0..2, _) => 90,
            (_, 2..) => 30,
            _ => 15,
        };
        if let (true, Some(newest)) = (differ, newest.filter(|_| self.random.chance(decided))) {
            // A closed account rejects everything from then on: most are kept from it.
            let closing = account.outcomes()[0].life == Life::Opened;
            let commits = if closing { 15 } else { 60 };
            let decision = if self.random.chance(commits) { Message::Commit } else { Message::Abort };
            return self.message(newest, at, decision);
        }
        if held == PLACES {
            return self.decide(at, account);
        }
        let event = match self.random.below(10) {
            0..=2 if differ && held == 0 => possible(&mut self.random, account),
            0..=3 if !differ && unopened(account) => small(&mut self.random, account),
            0 if !differ && self.many_last() => Event::Close,
            _ => hopeless(&mut self.random, account),
        };
        self.request(at, account, event)
    }

    /// A message of any kind and any numbers.
    fn anything(&mut self, at: u16) -> Message {
        let kind = self.random.between(1, 6) as u8;
        let transaction = self.random.between(0, 24) as u32;
        let amount = if self.random.chance(50) { self.random.number() as u32 } else { self.random.below(200) as u32 };
        self.message(transaction, at, |head| of_kind(kind, head, amount))
    }

    /// A request with a number that is free, mostly.
    fn request(&mut self, at: u16, account: &Account, event: Event) -> Message {
        let transaction = if self.random.chance(95) { self.free(account) } else { self.number(account) };
        self.message(transaction, at, |head| Message::request(head, event))
    }

    /// A transaction number with no standing on the account.
    fn free(&mut self, account: &Account) -> u32 {
        loop {
            let transaction = self.number(account);
            if account.standing(transaction).is_none() {
                return transaction;
            }
        }
    }

    /// Some transaction number.
    fn number(&mut self, account: &Account) -> u32 {
        if self.random.chance(3) {
            return self.random.pick(&[0, 1, 255, 256, 1 << 24, u32::MAX, account.undecided() as u32]);
        }
        if self.pool == 0 {
            self.random.number() as u32
        } else {
            self.random.between(1, self.pool) as u32
        }
    }

    /// A message with those numbers and the next second.
    fn message(&mut self, transaction: u32, account: u16, message: impl FnOnce(Head) -> Message) -> Message {
        let (second, growth) = self.second;
        self.second.0 = second.wrapping_add(self.random.between(0, u64::from(growth)) as u32);
        message(Head { transaction, account, second })
    }
}

/// The message of a kind, 1 to 6.
pub fn of_kind(kind: u8, head: Head, amount: u32) -> Message {
    Message::of(kind, head, amount).unwrap_or(Message::Abort(head))
}
