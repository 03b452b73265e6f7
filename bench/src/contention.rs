//! Who waits, and how long: transfers by a fixed number of users, as in source 000's section 5.
//!
//! A tick is the time in which the register handles a message. A message and a vote each travel
//! for a while. A user requests on every account of the transfer, commits when all accept, aborts
//! when one rejects or when it takes too long (two transfers can wait on each other), and starts anew.

use crate::entry::Entry;
use crate::event::Event;
use crate::limits::{LIMIT, ROOM};
use crate::message::{Head, Message};
use crate::outcomes::Vote;
use crate::random::Random;
use crate::register::{Register, RegisterRules, Taken};
use crate::rules::Places;
use std::collections::{BTreeMap, HashMap};

/// Which accounts the transfers are on.
#[derive(Clone, Copy, PartialEq, Eq, Debug)]
pub enum Pattern {
    /// A deposit on an account of the user's own: nothing is shared.
    Own,
    /// From any account to any other.
    Spread,
    /// From any quiet account to the one busy account.
    Busy,
    /// To and from the busy account, which has few steps.
    Tight,
}

/// One simulation.
#[derive(Clone, Copy, Debug)]
pub struct Setting {
    pub pattern: Pattern,
    pub users: u32,
    pub places: usize,
    pub ticks: u64,
    pub seed: u64,
}

/// What came of it.
#[derive(Clone, Debug, Default)]
pub struct Outcome {
    pub transfers: u64,
    pub aborted: u64,
    pub requests: u64,
    pub refused: u64,
    /// For each request that was held: the messages handled from then until it was decided.
    pub waits: Vec<u64>,
    /// Every message, in the order in which the register had them.
    pub messages: Vec<u8>,
}

/// Ticks that a message travels, at least, and by how many that varies.
const TRAVEL: u64 = 20;
const VARIES: u64 = 10;
/// Ticks after which a user gives a transfer up.
const PATIENCE: u64 = 2_000;

/// What happens at a tick.
#[derive(Clone, Copy, Debug)]
enum Happening {
    Arrives(Message),
    TooLong(u32),
}

/// A transfer under way: its requests, and which of them were accepted.
struct Transfer {
    requests: Vec<Message>,
    accepted: usize,
    decided: bool,
}

/// The simulation under way.
struct World {
    setting: Setting,
    random: Random,
    register: Register,
    /// What happens, by tick and then by the order in which it was set down.
    agenda: BTreeMap<(u64, u64), Happening>,
    entered: u64,
    handled: u64,
    transfers: HashMap<u32, Transfer>,
    /// Held requests by transaction and account: the number of messages handled before.
    held: HashMap<(u32, u16), u64>,
    next: u32,
    result: Outcome,
}

/// Runs a simulation.
pub fn simulate(setting: Setting) -> Outcome {
    let mut world = World {
        setting,
        random: Random::of(setting.seed, 0),
        register: Register::fresh(),
        agenda: BTreeMap::new(),
        entered: 0,
        handled: 0,
        transfers: HashMap::new(),
        held: HashMap::new(),
        next: 1_000,
        result: Outcome::default(),
    };
    world.open_all();
    (0..setting.users).for_each(|user| world.start(user, u64::from(user)));
    let mut tick = 0;
    while tick < setting.ticks {
        let Some((&(due, order), _)) = world.agenda.first_key_value() else { break };
        tick = tick.max(due);
        if let Some(happening) = world.agenda.remove(&(due, order)) {
            tick += world.happen(happening, tick);
        }
    }
    world.result
}

impl World {
    /// Opens the sixteen accounts, before the clock runs.
    fn open_all(&mut self) {
        for account in 0..16 {
            let few = self.setting.pattern == Pattern::Tight && account == 0;
            let amount = if few { 25 } else { LIMIT / 2 };
            let head = Head { transaction: u32::from(account), account, second: 0 };
            for message in [Message::request(head, Event::Open(amount)), Message::Commit(head)] {
                let taken = self.send(message);
                debug_assert!(taken.is_ok());
            }
        }
    }

    /// Hands a message to the register.
    fn send(&mut self, message: Message) -> Result<Taken, u8> {
        let bytes = message.bytes();
        self.handled += 1;
        self.result.messages.extend(&bytes);
        Places(self.setting.places).take(&mut self.register, &bytes, ROOM)
    }

    /// Sets something down for a later tick.
    fn enter(&mut self, tick: u64, happening: Happening) {
        self.entered += 1;
        self.agenda.insert((tick, self.entered), happening);
    }

    /// A message's way to the register from a tick on.
    fn travel(&mut self, tick: u64, message: Message) {
        let arrival = tick + TRAVEL + self.random.below(VARIES);
        self.enter(arrival, Happening::Arrives(message));
    }

    /// A user starts a transfer.
    fn start(&mut self, user: u32, tick: u64) {
        // The user is the last three digits of the transaction.
        let transaction = self.next / 1_000 * 1_000 + user;
        self.next += 1_000;
        let requests = self.requests(user, transaction);
        requests.iter().for_each(|request| self.travel(tick, *request));
        self.enter(tick + PATIENCE, Happening::TooLong(transaction));
        self.transfers.insert(transaction, Transfer { requests, accepted: 0, decided: false });
    }

    /// The requests of a transfer: a withdrawal and a deposit of the same amount, or one deposit.
    fn requests(&mut self, user: u32, transaction: u32) -> Vec<Message> {
        let quiet = self.random.between(1, 15) as u16;
        let (from, to) = match self.setting.pattern {
            Pattern::Own => (None, (user % 16) as u16),
            Pattern::Spread => {
                let to = (quiet + self.random.between(1, 15) as u16) % 16;
                (Some(quiet), to)
            }
            Pattern::Busy => (Some(quiet), 0),
            Pattern::Tight if self.random.chance(50) => (Some(quiet), 0),
            Pattern::Tight => (Some(0), quiet),
        };
        let amount = self.random.between(1, 10) as u32;
        let message = |event, account| Message::request(Head { transaction, account, second: 0 }, event);
        let from = from.map(|from| message(Event::Withdraw(amount), from));
        from.into_iter().chain([message(Event::Deposit(amount), to)]).collect()
    }

    /// Lets something happen; gives the ticks that it takes.
    fn happen(&mut self, happening: Happening, tick: u64) -> u64 {
        match happening {
            Happening::TooLong(transaction) => {
                if self.transfers.get(&transaction).is_some_and(|transfer| !transfer.decided) {
                    self.decide(transaction, Message::Abort, tick);
                }
                0
            }
            Happening::Arrives(message) => {
                self.arrive(message, tick);
                1
            }
        }
    }

    /// A message reaches the register, unless it is a request of a transfer given up by now.
    fn arrive(&mut self, message: Message, tick: u64) {
        let request = matches!(message, Message::Request { .. });
        let open = self.transfers.get(&message.head().transaction).is_some_and(|transfer| !transfer.decided);
        if request && !open {
            return;
        }
        self.result.requests += u64::from(request);
        match self.send(message) {
            Ok(taken) => {
                for entry in &taken.entries {
                    self.hear(entry, taken.account, tick);
                }
            }
            Err(_) if request => {
                // Eight are held: the user hears of it and asks again.
                self.result.refused += 1;
                self.travel(tick + TRAVEL, message);
            }
            Err(_) => {}
        }
    }

    /// A user hears of an entry.
    fn hear(&mut self, entry: &Entry, account: u16, tick: u64) {
        let (transaction, _) = entry.filed();
        let vote = match entry {
            Entry::Voted { vote, .. } => Some(*vote),
            _ => None,
        };
        if vote == Some(Vote::Held) {
            self.held.insert((transaction, account), self.handled);
        } else if let Some(since) = self.held.remove(&(transaction, account)) {
            self.result.waits.push(self.handled - since);
        }
        match vote {
            Some(Vote::Rejected) => self.decide(transaction, Message::Abort, tick + TRAVEL),
            Some(Vote::Accepted) => {
                let Some(transfer) = self.transfers.get_mut(&transaction) else { return };
                transfer.accepted += 1;
                if transfer.accepted == transfer.requests.len() && !transfer.decided {
                    self.decide(transaction, Message::Commit, tick + TRAVEL);
                }
            }
            _ => {}
        }
    }

    /// A user decides a transfer on every account of it, and starts another.
    fn decide(&mut self, transaction: u32, decision: fn(Head) -> Message, tick: u64) {
        let Some(transfer) = self.transfers.get_mut(&transaction) else { return };
        if std::mem::replace(&mut transfer.decided, true) {
            return;
        }
        let sent: Vec<Message> = transfer.requests.iter().map(|request| decision(request.head())).collect();
        let committed = sent.iter().all(|message| matches!(message, Message::Commit(_)));
        sent.into_iter().for_each(|message| self.travel(tick, message));
        self.result.transfers += u64::from(committed);
        self.result.aborted += u64::from(!committed);
        self.start(transaction % 1_000, tick + 2 * TRAVEL);
    }
}
