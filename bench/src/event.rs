//! The four events, their guards, reasons and effects (`docs/REGISTER.md`, 3.1 and 3.4).

use crate::limits::LIMIT;

/// What an account is: new, opened or closed.
#[derive(Clone, Copy, PartialEq, Eq, Debug)]
pub enum Life {
    New,
    Opened,
    Closed,
}

/// The applied state of an account, or its state in an outcome.
#[derive(Clone, Copy, PartialEq, Eq, Debug)]
pub struct State {
    pub life: Life,
    pub balance: u32,
}

/// An event with its amount; Close has none.
#[derive(Clone, Copy, PartialEq, Eq, Debug)]
pub enum Event {
    Open(u32),
    Withdraw(u32),
    Deposit(u32),
    Close,
}

impl Life {
    /// The word that stands for it in a line.
    pub fn name(self) -> &'static str {
        match self {
            Life::New => "new",
            Life::Opened => "opened",
            Life::Closed => "closed",
        }
    }
}

impl State {
    /// The state of a fresh account.
    pub const FRESH: State = State { life: Life::New, balance: 0 };
}

impl Event {
    /// The event of a kind, 1 to 4; Close takes no notice of the amount.
    pub fn of(kind: u8, amount: u32) -> Option<Event> {
        match kind {
            1 => Some(Event::Open(amount)),
            2 => Some(Event::Withdraw(amount)),
            3 => Some(Event::Deposit(amount)),
            4 => Some(Event::Close),
            _ => None,
        }
    }

    /// The event kind, 1 to 4.
    pub fn kind(self) -> u8 {
        match self {
            Event::Open(_) => 1,
            Event::Withdraw(_) => 2,
            Event::Deposit(_) => 3,
            Event::Close => 4,
        }
    }

    /// The amount, 0 for Close.
    pub fn amount(self) -> u32 {
        match self {
            Event::Open(amount) | Event::Withdraw(amount) | Event::Deposit(amount) => amount,
            Event::Close => 0,
        }
    }

    /// The name that a line of the program has for it.
    pub fn name(self) -> &'static str {
        match self {
            Event::Open(_) => "open",
            Event::Withdraw(_) => "withdraw",
            Event::Deposit(_) => "deposit",
            Event::Close => "close",
        }
    }
}

/// Why an event is not possible in a state: its life is another than the event asks for, ..
pub const OTHER_LIFE: u8 = 1;
pub const AMOUNT_ZERO: u8 = 2;
pub const TOO_FEW_STEPS: u8 = 3;
pub const OVER_THE_LIMIT: u8 = 4;

/// Reasons and effects, one row of the table each.
pub trait EventRules: Sized {
    /// Why an event is not possible in a state, the first reason that applies; none where it is possible.
    fn reason(&self, event: Event, state: State) -> Option<u8> {
        let asked = if matches!(event, Event::Open(_)) { Life::New } else { Life::Opened };
        let over = u64::from(state.balance) + u64::from(event.amount()) > u64::from(LIMIT);
        match event {
            _ if state.life != asked => Some(OTHER_LIFE),
            Event::Withdraw(0) | Event::Deposit(0) => Some(AMOUNT_ZERO),
            Event::Withdraw(amount) if state.balance < amount => Some(TOO_FEW_STEPS),
            Event::Deposit(_) if over => Some(OVER_THE_LIMIT),
            Event::Open(amount) if amount > LIMIT => Some(OVER_THE_LIMIT),
            _ => None,
        }
    }

    /// Whether the guard of an event holds in a state: there is no reason against it.
    fn guard(&self, event: Event, state: State) -> bool {
        self.reason(event, state).is_none()
    }

    /// The state after an event whose guard holds.
    fn effect(&self, event: Event, state: State) -> State {
        let opened = |balance| State { life: Life::Opened, balance };
        match event {
            Event::Open(amount) => opened(amount),
            Event::Withdraw(amount) => opened(state.balance.wrapping_sub(amount)),
            Event::Deposit(amount) => opened(state.balance.wrapping_add(amount)),
            Event::Close => State { life: Life::Closed, balance: 0 },
        }
    }
}
