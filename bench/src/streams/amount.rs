//! Requests chosen by what the outcomes of an account allow.

use crate::account::Account;
use crate::event::{Event, Life};
use crate::limits::LIMIT;
use crate::random::Random;

/// Whether no outcome of the account is opened.
pub fn unopened(account: &Account) -> bool {
    account.outcomes().iter().all(|state| state.life != Life::Opened)
        || account.outcomes().iter().any(|state| state.life == Life::New)
}

/// A request that every outcome allows, where there is an easy one.
pub fn small(random: &mut Random, account: &Account) -> Event {
    let (lowest, highest) = span(account);
    if unopened(account) {
        return Event::Open(random.pick(&[0, 1, 10, 100, 1_000, LIMIT - 10, LIMIT]));
    }
    let amount = random.between(1, 3) as u32;
    match (lowest > 50, highest < LIMIT - 50) {
        (true, true) => of(random.pick(&[2, 3]), amount),
        (true, false) => Event::Withdraw(amount),
        _ => Event::Deposit(amount),
    }
}

/// A request that the lowest and the highest outcome tell apart, where there is one.
pub fn squeezing(random: &mut Random, account: &Account) -> Event {
    if unopened(account) {
        return of(random.pick(&[1, 1, 2, 3, 4]), random.between(0, 20) as u32);
    }
    let (lowest, highest) = span(account);
    let within = random.between(u64::from(lowest), u64::from(highest)) as u32;
    match random.below(24) {
        0 => Event::Close,
        1..=6 => Event::Deposit(LIMIT.saturating_sub(within)),
        7..=9 => of(random.pick(&[2, 3]), random.between(1, 60) as u32),
        10..=12 => Event::Withdraw(lowest / 2 + 1),
        _ => Event::Withdraw(within),
    }
}

/// A request that every outcome rejects, for any reason; only an Open can be possible, where no outcome is opened.
pub fn hopeless(random: &mut Random, account: &Account) -> Event {
    let (lowest, highest) = span(account);
    let more = random.pick(&[1, 1, 2, 50, LIMIT]);
    match random.below(8) {
        0 => Event::Open(more),
        1 => Event::Open(LIMIT + more),
        2 => Event::Withdraw(0),
        3 => Event::Deposit(0),
        4 | 5 => Event::Withdraw(highest + more),
        _ => Event::Deposit(LIMIT - lowest + more),
    }
}

/// A request that some outcome allows, mostly, where the lives of the outcomes differ.
pub fn possible(random: &mut Random, account: &Account) -> Event {
    let (_, highest) = span(account);
    match random.below(3) {
        0 if unopened(account) => Event::Open(1),
        1 if highest > 0 => Event::Withdraw(random.between(1, highest.into()) as u32),
        _ => Event::Deposit(1),
    }
}

/// A request with an amount on one side of a line or the other.
pub fn edge(random: &mut Random, account: &Account) -> Event {
    let (lowest, highest) = span(account);
    let line = random.pick(&[0, lowest, highest, LIMIT.wrapping_sub(lowest), LIMIT.wrapping_sub(highest), LIMIT]);
    let amount = match random.below(10) {
        0 => random.number() as u32,
        1 => random.pick(&[u32::MAX, 1 << 31, 0u32.wrapping_sub(lowest), 0u32.wrapping_sub(highest)]),
        _ => random.pick(&[line.wrapping_sub(1), line, line.wrapping_add(1)]),
    };
    let kinds: &[u8] = if unopened(account) { &[1, 1, 1, 2, 3, 4] } else { &[2, 2, 2, 3, 3, 3, 1] };
    let kind = random.pick(kinds);
    if kind != 1 && random.chance(1) {
        Event::Close
    } else {
        of(kind, amount)
    }
}

/// Whether the lives of the outcomes differ: an Open or a Close is undecided.
pub fn lives_differ(account: &Account) -> bool {
    let states = account.outcomes();
    states.iter().any(|state| state.life != states[0].life)
}

/// The lowest and the highest balance among the outcomes.
fn span(account: &Account) -> (u32, u32) {
    let balances = account.outcomes().iter().map(|state| state.balance);
    (balances.clone().min().unwrap_or(0), balances.max().unwrap_or(0))
}

/// The event of a kind, 1 to 4.
pub fn of(kind: u8, amount: u32) -> Event {
    Event::of(kind, amount).unwrap_or(Event::Close)
}
