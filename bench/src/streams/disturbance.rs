//! Accounts that are not in order, or in order by other ways than messages: frame 5.

use crate::event::{Event, Life, State};
use crate::image::{Image, Place};
use crate::limits::{ACCOUNTS, LIMIT, PLACES, ROOM};
use crate::message::{Head, Message};
use crate::order::{broken, Clause};
use crate::random::Random;
use crate::request::Request;
use crate::rules::Document;
use crate::streams::amount;
use crate::streams::frames::Frames;
use crate::streams::traffic::of_kind;

/// A field, a place and a value, as frame 5 has them.
pub type Change = (u8, u8, u32);

/// Values that a count within limits must not be taken for.
const COUNTS: [u32; 9] = [9, 10, 16, 255, 256, 264, 65_544, 1 << 31, u32::MAX];

/// Breaks the clauses of order one after the other, each alone, and mends the account again.
pub fn clauses(frames: &mut Frames, rounds: usize) {
    let first = frames.traffic.random.below(10) as usize;
    for round in first..first + rounds {
        let clause = Clause::ALL[round % Clause::ALL.len()];
        let account = frames.traffic.random.below(2) as u16;
        let crowded = matches!(clause, Clause::InProgressWithin | Clause::HeldWithin);
        if crowded || frames.traffic.random.chance(40) {
            frames.traffic.turn_to_fill(account, 34);
        }
        for _ in 0..40 {
            let message = frames.traffic.compose();
            frames.call(ROOM, &message.bytes());
            let Head { account, .. } = message.head();
            if usize::from(account) >= ACCOUNTS {
                continue;
            }
            let before = frames.image(account);
            if let Some(changes) = alone(&mut frames.traffic.random, clause, &before) {
                show_broken(frames, account, &changes);
                mend(frames, account, &before);
                break;
            }
        }
    }
}

/// Changes after which the clause is broken and no other, where they are found at once.
fn alone(random: &mut Random, clause: Clause, before: &Image) -> Option<Vec<Change>> {
    let changes = proposal(random, clause, before);
    let mut image = *before;
    let known = changes.iter().all(|change| image.disturb(change.0, change.1, change.2));
    (known && broken(&image, &Document) == [clause]).then_some(changes)
}

/// Changes that may break the clause.
fn proposal(random: &mut Random, clause: Clause, image: &Image) -> Vec<Change> {
    let in_progress = image.progress_places().len() as u64;
    let held = image.held_places().len() as u64;
    let progressing = random.below(in_progress) as u8;
    let holding = (PLACES as u64 + random.below(held)) as u8;
    let amount = random.pick(&[0, 1, LIMIT, LIMIT + 1, u32::MAX]);
    let kind = random.between(1, 4) as u32;
    match clause {
        Clause::InProgressWithin => vec![(2, 0, random.pick(&COUNTS))],
        Clause::HeldWithin => vec![(3, 0, random.pick(&COUNTS))],
        Clause::BalanceWithin => vec![(1, 0, random.pick(&[LIMIT + 1, LIMIT + 9, 1 << 31, u32::MAX]))],
        Clause::TransactionsDiffer => {
            let places = [random.below(in_progress) as u8, holding, progressing];
            let (from, to) = (random.pick(&places), random.pick(&places));
            vec![(4, to, image.places[usize::from(from)].request.transaction)]
        }
        Clause::BlanksBlank => {
            let place = random.below(2 * PLACES as u64) as u8;
            vec![random.pick(&[(4, place, 1), (5, place, 1 << 31), (6, place, kind), (7, place, 256), (8, place, 1)])]
        }
        Clause::BalanceOfUnopened => {
            let balance = random.pick(&[1, 100, LIMIT]);
            vec![random.pick(&[(1, 0, balance), (0, 0, 0), (0, 0, 2)])]
        }
        Clause::GuardsTrue => {
            let lower = random.below(u64::from(image.state.balance) + 1) as u32;
            let life = random.below(3) as u32;
            let of_place = random.pick(&[(7, progressing, amount), (6, progressing, kind), (8, progressing, 0)]);
            vec![random.pick(&[of_place, of_place, (1, 0, lower), (0, 0, life)])]
        }
        Clause::OldestUndecided => vec![(8, 0, 1)],
        Clause::OldestHeldStays if held == 0 => vec![(3, 0, 1), (4, 8, 77), (6, 8, kind), (5, 8, 3)],
        Clause::OldestHeldStays => vec![random.pick(&[(7, 8, amount), (6, 8, kind)])],
        Clause::HeldHasNoDecision => vec![(8, holding, 1)],
    }
}

/// The broken account met by every public call: shown, called, stepped, asked; a run beside it.
fn show_broken(frames: &mut Frames, account: u16, changes: &[Change]) {
    changes.iter().for_each(|change| frames.disturb(account, *change));
    frames.show(account);
    let place = frames.traffic.random.pick(&[0, 1, 8]);
    let head = Head { transaction: frames.image(account).places[place].request.transaction, account, second: 5 };
    for kind in 1..=6 {
        let message = of_kind(kind, head, 1);
        let room = if frames.traffic.random.chance(15) { ROOM - 1 } else { ROOM };
        frames.call(room, &message.bytes());
    }
    let free = Head { transaction: 4_000_000, account, second: 6 };
    frames.call(ROOM, &Message::request(free, Event::Deposit(1)).bytes());
    let elsewhere = Head { account: 15 - account, ..free };
    frames.call(ROOM, &Message::request(elsewhere, Event::Open(1)).bytes());
    let kind = frames.traffic.random.between(1, 6) as u8;
    frames.single(&of_kind(kind, free, 1), 1);
    frames.run(ROOM, &Message::request(free, Event::Open(1)).bytes());
    frames.order(account);
    frames.question(account);
    frames.show(account);
}

/// Sets every field back to what it was.
fn mend(frames: &mut Frames, account: u16, before: &Image) {
    for change in changes(&frames.image(account), before) {
        frames.disturb(account, change);
    }
    frames.show(account);
    frames.order(account);
    frames.question(account);
}

/// The changes that make one stored account of another.
pub fn changes(from: &Image, to: &Image) -> Vec<Change> {
    let mut changes = Vec::new();
    let mut differ = |field: u8, place: usize, old: u32, new: u32| {
        if old != new {
            changes.push((field, place as u8, new));
        }
    };
    differ(0, 0, from.state.life as u32, to.state.life as u32);
    differ(1, 0, from.state.balance, to.state.balance);
    differ(2, 0, from.in_progress, to.in_progress);
    differ(3, 0, from.held, to.held);
    for (at, (from, to)) in from.places.iter().zip(&to.places).enumerate() {
        let (old, new) = (from.request, to.request);
        differ(4, at, old.transaction, new.transaction);
        differ(5, at, old.second, new.second);
        differ(6, at, old.event.kind().into(), new.event.kind().into());
        if new.event != Event::Close {
            // A place that held a Close has the amount 0 by now.
            differ(7, at, old.event.amount(), new.event.amount());
        }
        differ(8, at, from.committed.into(), to.committed.into());
    }
    changes
}

/// Sets any field to any value between the calls; after a while the account is mended.
pub fn at_random(frames: &mut Frames, count: usize) {
    for _ in 0..count {
        let message = frames.traffic.compose();
        let account = message.head().account % 16;
        let before = frames.image(account);
        let times = if frames.traffic.random.chance(30) { frames.traffic.random.between(1, 3) } else { 0 };
        for _ in 0..times {
            let change = any_change(&mut frames.traffic.random, &before);
            let account = if frames.traffic.random.chance(3) { 16 } else { account };
            frames.disturb(account, change);
        }
        frames.call(ROOM, &message.bytes());
        frames.look(account);
        let stuck = frames.traffic.register.account(usize::from(account)).is_none();
        if stuck && frames.traffic.random.chance(60) {
            mend(frames, account, &before);
        }
    }
}

/// Any field, mostly one that is there, and any value, mostly one that is near a line.
fn any_change(random: &mut Random, image: &Image) -> Change {
    let field = random.pick(&[0, 1, 2, 3, 4, 4, 5, 5, 6, 6, 7, 7, 7, 8, 8, 8, 9, 255]);
    let used = image.in_progress.min(8) as u64;
    let place = match random.below(5) {
        0 => random.pick(&[16, 17, 128, 255]),
        1 => random.below(16),
        2 => 8 + random.below(u64::from(image.held.min(8))),
        _ => random.below(used),
    };
    let number = random.pick(&[0, 1, 2, 3, 4, 5, 8, 9, 256, 257, 260, LIMIT, LIMIT + 1, 1 << 16, u32::MAX]);
    let any = random.number() as u32;
    let near = image.places[place as usize % 16].request.event.amount();
    let value = match field {
        0 | 6 | 8 => random.pick(&[0, 1, 2, 3, 4, 1, 2, 256, 258, number]),
        2 => beside(random, image.in_progress, number),
        3 => beside(random, image.held, number),
        7 => beside(random, near, number),
        _ => random.pick(&[number, any]),
    };
    (field, place as u8, value)
}

/// The number itself, one beside it, or another.
fn beside(random: &mut Random, near: u32, other: u32) -> u32 {
    random.pick(&[near.wrapping_sub(1), near.wrapping_add(1), near, other])
}

/// Accounts built field by field, about half of them in order, and calls on them.
pub fn built(frames: &mut Frames, count: usize) {
    for _ in 0..count {
        let account = frames.traffic.random.below(16) as u16;
        let mut image = any_image(&mut frames.traffic.random);
        for _ in 0..frames.traffic.random.pick(&[0, 0, 1, 2]) {
            let (field, place, value) = any_change(&mut frames.traffic.random, &image);
            image.disturb(field, place, value);
        }
        for change in changes(&frames.image(account), &image) {
            frames.disturb(account, change);
        }
        frames.show(account);
        for _ in 0..frames.traffic.random.between(1, 12) {
            let message = frames.traffic.compose_for(account);
            frames.call(ROOM, &message.bytes());
            frames.look(account);
        }
    }
}

/// A stored account that is mostly in order: events are put in progress where their guard allows.
fn any_image(random: &mut Random) -> Image {
    let life = random.pick(&[Life::New, Life::Opened, Life::Opened, Life::Opened, Life::Closed]);
    let balance = if life == Life::Opened { random.pick(&[0, 1, 7, 100, 500_000, LIMIT - 3, LIMIT]) } else { 0 };
    let mut image = Image { state: State { life, balance }, ..Image::FRESH };
    let mut transaction = random.below(3) as u32;
    let mut place = |random: &mut Random, committed| {
        transaction += random.between(1, 3) as u32;
        let amount = random.pick(&[0, 1, 2, 3, 10, 50, 100, balance, LIMIT - balance, LIMIT]);
        let kind = random.pick(&[1, 2, 2, 3, 3, 4]);
        let request = Request { transaction, second: random.below(3) as u32, event: amount::of(kind, amount) };
        Place { request, committed }
    };
    for _ in 0..random.below(30) {
        let at = image.in_progress as usize;
        if at < PLACES {
            let committed = at > 0 && random.chance(40);
            let mut next = image;
            next.places[at] = place(random, committed);
            next.in_progress += 1;
            image = if broken(&next, &Document).is_empty() || random.chance(1) { next } else { image };
        }
    }
    let most = random.below(9);
    for _ in 0..random.below(30) {
        let at = image.held as usize;
        if (at as u64) < most {
            let mut next = image;
            next.places[PLACES + at] = place(random, false);
            next.held += 1;
            image = if broken(&next, &Document).is_empty() { next } else { image };
        }
    }
    image
}
