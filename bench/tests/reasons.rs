//! Reasons of rejections (`docs/REGISTER.md`, 3.4 and 4.7) on the independent implementation, and that streams meet them.

use independent::account::Account;
use independent::entry::Entry;
use independent::event::{Event, EventRules, Life, State};
use independent::image::{Image, Place};
use independent::limits::{ACCOUNTS, PLACES};
use independent::outcomes::Vote;
use independent::random::Random;
use independent::register::RegisterRules;
use independent::rules::Document;
use independent::streams::traffic::Traffic;
use std::collections::HashMap;

/// The guards of the table, row by row.
fn possible(event: Event, State { life, balance }: State) -> bool {
    match event {
        Event::Open(amount) => life == Life::New && amount <= 1_000_000,
        Event::Withdraw(amount) => life == Life::Opened && 1 <= amount && amount <= balance,
        Event::Deposit(amount) => {
            life == Life::Opened && 1 <= amount && u64::from(balance) + u64::from(amount) <= 1_000_000
        }
        Event::Close => life == Life::Opened,
    }
}

/// Every event in every life, at amounts and balances around each line: a reason stands where the guard is false, and it
/// is the first that applies.
#[test]
fn the_first_that_applies() {
    let numbers = [0, 1, 2, 99, 100, 101, 999_999, 1_000_000, 1_000_001, u32::MAX];
    let states = [Life::New, Life::Opened, Life::Closed]
        .into_iter()
        .flat_map(|life| numbers[..8].iter().map(move |balance| State { life, balance: *balance }));
    for (state, amount) in states.flat_map(|state| numbers.map(|amount| (state, amount))) {
        for event in [Event::Open(amount), Event::Withdraw(amount), Event::Deposit(amount), Event::Close] {
            let expected = match (event, state.life) {
                _ if possible(event, state) => None,
                (Event::Open(_), Life::New) => Some(4),
                (Event::Withdraw(0) | Event::Deposit(0), Life::Opened) => Some(2),
                (Event::Withdraw(_), Life::Opened) => Some(3),
                (Event::Deposit(_), Life::Opened) => Some(4),
                _ => Some(1),
            };
            assert_eq!(Document.reason(event, state), expected, "{event:?} in {state:?}");
            assert_eq!(Document.guard(event, state), possible(event, state), "{event:?} in {state:?}");
        }
    }
}

/// Rejections met, by their reason.
#[derive(Debug, Default)]
struct Met {
    all: [u64; 5],
    /// Those whose outcomes have different reasons.
    differing: [u64; 5],
    /// Those where the applied state alone, without committed events that wait, has another reason or none.
    waiting: u64,
    /// Those of a request that was held and had another reason in some outcome then, and in outcome 0.
    held: [u64; 5],
    held_first: [u64; 5],
    /// The reasons that each held request had in the outcomes when it was held.
    then: HashMap<(usize, u32), Vec<Option<u8>>>,
}

/// The reason in each rejection is that of outcome 0 of the account as it stands before that entry; and rejections of
/// every reason are met often, also where outcomes differ, also on the turn of a request that was held.
#[test]
fn of_outcome_zero_when_it_is_written() {
    let mut met = Met::default();
    for number in 0..40 {
        let mut traffic = Traffic::on(Random::of(6, number), 2);
        met.then.clear();
        for _ in 0..1_000 {
            let message = traffic.compose();
            let at = usize::from(message.head().account);
            if at < ACCOUNTS {
                let mut image = traffic.register.image(at);
                let entries = Document.single(&mut traffic.register, &message).unwrap_or_default();
                entries.iter().for_each(|entry| met.note(at, &mut image, entry));
                assert_eq!(image, traffic.register.image(at));
            }
        }
    }
    met.then.clear();
    println!("{met:?}");
    for reason in 1..=4 {
        assert!(met.all[reason] > 200 && met.differing[reason] > 50, "{met:?}");
        assert!(met.held[reason] > 20 && met.held_first[reason] > 10, "{met:?}");
    }
    assert!(met.waiting > 50, "{met:?}");
}

impl Met {
    /// Notes an entry on a stored account, and goes on to the account after it.
    fn note(&mut self, at: usize, image: &mut Image, entry: &Entry) {
        let outcomes = Account::stored(image, &Document);
        let reasons =
            |event| outcomes.outcomes().iter().map(|state| Document.reason(event, *state)).collect::<Vec<_>>();
        if let Entry::Voted { vote, request, reason, .. } = *entry {
            let now = reasons(request.event);
            match vote {
                Vote::Rejected => {
                    assert_eq!(reason, now[0]);
                    let then = self.then.remove(&(at, request.transaction)).unwrap_or_default();
                    self.rejected(usize::from(reason.expect("a reason")), &now, &then);
                    self.waiting += u64::from(Document.reason(request.event, image.state) != reason);
                }
                Vote::Held => {
                    assert_eq!(reason, None);
                    self.then.insert((at, request.transaction), now);
                }
                Vote::Accepted => assert_eq!(reason, None),
            }
        }
        *image = after(image, entry);
    }

    /// Counts a rejection by the reasons of its outcomes, and by those that it had when it was held, if it was.
    fn rejected(&mut self, reason: usize, now: &[Option<u8>], then: &[Option<u8>]) {
        let other = |found: &Option<u8>| found.is_some() && *found != now[0];
        self.all[reason] += 1;
        self.differing[reason] += u64::from(now.iter().any(other));
        self.held[reason] += u64::from(then.iter().any(other));
        self.held_first[reason] += u64::from(then.first().is_some_and(other));
    }
}

/// The stored account after an entry, by what the entry says.
fn after(image: &Image, entry: &Entry) -> Image {
    let (mut progress, mut held) = (image.progress_places().to_vec(), image.held_places().to_vec());
    let mut state = image.state;
    let own = |place: &Place| place.request.transaction == entry.filed().0;
    match *entry {
        Entry::Voted { vote, request, .. } => {
            held.retain(|place| !own(place));
            let place = Place { request, committed: false };
            progress.extend((vote == Vote::Accepted).then_some(place));
            held.extend((vote == Vote::Held).then_some(place));
        }
        Entry::Noted { .. } => progress.iter_mut().filter(|place| own(place)).for_each(|place| place.committed = true),
        Entry::Applied { request, .. } => {
            state = Document.effect(request.event, state);
            progress.retain(|place| !own(place));
        }
        Entry::Dropped { .. } => {
            progress.retain(|place| !own(place));
            held.retain(|place| !own(place));
        }
    }
    let mut after = Image { state, in_progress: progress.len() as u32, held: held.len() as u32, ..Image::FRESH };
    after.places[..progress.len()].copy_from_slice(&progress);
    after.places[PLACES..][..held.len()].copy_from_slice(&held);
    after
}
