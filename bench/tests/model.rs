//! What must hold of the model on seeded traffic: its short cuts against the words of
//! `docs/REGISTER.md`, 4.3 and 6.

use independent::event::{EventRules, State};
use independent::image::Image;
use independent::order::{broken, Clause};
use independent::random::Random;
use independent::register::Register;
use independent::rules::{Document, Judged};
use independent::streams::probe::KINDS;
use independent::streams::stream;
use independent::streams::traffic::Traffic;
use independent::subject::Target;
use independent::tally::Tally;

/// The state in an outcome, walked event by event: a committed one counts, an undecided one if its bit is set.
fn walked(image: &Image, number: usize) -> State {
    let mut bit = 0;
    let mut state = image.state;
    for place in image.progress_places() {
        let applied = place.committed || number >> bit & 1 == 1;
        bit += usize::from(!place.committed);
        if applied {
            state = Document.effect(place.request.event, state);
        }
    }
    state
}

/// After every message the account is in order, its stored form gives it back, and the list of
/// outcomes that it keeps is the one of the words.
#[test]
fn kept_outcomes_are_walked_outcomes() {
    for number in 0..12 {
        let mut traffic = Traffic::on(Random::of(5, number), 2);
        for _ in 0..1_500 {
            let at = usize::from(traffic.send().head().account % 16);
            let account = traffic.register.account(at).expect("traffic keeps accounts in order");
            let image = account.image();
            assert_eq!(broken(&image, &Document), []);
            let undecided = image.progress_places().iter().filter(|place| !place.committed).count();
            let states: Vec<State> = (0..1 << undecided).map(|number| walked(&image, number)).collect();
            assert_eq!(account.outcomes(), states);
            let mut register = Register::fresh();
            register.put(at, image, &Document);
            assert_eq!(register.image(at), image);
            assert_eq!(register.account(at).expect("in order").outcomes(), states);
        }
    }
}

/// Judging the order at every call changes nothing on registers that messages lead to.
#[test]
fn judged_calls_agree() {
    for number in 0..24 {
        let input = stream(Target::Program, 9, number).bytes;
        assert_eq!(Target::Program.text(&input, &Judged), Target::Program.text(&input, &Document));
    }
}

/// Few streams reach every vote, refusal, count and clause.
#[test]
fn streams_reach_everything() {
    for target in Target::ALL {
        let mut tally = Tally::default();
        for number in 0..150 {
            let stream = stream(target, 1, number);
            tally.add(target, &stream.bytes, &target.text(&stream.bytes, &Document));
        }
        assert_eq!(tally.lacking(target), Vec::<String>::new());
    }
    assert_eq!(Clause::ALL.len(), 10);
    assert!(KINDS.contains(&"each clause of order alone"));
}

/// The same seed gives the same streams, another seed others.
#[test]
fn seeds() {
    let bytes = |seed| stream(Target::Probe, seed, 3).bytes;
    assert_eq!(bytes(1), bytes(1));
    assert_ne!(bytes(1), bytes(2));
}
