//! The examples of `docs/REGISTER.md` on the independent implementation.

use independent::document::{examples, messages, SAMPLE};
use independent::program;
use independent::rules::Document;

/// The sample, byte for byte.
#[test]
fn the_sample() {
    let words = "open 1 100, commit 1, withdraw 2 60, withdraw 3 60, abort 2, commit 3";
    assert_eq!(program::text(&messages(words).concat(), &Document), SAMPLE);
}

/// The cases of 14, and the programs that look right and are not.
#[test]
fn cases() {
    for example in examples() {
        let text = example.target.text(&example.input, &Document);
        let end = &text[text.len().saturating_sub(400)..];
        assert!(text.ends_with(&example.ends_in), "{}: {end}\nshould end in\n{}", example.name, example.ends_in);
    }
    for number in 1..=10 {
        let name = format!("case {number}");
        assert!(examples().iter().any(|example| example.name == name), "{name} is missing");
    }
}

/// A commit before an older undecided event waits for it, and both are then applied in arrival order.
#[test]
fn commits_out_of_order() {
    let words = "open 1 100, commit 1, deposit 2 50, withdraw 3 50, commit 3, commit 2";
    let text = program::text(&messages(words).concat(), &Document);
    let end =
        "noted 3 0 100\nnoted 2 0 100\napplied 2 0 100 deposit 50 150\napplied 3 0 100 withdraw 50 100\nend 6 0\n";
    assert!(text.ends_with(end), "{text}");
}

/// Two requests in one second are two events; a transaction number returns once its event has ended.
#[test]
fn places_in_the_sequence() {
    let words = "open 1 100, commit 1, withdraw 1 5, commit 1, withdraw 1 5, abort 1, withdraw 1 200, withdraw 1 1";
    let text = program::text(&messages(words).concat(), &Document);
    let end = "accepted 1 0 100 withdraw 5 1\nnoted 1 0 100\napplied 1 0 100 withdraw 5 95\n\
               accepted 1 0 100 withdraw 5 1\ndropped 1 0 100 withdraw 5\n\
               rejected 1 0 100 withdraw 200 1 3\naccepted 1 0 100 withdraw 1 1\nend 8 0\n";
    assert!(text.ends_with(end), "{text}");
}

/// The held requests are looked at after the abort of a held one, and stop at the first that stays.
#[test]
fn abort_of_a_held_request() {
    let words = "open 1 100, commit 1, withdraw 2 60, withdraw 3 50, deposit 4 1, withdraw 5 200, withdraw 6 45, \
                 deposit 7 1, abort 3";
    let text = program::text(&messages(words).concat(), &Document);
    let end = "dropped 3 0 100 withdraw 50\naccepted 4 0 100 deposit 1 2\nrejected 5 0 100 withdraw 200 4 3\nend 9 0\n";
    assert!(text.ends_with(end), "{text}");
}

/// Refusals in the order of the list.
#[test]
fn refusals() {
    let text = |bytes: &[u8]| program::text(bytes, &Document);
    assert_eq!(text(&[]), "register 1\nend 0 0\n");
    assert_eq!(text(&[9]), "register 1\nrefused 2\nend 1 1\n");
    assert_eq!(text(&[4, 0, 0, 0, 1, 0, 16, 0, 0, 0]), "register 1\nrefused 1\nend 1 1\n");
    assert_eq!(text(&[4, 0, 0, 0, 1, 0, 16, 0, 0, 0, 0]), "register 1\nrefused 3\nend 1 1\n");
    let words = "open 1 100, open 1 100, commit 2, abort 2, withdraw 3 50, commit 3, abort 9, withdraw 2 1, abort 2";
    let answer = "register 1\naccepted 1 0 100 open 100 1\nrefused 6\nrefused 8\nrefused 8\n\
                  held 3 0 100 withdraw 50 2\nrefused 9\nrefused 8\nheld 2 0 100 withdraw 1 0\n\
                  dropped 2 0 100 withdraw 1\nend 9 5\n";
    assert_eq!(text(&messages(words).concat()), answer);
    let words = "open 1 100, commit 1, withdraw 2 1, withdraw 3 1, commit 3, commit 3, abort 3";
    assert!(text(&messages(words).concat()).ends_with("noted 3 0 100\nrefused 10\nrefused 11\nend 7 2\n"));
}
