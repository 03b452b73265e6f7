//! The exported call's text on the independent implementation: lines written by hand from the header's promises.

use independent::document::messages;
use independent::exported::{apart, told, BESIDE, HEAD};
use independent::fault::{Fault, Wrong};
use independent::rules::Document;
use independent::streams::stream;
use independent::subject::Target;

/// A stream: room, places for counts, messages in words.
fn asked(room: u16, places: u8, words: &str) -> Vec<u8> {
    let [high, low] = room.to_be_bytes();
    [&[0, high, low, places][..], &messages(words).concat()].concat()
}

/// The model's text, without its first and last line.
fn text(input: &[u8]) -> String {
    let text = Target::Exported.text(input, &Document);
    text.strip_prefix("exported 1\n").and_then(|text| text.strip_suffix("end\n")).expect("both ends").to_string()
}

/// No room, no messages, no places; and a stream that ends within its head.
#[test]
fn nothing() {
    let nothing = "returned 0\ncounts\nkept\n".repeat(2);
    assert_eq!(text(&asked(0, 0, "")), nothing);
    assert_eq!(text(&[]), nothing);
    assert_eq!(text(&[0; HEAD - 1]), nothing);
}

/// As many counts are stored as there are places; a fifth place stays.
#[test]
fn places() {
    let stored = ["", " 2", " 2 2", " 2 2 30", " 2 2 30 0", " 2 2 30 0 18446744073709551615"];
    for (places, stored) in stored.iter().enumerate() {
        let expected = format!("returned 0\ncounts{stored}\nkept\n").repeat(2);
        assert_eq!(text(&asked(0, places as u8, "open 1 5, open 1 5")), expected);
    }
}

/// A refusal 1 or 2 stops, and its bytes are not passed; others are skipped.
#[test]
fn stops() {
    let mut torn = asked(0, 4, "commit 1, abort 1, open 1 5");
    torn.pop();
    assert_eq!(text(&torn), "returned 0\ncounts 3 3 22 0\nkept\n".repeat(2));
    let mut unknown = asked(0, 4, "commit 1");
    unknown.extend([7, 1, 2]);
    assert_eq!(text(&unknown), "returned 0\ncounts 2 2 11 0\nkept\n".repeat(2));
}

/// With room for one call and the 18 bytes of the first, the second is taken and the third refused with 4.
#[test]
fn room_runs_out() {
    let text = text(&asked(341, 4, "open 1 5, commit 1, withdraw 2 1"));
    let lines: Vec<&str> = text.lines().collect();
    assert_eq!(lines.len(), 2 * 14);
    for (run, fill) in [(&lines[..14], "a5"), (&lines[14..], "5a")] {
        assert_eq!(run[..3], ["returned 49", "counts 3 1 41 49", "kept"]);
        assert_eq!(run[3], "1100000001000000000064010000000500011400000001000000000064150000");
        assert_eq!(run[4], "0001000000000064010000000500000005".to_string() + &fill.repeat(15));
        assert_eq!(run[13], fill.repeat(21));
    }
}

/// Whatever stands beside a buffer is looked at, and nothing within it.
#[test]
fn beside() {
    let mut all = [165; 2 * BESIDE + 3];
    for at in 0..all.len() {
        all[at] = 0;
        assert_eq!(apart(&all, 3, 165), (BESIDE..BESIDE + 3).contains(&at));
        all[at] = 165;
    }
}

/// What a run returns, stores and writes is in the text, whether it goes together or not.
#[test]
fn told_as_it_is() {
    let text = told(&asked(2, 2, ""), |_, entries, counts| {
        entries[1] = 16;
        counts[0] = 3;
        7
    });
    assert!(text.contains("returned 7\ncounts 3 18446744073709551615\nkept\na510\nreturned 7\n"), "{text}");
}

/// Only streams of this target find what is wrong in a run alone.
#[test]
fn faults_of_a_run() {
    let differs = |fault, target: Target, number| {
        let bytes = stream(target, 1, number).bytes;
        target.text(&bytes, &Wrong(fault)) != target.text(&bytes, &Document)
    };
    for fault in [Fault::RegisterKept, Fault::FourPlacesOrNone] {
        assert!((0..30).any(|number| differs(fault, Target::Exported, number)), "{fault:?}");
        for target in [Target::Program, Target::Probe] {
            assert!(!(0..30).any(|number| differs(fault, target, number)), "{fault:?}");
        }
    }
}
