//! The probe's page on the independent implementation: lines written by hand from it.

use independent::probe;
use independent::rules::Document;

/// The lines between the first and the last for frames given as code and payload.
fn lines(frames: &[(u8, &[u8])]) -> Vec<String> {
    let frame =
        |(code, payload): &(u8, &[u8])| [&[*code], &(payload.len() as u16).to_be_bytes()[..], *payload].concat();
    let input: Vec<u8> = frames.iter().flat_map(frame).collect();
    let text = probe::text(&input, &Document);
    let all: Vec<&str> = text.lines().collect();
    assert_eq!(all[0], "probe 1");
    assert_eq!(all[all.len() - 1], format!("end {}", frames.len()));
    all[1..all.len() - 1].iter().map(|line| line.to_string()).collect()
}

const OPEN_SEVEN: [u8; 17] = [1, 67, 1, 0, 0, 0, 9, 0, 0, 0, 0, 0, 5, 0, 0, 0, 7];

/// Empty, torn and unknown input.
#[test]
fn input_as_a_whole() {
    let text = |bytes: &[u8]| probe::text(bytes, &Document);
    assert_eq!(text(&[]), "probe 1\nend 0\n");
    assert_eq!(text(&[6]), "probe 1\ntorn\nend 1\n");
    assert_eq!(text(&[99, 0]), "probe 1\ntorn\nend 1\n");
    assert_eq!(text(&[6, 0, 2, 0]), "probe 1\ntorn\nend 1\n");
    assert_eq!(text(&[6, 0, 2, 0, 0, 6, 0, 2]), "probe 1\naccount new 0 0 0\ntorn\nend 2\n");
    assert_eq!(text(&[0, 0, 1, 7, 63, 0, 0, 6, 0, 0]), "probe 1\nunknown\nunknown\nunknown\nend 3\n");
}

/// Frame 1, and frame 6 between the calls.
#[test]
fn calls() {
    let answers = lines(&[
        (1, &[1]),
        (1, &[4, 1]),
        (1, &[1, 67]),
        (1, &[0, 0, 9]),
        (1, &OPEN_SEVEN[..16]),
        (1, &[0, 0, 1, 0, 0, 0, 9, 0, 0, 0, 0, 0, 5, 0, 0, 0, 7]),
        (1, &OPEN_SEVEN),
        (6, &[0, 0]),
        (1, &OPEN_SEVEN),
        (1, &[4, 0, 5, 0, 0, 0, 9, 0, 0, 0, 0, 0, 6, 200, 201]),
        (6, &[0, 0]),
    ]);
    let expected = [
        "unknown",
        "unknown",
        "refused 1 kept",
        "refused 2 kept",
        "refused 1 kept",
        "refused 4 kept",
        "taken 15 18 110000000900000000000501000000070001 kept",
        "account new 0 1 0 0=9:5:1:7:u",
        "refused 6 kept",
        "taken 11 31 14000000090000000000061500000009000000000005010000000700000007 kept",
        "account opened 7 0 0",
    ];
    assert_eq!(answers, expected);
}

/// The longest line of an account has 677 bytes.
#[test]
fn the_longest_line() {
    let highest = |field, place| [0, 0, field, place, 255, 255, 255, 255];
    let mut payloads = vec![[0, 0, 0, 0, 0, 0, 0, 1], highest(1, 0), highest(2, 0), highest(3, 0)];
    for place in 0..16 {
        payloads.extend([highest(4, place), highest(5, place), highest(7, place), [0, 0, 8, place, 0, 0, 0, 1]]);
    }
    let mut frames: Vec<(u8, &[u8])> = payloads.iter().map(|payload| (5, &payload[..])).collect();
    frames.push((6, &[0, 0]));
    assert_eq!(lines(&frames).last().map(String::len), Some(677));
}

/// Frame 2.
#[test]
fn outcome_questions() {
    let answers = lines(&[
        (2, &[0, 0, 0, 0, 0, 0]),
        (2, &[0, 0, 0, 0, 0, 1]),
        (2, &[0, 16, 0, 0, 0, 0]),
        (1, &OPEN_SEVEN),
        (2, &[0, 0, 0, 0, 0, 0]),
        (2, &[0, 0, 0, 0, 0, 1]),
        (2, &[0, 0, 1, 0, 0, 0]),
        (2, &[0, 0, 0, 0, 0]),
    ]);
    assert_eq!(answers[..3], ["outcome new 0 0", "refused 12", "refused 3"]);
    assert_eq!(answers[4..], ["outcome new 0 0", "outcome opened 7 1", "refused 12", "unknown"]);
}

/// Frames 3 and 4.
#[test]
fn readers_and_writers() {
    let answers = lines(&[
        (3, &[]),
        (3, &[5, 0, 0, 1, 0, 0, 15, 0, 0, 0, 2, 77]),
        (3, &[7]),
        (4, &[4, 0, 0, 0, 1, 0, 2, 0, 0, 0, 3, 9, 9, 9, 9, 0, 11]),
        (4, &[4, 0, 0, 0, 1, 0, 2, 0, 0, 0, 3, 9, 9, 9, 9, 0, 10]),
        (4, &[4, 0, 0, 0, 1, 0, 16, 0, 0, 0, 3, 9, 9, 9, 9, 0, 0]),
        (4, &[7, 0, 0, 0, 1, 0, 2, 0, 0, 0, 3, 9, 9, 9, 9, 0, 11]),
        (4, &[3, 0, 0, 0, 1, 0, 2, 0, 0, 0, 3, 0, 0, 0, 9, 4, 0]),
        (4, &[3, 0, 0, 0, 1, 0, 2, 0, 0, 0, 3, 0, 0, 0, 9, 4, 1]),
    ]);
    let expected = [
        "refused 1",
        "message 5 256 15 2 0 11",
        "refused 2",
        "written 11 0400000001000200000003 kept",
        "refused 4 kept",
        "refused 3 kept",
        "unknown",
        "written 15 030000000100020000000300000009 kept",
        "unknown",
    ];
    assert_eq!(answers, expected);
}

/// Frame 7.
#[test]
fn entries() {
    let answers = lines(&[
        (7, &[]),
        (7, &[20, 0, 0, 0, 1, 0, 2, 0, 0, 0, 3, 8]),
        (7, &[20, 0, 0, 0, 1, 0, 16, 0, 0, 0, 3]),
        (7, &[17, 0, 0, 0, 1, 0, 2, 0, 0, 0, 3, 2, 0, 0, 0, 9, 255, 255]),
        (7, &[21, 0, 0, 0, 1, 0, 2, 0, 0, 0, 3, 4, 0, 0, 0, 0, 255, 255, 255, 255]),
        (7, &[21, 0, 0, 0, 1, 0, 2, 0, 0, 0, 3, 4, 0, 0, 0, 1, 0, 0, 0, 0]),
        (7, &[22, 0, 0, 0, 1, 0, 2, 0, 0, 0, 3, 5, 0, 0, 0, 1]),
        (7, &[22, 0, 0, 0, 1, 0, 2, 0, 0, 0, 3, 3, 255, 255, 255, 255]),
        (7, &[22, 0, 0, 0, 1, 0, 2, 0, 0, 0, 3, 3, 0, 0, 0]),
        (7, &[16, 0, 0, 0, 1, 0, 2, 0, 0, 0, 3]),
        (7, &[18, 0, 0, 0, 1, 0, 2, 0, 0, 0, 3, 2, 0, 0, 0, 9, 0, 2, 3]),
        (7, &[23, 0, 0, 0, 1, 0, 2, 0, 0, 0, 3, 2, 0, 0, 0, 9, 0, 2, 3, 8]),
        (7, &[23, 0, 0, 0, 1, 0, 2, 0, 0, 0, 3, 1, 0, 0, 0, 9, 0, 2, 0]),
        (7, &[23, 0, 0, 0, 1, 0, 2, 0, 0, 0, 3, 4, 0, 0, 0, 0, 0, 2, 255]),
        (7, &[23, 0, 0, 0, 1, 0, 2, 0, 0, 0, 3, 2, 0, 0, 0, 9, 0, 2]),
        (7, &[23, 0, 0, 0, 1, 0, 2, 0, 0, 0, 3, 4, 0, 0, 0, 9, 0, 2, 3]),
        (7, &[24, 0, 0, 0, 1, 0, 2, 0, 0, 0, 3, 2, 0, 0, 0, 9, 0, 2, 3]),
    ]);
    let expected = [
        "none",
        "entry 20 1 2 3 11",
        "none",
        "entry 17 1 2 3 2 9 65535 18",
        "entry 21 1 2 3 4 0 4294967295 20",
        "none",
        "none",
        "entry 22 1 2 3 3 4294967295 16",
        "none",
        "none",
        "entry 18 1 2 3 2 9 2 18",
        "entry 23 1 2 3 2 9 2 3 19",
        "entry 23 1 2 3 1 9 2 0 19",
        "entry 23 1 2 3 4 0 2 255 19",
        "none",
        "none",
        "none",
    ];
    assert_eq!(answers, expected);
}

/// Frame 67.
#[test]
fn lines_of_text() {
    let answers = lines(&[
        (67, &[]),
        (67, &[20, 0, 0, 0, 1, 0, 2, 0, 0, 0, 3, 8]),
        (67, &[18, 0, 0, 0, 1, 0, 15, 0, 0, 0, 3, 2, 0, 0, 0, 9, 0, 128]),
        (67, &[23, 0, 0, 0, 1, 0, 15, 0, 0, 0, 3, 2, 0, 0, 0, 9, 0, 128, 3]),
        (67, &[23, 0, 0, 0, 1, 0, 15, 0, 0, 0, 3, 2, 0, 0, 0, 9, 0, 128, 0]),
        (67, &[23, 0, 0, 0, 1, 0, 15, 0, 0, 0, 3, 2, 0, 0, 0, 9, 0, 128]),
        (67, &[21, 0, 0, 0, 1, 0, 2, 0, 0, 0, 3, 4, 0, 0, 0, 0, 255, 255, 255, 255]),
        (67, &[22, 0, 0, 0, 1, 0, 2, 0, 0, 0, 3, 3, 0, 0, 0, 7]),
        (67, &[22, 0, 0, 0, 1, 0, 16, 0, 0, 0, 3, 3, 0, 0, 0, 7]),
        (67, &[22, 0, 0, 0, 1, 0, 2, 0, 0, 0, 3, 4, 0, 0, 0, 7]),
    ]);
    let expected = [
        "none",
        "noted 1 2 3",
        "rejected 1 15 3 withdraw 9 128",
        "rejected 1 15 3 withdraw 9 128 3",
        "rejected 1 15 3 withdraw 9 128 0",
        "none",
        "applied 1 2 3 close 0 4294967295",
        "dropped 1 2 3 deposit 7",
        "none",
        "none",
    ];
    assert_eq!(answers, expected);
}

/// Frames 64 and 68; the amount of a Close and of a commit is not looked at.
#[test]
fn orders_and_steps() {
    let answers = lines(&[
        (64, &[0, 3]),
        (68, &[0, 3, 1, 0, 0, 0, 1, 0, 0, 0, 2, 0, 0, 0, 5]),
        (68, &[0, 3, 2, 0, 0, 0, 2, 0, 0, 0, 3, 0, 0, 0, 6]),
        (68, &[0, 3, 2, 0, 0, 0, 2, 0, 0, 0, 3, 0, 0, 0, 4]),
        (68, &[0, 3, 2, 0, 0, 0, 2, 0, 0, 0, 3, 0, 0, 0, 4]),
        (68, &[0, 3, 5, 0, 0, 0, 1, 0, 0, 0, 7, 9, 9, 9, 9]),
        (68, &[0, 3, 6, 0, 0, 0, 2, 0, 0, 0, 7, 9, 9, 9, 9]),
        (68, &[0, 3, 4, 0, 0, 0, 0, 0, 0, 0, 0, 9, 9, 9, 9]),
        (68, &[0, 3, 5, 0, 0, 0, 0, 0, 0, 0, 0, 0, 0, 0, 0]),
        (6, &[0, 3]),
        (5, &[0, 3, 1, 0, 0, 0, 0, 1]),
        (64, &[0, 3]),
        (68, &[0, 3, 6, 0, 0, 0, 0, 0, 0, 0, 0, 0, 0, 0, 0]),
    ]);
    let expected = [
        "order yes",
        "taken 1 0=17:1:2:1:5:1",
        "taken 1 0=23:2:3:2:6:2:1",
        "taken 1 0=19:2:3:2:4:2",
        "refused 6 0",
        "taken 3 0=20:1:7 1=21:1:2:1:5:5 2=17:2:3:2:4:1",
        "taken 1 0=22:2:3:2:4",
        "taken 1 0=17:0:0:4:0:1",
        "taken 2 1=21:0:0:4:0:0",
        "account closed 0 0 0",
        "set",
        "order no",
        "refused 5 0",
    ];
    assert_eq!(answers, expected);
}

/// Frame 65, with a register of its own.
#[test]
fn runs() {
    let open = &OPEN_SEVEN[2..];
    let commit = [5, 0, 0, 0, 9, 0, 0, 0, 0, 0, 6];
    let run = |room: u16, messages: &[&[u8]]| [&room.to_be_bytes()[..], &messages.concat()].concat();
    let answers = lines(&[
        (5, &[0, 0, 1, 0, 0, 0, 0, 1]),
        (65, &run(0, &[])),
        (65, &run(322, &[open])),
        (65, &run(323, &[open])),
        (65, &run(341, &[open, &commit, &commit])),
        (65, &run(1_024, &[&commit, open, open, &open[..14]])),
        (65, &run(1_024, &[open, &[7], &commit])),
        (65, &run(1_025, &[open])),
        (65, &[1]),
        (6, &[0, 0]),
    ]);
    let expected = [
        "set",
        "ran 0 0 0 0 - kept",
        "ran 1 1 15 0 - kept",
        "ran 1 0 15 18 110000000900000000000501000000070001 kept",
        "ran 3 1 37 49 110000000900000000000501000000070001\
         14000000090000000000061500000009000000000005010000000700000007 kept",
        "ran 4 3 41 18 110000000900000000000501000000070001 kept",
        "ran 2 1 15 18 110000000900000000000501000000070001 kept",
        "unknown",
        "unknown",
        "account new 1 0 0",
    ];
    assert_eq!(answers, expected);
}

/// Frames from 64 on whose payload does not fit, and codes beside them.
#[test]
fn unknown_later_frames() {
    let step = [0, 3, 1, 0, 0, 0, 1, 0, 0, 0, 2, 0, 0, 0, 5];
    let answers = lines(&[
        (64, &[0]),
        (64, &[0, 3, 0]),
        (64, &[0, 16]),
        (68, &step[..14]),
        (68, &[&step[..], &[0]].concat()),
        (68, &[&[0, 16], &step[2..]].concat()),
        (68, &[&[0, 3, 0], &step[3..]].concat()),
        (68, &[&[0, 3, 7], &step[3..]].concat()),
        (66, &[]),
        (69, &step),
        (255, &[]),
        (6, &[0, 3]),
    ]);
    assert_eq!(answers[..11], ["unknown"; 11]);
    assert_eq!(answers[11], "account new 0 0 0");
}

/// Frame 5 on a place and on the counts, whatever order it breaks.
#[test]
fn fields() {
    let answers = lines(&[
        (5, &[0, 3, 0, 9, 0, 0, 0, 1]),
        (5, &[0, 3, 1, 0, 0, 15, 66, 65]),
        (5, &[0, 3, 2, 0, 0, 0, 1, 8]),
        (5, &[0, 3, 7, 15, 0, 0, 0, 6]),
        (5, &[0, 3, 6, 15, 0, 0, 0, 3]),
        (6, &[0, 3]),
        (5, &[0, 3, 6, 15, 0, 0, 0, 4]),
        (5, &[0, 3, 7, 15, 0, 0, 0, 6]),
        (6, &[0, 3]),
        (5, &[0, 3, 6, 15, 0, 0, 0, 2]),
        (5, &[0, 3, 8, 15, 0, 0, 0, 1]),
        (6, &[0, 3]),
    ]);
    assert_eq!(answers[..5], ["set"; 5]);
    assert_eq!(
        answers[5..9],
        ["account opened 1000001 264 0 15=0:0:3:6:u", "set", "unknown", "account opened 1000001 264 0 15=0:0:4:0:u"]
    );
    assert_eq!(answers[9..], ["set", "set", "account opened 1000001 264 0 15=0:0:2:0:c"]);
}

/// Frame 5 with values, fields, places and accounts that are not listed.
#[test]
fn unknown_fields() {
    let answers = lines(&[
        (5, &[0, 3, 0, 0, 0, 0, 0, 3]),
        (5, &[0, 3, 6, 0, 0, 0, 1, 1]),
        (5, &[0, 3, 8, 0, 0, 0, 0, 2]),
        (5, &[0, 3, 9, 0, 0, 0, 0, 1]),
        (5, &[0, 3, 4, 16, 0, 0, 0, 1]),
        (5, &[0, 16, 1, 0, 0, 0, 0, 1]),
        (5, &[0, 3, 1, 0, 0, 0, 1]),
        (6, &[0, 3]),
    ]);
    assert_eq!(answers[..7], ["unknown"; 7]);
    assert_eq!(answers[7], "account new 0 0 0");
}

/// What each public call says of an account that is not in order, and of another beside it.
#[test]
fn not_in_order() {
    let answers = lines(&[
        (5, &[0, 3, 1, 0, 0, 0, 0, 1]),
        (1, &[1, 66, 4, 0, 0, 0, 9, 0, 3, 0, 0, 0, 5]),
        (1, &[1, 67, 4, 0, 0, 0, 9, 0, 3, 0, 0, 0, 5]),
        (2, &[0, 3, 0, 0, 0, 9]),
        (2, &[0, 4, 0, 0, 0, 0]),
        (5, &[0, 3, 1, 0, 0, 0, 0, 0]),
        (2, &[0, 3, 0, 0, 0, 0]),
    ]);
    let expected =
        ["set", "refused 4 kept", "refused 5 kept", "refused 5", "outcome new 0 0", "set", "outcome new 0 0"];
    assert_eq!(answers, expected);
}
