//! The constants of the header, of this wrapper and of the library are the same.

use nacozteya::{
    call, line, reason, Reason, Refusal, ACCOUNT_WORDS, LONGEST_LINE, REGISTER_WORDS, REJECTED, REJECTED_BEFORE, ROOM,
};
use std::fs;

/// A number that the header has behind some words.
fn number_behind(words: &str) -> usize {
    let header = fs::read_to_string(concat!(env!("CARGO_MANIFEST_DIR"), "/../../include/nacozteya.h")).expect("header");
    let number =
        header.lines().find_map(|line| line.trim().strip_prefix(words)?.split([',', ' ']).next()?.parse().ok());
    number.unwrap_or_else(|| panic!("no number behind {words}"))
}

/// A number that the header defines.
fn defined(name: &str) -> usize {
    number_behind(&format!("#define {name} "))
}

/// A number that the header lists.
fn listed(name: &str) -> usize {
    number_behind(&format!("{name} = "))
}

/// Open 5 under transaction 1 on an account.
fn open(account: u8) -> [u8; 15] {
    [1, 0, 0, 0, 1, 0, account, 0, 0, 0, 0, 0, 0, 0, 5]
}

/// The answer to a message on a zeroed image of so many words, with so much room.
fn answer(words: usize, room: usize, account: u8) -> Result<usize, u8> {
    let (mut image, mut entries) = (vec![0; words], vec![0; room]);
    call(&mut image, &open(account), &mut entries).map(|taken| taken.written).map_err(Refusal::number)
}

#[test]
fn the_header_says_what_the_wrapper_says() {
    assert_eq!(defined("NACOZTEYA_ACCOUNT_WORDS"), ACCOUNT_WORDS);
    assert_eq!(defined("NACOZTEYA_REGISTER_WORDS"), REGISTER_WORDS);
    assert_eq!(defined("NACOZTEYA_LONGEST_CALL"), ROOM);
    assert_eq!(defined("NACOZTEYA_LONGEST_LINE"), LONGEST_LINE);
    assert_eq!(listed("NACOZTEYA_ENTRY_REJECTED"), usize::from(REJECTED));
    assert_eq!(listed("NACOZTEYA_ENTRY_REJECTED_BEFORE"), usize::from(REJECTED_BEFORE));
}

/// The first word of the line of an entry of a kind, with room for any body.
fn name_of(kind: usize) -> Option<String> {
    let mut entry = [0; 20];
    (entry[0], entry[11]) = (kind as u8, 1);
    line(&entry).map(|(text, _)| text.split(' ').next().unwrap_or_default().to_string())
}

/// Each kind of the header has its line in the library, and the kinds beside them have none.
#[test]
fn the_library_has_the_kinds() {
    for (kind, name) in [
        ("ACCEPTED", "accepted"),
        ("REJECTED_BEFORE", "rejected"),
        ("HELD", "held"),
        ("NOTED", "noted"),
        ("APPLIED", "applied"),
        ("DROPPED", "dropped"),
        ("REJECTED", "rejected"),
    ] {
        assert_eq!(name_of(listed(&format!("NACOZTEYA_ENTRY_{kind}"))).as_deref(), Some(name));
    }
    let unlisted = (0..256).filter(|kind| !(17..=23).contains(kind));
    assert!(unlisted.map(name_of).all(|name| name.is_none()));
}

/// The entry that answers a request of a kind with an amount, on an account 0 with that life and balance.
fn answered(life: u32, balance: u32, kind: u8, amount: u32) -> Vec<u8> {
    let (mut image, mut entries) = (vec![0; REGISTER_WORDS], vec![0; ROOM]);
    (image[0], image[1]) = (life, balance);
    let request = [&[kind, 0, 0, 0, 1, 0, 0, 0, 0, 0, 0], &amount.to_be_bytes()[..]].concat();
    let taken = call(&mut image, &request, &mut entries).expect("taken");
    entries[..taken.written].to_vec()
}

/// Each reason of the header, given by the library.
#[test]
fn the_library_has_the_reasons() {
    for (name, life, kind, amount) in
        [("LIFE", 0, 3, 5), ("ZERO", 1, 2, 0), ("STEPS", 1, 2, 101), ("LIMIT", 1, 3, 999_901)]
    {
        let given = reason(&answered(life, if life == 1 { 100 } else { 0 }, kind, amount));
        assert_eq!(given.map(Reason::number).map(usize::from), Some(listed(&format!("NACOZTEYA_REASON_{name}"))));
    }
    assert_eq!(reason(&answered(1, 100, 2, 100)), None);
    assert_eq!(reason(&[]), None);
}

/// Account 15 has all its words in an image of that length, and not in a shorter one.
#[test]
fn the_library_has_as_many_words() {
    assert_eq!(answer(REGISTER_WORDS, ROOM, 15), Ok(18));
    assert_eq!(answer(REGISTER_WORDS - 1, ROOM, 15), Err(5));
    for account in 0..16 {
        let words = ACCOUNT_WORDS * (usize::from(account) + 1);
        assert_eq!(answer(words, ROOM, account), Ok(18));
        assert_eq!(answer(words - 1, ROOM, account), Err(5));
    }
    assert_eq!(answer(0, ROOM, 0), Err(5));
}

/// 4 where there is less room, before 5.
#[test]
fn the_library_asks_for_as_much_room() {
    assert_eq!(answer(REGISTER_WORDS, ROOM, 0), Ok(18));
    assert_eq!(answer(REGISTER_WORDS, ROOM - 1, 0), Err(4));
    assert_eq!(answer(0, ROOM - 1, 0), Err(4));
}

/// The longest line has just that many bytes.
#[test]
fn the_longest_line_is_as_long() {
    let mut entry = [255; 19];
    (entry[0], entry[5], entry[6], entry[11]) = (REJECTED, 0, 15, 2);
    let (text, length) = line(&entry).expect("a line");
    assert_eq!(text, "rejected 4294967295 15 4294967295 withdraw 4294967295 65535 255\n");
    assert_eq!(length, entry.len());
    assert!(text.len() <= LONGEST_LINE);
    assert_eq!(reason(&entry).map(Reason::number), Some(255));
}

/// A rejection of before is read: its line and its length are what they were, and it has no reason.
#[test]
fn a_rejection_of_before_is_read() {
    let entry = [REJECTED_BEFORE, 0, 0, 0, 1, 0, 15, 0, 0, 0, 3, 2, 0, 0, 0, 9, 0, 128, 3];
    assert_eq!(line(&entry), Some(("rejected 1 15 3 withdraw 9 128\n".to_string(), 18)));
    assert_eq!(reason(&entry), None);
}
