//! A register that is kept, saved and asked.

use nacozteya::{
    call, line, lines, outlook, reason, Life, Outlook, Refusal, Register, Taken, ACCOUNT_WORDS, REGISTER_WORDS, ROOM,
};

const OPEN: u8 = 1;
const WITHDRAW: u8 = 2;
const CLOSE: u8 = 4;
const COMMIT: u8 = 5;
const ABORT: u8 = 6;

/// A message on an account at second 101.
fn message(kind: u8, transaction: u8, account: u8, amount: u32) -> Vec<u8> {
    let head = [kind, 0, 0, 0, transaction, 0, account, 0, 0, 0, 101];
    let amount: &[u8] = if kind < CLOSE { &amount.to_be_bytes() } else { &[] };
    [&head, amount].concat()
}

/// The text of a call, or its refusal.
fn text(register: &mut Register, message: &[u8]) -> Result<String, u8> {
    let mut entries = [165; ROOM];
    let taken = register.call(message, &mut entries).map_err(Refusal::number)?;
    assert_eq!(taken.consumed, message.len());
    assert!(entries[taken.written..].iter().all(|byte| *byte == 165));
    Ok(lines(&entries[..taken.written]).collect())
}

/// An account opened with 100.
fn opened(account: u8) -> Register {
    let mut register = Register::new();
    assert_eq!(
        text(&mut register, &message(OPEN, 1, account, 100)),
        Ok(format!("accepted 1 {account} 101 open 100 1\n"))
    );
    assert!(text(&mut register, &message(COMMIT, 1, account, 0)).is_ok());
    register
}

#[test]
fn a_day() {
    let mut register = opened(2);
    assert_eq!(text(&mut register, &message(WITHDRAW, 2, 2, 60)), Ok("accepted 2 2 101 withdraw 60 1\n".into()));
    assert_eq!(text(&mut register, &message(WITHDRAW, 3, 2, 60)), Ok("held 3 2 101 withdraw 60 2\n".into()));
    assert_eq!(text(&mut register, &message(WITHDRAW, 3, 2, 60)), Err(6));
    assert_eq!(text(&mut register, &message(COMMIT, 3, 2, 0)), Err(9));
    let dropped = "dropped 2 2 101 withdraw 60\naccepted 3 2 101 withdraw 60 1\n";
    assert_eq!(text(&mut register, &message(ABORT, 2, 2, 0)), Ok(dropped.into()));
    assert_eq!(register.outlook(2, 0), Ok(Outlook { life: Life::Opened, balance: 100, applied: 0 }));
    assert_eq!(register.outlook(2, 1), Ok(Outlook { life: Life::Opened, balance: 40, applied: 1 }));
    assert_eq!(register.outlook(2, 2).map_err(Refusal::number), Err(12));
    assert_eq!(register.outlook(16, 0).map_err(Refusal::number), Err(3));
    assert_eq!(register.outlook(3, 0), Ok(Outlook { life: Life::New, balance: 0, applied: 0 }));
    assert_eq!(
        text(&mut register, &message(COMMIT, 3, 2, 0)),
        Ok("noted 3 2 101\napplied 3 2 101 withdraw 60 40\n".into())
    );
    assert_eq!(text(&mut register, &message(WITHDRAW, 5, 2, 41)), Ok("rejected 5 2 101 withdraw 41 1 3\n".into()));
    assert_eq!(text(&mut register, &message(CLOSE, 4, 2, 0)), Ok("accepted 4 2 101 close 0 1\n".into()));
}

/// A refusal changes no word, and a message none of another account.
#[test]
fn words_that_change() {
    let mut register = opened(2);
    let before = register.clone();
    assert_eq!(text(&mut register, &message(COMMIT, 1, 2, 0)), Err(8));
    assert_eq!(register, before);
    assert!(text(&mut register, &message(WITHDRAW, 9, 2, 7)).is_ok());
    let own = 2 * ACCOUNT_WORDS..3 * ACCOUNT_WORDS;
    for at in 0..REGISTER_WORDS {
        assert!(own.contains(&at) || register.words()[at] == before.words()[at]);
    }
    let words: Vec<u32> = register.words()[own].iter().take(14).copied().collect();
    assert_eq!(words, [1, 100, 1, 0, 9, 101, 1, 7, 0, 0, 0, 0, 0, 0]);
}

/// What was saved goes on where it was.
#[test]
fn saved_and_loaded() {
    let mut register = opened(15);
    let mut again = Register::from_words(*register.words());
    let next = message(WITHDRAW, 9, 15, 101);
    assert_eq!(text(&mut register, &next), text(&mut again, &next));
    assert_eq!(register, again);
    assert_eq!(format!("{:?}", Register::default()).matches("New").count(), 16);
}

/// The answer to an Open on account 0 of a fresh register in which one word is another; refused, no word changes.
fn answer_with(at: usize, word: u32) -> Result<String, u8> {
    let mut words = [0; REGISTER_WORDS];
    words[at] = word;
    let mut register = Register::from_words(words);
    let answer = text(&mut register, &message(OPEN, 1, 0, 5));
    assert!(answer.is_ok() || *register.words() == words);
    answer
}

/// Every word of the account is looked at, and none of another.
#[test]
fn words_that_no_account_has() {
    assert_eq!([3, 4, u32::MAX].map(|life| answer_with(0, life)), [Err(5), Err(5), Err(5)]);
    for at in 1..ACCOUNT_WORDS {
        assert_eq!(answer_with(at, u32::MAX), Err(5), "word {at}");
    }
    for at in ACCOUNT_WORDS..REGISTER_WORDS {
        assert_eq!(answer_with(at, u32::MAX), Ok("accepted 1 0 101 open 5 1\n".into()), "word {at}");
    }
}

/// Calls on images that are kept elsewhere.
#[test]
fn images_elsewhere() {
    let mut image = vec![0; 3 * ACCOUNT_WORDS];
    let mut entries = [0; ROOM];
    let opening = message(OPEN, 1, 2, 100);
    assert_eq!(call(&mut image, &opening, &mut entries), Ok(Taken { consumed: 15, written: 18 }));
    assert_eq!(outlook(&image, 2, 1), Ok(Outlook { life: Life::Opened, balance: 100, applied: 1 }));
    assert_eq!(outlook(&image, 3, 0).map_err(Refusal::number), Err(5));
    assert_eq!(call(&mut image, &[], &mut entries).map_err(Refusal::number), Err(1));
    assert_eq!(call(&mut image, &[7], &mut entries).map_err(Refusal::number), Err(2));
    assert_eq!(line(&entries), Some(("accepted 1 2 101 open 100 1\n".to_string(), 18)));
    assert_eq!(line(&entries[..17]), None);
}

/// The numbers in words.
#[test]
fn refusals_in_words() {
    let mut register = Register::new();
    let refusal = register.call(&message(COMMIT, 1, 0, 0), &mut [0; ROOM]).expect_err("nothing to commit");
    assert_eq!(refusal.to_string(), "refused with 8: the transaction is neither in progress nor held");
}

/// The reason of a rejection, in words; a rejection is taken, and no refusal.
#[test]
fn reasons_in_words() {
    let mut entries = [0; ROOM];
    let taken = Register::new().call(&message(WITHDRAW, 1, 0, 5), &mut entries);
    assert_eq!(taken, Ok(Taken { consumed: 15, written: 19 }));
    let words = reason(&entries).map(|reason| reason.to_string());
    assert_eq!(words.as_deref(), Some("the account is not in the life that the event asks for"));
}
