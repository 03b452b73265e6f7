//! What the streams of a run reached, counted from the model's text.

use crate::bytes::hex;
use crate::entry::{Entry, EntryRules, REJECTED, UNEXPLAINED};
use crate::exported::asked;
use crate::image::Image;
use crate::limits::{ACCOUNTS, LIMIT, LONGEST, ROOM};
use crate::live::{told, Lender, LiveRules};
use crate::message::MessageRules;
use crate::order::broken;
use crate::probe::{split, ProbeRules};
use crate::register::{Register, RegisterRules};
use crate::rules::Document;
use crate::run::RunRules;
use crate::subject::Target;
use crate::words::{ACCOUNT, HEAD, PLACE};
use std::collections::BTreeMap;

/// Counts over the streams of one program.
#[derive(Clone, Debug, Default)]
pub struct Tally {
    pub streams: u64,
    pub bytes: u64,
    /// Lines by their first word; refusals by their number; outcomes weighed by their count; rejections by their reason.
    pub lines: BTreeMap<String, u64>,
    pub refusals: BTreeMap<u32, u64>,
    pub outcomes: BTreeMap<u32, u64>,
    pub reasons: BTreeMap<u32, u64>,
    /// Withdrawals applied down to 0, and deposits applied up to the limit.
    pub emptied: u64,
    pub filled: u64,
    /// Calls that wrote as much as a call can.
    pub longest: u64,
    /// Calls on an account that breaks one clause of order and no other.
    pub alone: BTreeMap<&'static str, u64>,
    /// Entries found by the entry reader, by their kind.
    pub read: BTreeMap<u32, u64>,
    /// Answers to the frames from 64 on, by code and first words.
    pub later: BTreeMap<String, u64>,
    /// Runs by what they are lent, and those in which the room runs out.
    pub runs: BTreeMap<String, u64>,
    /// Calls and questions on images by what the words of their account are, and lines by whether there is one.
    pub images: BTreeMap<&'static str, u64>,
}

impl Tally {
    /// Counts a stream and the model's text for it.
    pub fn add(&mut self, target: Target, input: &[u8], text: &str) {
        self.streams += 1;
        self.bytes += input.len() as u64;
        match target {
            Target::Program | Target::Kept | Target::Shared => {
                text.lines().for_each(|line| self.add_line(Target::Program, line))
            }
            Target::Probe => self.add_frames(input, text),
            Target::Exported => self.add_run(input),
            Target::Live => {
                told(input, &mut Counted(self));
            }
        }
    }

    /// Counts a line of the program, or of a frame below 64.
    fn add_line(&mut self, target: Target, line: &str) {
        let words: Vec<&str> = line.split(' ').collect();
        count(&mut self.lines, words[0].to_string());
        match (target, words[0]) {
            (_, "refused") => count(&mut self.refusals, number(words[1])),
            (Target::Program, "accepted" | "held") => count(&mut self.outcomes, number(words[6])),
            (Target::Program, "rejected") => {
                count(&mut self.outcomes, number(words[6]));
                count(&mut self.reasons, number(words[7]));
            }
            (Target::Program, "applied") => self.applied(words[4], number(words[6])),
            (Target::Probe, "taken") => self.written(words[3]),
            (Target::Probe, "entry") => count(&mut self.read, number(words[1])),
            _ => {}
        }
    }

    /// Counts the lines of frames, each with the register that its frame left.
    fn add_frames(&mut self, input: &[u8], text: &str) {
        let mut register = Register::fresh();
        let mut rest = if input.len() > LONGEST { &[] } else { input };
        for line in text.lines().skip(1) {
            let Some((code, payload, after)) = split(rest) else {
                self.add_line(Target::Probe, line);
                continue;
            };
            rest = after;
            Document.frame(&mut register, code, payload);
            match code {
                64 | 65 | 67 | 68 => self.add_later(code, line),
                _ => self.add_line(Target::Probe, line),
            }
            if code == 1 && line.starts_with("refused 5") {
                self.add_alone(&register.image(usize::from(payload[8])));
            }
        }
    }

    /// Counts a line of a frame from 64 on: orders and steps with the word or number behind the first, runs by
    /// whether all was taken.
    fn add_later(&mut self, code: u8, line: &str) {
        let words: Vec<&str> = line.split(' ').collect();
        let says = match (code, words[0]) {
            (65, "ran") if words[1] == "0" => "ran nothing".to_string(),
            (65, "ran") if words[2] == "0" => "ran whole".to_string(),
            (65, "ran") if words[4] == "0" => "ran refused".to_string(),
            (65, "ran") => "ran in part".to_string(),
            (64 | 68, _) => words[..words.len().min(2)].join(" "),
            _ => words[0].to_string(),
        };
        count(&mut self.later, format!("{code} {says}"));
    }

    /// Counts a refused call on an account that breaks one clause and no other.
    fn add_alone(&mut self, image: &Image) {
        if let [clause] = broken(image, &Document)[..] {
            count(&mut self.alone, clause.says());
        }
    }

    /// Counts a run: what it is lent, its refusals and its entries.
    fn add_run(&mut self, input: &[u8]) {
        let (room, places, messages) = asked(input);
        count(&mut self.runs, format!("{places} places"));
        count(&mut self.runs, room_name(room).to_string());
        let mut register = Register::fresh();
        let (mut left, mut short) = (room, false);
        Document.pass(messages, |rest| {
            let taken = Document.take(&mut register, rest, left).inspect_err(|number| {
                count(&mut self.refusals, u32::from(*number));
                short |= *number == 4;
            })?;
            for entry in &taken.entries {
                self.entry(entry);
                left -= entry.bytes(taken.account).len();
            }
            Ok(taken.consumed)
        });
        if messages.is_empty() {
            count(&mut self.runs, "no message".to_string());
        }
        if short && left < room {
            count(&mut self.runs, "room that runs out".to_string());
        }
    }

    /// Counts what a call on an image finds at the words of the account that it names.
    fn add_words(&mut self, image: &[u32], account: u16) {
        if usize::from(account) < ACCOUNTS {
            let words = image.get(usize::from(account) * ACCOUNT..).unwrap_or_default();
            count(&mut self.images, words_name(words));
        }
    }

    /// Counts a refusal, if it is one.
    fn refused(&mut self, answer: Result<(), u8>, places: usize) -> u64 {
        count(
            &mut self.images,
            match places {
                0 => "0 places",
                1 => "1 place",
                2 => "2 places",
                _ => "3 places",
            },
        );
        answer.err().map_or(0, |number| {
            count(&mut self.refusals, u32::from(number));
            number.into()
        })
    }

    /// Counts a balance at either end.
    fn applied(&mut self, event: &str, balance: u32) {
        self.emptied += u64::from(event == "withdraw" && balance == 0);
        self.filled += u64::from(event == "deposit" && balance == LIMIT);
    }

    /// Counts the entries that a call wrote, given as hex.
    fn written(&mut self, hex: &str) {
        let bytes: Vec<u8> = hex.as_bytes().chunks(2).map(byte).collect();
        self.longest += u64::from(bytes.len() == ROOM);
        let mut rest = bytes.as_slice();
        while let Some((entry, _, length)) = Document.read_entry(rest) {
            self.entry(&entry);
            rest = &rest[length..];
        }
    }

    /// Counts an entry as the program's line of it.
    fn entry(&mut self, entry: &Entry) {
        let line = entry.line(0);
        let name = line.split(' ').next().unwrap_or_default();
        count(&mut self.lines, name.to_string());
        match *entry {
            Entry::Voted { outcomes, reason, .. } => {
                count(&mut self.outcomes, u32::from(outcomes));
                reason.into_iter().for_each(|reason| count(&mut self.reasons, u32::from(reason)));
            }
            Entry::Applied { request, balance } => self.applied(request.event.name(), balance),
            Entry::Noted { .. } | Entry::Dropped { .. } => {}
        }
    }
}

/// The calls on an image by the model, counted.
struct Counted<'a>(&'a mut Tally);

impl Lender for Counted<'_> {
    fn call(&mut self, image: &mut [u32], message: &[u8], entries: &mut [u8], counts: &mut [u64]) -> u64 {
        if let Ok((message, _)) = Document.read(message) {
            self.0.add_words(image, message.head().account);
        }
        let called = Document.live_call(image, message, entries);
        let written = called.map_or(0, |called| called.1);
        self.0.written(&hex(&entries[..written]));
        self.0.refused(called.map(|_| ()), counts.len())
    }

    fn outlook(&mut self, image: &[u32], account: u16, number: u32, state: &mut [u32]) -> u64 {
        self.0.add_words(image, account);
        self.0.refused(Document.live_outlook(image, account, number).map(|_| ()), state.len())
    }

    fn line(&mut self, entry: &[u8], line: &mut [u8], _: &mut [u64]) -> u64 {
        let kind = Document.read_entry(entry).map(|(entry, ..)| entry.kind());
        let name = match (kind, line.len()) {
            (None, _) => "no entry",
            (Some(_), ..71) => "line with room below 71",
            (Some(_), 71) => "line with room 71",
            (Some(UNEXPLAINED), _) => "a rejection's line without a reason",
            (Some(REJECTED), _) => "a rejection's line",
            (Some(_), _) => "a line",
        };
        count(&mut self.0.images, name);
        0
    }
}

/// What the words of an account are, or what makes them none.
fn words_name(words: &[u32]) -> &'static str {
    let Some(words) = words.get(..ACCOUNT) else { return "too few words" };
    let mut places = words[HEAD..].chunks(PLACE);
    let all = places.clone();
    match words[0] {
        3.. => "a life above 2",
        _ if places.any(|place| place[2] > 3) => "an event above 3",
        _ if all.clone().any(|place| place[2] == 3 && place[3] > 0) => "a Close with an amount",
        _ if all.clone().any(|place| place[4] > 1) => "a decision above 1",
        _ => "an account",
    }
}

/// Counts one more under a key.
fn count<K: Ord>(counts: &mut BTreeMap<K, u64>, key: K) {
    *counts.entry(key).or_default() += 1;
}

/// On which side of a call's room a room stands.
fn room_name(room: usize) -> &'static str {
    match room {
        0 => "room 0",
        1..=321 => "room below 322",
        322 => "room 322",
        323 => "room 323",
        _ => "room above 323",
    }
}

/// A decimal number of the model's own text.
fn number(word: &str) -> u32 {
    word.parse().unwrap_or(u32::MAX)
}

/// A byte from two digits of hex, 0 where they are none.
fn byte(digits: &[u8]) -> u8 {
    std::str::from_utf8(digits).ok().and_then(|digits| u8::from_str_radix(digits, 16).ok()).unwrap_or(0)
}
