//! The exported call as its caller sees it: a stream is what a run is lent and its messages, its text is all that the
//! run leaves.
//!
//! A stream has the room of the entry buffer (3 bytes, highest first), the number of places for counts (1 byte), and
//! then the messages. The run is made twice, with other bytes in the buffer, and the text has for each: the length
//! returned, every place for counts, whether all that was not lent is as it was, and every byte of the entry buffer.

use crate::bytes::{hex, Numbers};
use crate::register::Register;
use crate::run::{Ran, RunRules};

/// The most room that is lent; a larger number stands for it.
pub const MOST_ROOM: usize = 1 << 19;
/// The length of what stands before the messages of a stream.
pub const HEAD: usize = 4;
/// What the bytes of the entry buffer are at first, in the one run and in the other.
const FILLS: [u8; 2] = [165, 90];
/// What a place for counts is at first.
const UNCOUNTED: u64 = u64::MAX;
/// So much stands on each side of a buffer that is lent.
pub const BESIDE: usize = 64;
/// Bytes of the entry buffer in a line.
const WIDTH: usize = 32;

/// What a stream asks for: room, places for counts, messages.
pub fn asked(input: &[u8]) -> (usize, usize, &[u8]) {
    let (head, messages) = input.split_at(HEAD.min(input.len()));
    let mut whole = [0; HEAD];
    whole[..head.len()].copy_from_slice(head);
    let mut numbers = Numbers { bytes: &whole };
    (MOST_ROOM.min(numbers.next(3) as usize), numbers.next(1) as usize, messages)
}

/// The text of a stream by the model.
pub fn text(input: &[u8], rules: &impl RunRules) -> String {
    told(input, |messages, entries, counts| run(messages, entries, counts, &mut Register::fresh(), rules))
}

/// The exported call on a register: as many counts are stored as there are places.
pub fn run(
    messages: &[u8],
    entries: &mut [u8],
    counts: &mut [u64],
    register: &mut Register,
    rules: &impl RunRules,
) -> u64 {
    let Ran { met, refused, consumed, written } = rules.run(messages, entries, register);
    counts.iter_mut().zip([met, refused, consumed, written]).for_each(|(place, count)| *place = count);
    written
}

/// The text of a stream by a run that gets messages, the entry buffer and the places for counts.
pub fn told(input: &[u8], mut run: impl FnMut(&[u8], &mut [u8], &mut [u64]) -> u64) -> String {
    let (room, places, messages) = asked(input);
    let mut text = String::from("exported 1\n");
    for fill in FILLS {
        let sent = messages.to_vec();
        let mut entries = vec![fill; BESIDE + room + BESIDE];
        let mut counts = vec![UNCOUNTED; BESIDE + places + BESIDE];
        let returned = run(&sent, &mut entries[BESIDE..][..room], &mut counts[BESIDE..][..places]);
        let kept = sent == messages && apart(&entries, room, fill) && apart(&counts, places, UNCOUNTED);
        text += &format!("returned {returned}\ncounts");
        counts[BESIDE..][..places].iter().for_each(|count| text += &format!(" {count}"));
        text += if kept { "\nkept\n" } else { "\nspoilt\n" };
        entries[BESIDE..][..room].chunks(WIDTH).for_each(|bytes| text += &format!("{}\n", hex(bytes)));
    }
    text + "end\n"
}

/// Whether what stands on each side of a buffer is as it was.
pub fn apart<T: PartialEq>(all: &[T], lent: usize, first: T) -> bool {
    all[..BESIDE].iter().chain(&all[BESIDE + lent..]).all(|item| *item == first)
}
