//! The proved register, linked as static libraries where the feature `proved` is on.
//!
//! `tools/build register` gives `target/staticlib/libregister.a` with the run, `tools/build live`
//! gives `target/staticlib/liblive.a` with the calls on an image; build with
//! `cargo build --release --features proved` (`build.rs` says where the libraries are).
//! The exported functions are declared here and nowhere else.

use crate::live::{Lender, WORDS};
use crate::rules::Document;
use crate::run::{Ran, Run, RunRules};

/// Whether the proved register is linked.
pub const LINKED: bool = cfg!(feature = "proved");

#[cfg(feature = "proved")]
#[link(name = "register", kind = "static")]
extern "C" {
    /// Runs messages through a fresh register. `counts` receives messages met, messages refused,
    /// bytes of messages passed and bytes of entries written, in this order.
    fn nacozteya_run(
        messages: *const u8,
        messages_len: usize,
        entries: *mut u8,
        entries_len: usize,
        counts: *mut u64,
        counts_len: usize,
    ) -> u64;
}

#[cfg(feature = "proved")]
#[link(name = "live", kind = "static")]
extern "C" {
    /// One call on an image. `counts` receives the bytes consumed and the bytes of entries written.
    fn nacozteya_call(
        image: *mut u32,
        image_len: usize,
        message: *const u8,
        message_len: usize,
        entries: *mut u8,
        entries_len: usize,
        counts: *mut u64,
        counts_len: usize,
    ) -> u64;

    /// The outcome question of an image. `state` receives life, balance and number applied.
    fn nacozteya_outlook(
        image: *const u32,
        image_len: usize,
        account: u16,
        number: u32,
        state: *mut u32,
        state_len: usize,
    ) -> u64;

    /// The line of an entry. `counts` receives the bytes of the entry and of its line.
    fn nacozteya_line(
        entry: *const u8,
        entry_len: usize,
        line: *mut u8,
        line_len: usize,
        counts: *mut u64,
        counts_len: usize,
    ) -> u64;
}

/// The exported run: the length of the entries written, as it returns it.
#[cfg(feature = "proved")]
pub fn call(messages: &[u8], entries: &mut [u8], counts: &mut [u64]) -> u64 {
    // Each pointer goes with the length of the slice that it is taken from; the function
    // keeps none of them after it returns.
    unsafe {
        nacozteya_run(
            messages.as_ptr(),
            messages.len(),
            entries.as_mut_ptr(),
            entries.len(),
            counts.as_mut_ptr(),
            counts.len(),
        )
    }
}

/// Without the feature nothing is linked and nothing is run.
#[cfg(not(feature = "proved"))]
pub fn call(_: &[u8], _: &mut [u8], _: &mut [u64]) -> u64 {
    0
}

/// The run of messages by the proved register; it writes into the room lent.
pub fn run(messages: &[u8], room: &mut [u8]) -> Run {
    let mut counts = [0u64; 4];
    call(messages, room, &mut counts);
    let [met, refused, _consumed, written] = counts;
    let written = room.len().min(written as usize);
    Run { met, refused, entries: room[..written].to_vec() }
}

/// The run of messages by calls on an image, one for each message.
pub fn live_run(messages: &[u8], room: &mut [u8]) -> Run {
    let mut image = [0; WORDS];
    let mut counts = [0; 2];
    let (mut refused, mut at) = (0, 0);
    let Ran { met, .. } = Document.pass(messages, |rest| {
        let number = Live.call(&mut image, rest, &mut room[at..], &mut counts);
        at += counts[1] as usize;
        refused += u64::from(number > 0);
        if number > 0 {
            Err(number as u8)
        } else {
            Ok(counts[0] as usize)
        }
    });
    Run { met, refused, entries: room[..at].to_vec() }
}

/// The calls on an image, of the library.
pub struct Live;

#[cfg(feature = "proved")]
impl Lender for Live {
    fn call(&mut self, image: &mut [u32], message: &[u8], entries: &mut [u8], counts: &mut [u64]) -> u64 {
        // As above, of each of the three: pointers of slices with their lengths, none of them kept.
        unsafe {
            nacozteya_call(
                image.as_mut_ptr(),
                image.len(),
                message.as_ptr(),
                message.len(),
                entries.as_mut_ptr(),
                entries.len(),
                counts.as_mut_ptr(),
                counts.len(),
            )
        }
    }

    fn outlook(&mut self, image: &[u32], account: u16, number: u32, state: &mut [u32]) -> u64 {
        unsafe { nacozteya_outlook(image.as_ptr(), image.len(), account, number, state.as_mut_ptr(), state.len()) }
    }

    fn line(&mut self, entry: &[u8], line: &mut [u8], counts: &mut [u64]) -> u64 {
        unsafe {
            nacozteya_line(
                entry.as_ptr(),
                entry.len(),
                line.as_mut_ptr(),
                line.len(),
                counts.as_mut_ptr(),
                counts.len(),
            )
        }
    }
}

#[cfg(not(feature = "proved"))]
impl Lender for Live {
    fn call(&mut self, _: &mut [u32], _: &[u8], _: &mut [u8], _: &mut [u64]) -> u64 {
        0
    }

    fn outlook(&mut self, _: &[u32], _: u16, _: u32, _: &mut [u32]) -> u64 {
        0
    }

    fn line(&mut self, _: &[u8], _: &mut [u8], _: &mut [u64]) -> u64 {
        0
    }
}
