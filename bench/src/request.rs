//! A request: an event with all that is filed with it, carried whole from the message to the last entry.

use crate::event::Event;

/// A request as it came.
#[derive(Clone, Copy, PartialEq, Eq, Debug)]
pub struct Request {
    pub transaction: u32,
    pub second: u32,
    pub event: Event,
}
