//! What a frame names and lends: an account, a buffer.

use crate::limits::ACCOUNTS;

/// The largest buffer that a frame can lend.
pub const WIDEST: usize = 1_024;
/// What each byte of a lent buffer is at first.
const FILL: u8 = 165;

/// The number of an account, none above 15.
pub fn account(number: u32) -> Option<usize> {
    Some(number as usize).filter(|number| *number < ACCOUNTS)
}

/// A buffer of `room` bytes, none where that is too many.
pub fn lent(room: u32) -> Option<Vec<u8>> {
    (room as usize <= WIDEST).then(|| vec![FILL; room as usize])
}

/// Whether the bytes that are not the call's are as they were.
pub fn rest_kept(rest: &[u8]) -> &'static str {
    if rest.iter().all(|byte| *byte == FILL) {
        "kept"
    } else {
        "spoilt"
    }
}
