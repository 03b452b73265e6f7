//! The limits (`docs/REGISTER.md`, 2, 7.1, 9.5 and 12.1).

/// Events in progress and requests held that an account has room for.
pub const PLACES: usize = 8;
/// The highest balance.
pub const LIMIT: u32 = 1_000_000;
/// Accounts of a register.
pub const ACCOUNTS: usize = 16;
/// The longest call's entries: the room that every call asks for.
pub const ROOM: usize = 323;
/// The longest input of the program and of the probe.
pub const LONGEST: usize = 65_536;
