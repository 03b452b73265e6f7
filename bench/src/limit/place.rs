//! A place of an account, packed into sixteen bytes that are nearly those of its entries.

use crate::limits::PLACES;

/// The four event kinds.
pub const OPEN: u8 = 1;
pub const WITHDRAW: u8 = 2;
pub const DEPOSIT: u8 = 3;
pub const CLOSE: u8 = 4;

/// What stands in a place: the first sixteen bytes of its entries, highest first, as one number. They are the entry's
/// kind, transaction (4), account (2), second (4), event kind and amount (4). In a place the account is 0, the byte of
/// the kind says whether the event is committed, and the event kind is one less, so that the blank is 0.
#[derive(Clone, Copy, PartialEq, Eq, Debug)]
pub struct Place(u128);

/// How far up in the number a field begins.
const EVENT: u32 = 32;
const SECOND: u32 = 40;
const ACCOUNT: u32 = 72;
const TRANSACTION: u32 = 88;
const KIND: u32 = 120;

/// The bit of a committed event.
const COMMITTED: u128 = 1 << KIND;

impl Place {
    /// The one blank: Open of 0, all else 0.
    pub const BLANK: Place = Place(0);

    /// An undecided event, or a held request.
    pub fn of(transaction: u32, second: u32, event: u8, amount: u32) -> Place {
        let filed = u128::from(transaction) << TRANSACTION | u128::from(second) << SECOND;
        Place(filed | u128::from(event - OPEN) << EVENT | u128::from(amount))
    }

    pub fn transaction(self) -> u32 {
        (self.0 >> TRANSACTION) as u32
    }

    pub fn second(self) -> u32 {
        (self.0 >> SECOND) as u32
    }

    pub fn event(self) -> u8 {
        (self.0 >> EVENT) as u8 + OPEN
    }

    pub fn amount(self) -> u32 {
        self.0 as u32
    }

    pub fn committed(self) -> bool {
        self.0 & COMMITTED != 0
    }

    /// The same event, committed.
    pub fn commit(self) -> Place {
        Place(self.0 | COMMITTED)
    }

    /// The first sixteen bytes of an entry of the kind.
    pub fn bytes(self, kind: u8, account: u16) -> [u8; 16] {
        let fields = (self.0 & !COMMITTED) + (u128::from(OPEN) << EVENT);
        (fields | u128::from(kind) << KIND | u128::from(account) << ACCOUNT).to_be_bytes()
    }

    /// Whether all of the places are blank; a row that is not used at all goes the quick way.
    pub fn all_blank(places: &[Place]) -> bool {
        match <&[Place; PLACES]>::try_from(places) {
            Ok(row) => row.iter().fold([0, 0], Place::gathered) == [0, 0],
            Err(_) => places.iter().fold([0, 0], Place::gathered) == [0, 0],
        }
    }

    /// The bits that are set here or were set before.
    fn gathered([high, low]: [u64; 2], place: &Place) -> [u64; 2] {
        [high | (place.0 >> 64) as u64, low | place.0 as u64]
    }
}
