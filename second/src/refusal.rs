//! The numbers a refusal carries, and its place.

use std::fmt;

/// Why, and where: the place is counted from the blob's first byte, and 0 where
/// none of its bytes is named.
#[derive(Clone, Copy, Debug, PartialEq, Eq)]
pub struct Refusal {
    pub number: u32,
    pub place: usize,
}

impl Refusal {
    /// Without a byte to name.
    pub const fn of(number: u32) -> Refusal {
        Refusal { number, place: 0 }
    }

    pub const fn at(number: u32, place: usize) -> Refusal {
        Refusal { number, place }
    }

    /// The same number, told by the place of the whole that was being read.
    pub(crate) const fn moved(self, place: usize) -> Refusal {
        Refusal { place, ..self }
    }
}

impl fmt::Display for Refusal {
    fn fmt(&self, f: &mut fmt::Formatter) -> fmt::Result {
        write!(f, "refused {} at {}", self.number, self.place)
    }
}

impl std::error::Error for Refusal {}

/// For those who ask for the number alone.
impl From<Refusal> for u32 {
    fn from(refusal: Refusal) -> u32 {
        refusal.number
    }
}

/// A field, number or packed run passes the declared size, or the slice does
/// not reach it.
pub const PASSES_SIZE: u32 = 1;
/// Key or version differs.
pub const WRONG_KEY: u32 = 2;
/// A header field breaks its rule, or an answer, spare or list is not what
/// staging gave.
pub const WRONG_FIELD: u32 = 3;
/// A ceiling is passed.
pub const CEILING: u32 = 4;
/// A lent slice is too short.
pub const NO_ROOM: u32 = 5;
/// The mask section is wrong.
pub const WRONG_MASK: u32 = 6;
/// A range number is not finite, or the maximum is less than the minimum.
pub const WRONG_RANGE: u32 = 7;
/// A block, sweep or mode byte is wrong, or a table of codes, or no code is
/// what stands where one should be.
pub const WRONG_BLOCK: u32 = 8;
/// A value does not fit its integer kind.
pub const DOES_NOT_FIT: u32 = 9;
/// Walk on a body not in blocks.
pub const NOT_BLOCKS: u32 = 10;
/// The block number is at or above the count.
pub const NO_SUCH_BLOCK: u32 = 11;
/// A pack is wrong, in its contents or in the header of a blob.
pub const WRONG_PACK: u32 = 12;
/// The stored checksum is not that of the bytes behind it.
pub const WRONG_CHECKSUM: u32 = 13;
