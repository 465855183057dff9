//! The header and the rules it is held to.

use crate::bytes::{little, part};
use crate::checksum;
use crate::numbers::{is_finite, less};
use crate::refusal::{Refusal, CEILING, PASSES_SIZE, WRONG_CHECKSUM, WRONG_FIELD, WRONG_KEY};

/// Bytes before the mask section.
pub(crate) const HEADER_BYTES: usize = 70;

const KEY: &[u8] = b"Lerc2 ";
const VERSION: u64 = 4;
/// 2^1023; as long as the sign is clear, words are ordered as their numbers.
const ERROR_LIMIT: u64 = 0x7FE0_0000_0000_0000;

/// `error`, `min` and `max` are the bits of a binary64; `mask` is the number
/// of mask bytes.
#[derive(Clone, Copy, Debug, PartialEq, Eq)]
pub struct Header {
    pub rows: u32,
    pub columns: u32,
    pub depth: u32,
    pub valid: u32,
    pub side: u32,
    pub size: u32,
    pub kind: u32,
    pub error: u64,
    pub min: u64,
    pub max: u64,
    pub mask: u32,
}

/// The room that the slices need. Meant for headers within the rules; for
/// others the numbers are of no use, but asking for them does no harm.
impl Header {
    pub fn pixels(&self) -> usize {
        (self.rows as usize).saturating_mul(self.columns as usize)
    }

    pub fn cells(&self) -> usize {
        self.pixels().saturating_mul(self.depth as usize)
    }

    pub fn mask_length(&self) -> usize {
        self.pixels().div_ceil(8)
    }

    pub fn blocks(&self) -> usize {
        self.tiles().saturating_mul(self.depth as usize)
    }

    pub(crate) fn tiles(&self) -> usize {
        let down = self.rows.div_ceil(self.side.max(1)) as usize;
        down.saturating_mul(self.tiles_across())
    }

    pub(crate) fn tiles_across(&self) -> usize {
        self.columns.div_ceil(self.side.max(1)) as usize
    }

    /// Where the mask section ends and ranges or body begin.
    pub(crate) fn after_mask(&self) -> usize {
        HEADER_BYTES + self.mask as usize
    }
}

pub fn read_header(blob: &[u8]) -> Result<Header, Refusal> {
    let bytes = blob.get(..HEADER_BYTES).ok_or(Refusal::of(PASSES_SIZE))?;
    if !bytes.starts_with(KEY) || little(&bytes[6..10]) != VERSION {
        return Err(Refusal::of(WRONG_KEY));
    }
    let narrow = |at: usize| little(&bytes[at..at + 4]) as u32;
    let wide = |at: usize| little(&bytes[at..at + 8]);
    let header = Header {
        rows: narrow(14),
        columns: narrow(18),
        depth: narrow(22),
        valid: narrow(26),
        side: narrow(30),
        size: narrow(34),
        kind: narrow(38),
        error: wide(42),
        min: wide(50),
        max: wide(58),
        mask: narrow(66),
    };
    // After all that a header by value is held to, and only here.
    if !checksum::is_true(held(blob, &header)?) {
        return Err(Refusal::of(WRONG_CHECKSUM));
    }
    Ok(header)
}

/// Holds a header to the rules and gives the slice up to the declared size,
/// so that nobody can look at the bytes after it.
pub(crate) fn held<'a>(blob: &'a [u8], header: &Header) -> Result<&'a [u8], Refusal> {
    if !fields_right(header) {
        return Err(Refusal::of(WRONG_FIELD));
    }
    if !under_ceilings(header) {
        return Err(Refusal::of(CEILING));
    }
    // The blob itself is what is too short, so the place is 0.
    part(blob, 0, header.size as usize)
}

fn fields_right(header: &Header) -> bool {
    let least = header
        .rows
        .min(header.columns)
        .min(header.depth)
        .min(header.side);
    let pixels = u64::from(header.rows) * u64::from(header.columns);
    least >= 1
        && u64::from(header.valid) <= pixels
        && header.kind <= 7
        && header.error < ERROR_LIMIT
        && is_finite(header.min)
        && is_finite(header.max)
        && !less(header.max, header.min)
        && u64::from(header.size) >= HEADER_BYTES as u64 + u64::from(header.mask)
}

fn under_ceilings(header: &Header) -> bool {
    // The first three bound the product, so it is only taken after them.
    header.rows <= 4096
        && header.columns <= 4096
        && header.depth <= 64
        && header.rows * header.columns * header.depth <= 4_194_304
        && header.side <= 16
        && header.size <= 16_777_216
}
