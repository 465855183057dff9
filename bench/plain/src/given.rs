//! Headers and ranges that a caller hands over are held to the rules again.

use crate::Refusal;
use second::refusal::{CEILING, PASSES_SIZE, WRONG_FIELD, WRONG_RANGE};
use second::{Header, Ranges};

const HEADER_BYTES: u64 = 70;

/// The blob up to its declared size.
pub(crate) fn held<'a>(blob: &'a [u8], header: &Header) -> Result<&'a [u8], Refusal> {
    if !fields_right(header) {
        return Err(WRONG_FIELD);
    }
    if !under_ceilings(header) {
        return Err(CEILING);
    }
    blob.get(..header.size as usize).ok_or(PASSES_SIZE)
}

fn fields_right(h: &Header) -> bool {
    let error = f64::from_bits(h.error);
    [h.rows, h.columns, h.depth, h.side].iter().all(|&n| n >= 1)
        && u64::from(h.valid) <= u64::from(h.rows) * u64::from(h.columns)
        && h.kind <= 7
        && error.is_sign_positive()
        && error < 2f64.powi(1023)
        && is_range(h.min, h.max)
        && u64::from(h.size) >= HEADER_BYTES + u64::from(h.mask)
}

fn under_ceilings(h: &Header) -> bool {
    h.rows <= 4096
        && h.columns <= 4096
        && h.depth <= 64
        && h.cells() <= 4_194_304
        && h.side <= 16
        && h.size <= 16_777_216
}

/// The pairs below the depth.
pub(crate) fn check_ranges(ranges: &Ranges, header: &Header) -> Result<(), Refusal> {
    let mut depths = 0..header.depth as usize;
    if depths.all(|depth| is_range(ranges.min[depth], ranges.max[depth])) {
        Ok(())
    } else {
        Err(WRONG_RANGE)
    }
}

fn is_range(min: u64, max: u64) -> bool {
    let (min, max) = (f64::from_bits(min), f64::from_bits(max));
    min.is_finite() && max.is_finite() && min <= max
}
