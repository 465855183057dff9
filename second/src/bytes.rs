//! Reading bytes of a slice that ends at the declared size.

use crate::refusal::{Refusal, PASSES_SIZE};

/// What is missing is told by its first byte, wherever that is.
pub(crate) fn part(bytes: &[u8], at: usize, length: usize) -> Result<&[u8], Refusal> {
    // A place given by a caller may be any number, so the sum may pass usize.
    let end = at.checked_add(length).ok_or(missing(at))?;
    bytes.get(at..end).ok_or(missing(at))
}

pub(crate) fn byte(bytes: &[u8], at: usize) -> Result<u8, Refusal> {
    bytes.get(at).copied().ok_or(missing(at))
}

fn missing(at: usize) -> Refusal {
    Refusal::at(PASSES_SIZE, at)
}

/// At most eight bytes as an unsigned number, the lowest byte first.
pub(crate) fn little(bytes: &[u8]) -> u64 {
    bytes
        .iter()
        .rev()
        .fold(0, |word, &byte| word << 8 | u64::from(byte))
}
