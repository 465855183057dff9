//! Bytes of a slice that ends at the declared size.

use crate::Refusal;
use second::refusal::PASSES_SIZE;

pub(crate) fn byte(bytes: &[u8], at: usize) -> Result<u8, Refusal> {
    bytes.get(at).copied().ok_or(PASSES_SIZE)
}

/// `at` is no more than the size of the slice.
pub(crate) fn part(bytes: &[u8], at: usize, length: usize) -> Result<&[u8], Refusal> {
    bytes.get(at..at + length).ok_or(PASSES_SIZE)
}

/// The next N bytes; `at` is no more than the size of the slice.
pub(crate) fn array<const N: usize>(bytes: &[u8], at: usize) -> Result<[u8; N], Refusal> {
    let rest = bytes.get(at..).ok_or(PASSES_SIZE)?;
    rest.first_chunk().copied().ok_or(PASSES_SIZE)
}
