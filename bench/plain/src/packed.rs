//! Packed counts.

use crate::bytes::{array, byte, part};
use crate::Refusal;
use second::refusal::WRONG_BLOCK;

pub(crate) const MOST_COUNTS: usize = 256;

const TABLE: u8 = 32;

/// Reads the counts that begin at `at` into the front of `counts`; gives how
/// many there are and where they end.
pub(crate) fn read_counts(
    bytes: &[u8],
    at: usize,
    counts: &mut [u32; MOST_COUNTS],
) -> Result<(usize, usize), Refusal> {
    let head = byte(bytes, at)?;
    let at = at + 1;
    let (n, at) = match head / 64 {
        0 => (u32::from_le_bytes(array(bytes, at)?) as usize, at + 4),
        1 => (u16::from_le_bytes(array(bytes, at)?).into(), at + 2),
        2 => (byte(bytes, at)?.into(), at + 1),
        _ => return Err(WRONG_BLOCK),
    };
    let out = counts.get_mut(..n).ok_or(WRONG_BLOCK)?;
    let bits = usize::from(head % 32);
    let end = if head & TABLE == 0 {
        unpack(bytes, at, bits, out)?
    } else {
        read_by_table(bytes, at, bits, out)?
    };
    Ok((n, end))
}

/// A table of counts, and an index into it for each count.
fn read_by_table(bytes: &[u8], at: usize, bits: usize, out: &mut [u32]) -> Result<usize, Refusal> {
    if bits == 0 {
        return Err(WRONG_BLOCK);
    }
    let entries = usize::from(byte(bytes, at)?);
    if entries < 2 {
        return Err(WRONG_BLOCK);
    }
    // Entry 0 is zero and not stored.
    let mut table = [0; 256];
    let table = &mut table[..entries];
    let at = unpack(bytes, at + 1, bits, &mut table[1..])?;
    let width = entries.next_power_of_two().trailing_zeros() as usize;
    let end = unpack(bytes, at, width, out)?;
    for count in out {
        *count = *table.get(*count as usize).ok_or(WRONG_BLOCK)?;
    }
    Ok(end)
}

/// Fills `out` with values of `bits` bits each, at most 31, the lowest first;
/// gives where they end.
fn unpack(bytes: &[u8], at: usize, bits: usize, out: &mut [u32]) -> Result<usize, Refusal> {
    let length = (out.len() * bits).div_ceil(8);
    let mut run = part(bytes, at, length)?;
    let mask = (1u64 << bits) - 1;
    let (mut ahead, mut have) = (0u64, 0);
    for value in out {
        if have < bits {
            ahead |= u64::from(next_word(&mut run)) << have;
            have += 32;
        }
        *value = (ahead & mask) as u32;
        ahead >>= bits;
        have -= bits;
    }
    Ok(at + length)
}

/// Four bytes off the front, or what is left of them.
fn next_word(run: &mut &[u8]) -> u32 {
    if let Some((word, rest)) = run.split_first_chunk() {
        *run = rest;
        return u32::from_le_bytes(*word);
    }
    let mut word = [0; 4];
    word[..run.len()].copy_from_slice(run);
    *run = &[];
    u32::from_le_bytes(word)
}
