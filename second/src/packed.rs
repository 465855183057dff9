//! Packed counts.

use crate::bytes::{byte, little, part};
use crate::refusal::{Refusal, WRONG_BLOCK};

pub const MOST_COUNTS: usize = 256;

const TABLE: u8 = 32;

const WRONG: Refusal = Refusal::of(WRONG_BLOCK);

/// Reads the counts that begin at `at`; gives how many and where they end.
/// Later entries of `counts` stay, and all of them if refused. A refusal's
/// place is `at`, whatever of the counts is wrong or missing.
pub fn packed_counts(
    bytes: &[u8],
    at: usize,
    counts: &mut [u32; MOST_COUNTS],
) -> Result<(usize, usize), Refusal> {
    counts_from(bytes, at, counts).map_err(|refusal| refusal.moved(at))
}

fn counts_from(
    bytes: &[u8],
    at: usize,
    counts: &mut [u32; MOST_COUNTS],
) -> Result<(usize, usize), Refusal> {
    let head = byte(bytes, at)?;
    let width = match head / 64 {
        0 => 4,
        1 => 2,
        2 => 1,
        _ => return Err(WRONG),
    };
    let n = little(part(bytes, at + 1, width)?) as usize;
    if n > MOST_COUNTS {
        return Err(WRONG);
    }
    let at = at + 1 + width;
    let bits = usize::from(head % 32);
    let out = &mut counts[..n];
    let end = if head & TABLE == 0 {
        plain_counts(bytes, at, bits, out)?
    } else {
        table_counts(bytes, at, bits, out)?
    };
    Ok((n, end))
}

fn plain_counts(bytes: &[u8], at: usize, bits: usize, out: &mut [u32]) -> Result<usize, Refusal> {
    let run = part(bytes, at, run_length(out.len(), bits))?;
    unpack(run, bits, out);
    Ok(at + run.len())
}

fn table_counts(bytes: &[u8], at: usize, bits: usize, out: &mut [u32]) -> Result<usize, Refusal> {
    if bits == 0 {
        return Err(WRONG);
    }
    let entries = usize::from(byte(bytes, at)?);
    if entries < 2 {
        return Err(WRONG);
    }
    // Entry 0 is zero and not stored.
    let stored = part(bytes, at + 1, run_length(entries - 1, bits))?;
    let mut table = [0; 256];
    unpack(stored, bits, &mut table[1..entries]);

    let at = at + 1 + stored.len();
    let width = index_width(entries);
    let run = part(bytes, at, run_length(out.len(), width))?;
    let mut indices = [0; MOST_COUNTS];
    let indices = &mut indices[..out.len()];
    unpack(run, width, indices);
    // All are judged before any count is written.
    if indices.iter().any(|&index| index as usize >= entries) {
        return Err(WRONG);
    }
    for (count, &index) in out.iter_mut().zip(indices.iter()) {
        *count = table[index as usize];
    }
    Ok(at + run.len())
}

/// The least width that holds every index below `entries`.
fn index_width(entries: usize) -> usize {
    entries.next_power_of_two().trailing_zeros() as usize
}

fn run_length(n: usize, bits: usize) -> usize {
    (n * bits).div_ceil(8)
}

/// Fills `out` with values of `bits` bits each, at most 31, the lowest first.
fn unpack(run: &[u8], bits: usize, out: &mut [u32]) {
    let mut run = run.iter();
    let mut ahead: u64 = 0;
    let mut have = 0;
    for value in out {
        while have < bits {
            let next = run.next().copied().unwrap_or(0);
            ahead |= u64::from(next) << have;
            have += 8;
        }
        *value = (ahead & ((1 << bits) - 1)) as u32;
        ahead >>= bits;
        have -= bits;
    }
}
