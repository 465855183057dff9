//! One block: a tile at one depth.

use crate::bytes::{byte, little, part};
use crate::header::Header;
use crate::numbers::{is_finite, less, number, scaled, stored, sum, word_size};
use crate::packed::{packed_counts, MOST_COUNTS};
use crate::refusal::{Refusal, WRONG_BLOCK};

const NONE: u32 = 8;

/// By the image's kind and the upper two bits of the flag byte.
const OFFSET_KINDS: [[u32; 4]; 8] = [
    [0, NONE, NONE, NONE],
    [1, NONE, NONE, NONE],
    [2, 1, 0, NONE],
    [3, 1, NONE, NONE],
    [4, 3, 2, 1],
    [5, 3, 1, NONE],
    [6, 2, 1, NONE],
    [7, 6, 4, 2],
];

const WRONG: Refusal = Refusal::of(WRONG_BLOCK);

/// Reads the block at `at` of a tile whose left edge is at column `x`: one
/// word for each of its valid pixels. Gives the place after the block. A
/// refusal's place is `at`, the flag byte's, whatever of the block is wrong or
/// missing.
pub(crate) fn read_block(
    bytes: &[u8],
    at: usize,
    header: &Header,
    x: usize,
    maximum: u64,
    words: &mut [u64],
) -> Result<usize, Refusal> {
    block_from(bytes, at, header, x, maximum, words).map_err(|refusal| refusal.moved(at))
}

fn block_from(
    bytes: &[u8],
    at: usize,
    header: &Header,
    x: usize,
    maximum: u64,
    words: &mut [u64],
) -> Result<usize, Refusal> {
    let flag = byte(bytes, at)?;
    if usize::from(flag / 4 % 16) != x / 8 % 16 {
        return Err(WRONG);
    }
    let at = at + 1;
    match flag % 4 {
        0 => read_raw_words(bytes, at, header.kind, words),
        1 => {
            let (offset, at) = read_offset(bytes, at, header.kind, flag / 64)?;
            read_counted(bytes, at, header, offset, maximum, words)
        }
        2 => {
            words.fill(0);
            Ok(at)
        }
        _ => {
            let (offset, at) = read_offset(bytes, at, header.kind, flag / 64)?;
            words.fill(stored(offset, header.kind)?);
            Ok(at)
        }
    }
}

pub(crate) fn read_raw_words(
    bytes: &[u8],
    at: usize,
    kind: u32,
    words: &mut [u64],
) -> Result<usize, Refusal> {
    let size = word_size(kind);
    let run = part(bytes, at, words.len() * size)?;
    for (word, bytes) in words.iter_mut().zip(run.chunks_exact(size)) {
        *word = little(bytes);
    }
    Ok(at + run.len())
}

fn read_offset(bytes: &[u8], at: usize, kind: u32, code: u8) -> Result<(u64, usize), Refusal> {
    let kind = OFFSET_KINDS[kind as usize][usize::from(code)];
    if kind == NONE {
        return Err(WRONG);
    }
    let word = part(bytes, at, word_size(kind))?;
    let offset = number(little(word), kind);
    if !is_finite(offset) {
        return Err(WRONG);
    }
    Ok((offset, at + word.len()))
}

fn read_counted(
    bytes: &[u8],
    at: usize,
    header: &Header,
    offset: u64,
    maximum: u64,
    words: &mut [u64],
) -> Result<usize, Refusal> {
    let mut counts = [0; MOST_COUNTS];
    let (n, end) = packed_counts(bytes, at, &mut counts)?;
    if n != words.len() {
        return Err(WRONG);
    }
    for (word, &count) in words.iter_mut().zip(&counts) {
        let value = sum(offset, scaled(header.error, count));
        // On a tie the maximum: zeros of either sign are alike.
        let value = if less(value, maximum) { value } else { maximum };
        *word = stored(value, header.kind)?;
    }
    Ok(end)
}
