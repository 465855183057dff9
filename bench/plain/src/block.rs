//! One block: a tile at one depth.

use crate::bytes::{array, byte};
use crate::linear::read_words;
use crate::packed::{read_counts, MOST_COUNTS};
use crate::Refusal;
use second::refusal::{DOES_NOT_FIT, WRONG_BLOCK};
use second::Header;

const NONE: u32 = 8;

/// By the image's kind and the upper two bits of the flag byte.
const OFFSET_KINDS: [[u32; 4]; 8] = [
    [0, NONE, NONE, NONE],
    [1, NONE, NONE, NONE],
    [2, 1, 0, NONE],
    [3, 1, NONE, NONE],
    [4, 3, 2, 1],
    [5, 3, 1, NONE],
    [6, 2, 1, NONE],
    [7, 6, 4, 2],
];

/// Least and greatest number of the integer kinds, and the bits of a word.
const INTEGERS: [(i64, i64, u64); 6] = [
    (i8::MIN as i64, i8::MAX as i64, u8::MAX as u64),
    (0, u8::MAX as i64, u8::MAX as u64),
    (i16::MIN as i64, i16::MAX as i64, u16::MAX as u64),
    (0, u16::MAX as i64, u16::MAX as u64),
    (i32::MIN as i64, i32::MAX as i64, u32::MAX as u64),
    (0, u32::MAX as i64, u32::MAX as u64),
];

/// Reads the blocks of one image.
pub(crate) struct Blocks<'a> {
    bytes: &'a [u8],
    kind: u32,
    /// Twice the error: finite, and exact.
    step: f64,
    counts: [u32; MOST_COUNTS],
}

impl Blocks<'_> {
    /// `bytes` end at the size of the header, which is held to the rules.
    pub(crate) fn new<'a>(bytes: &'a [u8], header: &Header) -> Blocks<'a> {
        Blocks {
            bytes,
            kind: header.kind,
            step: 2.0 * f64::from_bits(header.error),
            counts: [0; MOST_COUNTS],
        }
    }

    /// The words of the block at `at`, one for each valid pixel of a tile whose
    /// left edge is at column `x`; gives where the block ends.
    pub(crate) fn read(
        &mut self,
        at: usize,
        x: usize,
        maximum: u64,
        words: &mut [u64],
    ) -> Result<usize, Refusal> {
        let flag = byte(self.bytes, at)?;
        if usize::from(flag / 4 % 16) != x / 8 % 16 {
            return Err(WRONG_BLOCK);
        }
        let at = at + 1;
        match flag % 4 {
            0 => read_words(self.bytes, at, self.kind, words),
            1 => self.read_counted(at, flag / 64, f64::from_bits(maximum), words),
            2 => {
                words.fill(0);
                Ok(at)
            }
            _ => {
                let (offset, end) = self.read_offset(at, flag / 64)?;
                words.fill(stored(offset, self.kind)?);
                Ok(end)
            }
        }
    }

    fn read_offset(&self, at: usize, code: u8) -> Result<(f64, usize), Refusal> {
        let (b, code) = (self.bytes, usize::from(code));
        let (offset, size) = match OFFSET_KINDS[self.kind as usize][code] {
            0 => (i8::from_le_bytes(array(b, at)?).into(), 1),
            1 => (u8::from_le_bytes(array(b, at)?).into(), 1),
            2 => (i16::from_le_bytes(array(b, at)?).into(), 2),
            3 => (u16::from_le_bytes(array(b, at)?).into(), 2),
            4 => (i32::from_le_bytes(array(b, at)?).into(), 4),
            5 => (u32::from_le_bytes(array(b, at)?).into(), 4),
            6 => (f32::from_le_bytes(array(b, at)?).into(), 4),
            7 => (f64::from_le_bytes(array(b, at)?), 8),
            _ => return Err(WRONG_BLOCK),
        };
        if !offset.is_finite() {
            return Err(WRONG_BLOCK);
        }
        Ok((offset, at + size))
    }

    fn read_counted(
        &mut self,
        at: usize,
        code: u8,
        maximum: f64,
        words: &mut [u64],
    ) -> Result<usize, Refusal> {
        let (offset, at) = self.read_offset(at, code)?;
        let (n, end) = read_counts(self.bytes, at, &mut self.counts)?;
        if n != words.len() {
            return Err(WRONG_BLOCK);
        }
        let step = self.step;
        // Offset, step and maximum are finite, and the step has no sign. So a
        // product may be infinite and no more; the sum is then that infinity,
        // and the lesser is the maximum, as it is on a tie.
        let value = |count: u32| {
            let value = offset + step * f64::from(count);
            if value < maximum {
                value
            } else {
                maximum
            }
        };
        let cells = words.iter_mut().zip(&self.counts);
        match self.kind {
            6 => cells.for_each(|(word, &count)| *word = stored_f32(value(count))),
            7 => cells.for_each(|(word, &count)| *word = value(count).to_bits()),
            kind => {
                for (word, &count) in cells {
                    *word = stored_integer(value(count), kind)?;
                }
            }
        }
        Ok(end)
    }
}

/// The word that stores a finite number.
pub(crate) fn stored(value: f64, kind: u32) -> Result<u64, Refusal> {
    match kind {
        6 => Ok(stored_f32(value)),
        7 => Ok(value.to_bits()),
        _ => stored_integer(value, kind),
    }
}

fn stored_f32(value: f64) -> u64 {
    (value as f32).to_bits().into()
}

fn stored_integer(value: f64, kind: u32) -> Result<u64, Refusal> {
    let (least, greatest, bits) = INTEGERS[kind as usize];
    // Cuts toward zero, and stops at ends that no kind reaches.
    let whole = value as i64;
    if whole < least || whole > greatest {
        return Err(DOES_NOT_FIT);
    }
    Ok(whole as u64 & bits)
}
