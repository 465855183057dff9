//! The paths of one block, by its head and its counts.

use crate::counted::offset_at;
use crate::paths::Path;
use crate::step::ERROR_END;
use second::{is_finite, number, packed_counts, stored, MOST_COUNTS};

/// Flag, offset of 8 bytes, head and number: bytes that hold any usual head.
const HEAD_BYTES: usize = 11;

/// Twice the error is at most this, if steps are counted in whole numbers.
const MOST_TWICE: f64 = 1_048_576.0;

/// Magnitudes from 2^-126 to below 2^128.
const NORMAL_32: std::ops::Range<u64> = 0x3810_0000_0000_0000..0x47F0_0000_0000_0000;

/// A block that is read without refusal.
pub struct Block<'a> {
    /// The blob up to its declared size.
    pub bytes: &'a [u8],
    pub start: usize,
    pub kind: u32,
    pub error: u64,
    /// The greatest number of the block's depth.
    pub maximum: u64,
}

/// The head of packed counts.
struct Counts {
    /// Bytes that say how many there are.
    size: usize,
    table: bool,
    /// How many.
    number: u32,
    /// Bits of a count, or of an entry of the table.
    bits: u32,
    /// Bits of a packed number: a count, or an index of the table.
    packed: u32,
}

/// Hands over each path of the block. A block without counts, as one of a tile
/// without valid pixels is, has the path of its head alone.
pub fn block_paths(block: &Block, mut take: impl FnMut(Path)) {
    let head = match block.bytes[block.start] % 4 {
        0 => Path::RawBlock,
        1 => return stepped_paths(block, take),
        2 => Path::ZeroBlock,
        _ => Path::OneOffset,
    };
    take(head);
}

fn stepped_paths(block: &Block, mut take: impl FnMut(Path)) {
    let (offset, at) = offset_at(block.bytes, block.start, block.kind);
    let counts = counts_at(block.bytes, at);
    take(head_path(block, &counts));
    if counts.number == 0 {
        return;
    }
    take(match counts.packed {
        0..=8 => Path::Bits8,
        9..=16 => Path::Bits16,
        _ => Path::Bits31,
    });
    if block.kind < 6 {
        let counts = [(1 << counts.bits) - 1, largest_at(block.bytes, at)];
        take(whole_path(block, offset, counts));
        return;
    }
    let by_unit = is_finite(offset) && is_finite(block.maximum) && block.error < ERROR_END;
    let last = (1u64 << counts.bits) - 1;
    take(float_path(block, by_unit, unclamped(block, offset, last)));
    if block.kind == 6 {
        let step = |count: u64| clamped(block, offset, count);
        let steps = counts_in(block.bytes, at);
        let each = steps.iter().all(|&count| is_normal(step(count.into())));
        take(normal_path([0, last].map(step), each));
    }
}

fn counts_at(bytes: &[u8], at: usize) -> Counts {
    let head = bytes[at];
    let size = 4 >> (head / 64);
    let mut number = [0; 4];
    number[..size].copy_from_slice(&bytes[at + 1..][..size]);
    let table = head / 32 % 2 == 1;
    let bits = u32::from(head % 32);
    let packed = if table {
        // As many bits as the last index has.
        8 - (bytes[at + 1 + size] - 1).leading_zeros()
    } else {
        bits
    };
    Counts {
        size,
        table,
        number: u32::from_le_bytes(number),
        bits,
        packed,
    }
}

/// The counts there are; of a table, the entries that are named.
fn counts_in(bytes: &[u8], at: usize) -> Vec<u32> {
    let mut counts = [0; MOST_COUNTS];
    let (n, _) = packed_counts(bytes, at, &mut counts).expect("it was read");
    counts[..n].to_vec()
}

fn largest_at(bytes: &[u8], at: usize) -> u32 {
    counts_in(bytes, at).into_iter().max().unwrap_or(0)
}

fn head_path(block: &Block, counts: &Counts) -> Path {
    if counts.table {
        Path::Table
    } else if counts.size != 1 {
        Path::WideNumber
    } else if block.bytes.len() - block.start < HEAD_BYTES {
        Path::HeadAtEnd
    } else {
        Path::UsualHead
    }
}

/// Kinds 0 to 5, whose offsets are whole: by the largest count that the width
/// holds and the largest that there is.
fn whole_path(block: &Block, offset: u64, [width, largest]: [u32; 2]) -> Path {
    let twice = 2.0 * f64::from_bits(block.error);
    let steps_are_whole = (1.0..=MOST_TWICE).contains(&twice) && twice.fract() == 0.0;
    let Ok(maximum) = stored(block.maximum, block.kind) else {
        return Path::WholeOneByOne;
    };
    if !steps_are_whole {
        return Path::WholeOneByOne;
    }
    let whole = |number: u64| f64::from_bits(number) as i64;
    let maximum = whole(number(maximum, block.kind));
    let fits = |count: u32| whole(offset) + twice as i64 * i64::from(count) <= maximum;
    if fits(width) {
        Path::WholeByWidth
    } else if fits(largest) {
        Path::WholeByLargest
    } else {
        Path::WholeClamped
    }
}

fn unclamped(block: &Block, offset: u64, count: u64) -> f64 {
    let product = f64::from_bits(block.error) * (2 * count) as f64;
    f64::from_bits(offset) + product
}

fn clamped(block: &Block, offset: u64, count: u64) -> f64 {
    let step = unclamped(block, offset, count);
    let maximum = f64::from_bits(block.maximum);
    if step < maximum {
        step
    } else {
        maximum
    }
}

fn float_path(block: &Block, by_unit: bool, last: f64) -> Path {
    let below = last < f64::from_bits(block.maximum);
    match (block.kind, by_unit, below) {
        (6, true, true) => Path::Float6Unclamped,
        (6, true, false) => Path::Float6Clamped,
        (6, false, _) => Path::Float6OverWhole,
        (_, true, true) => Path::Float7Unclamped,
        (_, true, false) => Path::Float7Clamped,
        (_, false, _) => Path::Float7OverWhole,
    }
}

/// Normal in binary32.
fn is_normal(step: f64) -> bool {
    NORMAL_32.contains(&step.abs().to_bits())
}

/// Steps from the first to the last one are all normal and on one side of 0, or
/// each step of a count is normal.
fn normal_path(ends: [f64; 2], each: bool) -> Path {
    match (ends.map(is_normal), ends.map(f64::is_sign_negative)) {
        ([true, true], [false, false]) => Path::NormalAbove0,
        ([true, true], [true, true]) => Path::NormalBelow0,
        _ if each => Path::NormalEach,
        _ => Path::NotNormal,
    }
}
