//! Damage to blobs and to records.

use crate::checksum;
use crate::codes;
use crate::random::Random;
use lerc2::raw;

/// Numbers at and past the limits of the rules, and of the fields.
const LIMITS: [u64; 30] = [
    0,
    1,
    2,
    7,
    8,
    9,
    15,
    16,
    17,
    63,
    64,
    65,
    69,
    70,
    71,
    255,
    256,
    4095,
    4096,
    4097,
    65535,
    65536,
    4_194_304,
    4_194_305,
    16_777_215,
    16_777_216,
    16_777_217,
    1 << 31,
    (1 << 31) - 1,
    u32::MAX as u64,
];

/// Past any field of 32 bits.
const WIDE: [u64; 6] = [
    1 << 32,
    (1 << 32) + 1,
    1 << 63,
    (1 << 63) - 1,
    u64::MAX - 1,
    u64::MAX,
];

/// Binary64 numbers at and past their limits.
pub const NUMBERS: [u64; 22] = [
    0,
    1 << 63,
    1,
    1 << 63 | 1,
    (1 << 52) - 1,
    1 << 52,
    0x3FE0_0000_0000_0000,
    0x3FF0_0000_0000_0000,
    0xBFF0_0000_0000_0000,
    0x4340_0000_0000_0000,
    0x7FDF_FFFF_FFFF_FFFF,
    0x7FE0_0000_0000_0000,
    0x7FE0_0000_0000_0001,
    0x7FEF_FFFF_FFFF_FFFF,
    0xFFEF_FFFF_FFFF_FFFF,
    0x7FF0_0000_0000_0000,
    0x7FF0_0000_0000_0001,
    0x7FF8_0000_0000_0000,
    0x7FFF_FFFF_FFFF_FFFF,
    0xFFF0_0000_0000_0000,
    0xFFF8_0000_0000_0000,
    0xFFFF_FFFF_FFFF_FFFF,
];

/// Changes a blob in one to three ways.
pub fn blob(random: &mut Random, blob: &mut Vec<u8>) {
    for _ in 0..random.between(1, 3) {
        if blob.is_empty() {
            return;
        }
        // Few changes to the header, which refuses most of them.
        let from = match random.below(4) {
            0 => 0,
            1 => 66,
            _ => 70,
        };
        let at = from.min(blob.len() - 1) + random.below(blob.len().saturating_sub(from).max(1));
        match random.below(10) {
            0 | 1 => blob[at] ^= 1 << random.below(8),
            2 => blob[at] = random.pick(&[0, 1, 2, 3, 127, 128, 255]),
            3 => blob[at] = random.byte(),
            4 => blob[at] = blob[at].wrapping_add(random.pick(&[1, 255])),
            5 => {
                let other = random.below(blob.len());
                blob.swap(at, other);
            }
            6 => {
                blob.remove(at);
            }
            7 => blob.insert(at, random.byte()),
            8 if random.once_in(2) && table(random, blob).is_some() => {}
            8 => field(random, blob),
            _ => cut(random, blob),
        }
    }
}

/// A field of the header at or past a limit.
fn field(random: &mut Random, blob: &mut [u8]) {
    if random.once_in(3) {
        let at = random.pick(&[42, 50, 58]);
        let number = random.pick(&NUMBERS);
        put(blob, at, &number.to_le_bytes());
        return;
    }
    let at = random.pick(&[0, 6, 14, 18, 22, 26, 30, 34, 38, 66]);
    let limit = if random.once_in(2) {
        random.pick(&LIMITS) as u32
    } else {
        // Beside what is there.
        let mut there = [0; 4];
        for (to, &byte) in there.iter_mut().zip(blob.iter().skip(at)) {
            *to = byte;
        }
        let by = random.pick(&[1u32, 2, u32::MAX, u32::MAX - 1]);
        u32::from_le_bytes(there).wrapping_add(by)
    };
    put(blob, at, &limit.to_le_bytes());
}

/// An integer in front of Huffman codes at or past a limit, or beside what it
/// is. None if the blob has no such codes.
fn table(random: &mut Random, blob: &mut [u8]) -> Option<()> {
    let header = second::read_header(&checksum::mended(blob)).ok()?;
    let ranges = second::read_ranges(blob, &header).ok()?;
    let mode = codes::mode_at(blob, &header, ranges.place)?;
    let at = mode + 1 + 4 * random.below(4);
    let there = blob.get(at..at + 4)?.try_into().ok()?;
    let number = match random.below(3) {
        0 => random.pick(&LIMITS) as u32,
        1 => random.pick(&[1, 2, 255, 256, 257, 511, 512]),
        _ => u32::from_le_bytes(there).wrapping_add(random.pick(&[1, u32::MAX])),
    };
    put(blob, at, &number.to_le_bytes());
    Some(())
}

/// Cuts the slice, and once in two the declared size with it, so that the body
/// is what is short.
fn cut(random: &mut Random, blob: &mut Vec<u8>) {
    let length = random.below(blob.len());
    blob.truncate(length);
    if random.once_in(2) {
        put(blob, 34, &(length as u32).to_le_bytes());
    }
}

fn put(blob: &mut [u8], at: usize, bytes: &[u8]) {
    for (to, &byte) in blob.iter_mut().skip(at).zip(bytes) {
        *to = byte;
    }
}

/// Changes one number of a header's record.
pub fn header(random: &mut Random, record: &mut [u64]) {
    if record.is_empty() {
        return;
    }
    let at = random.below(record.len().min(raw::HEADER));
    record[at] = match (at, random.below(8)) {
        (7..=9, 0..=4) => random.pick(&NUMBERS),
        (_, 0) => random.pick(&WIDE),
        (_, 1) => random.word(),
        (_, 2..=4) => random.pick(&LIMITS),
        _ => record[at].wrapping_add(random.pick(&[1, 8, u64::MAX, u64::MAX - 7])),
    };
}

/// Changes one or two numbers of the ranges' record, or all maxima.
pub fn ranges(random: &mut Random, record: &mut [u64], size: usize, depth: usize) {
    if random.once_in(6) {
        // No integer kind holds them, so nothing is clamped to where it fits.
        record[2 + 64..][..depth].fill(1e300f64.to_bits());
        return;
    }
    for _ in 0..random.between(1, 2) {
        range(random, record, size as u64, depth);
    }
}

fn range(random: &mut Random, record: &mut [u64], size: u64, depth: usize) {
    let at = match random.below(6) {
        0 => 0,
        1 => 1,
        // Below the depth, and just past it.
        n => 2 + 64 * (n % 2) + random.below(depth.clamp(1, 63) + 1),
    };
    if at >= record.len() {
        return;
    }
    record[at] = match at {
        0 => body_place(random, record[0], size),
        1 => random.pick(&[0, 1, 1, 2, 256, 1 << 32, u64::MAX]),
        _ => match random.below(4) {
            0 => random.pick(&NUMBERS),
            1 => random.word(),
            2 => f64::to_bits(random.pick(&[1e10, 300.0, -1e10, 1e300, 70000.0, 128.0])),
            _ => record[at].wrapping_add(random.pick(&[1, u64::MAX])),
        },
    };
}

/// A place that need not be the body's.
fn body_place(random: &mut Random, place: u64, size: u64) -> u64 {
    random.pick(&[
        0,
        69,
        70,
        71,
        size,
        size.wrapping_sub(1),
        size + 1,
        place.wrapping_add(1),
        place.wrapping_sub(1),
        u64::MAX,
        u64::MAX - 1,
        1 << 63,
        16_777_216,
        // The true place, but for digits above the 32nd.
        1 << 32 | place,
    ])
}

/// A place in a list that need not be a block's start.
pub fn start(random: &mut Random, size: usize, starts: &[usize]) -> usize {
    match random.below(6) {
        0 => random.pick(&[0, 1, 69, 70]),
        _ if random.once_in(8) => far(random, starts),
        1 => random.pick(&[size, size.wrapping_sub(1), size + 1]),
        2 => random.below(size.max(1)),
        _ if starts.is_empty() => random.below(size + 2),
        3 => random.pick(starts).wrapping_add(1),
        4 => random.pick(starts).wrapping_sub(1),
        _ => random.pick(starts),
    }
}

/// A start that no blob reaches, often with the lower digits of a true one.
fn far(random: &mut Random, starts: &[usize]) -> usize {
    let near = match starts {
        [] => 70,
        _ => random.pick(starts),
    };
    random.pick(&[
        usize::MAX,
        usize::MAX - 1,
        1 << 63,
        1 << 32,
        1 << 32 | near,
        1 << 63 | near,
    ])
}
