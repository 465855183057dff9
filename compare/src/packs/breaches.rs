//! Tiles, packs and slices with one thing wrong, and damage to packs. Where the
//! one thing is no checksum, those of the blobs are true.

use super::call::Call;
use super::table::Sort;
use super::tiles::{packed, tiles, Tile};
use crate::checksum;
use crate::random::Random;

/// What is wrong with tiles: with the pack of them, and for the writer.
pub const OF_TILES: [Sort; 12] = [
    Sort::TooMany,
    Sort::Equal,
    Sort::RowFalls,
    Sort::ColumnFalls,
    Sort::Stub,
    Sort::Key,
    Sort::BlobVersion,
    Sort::Field,
    Sort::Ceiling,
    Sort::Checksum,
    Sort::DeclaresMore,
    Sort::DeclaresLess,
];

/// What is wrong with the bytes of a pack.
pub const OF_PACK: [Sort; 16] = [
    Sort::Short,
    Sort::ContentsCut,
    Sort::Version,
    Sort::Zero1,
    Sort::Zero2,
    Sort::Zero3,
    Sort::Zero6,
    Sort::Zero7,
    Sort::GapBefore,
    Sort::GapBetween,
    Sort::Behind,
    Sort::BodyCut,
    Sort::Overlap,
    Sort::Turned,
    Sort::Kind,
    Sort::Depth,
];

/// What is wrong with the slices of the writer.
pub const OF_SLICES: [Sort; 6] = [
    Sort::Rows,
    Sort::Columns,
    Sort::Lengths,
    Sort::BodiesShort,
    Sort::BodiesLong,
    Sort::Wrapped,
];

pub const DAMAGE: [Sort; 7] = [
    Sort::Flipped,
    Sort::Cut,
    Sort::Extended,
    Sort::Swapped,
    Sort::Limits,
    Sort::Far,
    Sort::Noise,
];

// ---- tiles

/// None where these tiles cannot have the breach.
pub fn tiles_with(random: &mut Random, sort: Sort, good: &[Tile]) -> Option<Vec<Tile>> {
    if sort == Sort::TooMany {
        // Large packs take their time.
        let count = random.pick(&[257, 257, 257, 258, 300, 512]);
        return random.once_in(8).then(|| tiles(random, count, false));
    }
    let mut tiles = good.to_vec();
    let changed = match sort {
        Sort::Equal | Sort::RowFalls | Sort::ColumnFalls => misplaced(random, sort, &mut tiles),
        Sort::DeclaresMore => declares_more(random, &mut tiles),
        _ => blob_with(random, sort, &mut tiles),
    };
    changed.map(|()| tiles)
}

/// Two neighbours in one place, or each in the other's. All others still rise.
fn misplaced(random: &mut Random, sort: Sort, tiles: &mut [Tile]) -> Option<()> {
    let in_a_row = |at: usize| tiles[at].row == tiles[at + 1].row;
    let pairs = (0..tiles.len().saturating_sub(1)).filter(|&at| match sort {
        Sort::Equal => true,
        Sort::RowFalls => !in_a_row(at),
        _ => in_a_row(at),
    });
    let at = any_of(random, pairs.collect())?;
    let places = [at, at + 1].map(|at| (tiles[at].row, tiles[at].column));
    (tiles[at + 1].row, tiles[at + 1].column) = places[0];
    if sort != Sort::Equal {
        (tiles[at].row, tiles[at].column) = places[1];
    }
    Some(())
}

/// The size that a blob declares, and its checksum, take in bytes of the bodies
/// behind it.
fn declares_more(random: &mut Random, tiles: &mut [Tile]) -> Option<()> {
    let at = any_of(random, (0..tiles.len().saturating_sub(1)).collect())?;
    let bodies: Vec<u8> = tiles[at..]
        .iter()
        .flat_map(|tile| tile.blob.clone())
        .collect();
    let length = tiles[at].blob.len();
    let more = match random.below(3) {
        0 => 1,
        1 => tiles[at + 1].blob.len(),
        _ => random.between(1, bodies.len() - length),
    };
    let mut long = bodies[..length + more].to_vec();
    put(&mut long, 34, length + more);
    checksum::mend(&mut long);
    tiles[at].blob = long[..length].to_vec();
    Some(())
}

fn blob_with(random: &mut Random, sort: Sort, tiles: &mut [Tile]) -> Option<()> {
    let at = any_of(random, (0..tiles.len()).collect())?;
    let blob = &mut tiles[at].blob;
    match sort {
        Sort::Stub => {
            let length = random.pick(&[0, 1, 13, 14, 37, 38, 69, 69]);
            blob.truncate(length);
            if length >= 38 {
                put(blob, 34, length);
            }
        }
        Sort::Key => {
            let byte = random.below(6);
            blob[byte] ^= 1 << random.below(8);
        }
        Sort::BlobVersion => {
            let version = random.pick(&[0, 1, 2, 3, 5, 6, 1 << 8 | 4, 1 << 24 | 4]);
            put(blob, 6, version);
        }
        Sort::Field => field(random, blob),
        Sort::Ceiling => ceiling(random, blob),
        Sort::Checksum => {
            checksum::damage(random, blob);
            return Some(());
        }
        _ => {
            let more = random.between(1, 9);
            blob.extend(random.bytes(more));
            return Some(());
        }
    }
    checksum::mend(blob);
    Some(())
}

/// One field breaks its rule.
fn field(random: &mut Random, blob: &mut [u8]) {
    let numbers = [0x7FF0_0000_0000_0000u64, 0x7FF8_0000_0000_0000, u64::MAX];
    let number = random.pick(&numbers).to_le_bytes();
    let negative = (-0.5f64).to_le_bytes();
    match random.below(9) {
        0 => put(blob, random.pick(&[14, 18, 22, 30]), 0),
        1 => put(blob, 26, 0xFFFF_FFFF),
        2 | 3 => put(blob, 38, random.pick(&[8, 9, 255, 256, 1 << 31])),
        4 => blob[42..50].copy_from_slice(&number),
        5 => blob[42..50].copy_from_slice(&negative),
        6 => blob[50..58].copy_from_slice(&number),
        7 => blob[58..66].copy_from_slice(&number),
        _ => put(blob, 66, blob.len() - 69),
    }
}

/// One ceiling is passed, and every field is right.
fn ceiling(random: &mut Random, blob: &mut [u8]) {
    match random.below(5) {
        0 => put(blob, 14, 4097),
        1 => put(blob, 18, 4097),
        2 => put(blob, 22, 65),
        3 => put(blob, 30, 17),
        _ => {
            put(blob, 14, 4096);
            put(blob, 18, 4096);
        }
    }
}

// ---- bytes of a pack

/// None where the pack of these tiles cannot have the breach.
pub fn pack_with(random: &mut Random, sort: Sort, tiles: &[Tile]) -> Option<Vec<u8>> {
    let mut pack = packed(tiles);
    let contents = 8 + 16 * tiles.len();
    let entries: Vec<usize> = (0..tiles.len()).collect();
    match sort {
        Sort::Short => pack.truncate(random.below(8)),
        Sort::ContentsCut => {
            any_of(random, entries)?;
            pack.truncate(random.between(8, contents - 1));
        }
        Sort::Version => pack[0] = random.pick(&[0, 2, 3, 17, 129, 255]),
        Sort::Zero1 | Sort::Zero2 | Sort::Zero3 => {
            let at = 1 + sort as usize - Sort::Zero1 as usize;
            pack[at] = not_zero(random);
        }
        Sort::Zero6 | Sort::Zero7 => {
            let at = 6 + sort as usize - Sort::Zero6 as usize;
            let entry = any_of(random, entries)?;
            pack[8 + 16 * entry + at] = not_zero(random);
        }
        Sort::GapBefore | Sort::GapBetween => {
            let is_first = sort == Sort::GapBefore;
            let behind = entries.into_iter().filter(|&n| (n == 0) == is_first);
            let first = any_of(random, behind.collect())?;
            put_gap(random, &mut pack, tiles, first);
        }
        Sort::Behind => {
            let more = random.pick(&[1, 2, 16, 70]);
            pack.extend(random.bytes(more));
        }
        Sort::BodyCut => {
            let last = tiles.last()?.blob.len();
            let cut = random.pick(&[1, 1, 2, last - 70, last - 1, last]);
            pack.truncate(pack.len() - cut.max(1));
        }
        Sort::Overlap => pack = overlapping(random, tiles)?,
        Sort::Turned => pack = turned(random, tiles)?,
        Sort::Kind => {
            let at = 8 + 16 * any_of(random, entries)? + 4;
            pack[at] = other_than(pack[at], random.below(8) as u8, random.byte(), random);
        }
        _ => {
            let at = 8 + 16 * any_of(random, entries)? + 5;
            let beside = pack[at].wrapping_add(random.pick(&[1, 255, 64, 128]));
            pack[at] = other_than(pack[at], beside, random.byte(), random);
        }
    }
    Some(pack)
}

fn not_zero(random: &mut Random) -> u8 {
    match random.below(2) {
        0 => 1 << random.below(8),
        _ => random.between(1, 255) as u8,
    }
}

fn other_than(there: u8, a: u8, b: u8, random: &mut Random) -> u8 {
    let other = if random.below(4) > 0 { a } else { b };
    if other == there {
        there ^ 1
    } else {
        other
    }
}

/// Bytes before one of the bodies; it and all behind it say where they are.
fn put_gap(random: &mut Random, pack: &mut Vec<u8>, tiles: &[Tile], first: usize) {
    let bytes = random.pick(&[1, 2, 16, 70, 79]);
    let gap = match random.below(2) {
        0 => vec![0; bytes],
        _ => random.bytes(bytes),
    };
    let at = start(pack, first);
    for entry in first..tiles.len() {
        let moved = start(pack, entry) + gap.len();
        put(pack, 16 + 16 * entry, moved);
    }
    pack.splice(at..at, gap);
}

/// Two neighbours with the same blob, which is there once.
fn overlapping(random: &mut Random, tiles: &[Tile]) -> Option<Vec<u8>> {
    let at = any_of(random, (1..tiles.len()).collect())?;
    let mut tiles = tiles.to_vec();
    tiles[at].blob = tiles[at - 1].blob.clone();
    let length = tiles[at].blob.len();
    let mut pack = packed(&tiles);
    let second = start(&pack, at);
    pack.drain(second..second + length);
    for entry in at..tiles.len() {
        let moved = start(&pack, entry) - length;
        put(&mut pack, 16 + 16 * entry, moved);
    }
    Some(pack)
}

/// Two neighbours whose bodies stand the other way round.
fn turned(random: &mut Random, tiles: &[Tile]) -> Option<Vec<u8>> {
    let at = any_of(random, (1..tiles.len()).collect())?;
    let mut pack = packed(tiles);
    let (first, second) = (&tiles[at - 1].blob, &tiles[at].blob);
    let from = start(&pack, at - 1);
    let both = [&second[..], first].concat();
    pack[from..from + both.len()].copy_from_slice(&both);
    put(&mut pack, 16 + 16 * at, from);
    put(&mut pack, 16 + 16 * (at - 1), from + second.len());
    Some(pack)
}

// ---- slices of the writer

/// None where these tiles cannot have the breach. The room is not there yet.
pub fn slices_with(random: &mut Random, sort: Sort, good: Call) -> Option<Call> {
    let mut call = good;
    let last = call.lengths.len().checked_sub(1);
    let longer = random.once_in(2);
    match sort {
        Sort::Rows if longer => call.rows.push(u16::MAX),
        Sort::Rows => drop(call.rows.pop()?),
        Sort::Columns if longer => call.columns.push(u16::MAX),
        Sort::Columns => drop(call.columns.pop()?),
        Sort::Lengths if longer => call.lengths.push(0),
        Sort::Lengths => drop(call.lengths.pop()?),
        Sort::BodiesShort => {
            let fewer = random.pick(&[1, 2, call.lengths[last?]]);
            call.bodies.truncate(call.bodies.len() - fewer);
        }
        Sort::BodiesLong => {
            let more = random.pick(&[1, 2, 70]);
            call.bodies.extend(random.bytes(more));
        }
        _ if longer => {
            // One length too many for 32 or 64 bits.
            let at = random.below(last? + 1);
            call.lengths[at] = random.pick(&[
                call.lengths[at] + (1 << 32),
                call.lengths[at] | 1 << 63,
                usize::MAX,
                usize::MAX - 7,
            ]);
        }
        _ => {
            // Added up modulo 2^64 they are what they were.
            let last = last.filter(|&last| last > 0)?;
            let by = random.pick(&[1 << 63, usize::MAX - 100, 1 << 32]);
            call.lengths[last - 1] = call.lengths[last - 1].wrapping_add(by);
            call.lengths[last] = call.lengths[last].wrapping_sub(by);
        }
    }
    Some(call)
}

// ---- damage

/// Several things may be wrong, or none.
pub fn damaged(random: &mut Random, sort: Sort, tiles: &[Tile]) -> Vec<u8> {
    let mut pack = packed(tiles);
    let contents = 8 + 16 * tiles.len();
    match sort {
        Sort::Flipped => {
            for _ in 0..random.between(1, 3) {
                let within = if random.below(4) > 0 {
                    contents
                } else {
                    pack.len()
                };
                let at = random.below(within);
                pack[at] ^= 1 << random.below(8);
            }
        }
        Sort::Cut => {
            let within = if random.once_in(2) {
                contents
            } else {
                pack.len()
            };
            pack.truncate(random.below(within));
        }
        Sort::Extended => {
            let within = if random.once_in(2) {
                contents
            } else {
                pack.len()
            };
            let at = random.between(0, within);
            let bytes = random.pick(&[1, 2, 4, 8, 16]);
            pack.splice(at..at, random.bytes(bytes));
        }
        Sort::Swapped => swap(random, &mut pack, tiles.len()),
        Sort::Limits => limit(random, &mut pack, tiles.len()),
        Sort::Far => far(random, &mut pack, tiles.len()),
        _ => {
            let bytes = random.below(200);
            let mut noise = random.bytes(bytes);
            if random.once_in(2) {
                noise.splice(0..0, [1, 0, 0, 0, random.below(4) as u8, 0, 0, 0]);
            }
            // Starts that lie inside now and then.
            for at in (16..noise.len().saturating_sub(8)).step_by(16) {
                if random.once_in(2) {
                    put(&mut noise, at, random.below(bytes + 8));
                    put(&mut noise, at + 4, random.below(40));
                }
            }
            pack = noise;
        }
    }
    pack
}

/// Two entries, wholly or but for their places.
fn swap(random: &mut Random, pack: &mut [u8], count: usize) {
    if count < 2 {
        return;
    }
    let a = random.below(count);
    let b = (a + random.between(1, count - 1)) % count;
    let from = random.pick(&[0, 0, 4, 8]);
    for byte in from..16 {
        pack.swap(8 + 16 * a + byte, 8 + 16 * b + byte);
    }
}

/// A field at a limit, or one beside what it was.
fn limit(random: &mut Random, pack: &mut [u8], count: usize) {
    let (at, bytes) = match random.below(8) {
        0 => (4, 4),
        n if count > 0 => {
            let fields = [(0, 2), (2, 2), (4, 1), (5, 1), (6, 2), (8, 4), (12, 4)];
            let (field, bytes) = fields[n - 1];
            (8 + 16 * random.below(count) + field, bytes)
        }
        _ => (random.pick(&[0, 4]), 4),
    };
    let mut there = [0; 8];
    there[..bytes].copy_from_slice(&pack[at..at + bytes]);
    let there = u64::from_le_bytes(there);
    let end = pack.len() as u64;
    let number = match random.below(3) {
        0 => there.wrapping_add(random.pick(&[1, u64::MAX, 256, 1 << 16])),
        1 => random.pick(&[end, end - 1, end + 1, end.saturating_sub(there), 8, 24]),
        _ => random.pick(&[
            0,
            1,
            63,
            64,
            255,
            256,
            257,
            65_535,
            1 << 24,
            (1 << 31) - 1,
            1 << 31,
            0xFFFF_FFFF,
        ]),
    };
    pack[at..at + bytes].copy_from_slice(&number.to_le_bytes()[..bytes]);
}

/// Start and length whose sum is in the pack if it is cut to 32 bits, or nearly
/// so.
fn far(random: &mut Random, pack: &mut [u8], count: usize) {
    if count == 0 {
        return put(pack, 4, 1 << 31);
    }
    let at = 16 + 16 * random.below(count);
    let (begins, length) = (number(pack, at), number(pack, at + 4));
    let end = (begins + length) as u32;
    let near = random.pick(&[0, 1, 8, 70, 1 << 31, 1 << 24]);
    let begins = match random.below(3) {
        0 => 0u32.wrapping_sub(near + 1),
        1 => (begins as u32).wrapping_sub(near),
        _ => random.word() as u32,
    };
    let wrapped = random.pick(&[end, pack.len() as u32, 0, end.wrapping_add(1)]);
    put(pack, at, begins as usize);
    put(pack, at + 4, wrapped.wrapping_sub(begins) as usize);
}

// ---- fields

fn any_of(random: &mut Random, from: Vec<usize>) -> Option<usize> {
    (!from.is_empty()).then(|| random.pick(&from))
}

/// Where a body begins.
fn start(pack: &[u8], entry: usize) -> usize {
    number(pack, 16 + 16 * entry)
}

fn number(pack: &[u8], at: usize) -> usize {
    let field = pack[at..at + 4].try_into().expect("four bytes");
    u32::from_le_bytes(field) as usize
}

/// The lower four bytes of a number.
pub(super) fn put(bytes: &mut [u8], at: usize, number: usize) {
    bytes[at..at + 4].copy_from_slice(&(number as u32).to_le_bytes());
}
