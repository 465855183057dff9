//! Tiles, and packs that are put together without a look at what they hold.

use super::call::{Call, Op};
use super::table::Sort;
use crate::case::{self, Case};
use crate::checksum;
use crate::damage;
use crate::form::{form, Fault, Wanted};
use crate::random::Random;
use lerc2::raw;
use second::MOST_TILES;
use std::collections::BTreeSet;

#[derive(Clone, Debug)]
pub struct Tile {
    pub row: u16,
    pub column: u16,
    pub blob: Vec<u8>,
}

/// Blobs of one pack at most; a pack with more tiles has some of them twice.
const MOST_BLOBS: usize = 24;

/// The size of a blob at its ceiling.
const MOST_SIZE: usize = 1 << 24;

/// Tiles that make a pack, and their sort.
pub fn any_tiles(random: &mut Random) -> (Sort, Vec<Tile>) {
    let count = match random.below(200) {
        0..=7 => 0,
        8..=47 => 1,
        48..=157 => random.between(2, 6),
        158..=193 => random.between(7, 20),
        194..=197 => random.between(21, 120),
        198 => random.between(121, MOST_TILES - 1),
        _ => MOST_TILES,
    };
    let broken = count > 0 && random.once_in(4);
    let tiles = tiles(random, count, broken);
    let sort = match count {
        0 => Sort::Empty,
        _ if broken => Sort::Broken,
        MOST_TILES => Sort::Full,
        _ => Sort::Good,
    };
    (sort, tiles)
}

/// So many tiles, however many a pack may have; with `broken` one of them has a
/// broken body.
pub fn tiles(random: &mut Random, count: usize, broken: bool) -> Vec<Tile> {
    let blobs: Vec<Vec<u8>> = (0..count.min(MOST_BLOBS))
        .map(|_| blob(random, count))
        .collect();
    let mut tiles = Vec::new();
    for (row, column) in places(random, count) {
        let blob = match blobs.get(tiles.len()) {
            Some(blob) => blob.clone(),
            None => blobs[random.below(blobs.len())].clone(),
        };
        tiles.push(Tile { row, column, blob });
    }
    if broken && count > 0 {
        let at = random.below(count);
        tiles[at].blob = broken_blob(random);
    }
    tiles
}

/// Two tiles, the first so long that the second begins behind 2^24.
pub fn large_tiles(random: &mut Random) -> Vec<Tile> {
    let mut tiles = tiles(random, 2, false);
    let first = &mut tiles[0].blob;
    *first = resized(std::mem::take(first), MOST_SIZE);
    tiles
}

/// The same blob with more bytes between its body and its size.
pub fn resized(mut blob: Vec<u8>, size: usize) -> Vec<u8> {
    blob.resize(size, 0x5A);
    blob[34..38].copy_from_slice(&(size as u32).to_le_bytes());
    checksum::mend(&mut blob);
    blob
}

/// Places that rise by row and column: on a small grid, anywhere, or beside
/// numbers where a byte is full or a sign would turn.
fn places(random: &mut Random, count: usize) -> BTreeSet<(u16, u16)> {
    const BESIDE: [u16; 12] = [
        0, 1, 0xFE, 0xFF, 0x100, 0x101, 0x1FF, 0x7FFF, 0x8000, 0xFF00, 0xFFFE, 0xFFFF,
    ];
    let way = match count {
        0..=60 => random.below(3),
        _ => random.below(2),
    };
    let side = count + 2;
    let mut places = BTreeSet::new();
    while places.len() < count {
        let mut number = || match way {
            0 => random.below(side) as u16,
            1 => random.word() as u16,
            _ => random.pick(&BESIDE),
        };
        let (row, column) = (number(), number());
        // Few rows, so that some have several tiles.
        let row = if way == 0 { row / 3 } else { row };
        places.insert((row, column));
    }
    places
}

/// A blob that is accepted, as long as it declares.
fn blob(random: &mut Random, count: usize) -> Vec<u8> {
    loop {
        let wanted = Wanted {
            fault: Fault::None,
            ..wanted(random, count)
        };
        let mut form = form(random, wanted);
        form.slack.clear();
        let bytes = form.bytes();
        if second::read_header(&bytes).is_ok() {
            return bytes;
        }
    }
}

/// Mostly small, of any kind; some as large as they come, and some of up to 64
/// depths.
fn wanted(random: &mut Random, count: usize) -> Wanted {
    let wanted = match random.below(8) {
        0 => Wanted::overflowing(random, false),
        1 => Wanted::in_eights(random, false),
        _ => Wanted::any(random, false),
    };
    match random.below(12) {
        0 if count <= 20 => wanted,
        1 if count <= 60 => Wanted {
            rows: random.between(1, 2),
            columns: random.between(1, 2),
            depth: match random.below(2) {
                0 => random.pick(&[1, 2, 63, 64]),
                _ => random.between(1, 64),
            },
            ..wanted
        },
        _ => Wanted {
            rows: random.between(1, 4),
            columns: random.between(1, 6),
            depth: random.pick(&[1, 1, 2, 3]),
            ..wanted
        },
    }
}

/// Its header and checksum are right, and it is refused when it is staged.
fn broken_blob(random: &mut Random) -> Vec<u8> {
    loop {
        let mut bytes = {
            let wanted = wanted(random, 1);
            let mut form = form(random, wanted);
            form.slack.clear();
            form.bytes()
        };
        if random.once_in(2) {
            let header: Vec<u8> = bytes.drain(..70).collect();
            damage::blob(random, &mut bytes);
            bytes.splice(0..0, header);
            let size = bytes.len() as u32;
            bytes[34..38].copy_from_slice(&size.to_le_bytes());
            checksum::mend(&mut bytes);
        }
        let is_refused = || crate::sides::plain(&staged(&bytes)).answer != 0;
        if second::read_header(&bytes).is_ok() && is_refused() {
            return bytes;
        }
    }
}

/// Staging of a blob, with slices just long enough.
pub fn staged(blob: &[u8]) -> Case {
    let mut case = Case::new(case::Op::Stage);
    case.blob = blob.to_vec();
    case.staged = vec![7; raw::STAGED];
    if let Ok(header) = second::read_header(blob) {
        case.kept = vec![0x3C; header.mask_length()];
        case.spare = vec![0xC3; header.mask_length()];
        case.list = vec![7; header.blocks()];
        case.image = vec![7; header.cells()];
    }
    case
}

/// The pack of these tiles: kind and depth by the lowest bytes of the blobs'
/// fields, where they are, lengths as they are.
pub fn packed(tiles: &[Tile]) -> Vec<u8> {
    let mut pack = vec![1, 0, 0, 0];
    pack.extend((tiles.len() as u32).to_le_bytes());
    let mut start = 8 + 16 * tiles.len();
    for tile in tiles {
        let byte = |at: usize| tile.blob.get(at).copied().unwrap_or(1);
        pack.extend(tile.row.to_le_bytes());
        pack.extend(tile.column.to_le_bytes());
        pack.extend([byte(38), byte(22).wrapping_sub(1), 0, 0]);
        pack.extend((start as u32).to_le_bytes());
        pack.extend((tile.blob.len() as u32).to_le_bytes());
        start += tile.blob.len();
    }
    for tile in tiles {
        pack.extend_from_slice(&tile.blob);
    }
    pack
}

/// A call of the writer, with no room yet.
pub fn write_call(sort: Sort, tiles: &[Tile]) -> Call {
    let mut call = Call::new(Op::Write, sort);
    for tile in tiles {
        call.rows.push(tile.row);
        call.columns.push(tile.column);
        call.lengths.push(tile.blob.len());
        call.bodies.extend_from_slice(&tile.blob);
    }
    call
}
