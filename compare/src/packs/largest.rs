//! Packs of many tiles and of one size of blob, up to the largest that there is:
//! its last body ends behind 2^32. Slices are lent as they are, with no copies.

use super::sides::Packs;
use super::tiles::{packed, resized, tiles, Tile};
use crate::random::Random;
use second::refusal::{NO_ROOM, WRONG_PACK};
use second::{Entry, Refusal, MOST_TILES};

/// So many tiles, each with a blob of so many bytes.
#[derive(Clone, Copy)]
pub struct Wanted {
    pub count: usize,
    pub size: usize,
}

/// It takes some 9 GB of memory.
pub const LARGEST: Wanted = Wanted {
    count: MOST_TILES,
    size: 1 << 24,
};

/// Bytes behind the pack that must stand.
const BEHIND: usize = 8;
const MARK: u8 = 0xA5;

/// What the writer is lent, and the pack that it must write: its contents, then
/// the bodies.
struct Field {
    rows: Vec<u16>,
    columns: Vec<u16>,
    lengths: Vec<usize>,
    bodies: Vec<u8>,
    contents: Vec<u8>,
}

impl Field {
    /// Two blobs by turns, so that neighbours differ.
    fn new(wanted: Wanted) -> Field {
        let Wanted { count, size } = wanted;
        let mut random = Random::new(1);
        let blobs: Vec<Vec<u8>> = tiles(&mut random, 2, false)
            .into_iter()
            .map(|tile| resized(tile.blob, size))
            .collect();
        // The contents of blobs that have their header alone, with true starts.
        let short = |number: usize| Tile {
            row: (number / 16) as u16,
            column: (number % 16) as u16,
            blob: blobs[number % 2][..70].to_vec(),
        };
        let short: Vec<Tile> = (0..count).map(short).collect();
        let mut contents = packed(&short);
        contents.truncate(8 + 16 * count);
        for number in 0..count {
            let start = (contents.len() + number * size) as u32;
            let at = 8 + 16 * number + 8;
            contents[at..at + 4].copy_from_slice(&start.to_le_bytes());
            contents[at + 4..at + 8].copy_from_slice(&(size as u32).to_le_bytes());
        }
        let mut bodies = Vec::with_capacity(count * size);
        for number in 0..count {
            bodies.extend_from_slice(&blobs[number % 2]);
        }
        Field {
            rows: short.iter().map(|tile| tile.row).collect(),
            columns: short.iter().map(|tile| tile.column).collect(),
            lengths: vec![size; count],
            bodies,
            contents,
        }
    }

    fn length(&self) -> usize {
        self.contents.len() + self.bodies.len()
    }

    fn write(&self, packs: &dyn Packs, pack: &mut [u8]) -> Result<usize, Refusal> {
        packs.write(&self.rows, &self.columns, &self.lengths, &self.bodies, pack)
    }
}

/// Whether a side writes, opens and reads such a pack; else what it does not do.
pub fn compared(packs: &dyn Packs, wanted: Wanted) -> Result<(), String> {
    let field = Field::new(wanted);
    let (contents, length) = (field.contents.len(), field.length());
    let mut pack = vec![MARK; length + BEHIND];

    let short = field.write(packs, &mut pack[..length - 1]);
    expect("room one byte short", short, Err(Refusal::of(NO_ROOM)))?;
    let is_as_it_was = pack.iter().all(|&byte| byte == MARK);
    expect("bytes left by a refusal", is_as_it_was, true)?;

    expect("written", field.write(packs, &mut pack), Ok(length))?;
    expect("contents", pack[..contents] == field.contents, true)?;
    expect("bodies", pack[contents..length] == field.bodies, true)?;
    expect("bytes behind", &pack[length..], &[MARK; BEHIND][..])?;

    let wrong = Err(Refusal::of(WRONG_PACK));
    expect("opened", packs.open(&pack[..length]), Ok(wanted.count))?;
    expect("one byte less", packs.open(&pack[..length - 1]), wrong)?;
    expect("one byte more", packs.open(&pack[..length + 1]), wrong)?;

    for number in [0, 1, wanted.count - 1] {
        let body = contents + number * wanted.size;
        let header = second::read_header(&pack[body..body + wanted.size])
            .map_err(|refusal| refusal.to_string())?;
        let entry = Entry {
            row: field.rows[number],
            column: field.columns[number],
            kind: header.kind,
            depth: header.depth,
            start: body as u32,
            length: wanted.size as u32,
        };
        let read = packs.entry(&pack[..length], wanted.count, number);
        expect("an entry", read, Ok(entry))?;
    }
    let cut = packs.entry(&pack[..length - 1], wanted.count, wanted.count - 1);
    expect("the last entry, cut", cut, Err(Refusal::of(WRONG_PACK)))
}

fn expect<T: PartialEq + std::fmt::Debug>(what: &str, said: T, expected: T) -> Result<(), String> {
    if said == expected {
        return Ok(());
    }
    Err(format!("{what}: {said:?}, not {expected:?}"))
}
