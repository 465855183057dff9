//! Many tiles in one file.
//!
//! A pack begins with its version and the count of its tiles, 8 bytes; then comes
//! an entry of 16 bytes for each tile, then their blobs without a gap
//! (`include/lerc2.h` has the bytes).

use crate::header::Kind;
use crate::raw;
use crate::refusal::Refusal;
use std::iter::FusedIterator;
use std::ops::Range;

/// The most tiles of a pack.
pub const MOST_TILES: usize = 256;

/// Bytes in front of the entries, and of each entry.
const FRONT: usize = 8;
const EACH: usize = 16;

/// A pack that was opened: its bytes are a pack, and nobody can change them while
/// it lives.
///
/// [`open`](Pack::open) is the only way to one, so that its count of tiles is the
/// one that opening said: a count that was made up cannot be asked with, as it can
/// through [`raw::pack_entry`](crate::raw::pack_entry).
///
/// ```
/// # let blob = [
/// #     &b"Lerc2 "[..], &4u32.to_le_bytes(), &0x386B3DDAu32.to_le_bytes(),
/// #     &1u32.to_le_bytes(), &3u32.to_le_bytes(), &1u32.to_le_bytes(),
/// #     &3u32.to_le_bytes(), &8u32.to_le_bytes(),
/// #     &79u32.to_le_bytes(), &1u32.to_le_bytes(),
/// #     &0.5f64.to_le_bytes(), &10f64.to_le_bytes(), &12f64.to_le_bytes(),
/// #     &0u32.to_le_bytes(),
/// #     &[0x0A, 0x0C, 0, 0, 1, 0x0A, 0x82, 3, 0x24],
/// # ]
/// # .concat();
/// use lerc2::{pack_tiles, publish, stage, Kind, Pack};
///
/// let bytes = pack_tiles(&[(0, 4, &blob), (2, 3, &blob)])?;
/// let pack = Pack::open(&bytes)?;
/// assert_eq!(pack.len(), 2);
/// assert_eq!((pack.entry(1)?.row, pack.entry(1)?.column), (2, 3));
///
/// for tile in &pack {
///     assert_eq!((tile.kind, tile.depth), (Kind::U8, 1));
///     let (mut kept, mut image) = ([0; 1], [0; 3]);
///     let (mut spare, mut list) = ([0; 1], [0; 1]);
///     let staged = stage(tile.blob, false, &kept, &mut spare, &mut list, &image)?;
///     publish(tile.blob, false, &staged, &mut kept, &spare, &list, &mut image)?;
///     assert_eq!(image, [10, 11, 12]);
/// }
/// # Ok::<(), lerc2::Refusal>(())
/// ```
#[derive(Clone, Copy, Debug, PartialEq, Eq)]
pub struct Pack<'a> {
    bytes: &'a [u8],
    tiles: usize,
}

/// What a pack says of one tile, which is what the header of its blob says.
#[derive(Clone, Copy, Debug, PartialEq, Eq, Hash)]
pub struct Entry {
    /// Row of the tile in the field.
    pub row: u16,
    /// Column of the tile in the field.
    pub column: u16,
    /// What a sample is.
    pub kind: Kind,
    /// Cells of each pixel.
    pub depth: u32,
    /// Where its blob begins, from the pack's first byte.
    pub start: usize,
    /// Bytes of its blob.
    pub length: usize,
}

/// A tile of a pack, with its blob.
#[derive(Clone, Copy, Debug, PartialEq, Eq, Hash)]
pub struct Tile<'a> {
    /// Row of the tile in the field.
    pub row: u16,
    /// Column of the tile in the field.
    pub column: u16,
    /// What a sample is.
    pub kind: Kind,
    /// Cells of each pixel.
    pub depth: u32,
    /// The blob: all that [`stage`](crate::stage) and [`read`](crate::read) need.
    /// A refusal's place counts from its first byte.
    pub blob: &'a [u8],
}

impl<'a> Pack<'a> {
    /// Opens a pack: one pass over all of its bytes, which holds each header to
    /// the rules and tests each checksum. Anything that is not as a pack should
    /// be is refused [12](crate::Why::WrongPack), at 0.
    ///
    /// No body is decoded. A tile with a wrong block under a true checksum is
    /// refused where it is read, and the others are not the worse for it.
    pub fn open(bytes: &'a [u8]) -> Result<Pack<'a>, Refusal> {
        let mut said = [0; raw::PACK_OPEN];
        Refusal::judge(|place| raw::pack_open(bytes, &mut said, place))?;
        let tiles = said[0] as usize;
        Ok(Pack { bytes, tiles })
    }

    /// How many tiles there are, at most [`MOST_TILES`].
    pub fn len(&self) -> usize {
        self.tiles
    }

    /// Whether there are none.
    pub fn is_empty(&self) -> bool {
        self.tiles == 0
    }

    /// All of its bytes.
    pub fn bytes(&self) -> &'a [u8] {
        self.bytes
    }

    /// What the pack says of a tile; they are numbered from 0, and rise by row,
    /// in a row by column. A number at or above the count is refused
    /// [12](crate::Why::WrongPack), and nothing else is.
    pub fn entry(&self, number: usize) -> Result<Entry, Refusal> {
        let mut record = [0; raw::PACK_ENTRY];
        let (bytes, tiles) = (self.bytes, self.tiles);
        Refusal::judge(|place| raw::pack_entry(bytes, tiles, number, &mut record, place))?;
        Ok(Entry::from_record(&record))
    }

    /// The blob of a tile; refuses what [`entry`](Pack::entry) refuses.
    pub fn body(&self, number: usize) -> Result<&'a [u8], Refusal> {
        let entry = self.entry(number)?;
        // An entry is given only where its blob lies within the pack.
        Ok(&self.bytes[entry.range()])
    }

    /// A tile with its blob; refuses what [`entry`](Pack::entry) refuses.
    pub fn tile(&self, number: usize) -> Result<Tile<'a>, Refusal> {
        let entry = self.entry(number)?;
        Ok(Tile {
            row: entry.row,
            column: entry.column,
            kind: entry.kind,
            depth: entry.depth,
            blob: &self.bytes[entry.range()],
        })
    }

    /// All tiles, in the pack's order.
    pub fn iter(&self) -> Tiles<'a> {
        Tiles {
            pack: *self,
            left: 0..self.tiles,
        }
    }
}

impl Entry {
    /// Where its blob stands in the pack. The end may pass 32 bits.
    pub fn range(&self) -> Range<usize> {
        self.start..self.start + self.length
    }

    /// Out of a record that the reader wrote, of a pack that was opened.
    fn from_record(record: &[u64; raw::PACK_ENTRY]) -> Entry {
        // Row and column have 16 bits, the kind is at most 7, the rest has 32 bits.
        let [row, column, kind, depth, start, length] = *record;
        Entry {
            row: row as u16,
            column: column as u16,
            kind: Kind::ALL[kind as usize],
            depth: depth as u32,
            start: start as usize,
            length: length as usize,
        }
    }
}

/// The tiles of a pack, in its order: by row, in a row by column.
#[derive(Clone, Debug)]
pub struct Tiles<'a> {
    pack: Pack<'a>,
    left: Range<usize>,
}

impl<'a> Tiles<'a> {
    /// Every number below the count has an entry, so that none is refused.
    fn tile(&self, number: usize) -> Tile<'a> {
        let tile = self.pack.tile(number);
        tile.unwrap_or_else(|refusal| unreachable!("tile {number} of an opened pack: {refusal}"))
    }
}

impl<'a> Iterator for Tiles<'a> {
    type Item = Tile<'a>;

    fn next(&mut self) -> Option<Tile<'a>> {
        let number = self.left.next()?;
        Some(self.tile(number))
    }

    fn size_hint(&self) -> (usize, Option<usize>) {
        self.left.size_hint()
    }
}

impl<'a> DoubleEndedIterator for Tiles<'a> {
    fn next_back(&mut self) -> Option<Tile<'a>> {
        let number = self.left.next_back()?;
        Some(self.tile(number))
    }
}

impl ExactSizeIterator for Tiles<'_> {}

impl FusedIterator for Tiles<'_> {}

impl<'a> IntoIterator for &Pack<'a> {
    type Item = Tile<'a>;
    type IntoIter = Tiles<'a>;

    fn into_iter(self) -> Tiles<'a> {
        self.iter()
    }
}

impl<'a> IntoIterator for Pack<'a> {
    type Item = Tile<'a>;
    type IntoIter = Tiles<'a>;

    fn into_iter(self) -> Tiles<'a> {
        self.iter()
    }
}

/// Bytes of a pack of so many tiles, whose blobs have so many bytes together: the
/// room that [`write_pack`] needs.
pub fn pack_length(tiles: usize, bodies: usize) -> usize {
    let entries = tiles.saturating_mul(EACH);
    entries.saturating_add(FRONT).saturating_add(bodies)
}

/// Writes a pack into a lent slice and gives its length, [`pack_length`]. Each
/// tile has a row, a column and a length, in the pack's order, and the blobs stand
/// in `bodies`, end to end. Kind and depth of an entry come from the blob's header.
///
/// It refuses [12](crate::Why::WrongPack) where rows, columns and lengths are not
/// as many as each other, or more than [`MOST_TILES`]; where the lengths do not add
/// up to the bodies, or one is not the size that its blob declares; where rows and
/// columns do not rise strictly, by row, in a row by column; where a header is
/// refused. Then it refuses [5](crate::Why::NoRoom) where the slice is too short.
///
/// Accepted: the slice begins with a pack that [`Pack::open`] accepts, and the rest
/// stays.
///
/// Refused: nothing is written.
pub fn write_pack(
    rows: &[u16],
    columns: &[u16],
    lengths: &[usize],
    bodies: &[u8],
    pack: &mut [u8],
) -> Result<usize, Refusal> {
    let mut said = [0; raw::PACK_WRITE];
    Refusal::judge(|place| {
        raw::pack_write(rows, columns, lengths, bodies, pack, &mut said, place)
    })?;
    Ok(said[0] as usize)
}

/// A pack of these tiles, each with its row, its column and its blob. They must
/// stand in the pack's order. It refuses what [`write_pack`] refuses, but for room.
///
/// The blobs are copied twice, first to stand end to end; [`write_pack`] copies
/// them once.
///
/// ```
/// let tiles: [(u16, u16, Vec<u8>); 0] = [];
/// assert_eq!(lerc2::pack_tiles(&tiles)?, [1, 0, 0, 0, 0, 0, 0, 0]);
/// # Ok::<(), lerc2::Refusal>(())
/// ```
pub fn pack_tiles<B: AsRef<[u8]>>(tiles: &[(u16, u16, B)]) -> Result<Vec<u8>, Refusal> {
    let rows: Vec<u16> = tiles.iter().map(|tile| tile.0).collect();
    let columns: Vec<u16> = tiles.iter().map(|tile| tile.1).collect();
    let blobs: Vec<&[u8]> = tiles.iter().map(|tile| tile.2.as_ref()).collect();
    let lengths: Vec<usize> = blobs.iter().map(|blob| blob.len()).collect();
    let bodies = blobs.concat();
    let mut pack = vec![0; pack_length(tiles.len(), bodies.len())];
    write_pack(&rows, &columns, &lengths, &bodies, &mut pack)?;
    Ok(pack)
}
