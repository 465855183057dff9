//! The valid pixels of an image: of one tile, and all of them in runs.

use second::Header;
use std::iter::from_fn;
use std::ops::Range;

/// The longest side of a tile.
const MOST_ROWS: usize = 16;
pub(crate) const MOST_PIXELS: usize = MOST_ROWS * MOST_ROWS;

/// One tile, cut at the right and lower edge.
pub(crate) struct Tile {
    /// Column of the left edge.
    pub(crate) x: usize,
    /// How many of its pixels are valid.
    pub(crate) valid: usize,
    /// Number of the upper left pixel.
    first: usize,
    columns: usize,
    width: usize,
    height: usize,
    /// A row whose pixels are all valid.
    full: u16,
    /// A bit for each pixel of a row, the first one the highest.
    rows: [u16; MOST_ROWS],
}

impl Tile {
    /// Tiles are numbered row by row; the header is held to the rules and the
    /// mask long enough.
    pub(crate) fn new(header: &Header, number: usize, mask: &[u8]) -> Tile {
        let (columns, side) = (header.columns as usize, header.side as usize);
        let across = columns.div_ceil(side);
        let (x, y) = (number % across * side, number / across * side);
        let width = side.min(columns - x);
        let mut tile = Tile {
            x,
            valid: 0,
            first: y * columns + x,
            columns,
            width,
            height: side.min(header.rows as usize - y),
            full: u16::MAX << (MOST_ROWS - width),
            rows: [0; MOST_ROWS],
        };
        for (row, bits) in tile.rows[..tile.height].iter_mut().enumerate() {
            *bits = bits_from(mask, tile.first + row * columns) & tile.full;
            tile.valid += if *bits == tile.full {
                width
            } else {
                bits.count_ones() as usize
            };
        }
        tile
    }

    /// Writes one depth of the valid pixels.
    pub(crate) fn put(&self, words: &[u64], depth: usize, depths: usize, image: &mut [u64]) {
        let mut rest = words;
        for (row, &bits) in self.rows[..self.height].iter().enumerate() {
            let first = self.first + row * self.columns;
            let cells = &mut image[first * depths + depth..];
            let valid = if bits == self.full {
                put_row(&rest[..self.width], depths, cells)
            } else {
                put_valid(rest, bits, depths, cells)
            };
            rest = &rest[valid..];
        }
    }
}

/// Pixels that are all valid; their cells are `depths` apart.
fn put_row(words: &[u64], depths: usize, cells: &mut [u64]) -> usize {
    if depths == 1 {
        cells[..words.len()].copy_from_slice(words);
    } else {
        let cells = cells.iter_mut().step_by(depths);
        cells.zip(words).for_each(|(cell, &word)| *cell = word);
    }
    words.len()
}

/// Those pixels of a row whose bits are set; gives how many.
fn put_valid(words: &[u64], mut bits: u16, depths: usize, cells: &mut [u64]) -> usize {
    let mut valid = 0;
    while bits != 0 {
        let column = bits.leading_zeros() as usize;
        bits ^= 0x8000 >> column;
        cells[column * depths] = words[valid];
        valid += 1;
    }
    valid
}

/// Sixteen bits of a mask; behind its end they are 0.
fn bits_from(mask: &[u8], pixel: usize) -> u16 {
    let bits = match mask[pixel / 8..] {
        [a, b, c, ..] => u32::from_be_bytes([a, b, c, 0]),
        [a, b] => u32::from_be_bytes([a, b, 0, 0]),
        [a] => u32::from_be_bytes([a, 0, 0, 0]),
        [] => 0,
    };
    (bits << (pixel % 8) >> 16) as u16
}

/// Runs of valid pixels, as long as they go.
pub(crate) fn valid_runs(mask: &[u8], pixels: usize) -> impl Iterator<Item = Range<usize>> + '_ {
    let mut at = 0;
    from_fn(move || {
        let start = end_of(mask, at, pixels, 0);
        at = end_of(mask, start, pixels, 255);
        (start < pixels).then_some(start..at)
    })
}

/// The first pixel from `at` on whose bit is not as those of `alike`, which is 0
/// or 255; `pixels` if there is none.
fn end_of(mask: &[u8], at: usize, pixels: usize, alike: u8) -> usize {
    let Some(&first) = mask.get(at / 8) else {
        return pixels;
    };
    let other = (first ^ alike) << (at % 8);
    if other != 0 {
        return pixels.min(at + other.leading_zeros() as usize);
    }
    let next = at / 8 + 1;
    let Some(more) = mask[next..].iter().position(|&byte| byte != alike) else {
        return pixels;
    };
    let other = mask[next + more] ^ alike;
    pixels.min((next + more) * 8 + other.leading_zeros() as usize)
}
