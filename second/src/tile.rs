//! The tiles of an image.

use crate::header::Header;
use crate::mask::is_valid;

/// Pixels of the largest tile.
pub(crate) const MOST_PIXELS: usize = 256;

/// One tile, cut at the right and lower edge, and its valid pixels.
pub(crate) struct Tile {
    /// Column of the left edge.
    pub(crate) x: usize,
    pixels: [usize; MOST_PIXELS],
    count: usize,
}

impl Tile {
    /// Tiles are numbered row by row; the header is held to the rules and the
    /// mask long enough.
    pub(crate) fn new(header: &Header, number: usize, mask: &[u8]) -> Tile {
        let (rows, columns) = (header.rows as usize, header.columns as usize);
        let side = header.side as usize;
        let across = header.tiles_across();
        let (x, y) = (number % across * side, number / across * side);
        let mut tile = Tile {
            x,
            pixels: [0; MOST_PIXELS],
            count: 0,
        };
        for row in y..rows.min(y + side) {
            for column in x..columns.min(x + side) {
                let pixel = row * columns + column;
                if is_valid(mask, pixel) {
                    tile.pixels[tile.count] = pixel;
                    tile.count += 1;
                }
            }
        }
        tile
    }

    pub(crate) fn valid_pixels(&self) -> &[usize] {
        &self.pixels[..self.count]
    }
}
