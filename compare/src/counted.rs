//! What the rules add up for each counted cell of a blob that was read.

use crate::form::OFFSET_KINDS;
use second::{is_valid, number, packed_counts, scaled, word_size, Header, MOST_COUNTS};

/// A cell that is offset plus product, and no more than the maximum.
#[derive(Clone, Copy, Debug)]
pub struct Counted {
    pub cell: usize,
    pub offset: u64,
    pub product: u64,
    pub maximum: u64,
}

impl Counted {
    pub fn is_infinite(&self) -> bool {
        f64::from_bits(self.product).is_infinite()
    }

    /// The word of the cell, given the sum.
    pub fn word(&self, sum: u64, kind: u32) -> u64 {
        let below = second::less(sum, self.maximum);
        let value = if below { sum } else { self.maximum };
        second::stored(value, kind).expect("it was read")
    }
}

/// The counted cells, given the mask and the block starts that the read left.
pub fn counted(blob: &[u8], mask: &[u8], starts: &[usize]) -> Vec<Counted> {
    let mut cells = Vec::new();
    if starts.is_empty() {
        return cells;
    }
    let header = second::read_header(blob).expect("it was read");
    let ranges = second::read_ranges(blob, &header).expect("it was read");
    let depths = header.depth as usize;
    for (block, &start) in starts.iter().enumerate() {
        let Some((offset, counts)) = offset_and_counts(blob, start, header.kind) else {
            continue;
        };
        let (tile, depth) = (block / depths, block % depths);
        for (pixel, count) in pixels(&header, mask, tile).into_iter().zip(counts) {
            cells.push(Counted {
                cell: pixel * depths + depth,
                offset,
                product: scaled(header.error, count),
                maximum: ranges.max[depth],
            });
        }
    }
    cells
}

/// None if the block has no counts.
fn offset_and_counts(blob: &[u8], start: usize, kind: u32) -> Option<(u64, Vec<u32>)> {
    if blob[start] % 4 != 1 {
        return None;
    }
    let (offset, end) = offset_at(blob, start, kind);
    let mut counts = [0; MOST_COUNTS];
    let (n, _) = packed_counts(blob, end, &mut counts).expect("it was read");
    Some((offset, counts[..n].to_vec()))
}

/// The offset of a block that has one, and where it ends.
pub(crate) fn offset_at(blob: &[u8], start: usize, kind: u32) -> (u64, usize) {
    let kind = OFFSET_KINDS[kind as usize][usize::from(blob[start] / 64)];
    let end = start + 1 + word_size(kind);
    let mut word = [0; 8];
    word[..word_size(kind)].copy_from_slice(&blob[start + 1..end]);
    (number(u64::from_le_bytes(word), kind), end)
}

/// The valid pixels of a tile, by its number.
pub(crate) fn pixels(header: &Header, mask: &[u8], tile: usize) -> Vec<usize> {
    let (rows, columns) = (header.rows as usize, header.columns as usize);
    let side = header.side as usize;
    let across = columns.div_ceil(side);
    let (x, y) = (tile % across * side, tile / across * side);
    let rows = y..rows.min(y + side);
    rows.flat_map(|row| (x..columns.min(x + side)).map(move |column| row * columns + column))
        .filter(|&pixel| is_valid(mask, pixel))
        .collect()
}
