//! Images to measure with, written as an encoder would: smooth ground, tiles
//! of 8 by 8, each with its least value as offset and counts of just enough
//! bits.

use crate::holes::{self, Valid};
use compare::form::{packed, Fields, Form};
use compare::random::Random;
use second::{number, stored, word_size};

const SIDE: usize = 8;

#[derive(Clone, Copy, PartialEq, Eq)]
pub enum Body {
    Blocks,
    Raw,
    Constant,
}

#[derive(Clone, Copy)]
pub struct Sort {
    pub kind: u32,
    pub error: f64,
    pub body: Body,
    pub valid: Valid,
    pub depth: usize,
}

impl Sort {
    /// One depth, all pixels valid.
    pub fn plain(kind: u32, error: f64, body: Body) -> Sort {
        Sort {
            kind,
            error,
            body,
            valid: Valid::All,
            depth: 1,
        }
    }

    pub fn with_holes(self) -> Sort {
        let valid = Valid::Holes;
        Sort { valid, ..self }
    }
}

pub fn blob(sort: &Sort, rows: usize, columns: usize) -> Vec<u8> {
    let scene = Scene::new(sort, rows, columns);
    let (low, high) = scene.pair(None);
    let valid = scene.valid.iter().filter(|&&valid| valid).count();
    let section = match sort.valid {
        Valid::All => Vec::new(),
        Valid::Holes => holes::section(&holes::mask(&scene.valid)),
    };
    let form = Form {
        fields: Fields {
            rows: rows as u32,
            columns: columns as u32,
            depth: sort.depth as u32,
            valid: valid as u32,
            side: SIDE as u32,
            kind: sort.kind,
            error: sort.error.to_bits(),
            min: low.to_bits(),
            max: high.to_bits(),
        },
        section,
        after: scene.after_section(),
        gap: Vec::new(),
        slack: Vec::new(),
        mask: Vec::new(),
        starts: Vec::new(),
        cells: Vec::new(),
    };
    form.bytes()
}

/// An image before it is written.
struct Scene<'a> {
    sort: &'a Sort,
    rows: usize,
    columns: usize,
    /// By pixel.
    valid: Vec<bool>,
    /// By cell: the words that are stored, and their numbers.
    words: Vec<u64>,
    values: Vec<f64>,
}

impl Scene<'_> {
    fn new(sort: &Sort, rows: usize, columns: usize) -> Scene<'_> {
        let words: Vec<u64> = ground(sort, rows, columns)
            .iter()
            .map(|&value| stored(value.to_bits(), sort.kind).expect("the ground fits every kind"))
            .collect();
        let values = words
            .iter()
            .map(|&word| f64::from_bits(number(word, sort.kind)))
            .collect();
        Scene {
            sort,
            rows,
            columns,
            valid: holes::pixels(sort.valid, rows, columns),
            words,
            values,
        }
    }

    /// Least and greatest value of the valid cells, of one depth or of all.
    fn pair(&self, only: Option<usize>) -> (f64, f64) {
        let depths = self.sort.depth;
        let cells = self.values.iter().enumerate().filter(|(cell, _)| {
            self.valid[cell / depths] && only.is_none_or(|depth| cell % depths == depth)
        });
        let none = (f64::INFINITY, f64::NEG_INFINITY);
        cells.fold(none, |(low, high), (_, &value)| {
            (low.min(value), high.max(value))
        })
    }

    /// Ranges and body.
    fn after_section(&self) -> Vec<u8> {
        let (sort, mut out) = (self.sort, Vec::new());
        let (low, high) = self.pair(None);
        if low == high {
            return out;
        }
        let pairs: Vec<(f64, f64)> = (0..sort.depth).map(|d| self.pair(Some(d))).collect();
        pairs.iter().for_each(|p| put(&mut out, p.0, sort.kind));
        pairs.iter().for_each(|p| put(&mut out, p.1, sort.kind));
        out.push(u8::from(sort.body == Body::Raw));
        if sort.body == Body::Raw {
            self.put_raw(&mut out);
            return out;
        }
        if sort.kind < 2 && sort.error == 0.5 {
            out.push(0);
        }
        self.put_blocks(&mut out);
        out
    }

    fn put_raw(&self, out: &mut Vec<u8>) {
        for (cell, &word) in self.words.iter().enumerate() {
            if self.valid[cell / self.sort.depth] {
                put_word(out, word, self.sort.kind);
            }
        }
    }

    fn put_blocks(&self, out: &mut Vec<u8>) {
        let depths = self.sort.depth;
        for y in (0..self.rows).step_by(SIDE) {
            for x in (0..self.columns).step_by(SIDE) {
                let pixels = self.valid_of_tile(y, x);
                for depth in 0..depths {
                    let value = |pixel: &usize| self.values[pixel * depths + depth];
                    let tile: Vec<f64> = pixels.iter().map(value).collect();
                    put_block(out, self.sort, x, &tile);
                }
            }
        }
    }

    fn valid_of_tile(&self, y: usize, x: usize) -> Vec<usize> {
        let rows = y..self.rows.min(y + SIDE);
        let columns = x..self.columns.min(x + SIDE);
        rows.flat_map(|row| columns.clone().map(move |column| (row, column)))
            .map(|(row, column)| row * self.columns + column)
            .filter(|&pixel| self.valid[pixel])
            .collect()
    }
}

/// Hills and a little noise, from 0 to 120; each depth is one higher.
fn ground(sort: &Sort, rows: usize, columns: usize) -> Vec<f64> {
    let count = rows * columns * sort.depth;
    if sort.body == Body::Constant {
        return vec![42.0; count];
    }
    let mut random = Random::new(1);
    let mut cells = Vec::with_capacity(count);
    for y in 0..rows {
        for x in 0..columns {
            let (x, y) = (x as f64 / 23.0, y as f64 / 31.0);
            let noise = random.below(1000) as f64 / 250.0;
            let height = 56.0 + 30.0 * x.sin() + 26.0 * y.cos() + noise;
            cells.extend((0..sort.depth).map(|depth| height + depth as f64));
        }
    }
    cells
}

/// Of the values of the tile's valid pixels.
fn put_block(out: &mut Vec<u8>, sort: &Sort, x: usize, tile: &[f64]) {
    let check = ((x / 8 % 16) as u8) << 2;
    if tile.is_empty() {
        out.push(2 | check);
        return;
    }
    let low = tile.iter().copied().fold(f64::INFINITY, f64::min);
    let counts: Vec<u64> = tile
        .iter()
        .map(|&value| ((value - low) / (2.0 * sort.error) + 0.5) as u64)
        .collect();
    let most = counts.iter().copied().max().unwrap_or(0);
    let bits = (u64::BITS - most.leading_zeros()) as usize;
    if bits == 0 {
        out.push(3 | check);
        put(out, low, sort.kind);
        return;
    }
    assert!(bits < 32);
    out.push(1 | check);
    put(out, low, sort.kind);
    out.push(2 << 6 | bits as u8);
    out.push(counts.len() as u8);
    out.extend(packed(&counts, bits));
}

fn put(out: &mut Vec<u8>, value: f64, kind: u32) {
    put_word(
        out,
        stored(value.to_bits(), kind).expect("a value of its kind"),
        kind,
    );
}

fn put_word(out: &mut Vec<u8>, word: u64, kind: u32) {
    out.extend_from_slice(&word.to_le_bytes()[..word_size(kind)]);
}

#[cfg(test)]
mod tests {
    use super::{blob, Body, Scene, Sort};
    use crate::holes;

    /// No word of these kinds.
    const UNTOUCHED: u64 = u64::MAX;

    fn reads_as_meant(sort: &Sort, rows: usize, columns: usize) {
        let blob = blob(sort, rows, columns);
        let header = second::read_header(&blob).unwrap();
        let mut kept = vec![0; header.mask_length()];
        let mut spare = kept.clone();
        let mut list = vec![0; header.blocks()];
        let mut image = vec![UNTOUCHED; header.cells()];
        let read = second::read(&blob, false, &mut kept, &mut spare, &mut list, &mut image);
        let (_, blocks, end) = read.unwrap();
        assert_eq!(end, blob.len());
        let in_blocks = sort.body == Body::Blocks;
        assert_eq!(blocks, if in_blocks { list.len() } else { 0 });
        let scene = Scene::new(sort, rows, columns);
        let meant = scene.words.iter().enumerate().map(|(cell, &word)| {
            let valid = scene.valid[cell / sort.depth];
            if valid {
                word
            } else {
                UNTOUCHED
            }
        });
        assert!(image.into_iter().eq(meant));
        if header.mask > 0 {
            assert_eq!(kept, holes::mask(&scene.valid));
        }
    }

    #[test]
    fn cells_are_those_that_were_meant() {
        // Errors of 0.5 lose nothing of whole numbers.
        for (kind, body) in [
            (1, Body::Blocks),
            (3, Body::Blocks),
            (1, Body::Constant),
            (3, Body::Raw),
            (6, Body::Raw),
        ] {
            let sort = Sort::plain(kind, 0.5, body);
            for sort in [sort, sort.with_holes()] {
                for depth in [1, 2] {
                    for (rows, columns) in [(64, 64), (50, 70), (65, 9)] {
                        reads_as_meant(&Sort { depth, ..sort }, rows, columns);
                    }
                }
            }
        }
    }

    #[test]
    fn every_sort_of_tile() {
        let sort = Sort::plain(3, 0.5, Body::Blocks).with_holes();
        let scene = Scene::new(&sort, 256, 256);
        let mut valid = Vec::new();
        for y in (0..256).step_by(8) {
            valid.extend((0..256).step_by(8).map(|x| scene.valid_of_tile(y, x).len()));
        }
        let share = |sort: fn(usize) -> bool| {
            let count = valid.iter().filter(|&&count| sort(count)).count();
            100 * count / valid.len()
        };
        assert!((50..60).contains(&share(|count| count == 64)));
        assert!((25..35).contains(&share(|count| count == 0)));
        assert!((10..20).contains(&share(|count| count > 0 && count < 64)));
    }
}
