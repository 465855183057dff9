//! Makes a small field of terrain as a pack, for the other examples: three rows of
//! four tiles of f32, in blocks. One tile is missing, one has a broken block under
//! a true checksum, and what is under water has no height.
//!
//!     cargo run --example make_field > field.pack

use lerc2::{checksum, pack_tiles};
use std::env;
use std::io::{self, Write};
use std::ops::Range;
use std::process::ExitCode;

const USAGE: &str = "\
make_field: makes a small field of terrain

  make_field > field.pack    writes a pack of 11 tiles of f32: three rows of four, one of which is missing
  make_field --help          this text

A tile has 48 rows and 48 columns, less at the right and at the lower edge. The tile in row 1, column 2 has a block
with wrong check bits under a true checksum: opening accepts it, and reading the tile gives 'refused 8'. The tile in
row 2, column 0 is missing. Pixels under water are not valid. The bytes are the same on every machine.

Exit status: 0 written, 2 not run, 3 the output was lost.
";

const NOT_RUN: u8 = 2;
const LOST: u8 = 3;

/// Pixels of the field, and the side of a tile and of a block.
const ROWS: usize = 132;
const COLUMNS: usize = 176;
const TILE: usize = 48;
const BLOCK: usize = 8;

/// Row and column of the two odd tiles.
const BROKEN: (usize, usize) = (1, 2);
const MISSING: (usize, usize) = (2, 0);

/// What is lower is under water.
const SHORE: f64 = 0.0;

// ---- The terrain: sums, products and quotients alone, which are the same
// everywhere.

/// A slope for each crossing of a grid, as if at random: across and down.
fn slope(x: u32, y: u32) -> (f64, f64) {
    const SLOPES: [(f64, f64); 8] = [
        (1.0, 0.0),
        (0.75, 0.75),
        (0.0, 1.0),
        (-0.75, 0.75),
        (-1.0, 0.0),
        (-0.75, -0.75),
        (0.0, -1.0),
        (0.75, -0.75),
    ];
    let mut mixed = x.wrapping_mul(0x9E37_79B1) ^ y.wrapping_mul(0x85EB_CA77) ^ 0x27D4_EB2F;
    for _ in 0..3 {
        mixed = (mixed ^ mixed >> 15).wrapping_mul(0x2C1B_3C6D);
    }
    SLOPES[(mixed >> 29) as usize]
}

/// From 0 to 1, level at both ends.
fn smooth(t: f64) -> f64 {
    t * t * t * (t * (t * 6.0 - 15.0) + 10.0)
}

/// About -1 to 1: at each crossing 0, with its slope.
fn noise(x: f64, y: f64) -> f64 {
    let (left, top) = (x as u32, y as u32);
    let (across, down) = (x - f64::from(left), y - f64::from(top));
    let from = |right: u32, below: u32| {
        let (a, b) = slope(left + right, top + below);
        a * (across - f64::from(right)) + b * (down - f64::from(below))
    };
    let along = |below: u32| {
        let (a, b) = (from(0, below), from(1, below));
        a + (b - a) * smooth(across)
    };
    1.5 * (along(0) + (along(1) - along(0)) * smooth(down))
}

/// Ridges with smaller ones on their sides, 0 to about 2.
fn ridges(x: f64, y: f64) -> f64 {
    let (mut sum, mut weight, mut steps) = (0.0, 1.0, 1.0);
    for octave in 0..5 {
        let away = f64::from(17 * octave);
        let sharp = 1.0 - noise(x * steps + away, y * steps + away).abs();
        weight *= sharp * sharp;
        sum += weight * 1.2 / (0.2 + steps);
        steps *= 2.0;
    }
    sum
}

/// A round hill, 1 at its top.
fn hill(x: f64, y: f64, top: (f64, f64), width: f64) -> f64 {
    let (across, down) = ((x - top.0) / width, (y - top.1) / width);
    let falls = 1.0 + across * across + down * down;
    1.0 / (falls * falls)
}

/// Metres above the water: ridges on a land with a bay and a lake. A tile is 1 wide.
fn height(row: usize, column: usize) -> f64 {
    let (x, y) = (column as f64 / TILE as f64, row as f64 / TILE as f64);
    let land = 0.45 + 0.6 * hill(x, y, (1.2, 0.8), 1.3) + 0.6 * hill(x, y, (2.7, 2.2), 1.1)
        - 0.9 * hill(x, y, (3.6, 0.1), 0.9)
        - 0.35 * hill(x, y, (0.1, 2.5), 0.8);
    let bent = 0.3 * noise(x + 31.0, y + 47.0);
    let folds = ridges(x * 0.9 + 5.0 + bent, y * 0.9 + 9.0 - bent);
    // The higher, the less steep.
    3600.0 * land * folds / (0.7 + folds) - 560.0
}

// ---- A blob: header, mask, ranges, blocks of raw words.

/// The pixels of one tile in the field.
struct Part {
    rows: Range<usize>,
    columns: Range<usize>,
}

impl Part {
    fn of(row: usize, column: usize) -> Part {
        let strip = |n: usize, end: usize| n * TILE..((n + 1) * TILE).min(end);
        Part {
            rows: strip(row, ROWS),
            columns: strip(column, COLUMNS),
        }
    }

    /// Row by row, the height of each pixel, or none under water.
    fn heights(&self) -> Vec<Option<f32>> {
        let of_row = |row: usize| self.columns.clone().map(move |column| height(row, column));
        let above = |height: f64| (height >= SHORE).then_some(height as f32);
        self.rows.clone().flat_map(of_row).map(above).collect()
    }

    /// Sweep byte, then block by block a flag byte and the words of its valid
    /// pixels.
    fn body(&self, heights: &[Option<f32>]) -> Vec<u8> {
        let (rows, columns) = (self.rows.len(), self.columns.len());
        let mut body = vec![0];
        for top in (0..rows).step_by(BLOCK) {
            for left in (0..columns).step_by(BLOCK) {
                body.push(flag(left));
                for row in top..rows.min(top + BLOCK) {
                    let line = &heights[row * columns..][left..columns.min(left + BLOCK)];
                    body.extend(line.iter().flatten().flat_map(|h| h.to_le_bytes()));
                }
            }
        }
        body
    }

    fn blob(&self) -> Vec<u8> {
        let heights = self.heights();
        let valid: Vec<f32> = heights.iter().copied().flatten().collect();
        let least = valid.iter().copied().fold(f32::INFINITY, f32::min);
        let greatest = valid.iter().copied().fold(f32::NEG_INFINITY, f32::max);
        let mask = mask_section(&heights);
        let ranges = [least, greatest].map(f32::to_le_bytes).concat();
        let after = [mask.as_slice(), &ranges, &self.body(&heights)].concat();
        let (rows, columns) = (self.rows.len(), self.columns.len());
        let size = 70 + after.len();
        let fields = [4, 0, rows, columns, 1, valid.len(), BLOCK, size, 6];
        let mut blob = b"Lerc2 ".to_vec();
        blob.extend(
            fields
                .iter()
                .flat_map(|&field| (field as u32).to_le_bytes()),
        );
        for number in [0.0, least.into(), greatest.into()] {
            blob.extend(f64::to_le_bytes(number));
        }
        blob.extend((mask.len() as u32).to_le_bytes());
        blob.extend(after);
        seal(&mut blob);
        blob
    }
}

/// Raw words, and the check bits of a block whose left edge is at this column.
fn flag(left: usize) -> u8 {
    (left / 8 % 16 * 4) as u8
}

/// Where all pixels are valid there is none; else one run of bytes, and the end.
fn mask_section(heights: &[Option<f32>]) -> Vec<u8> {
    if heights.iter().all(Option::is_some) {
        return Vec::new();
    }
    let byte = |pixels: &[Option<f32>]| {
        let bits = pixels.iter().enumerate();
        bits.fold(0, |byte, (n, h)| byte | u8::from(h.is_some()) << (7 - n))
    };
    let bytes: Vec<u8> = heights.chunks(8).map(byte).collect();
    let count = (bytes.len() as i16).to_le_bytes();
    [&count[..], &bytes, &i16::MIN.to_le_bytes()].concat()
}

fn seal(blob: &mut [u8]) {
    let field = checksum(&blob[14..]).to_le_bytes();
    blob[10..14].copy_from_slice(&field);
}

/// Other check bits in the first block, and a true checksum still.
fn break_block(blob: &mut [u8]) {
    let mask = u32::from_le_bytes(blob[66..70].try_into().expect("four bytes"));
    let first = 70 + mask as usize + 8 + 1;
    blob[first] ^= 4;
    seal(blob);
}

fn field() -> Result<Vec<u8>, lerc2::Refusal> {
    let mut tiles = Vec::new();
    for row in 0..ROWS.div_ceil(TILE) {
        for column in (0..COLUMNS.div_ceil(TILE)).filter(|&column| (row, column) != MISSING) {
            let mut blob = Part::of(row, column).blob();
            if (row, column) == BROKEN {
                break_block(&mut blob);
            }
            tiles.push((row as u16, column as u16, blob));
        }
    }
    pack_tiles(&tiles)
}

/// What is to be written.
fn answer() -> Result<Vec<u8>, String> {
    match &env::args_os().skip(1).collect::<Vec<_>>()[..] {
        [] => field().map_err(|refusal| format!("the field is {refusal}")),
        [word] if word == "--help" || word == "-h" => Ok(USAGE.into()),
        _ => Err("no word is known but --help: make_field > field.pack".into()),
    }
}

fn written(bytes: &[u8]) -> io::Result<()> {
    let mut out = io::stdout().lock();
    out.write_all(bytes)?;
    out.flush()
}

fn main() -> ExitCode {
    let bytes = match answer() {
        Ok(bytes) => bytes,
        Err(why) => {
            eprintln!("make_field: {why}");
            return NOT_RUN.into();
        }
    };
    if let Err(error) = written(&bytes) {
        eprintln!("make_field: the output could not be written: {error}");
        return LOST.into();
    }
    ExitCode::SUCCESS
}
