//! The header.

use crate::raw;
use crate::refusal::Refusal;
use std::fmt;

/// What a sample is.
#[derive(Clone, Copy, Debug, PartialEq, Eq, Hash)]
#[allow(missing_docs)]
pub enum Kind {
    I8 = 0,
    U8 = 1,
    I16 = 2,
    U16 = 3,
    I32 = 4,
    U32 = 5,
    F32 = 6,
    F64 = 7,
}

impl Kind {
    /// All of them, in the order of their numbers.
    pub const ALL: [Kind; 8] = [
        Kind::I8,
        Kind::U8,
        Kind::I16,
        Kind::U16,
        Kind::I32,
        Kind::U32,
        Kind::F32,
        Kind::F64,
    ];

    /// The number that a word stands for.
    pub fn number(self, word: u64) -> f64 {
        f64::from_bits(raw::number(word, self as u32))
    }

    /// The word that stores a number: integers cut toward zero and refuse what
    /// does not fit, binary32 takes the nearest, ties to even.
    pub fn stored(self, number: f64) -> Result<u64, Refusal> {
        let mut said = [0; raw::STORED];
        let bits = number.to_bits();
        Refusal::judge(|place| raw::stored(bits, self as u32, &mut said, place))?;
        Ok(said[0])
    }
}

/// Its name, as Rust has it: `u16`, `f32`.
impl fmt::Display for Kind {
    fn fmt(&self, f: &mut fmt::Formatter) -> fmt::Result {
        f.pad(match self {
            Kind::I8 => "i8",
            Kind::U8 => "u8",
            Kind::I16 => "i16",
            Kind::U16 => "u16",
            Kind::I32 => "i32",
            Kind::U32 => "u32",
            Kind::F32 => "f32",
            Kind::F64 => "f64",
        })
    }
}

/// A header. One that is put together by hand is held to the rules again by
/// every call that takes it, and is not compared with the blob.
#[derive(Clone, Copy, Debug, PartialEq)]
pub struct Header {
    /// Rows of pixels.
    pub rows: u32,
    /// Columns of pixels.
    pub columns: u32,
    /// Cells of each pixel.
    pub depth: u32,
    /// How many pixels are valid.
    pub valid: u32,
    /// The side of a tile.
    pub side: u32,
    /// Bytes of the blob.
    pub size: u32,
    /// What a sample is.
    pub kind: Kind,
    /// Half of a count's worth.
    pub error: f64,
    /// The least sample.
    pub min: f64,
    /// The greatest sample.
    pub max: f64,
    /// Bytes of the mask section.
    pub mask_bytes: u32,
}

/// The room that the slices need. For headers that break the rules these
/// numbers are of no use.
impl Header {
    /// Rows times columns.
    pub fn pixels(&self) -> usize {
        (self.rows as usize).saturating_mul(self.columns as usize)
    }

    /// Pixels times depth: the length of an image.
    pub fn cells(&self) -> usize {
        self.pixels().saturating_mul(self.depth as usize)
    }

    /// Bytes of a mask, one bit for each pixel.
    pub fn mask_length(&self) -> usize {
        self.pixels().div_ceil(8)
    }

    /// How many blocks a body in blocks has: the length of a list.
    pub fn blocks(&self) -> usize {
        let side = self.side.max(1);
        let across = self.columns.div_ceil(side) as usize;
        let down = self.rows.div_ceil(side) as usize;
        across
            .saturating_mul(down)
            .saturating_mul(self.depth as usize)
    }

    pub(crate) fn record(&self) -> [u64; raw::HEADER] {
        [
            self.rows.into(),
            self.columns.into(),
            self.depth.into(),
            self.valid.into(),
            self.side.into(),
            self.size.into(),
            self.kind as u64,
            self.error.to_bits(),
            self.min.to_bits(),
            self.max.to_bits(),
            self.mask_bytes.into(),
        ]
    }

    /// Out of a record that the reader wrote.
    pub(crate) fn from_record(record: &[u64]) -> Header {
        // Its fields have 32 bits, and its kind is at most 7.
        let field = |n: usize| record[n] as u32;
        Header {
            rows: field(0),
            columns: field(1),
            depth: field(2),
            valid: field(3),
            side: field(4),
            size: field(5),
            kind: Kind::ALL[record[6] as usize],
            error: f64::from_bits(record[7]),
            min: f64::from_bits(record[8]),
            max: f64::from_bits(record[9]),
            mask_bytes: field(10),
        }
    }
}

/// The checksum of these bytes, which is never 0. A blob's stands at 10, four
/// bytes, the lowest first, and is that of its bytes from 14 up to its size.
///
/// ```
/// assert_eq!(lerc2::checksum(&[]), 0xFFFF_FFFF);
/// assert_eq!(lerc2::checksum(b"ab"), 0x6162_6162);
/// ```
pub fn checksum(bytes: &[u8]) -> u32 {
    raw::checksum(bytes)
}

/// Reads a header and holds it to the rules; the blob's bytes up to its size
/// are summed, and must have the checksum that stands at 10.
pub fn read_header(blob: &[u8]) -> Result<Header, Refusal> {
    let mut record = [0; raw::HEADER];
    Refusal::judge(|place| raw::read_header(blob, &mut record, place))?;
    Ok(Header::from_record(&record))
}
