//! Minimum and maximum of each depth.

use crate::header::Header;
use crate::raw;
use crate::refusal::Refusal;

/// The most depths of an image.
pub const MOST_DEPTH: usize = 64;

/// Ranges. Those put together by hand are held to the rules again; their place
/// and their constant mark are taken as they are.
#[derive(Clone, Copy, Debug, PartialEq)]
pub struct Ranges {
    /// Where the body begins.
    pub place: usize,
    /// Whether each depth has one value only, and no body.
    pub constant: bool,
    /// The least sample of each depth; the header's past the depth.
    pub min: [f64; MOST_DEPTH],
    /// The greatest sample of each depth; the header's past the depth.
    pub max: [f64; MOST_DEPTH],
}

impl Ranges {
    pub(crate) fn record(&self) -> [u64; raw::RANGES] {
        let mut record = [0; raw::RANGES];
        record[0] = self.place as u64;
        record[1] = u64::from(self.constant);
        for (to, number) in record[2..].iter_mut().zip(self.min.iter().chain(&self.max)) {
            *to = number.to_bits();
        }
        record
    }

    fn from_record(record: &[u64; raw::RANGES]) -> Ranges {
        let numbers = |from: usize| std::array::from_fn(|n| f64::from_bits(record[from + n]));
        Ranges {
            place: record[0] as usize,
            constant: record[1] == 1,
            min: numbers(2),
            max: numbers(2 + MOST_DEPTH),
        }
    }
}

/// Reads the ranges, which begin after the mask section.
pub fn read_ranges(blob: &[u8], header: &Header) -> Result<Ranges, Refusal> {
    let mut record = [0; raw::RANGES];
    let header = header.record();
    Refusal::judge(|place| raw::read_ranges(blob, &header, &mut record, place))?;
    Ok(Ranges::from_record(&record))
}
