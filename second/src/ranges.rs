//! Minimum and maximum of each depth.

use crate::bytes::{little, part};
use crate::header::{held, Header};
use crate::numbers::{is_finite, less, number, same, word_size};
use crate::refusal::{Refusal, WRONG_RANGE};

pub const MOST_DEPTH: usize = 64;

/// `place` is where the body begins; `constant` says that every pair is the
/// same. Entries past the depth are the header's.
#[derive(Clone, Copy, Debug, PartialEq, Eq)]
pub struct Ranges {
    pub place: usize,
    pub constant: bool,
    pub min: [u64; MOST_DEPTH],
    pub max: [u64; MOST_DEPTH],
}

pub fn read_ranges(blob: &[u8], header: &Header) -> Result<Ranges, Refusal> {
    let bytes = held(blob, header)?;
    ranges_of(bytes, header)
}

/// As [`read_ranges`], once the header is held to the rules.
pub(crate) fn ranges_of(bytes: &[u8], header: &Header) -> Result<Ranges, Refusal> {
    let mut ranges = Ranges {
        place: header.after_mask(),
        constant: true,
        min: [header.min; MOST_DEPTH],
        max: [header.max; MOST_DEPTH],
    };
    if same(header.min, header.max) {
        return Ok(ranges);
    }
    let depth = header.depth as usize;
    let length = depth * word_size(header.kind);
    // Both runs must be there before any number is judged.
    let run = part(bytes, ranges.place, 2 * length)?;
    let (minima, maxima) = run.split_at(length);
    read_numbers(minima, header.kind, &mut ranges.min);
    read_numbers(maxima, header.kind, &mut ranges.max);
    if let Some(nth) = first_wrong(&ranges, depth) {
        let place = ranges.place + nth * word_size(header.kind);
        return Err(Refusal::at(WRONG_RANGE, place));
    }
    ranges.place += 2 * length;
    let constant = pairs(&ranges, header).all(|(min, max)| same(min, max));
    Ok(Ranges { constant, ..ranges })
}

fn read_numbers(run: &[u8], kind: u32, out: &mut [u64; MOST_DEPTH]) {
    for (entry, word) in out.iter_mut().zip(run.chunks_exact(word_size(kind))) {
        *entry = number(little(word), kind);
    }
}

/// Holds ranges that a caller gives to the rules. They are not in the blob, so
/// a refusal has no place.
pub(crate) fn check_ranges(ranges: &Ranges, header: &Header) -> Result<(), Refusal> {
    match first_wrong(ranges, header.depth as usize) {
        Some(_) => Err(Refusal::of(WRONG_RANGE)),
        None => Ok(()),
    }
}

/// The first wrong number, depth by depth, counted as they stand in a blob: all
/// minima, then all maxima. Of a crossed pair it is the maximum.
fn first_wrong(ranges: &Ranges, depths: usize) -> Option<usize> {
    (0..depths).find_map(|depth| {
        let (min, max) = (ranges.min[depth], ranges.max[depth]);
        if !is_finite(min) {
            Some(depth)
        } else if !is_finite(max) || less(max, min) {
            Some(depths + depth)
        } else {
            None
        }
    })
}

fn pairs<'a>(ranges: &'a Ranges, header: &Header) -> impl Iterator<Item = (u64, u64)> + 'a {
    let minima = ranges.min.iter().copied();
    let maxima = ranges.max.iter().copied();
    minima.zip(maxima).take(header.depth as usize)
}
