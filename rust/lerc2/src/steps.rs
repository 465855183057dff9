//! Walk, fill and the whole read.

use crate::header::Header;
use crate::ranges::Ranges;
use crate::raw;
use crate::refusal::Refusal;

/// What a walk found.
#[derive(Clone, Copy, Debug, PartialEq, Eq)]
pub struct Walked {
    /// How many blocks there are: so many entries of the list were written.
    pub blocks: usize,
    /// Where the last block ends.
    pub end: usize,
}

/// What a whole read found.
#[derive(Clone, Copy, Debug, PartialEq)]
pub struct Whole {
    /// The header.
    pub header: Header,
    /// How many blocks there are; 0 for a body that is not in blocks.
    pub blocks: usize,
    /// Where the body ends.
    pub end: usize,
}

/// Checks every block, values included, then writes the list of their starts.
/// It needs a body in blocks.
pub fn walk(
    blob: &[u8],
    header: &Header,
    ranges: &Ranges,
    mask: &[u8],
    list: &mut [usize],
) -> Result<Walked, Refusal> {
    let mut said = [0; raw::WALK];
    let (header, ranges) = (header.record(), ranges.record());
    Refusal::judge(|place| raw::walk(blob, &header, &ranges, mask, list, &mut said, place))?;
    let [blocks, end] = said.map(|number| number as usize);
    Ok(Walked { blocks, end })
}

/// Writes the valid cells of one block and nothing else; gives how many. Any
/// order will do, and any repeats.
pub fn fill(
    blob: &[u8],
    header: &Header,
    ranges: &Ranges,
    mask: &[u8],
    list: &[usize],
    number: usize,
    image: &mut [u64],
) -> Result<usize, Refusal> {
    let mut said = [0; raw::FILL];
    let (header, ranges) = (header.record(), ranges.record());
    Refusal::judge(|place| {
        raw::fill(
            blob, &header, &ranges, mask, list, number, image, &mut said, place,
        )
    })?;
    Ok(said[0] as usize)
}

/// Reads a whole blob: the image's valid cells, the list of a body in blocks,
/// and the mask, which is in the kept one afterwards. Nothing is written before
/// all is checked, except a new mask to the spare. It is [`stage`](crate::stage)
/// and [`publish`](crate::publish), one after the other.
pub fn read(
    blob: &[u8],
    reuse: bool,
    kept: &mut [u8],
    spare: &mut [u8],
    list: &mut [usize],
    image: &mut [u64],
) -> Result<Whole, Refusal> {
    let mut said = [0; raw::READ];
    Refusal::judge(|place| raw::read(blob, reuse, kept, spare, list, image, &mut said, place))?;
    Ok(Whole {
        header: Header::from_record(&said),
        blocks: said[raw::HEADER] as usize,
        end: said[raw::HEADER + 1] as usize,
    })
}
