//! The whole read as two operations: all checking, then all writing.

use crate::body::{body_at, check_blocks, constant_words, raw_end, read_body, Body};
use crate::header::{read_header, Header, HEADER_BYTES};
use crate::huffman::read_huffman;
use crate::mask::{mask_in_force, Mask};
use crate::ranges::ranges_of;
use crate::refusal::{Refusal, NO_ROOM, WRONG_FIELD};

#[derive(Clone, Copy, Debug, PartialEq, Eq)]
pub enum BodyKind {
    Empty,
    Constant,
    Raw,
    Blocks,
    Huffman,
}

/// What an accepted blob is: `blocks` is 0 for a body without blocks, `end` is
/// where the body ends, `mask` says which mask is in force and how long.
#[derive(Clone, Copy, Debug, PartialEq, Eq)]
pub struct Staged {
    pub header: Header,
    pub body: BodyKind,
    pub blocks: usize,
    pub end: usize,
    pub mask: Mask,
}

pub type StageAnswer = Result<Staged, Refusal>;

/// Where the body ends, and how many words were written.
#[derive(Clone, Copy, Debug, PartialEq, Eq)]
pub struct Published {
    pub end: usize,
    pub words: usize,
}

pub type PublishAnswer = Result<Published, Refusal>;

/// Does all the checking of a whole read. A new mask is left in the spare, the
/// block starts in the list; the image is lent for its room alone.
pub fn stage(
    blob: &[u8],
    reuse: bool,
    kept: &[u8],
    spare: &mut [u8],
    list: &mut [usize],
    image: &[u64],
) -> StageAnswer {
    let header = read_header(blob)?;
    let bytes = &blob[..header.size as usize];
    if kept.len() < header.mask_length()
        || spare.len() < header.mask_length()
        || list.len() < header.blocks()
        || image.len() < header.cells()
    {
        return Err(Refusal::of(NO_ROOM));
    }
    let in_force = mask_in_force(bytes, &header, reuse, kept, spare)?;
    let checked = check_body(bytes, &header, bytes_of(in_force, kept, spare))?;
    list[..checked.starts.len()].copy_from_slice(&checked.starts);
    Ok(Staged {
        header,
        body: checked.kind,
        blocks: checked.starts.len(),
        end: checked.end,
        mask: in_force,
    })
}

/// Writes the cells, then copies a new mask to the kept one, once staging of
/// these inputs gives the answer, spare and list that are handed over.
pub fn publish(
    blob: &[u8],
    reuse: bool,
    staged: StageAnswer,
    kept: &mut [u8],
    spare: &[u8],
    list: &[usize],
    image: &mut [u64],
) -> PublishAnswer {
    // Into slices of its own, so that a refusal shows in none that is lent, and
    // the body is judged by the blob's mask, whatever the spare holds.
    let mut own_spare = vec![0; spare.len()];
    let mut own_list = vec![0; list.len()];
    let own = stage(blob, reuse, kept, &mut own_spare, &mut own_list, image)?;
    let same_mask = match own.mask {
        Mask::Kept(_) => true,
        Mask::Spare(length) => spare[..length] == own_spare[..length],
    };
    let same_starts = list[..own.blocks] == own_list[..own.blocks];
    if staged != Ok(own) || !same_mask || !same_starts {
        return Err(Refusal::of(WRONG_FIELD));
    }
    let header = &own.header;
    let bytes = &blob[..header.size as usize];
    let mask = bytes_of(own.mask, kept, spare);
    // Checked above, so that nothing is refused any more.
    let (_, end) = read_body(bytes, header, mask, &mut own_list, image)?;
    if let Mask::Spare(length) = own.mask {
        kept[..length].copy_from_slice(&spare[..length]);
    }
    let words = header.valid as usize * header.depth as usize;
    Ok(Published { end, words })
}

fn bytes_of<'a>(mask: Mask, kept: &'a [u8], spare: &'a [u8]) -> &'a [u8] {
    match mask {
        Mask::Kept(length) => &kept[..length],
        Mask::Spare(length) => &spare[..length],
    }
}

/// A body that nothing is wrong with; without blocks it has no starts.
struct Checked {
    kind: BodyKind,
    starts: Vec<usize>,
    end: usize,
}

fn check_body(bytes: &[u8], header: &Header, mask: &[u8]) -> Result<Checked, Refusal> {
    let without_blocks = |kind, end| Checked {
        kind,
        starts: Vec::new(),
        end,
    };
    if header.valid == 0 {
        // There are no ranges either.
        return Ok(without_blocks(BodyKind::Empty, HEADER_BYTES));
    }
    let ranges = ranges_of(bytes, header)?;
    if ranges.constant {
        constant_words(header, &ranges)?;
        return Ok(without_blocks(BodyKind::Constant, ranges.place));
    }
    match body_at(bytes, ranges.place, header)? {
        Body::Raw(at) => {
            let end = raw_end(bytes, at, header)?;
            Ok(without_blocks(BodyKind::Raw, end))
        }
        Body::Blocks(at) => {
            let (starts, end) = check_blocks(bytes, header, &ranges, mask, at)?;
            Ok(Checked {
                kind: BodyKind::Blocks,
                starts,
                end,
            })
        }
        Body::Huffman(at) => {
            let (_, end) = read_huffman(bytes, at, header, mask)?;
            Ok(without_blocks(BodyKind::Huffman, end))
        }
    }
}
