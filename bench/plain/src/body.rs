//! The body: walk, fill and the whole read.

use crate::block::Blocks;
use crate::bytes::byte;
use crate::given::{check_ranges, held};
use crate::huffman::write_huffman;
use crate::linear::{write_constant, write_raw};
use crate::tile::{Tile, MOST_PIXELS};
use crate::Refusal;
use second::refusal::{NOT_BLOCKS, NO_ROOM, NO_SUCH_BLOCK, WRONG_BLOCK};
use second::{prepare_mask, read_header, read_ranges, Header, Mask, Ranges};

const HEADER_BYTES: usize = 70;

/// Checks every block, then writes the list of block starts. Gives how many
/// blocks there are and where the last one ends.
pub fn walk(
    blob: &[u8],
    header: &Header,
    ranges: &Ranges,
    mask: &[u8],
    list: &mut [usize],
) -> Result<(usize, usize), Refusal> {
    let bytes = held(blob, header)?;
    if mask.len() < header.mask_length() || list.len() < header.blocks() {
        return Err(NO_ROOM);
    }
    check_ranges(ranges, header)?;
    if header.valid == 0 || ranges.constant {
        return Err(NOT_BLOCKS);
    }
    let Body::Blocks(at) = body_at(bytes, ranges.place, header)? else {
        return Err(NOT_BLOCKS);
    };
    let (starts, end) = check_blocks(bytes, header, ranges, mask, at, |_| {})?;
    list[..starts.len()].copy_from_slice(&starts);
    Ok((starts.len(), end))
}

/// Writes the cells of one block, by its number, into the image. Gives how
/// many.
pub fn fill(
    blob: &[u8],
    header: &Header,
    ranges: &Ranges,
    mask: &[u8],
    list: &[usize],
    number: usize,
    image: &mut [u64],
) -> Result<usize, Refusal> {
    let bytes = held(blob, header)?;
    if number >= header.blocks() {
        return Err(NO_SUCH_BLOCK);
    }
    if mask.len() < header.mask_length()
        || list.len() < header.blocks()
        || image.len() < header.cells()
    {
        return Err(NO_ROOM);
    }
    check_ranges(ranges, header)?;
    let depths = header.depth as usize;
    let (number, depth, start) = (number / depths, number % depths, list[number]);
    let tile = Tile::new(header, number, mask);
    let mut words = [0; MOST_PIXELS];
    let words = &mut words[..tile.valid];
    Blocks::new(bytes, header).read(start, tile.x, ranges.max[depth], words)?;
    tile.put(words, depth, depths, image);
    Ok(tile.valid)
}

/// Reads a whole blob: header, number of blocks (0 for other bodies) and the
/// end of what was read. A new mask is copied to the kept one.
pub fn read(
    blob: &[u8],
    reuse: bool,
    kept: &mut [u8],
    spare: &mut [u8],
    list: &mut [usize],
    image: &mut [u64],
) -> Result<(Header, usize, usize), Refusal> {
    let header = read_header(blob)?;
    if kept.len() < header.mask_length()
        || spare.len() < header.mask_length()
        || list.len() < header.blocks()
        || image.len() < header.cells()
    {
        return Err(NO_ROOM);
    }
    let in_force = prepare_mask(blob, &header, reuse, kept, spare)?;
    let mask = match in_force {
        Mask::Kept(length) => &kept[..length],
        Mask::Spare(length) => &spare[..length],
    };
    let (blocks, end) = read_body(blob, &header, mask, list, image)?;
    if let Mask::Spare(length) = in_force {
        kept[..length].copy_from_slice(&spare[..length]);
    }
    Ok((header, blocks, end))
}

fn read_body(
    blob: &[u8],
    header: &Header,
    mask: &[u8],
    list: &mut [usize],
    image: &mut [u64],
) -> Result<(usize, usize), Refusal> {
    if header.valid == 0 {
        return Ok((0, HEADER_BYTES));
    }
    let ranges = read_ranges(blob, header)?;
    if ranges.constant {
        write_constant(header, &ranges, mask, image)?;
        return Ok((0, ranges.place));
    }
    let bytes = &blob[..header.size as usize];
    match body_at(bytes, ranges.place, header)? {
        Body::Raw(at) => Ok((0, write_raw(bytes, at, header, mask, image)?)),
        Body::Huffman(at) => Ok((0, write_huffman(bytes, at, header, mask, image)?)),
        Body::Blocks(at) => {
            let mut staged = Vec::with_capacity(header.valid as usize * header.depth as usize);
            let stage = |words: &[u64]| staged.extend_from_slice(words);
            let (starts, end) = check_blocks(bytes, header, &ranges, mask, at, stage)?;
            put_blocks(&staged, header, mask, image);
            list[..starts.len()].copy_from_slice(&starts);
            Ok((starts.len(), end))
        }
    }
}

/// The bodies with bytes of their own, and where the first word or block
/// begins; of Huffman codes it is the mode byte.
enum Body {
    Raw(usize),
    Huffman(usize),
    Blocks(usize),
}

fn body_at(bytes: &[u8], place: usize, header: &Header) -> Result<Body, Refusal> {
    let sweep = byte(bytes, place)?;
    let at = place + 1;
    match sweep {
        0 => {}
        1 => return Ok(Body::Raw(at)),
        _ => return Err(WRONG_BLOCK),
    }
    if header.kind > 1 || f64::from_bits(header.error) != 0.5 {
        return Ok(Body::Blocks(at));
    }
    match byte(bytes, at)? {
        0 => Ok(Body::Blocks(at + 1)),
        1 | 2 => Ok(Body::Huffman(at)),
        _ => Err(WRONG_BLOCK),
    }
}

/// The starts of all blocks from `at` on, and where the last one ends. The
/// words of each block are handed to `stage`.
fn check_blocks(
    bytes: &[u8],
    header: &Header,
    ranges: &Ranges,
    mask: &[u8],
    mut at: usize,
    mut stage: impl FnMut(&[u64]),
) -> Result<(Vec<usize>, usize), Refusal> {
    let depths = header.depth as usize;
    let mut blocks = Blocks::new(bytes, header);
    let mut starts = Vec::with_capacity(header.blocks());
    let mut words = [0; MOST_PIXELS];
    for number in 0..header.blocks() / depths {
        let tile = Tile::new(header, number, mask);
        let words = &mut words[..tile.valid];
        for &maximum in &ranges.max[..depths] {
            starts.push(at);
            at = blocks.read(at, tile.x, maximum, words)?;
            stage(words);
        }
    }
    Ok((starts, at))
}

/// Writes the staged words of all blocks.
fn put_blocks(staged: &[u64], header: &Header, mask: &[u8], image: &mut [u64]) {
    let depths = header.depth as usize;
    let mut rest = staged;
    for number in 0..header.blocks() / depths {
        let tile = Tile::new(header, number, mask);
        for depth in 0..depths {
            let (words, after) = rest.split_at(tile.valid);
            tile.put(words, depth, depths, image);
            rest = after;
        }
    }
}
