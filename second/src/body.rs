//! The body: walk, fill and the whole read.

use crate::block::{read_block, read_raw_words};
use crate::bytes::byte;
use crate::header::{held, read_header, Header, HEADER_BYTES};
use crate::huffman::read_huffman;
use crate::mask::{is_valid, mask_in_force, Mask};
use crate::numbers::{stored, word_size};
use crate::ranges::{check_ranges, ranges_of, Ranges};
use crate::refusal::{Refusal, NOT_BLOCKS, NO_ROOM, NO_SUCH_BLOCK, PASSES_SIZE, WRONG_BLOCK};
use crate::tile::{Tile, MOST_PIXELS};

/// 0.5; with this error the byte kinds have a mode byte.
const ERROR_OF_MODES: u64 = 0x3FE0_0000_0000_0000;

/// The bodies with bytes of their own, and where the first word or block
/// begins; of Huffman codes it is the mode byte.
pub(crate) enum Body {
    Raw(usize),
    Blocks(usize),
    Huffman(usize),
}

/// Checks every block, then writes the list of block starts. Gives how many
/// blocks there are and where the last one ends.
pub fn walk(
    blob: &[u8],
    header: &Header,
    ranges: &Ranges,
    mask: &[u8],
    list: &mut [usize],
) -> Result<(usize, usize), Refusal> {
    let bytes = held(blob, header)?;
    if mask.len() < header.mask_length() || list.len() < header.blocks() {
        return Err(Refusal::of(NO_ROOM));
    }
    check_ranges(ranges, header)?;
    if header.valid == 0 || ranges.constant {
        // There is no byte that says so.
        return Err(Refusal::of(NOT_BLOCKS));
    }
    let at = match body_at(bytes, ranges.place, header)? {
        Body::Blocks(at) => at,
        Body::Raw(_) => return Err(Refusal::at(NOT_BLOCKS, ranges.place)),
        Body::Huffman(mode) => return Err(Refusal::at(NOT_BLOCKS, mode)),
    };
    let (starts, end) = check_blocks(bytes, header, ranges, mask, at)?;
    list[..starts.len()].copy_from_slice(&starts);
    Ok((starts.len(), end))
}

/// Writes the cells of one block, by its number, into the image. Gives how
/// many.
pub fn fill(
    blob: &[u8],
    header: &Header,
    ranges: &Ranges,
    mask: &[u8],
    list: &[usize],
    number: usize,
    image: &mut [u64],
) -> Result<usize, Refusal> {
    let bytes = held(blob, header)?;
    if number >= header.blocks() {
        return Err(Refusal::of(NO_SUCH_BLOCK));
    }
    if mask.len() < header.mask_length()
        || list.len() < header.blocks()
        || image.len() < header.cells()
    {
        return Err(Refusal::of(NO_ROOM));
    }
    check_ranges(ranges, header)?;
    fill_block(bytes, header, ranges, mask, list[number], number, image)
}

/// Reads a whole blob: header, number of blocks (0 for other bodies) and the
/// end of what was read. A new mask is copied to the kept one.
pub fn read(
    blob: &[u8],
    reuse: bool,
    kept: &mut [u8],
    spare: &mut [u8],
    list: &mut [usize],
    image: &mut [u64],
) -> Result<(Header, usize, usize), Refusal> {
    let header = read_header(blob)?;
    let bytes = &blob[..header.size as usize];
    if kept.len() < header.mask_length()
        || spare.len() < header.mask_length()
        || list.len() < header.blocks()
        || image.len() < header.cells()
    {
        return Err(Refusal::of(NO_ROOM));
    }
    let in_force = mask_in_force(bytes, &header, reuse, kept, spare)?;
    let mask = match in_force {
        Mask::Kept(length) => &kept[..length],
        Mask::Spare(length) => &spare[..length],
    };
    let (blocks, end) = read_body(bytes, &header, mask, list, image)?;
    if let Mask::Spare(length) = in_force {
        kept[..length].copy_from_slice(&spare[..length]);
    }
    Ok((header, blocks, end))
}

/// Nothing is written if it is refused.
pub(crate) fn read_body(
    bytes: &[u8],
    header: &Header,
    mask: &[u8],
    list: &mut [usize],
    image: &mut [u64],
) -> Result<(usize, usize), Refusal> {
    if header.valid == 0 {
        // There are no ranges either.
        return Ok((0, HEADER_BYTES));
    }
    let ranges = ranges_of(bytes, header)?;
    if ranges.constant {
        write_constants(header, &ranges, mask, image)?;
        return Ok((0, ranges.place));
    }
    match body_at(bytes, ranges.place, header)? {
        Body::Raw(at) => {
            let end = write_raw(bytes, at, header, mask, image)?;
            Ok((0, end))
        }
        Body::Blocks(at) => {
            let (starts, end) = check_blocks(bytes, header, &ranges, mask, at)?;
            // Checked above, so that no block refuses once cells are written.
            for (number, &start) in starts.iter().enumerate() {
                fill_block(bytes, header, &ranges, mask, start, number, image)?;
            }
            list[..starts.len()].copy_from_slice(&starts);
            Ok((starts.len(), end))
        }
        Body::Huffman(at) => {
            let end = write_huffman(bytes, at, header, mask, image)?;
            Ok((0, end))
        }
    }
}

/// A refusal's place is the sweep or the mode byte's, whichever is missing or
/// wrong.
pub(crate) fn body_at(bytes: &[u8], place: usize, header: &Header) -> Result<Body, Refusal> {
    let sweep = byte(bytes, place)?;
    let at = place + 1;
    match sweep {
        0 => {}
        1 => return Ok(Body::Raw(at)),
        _ => return Err(Refusal::at(WRONG_BLOCK, place)),
    }
    if header.kind > 1 || header.error != ERROR_OF_MODES {
        return Ok(Body::Blocks(at));
    }
    match byte(bytes, at)? {
        0 => Ok(Body::Blocks(at + 1)),
        1 | 2 => Ok(Body::Huffman(at)),
        _ => Err(Refusal::at(WRONG_BLOCK, at)),
    }
}

/// The starts of all blocks from `at` on, and where the last one ends.
pub(crate) fn check_blocks(
    bytes: &[u8],
    header: &Header,
    ranges: &Ranges,
    mask: &[u8],
    mut at: usize,
) -> Result<(Vec<usize>, usize), Refusal> {
    let mut starts = Vec::new();
    let mut words = [0; MOST_PIXELS];
    for number in 0..header.tiles() {
        let tile = Tile::new(header, number, mask);
        let words = &mut words[..tile.valid_pixels().len()];
        for &maximum in &ranges.max[..header.depth as usize] {
            starts.push(at);
            at = read_block(bytes, at, header, tile.x, maximum, words)?;
        }
    }
    Ok((starts, at))
}

fn fill_block(
    bytes: &[u8],
    header: &Header,
    ranges: &Ranges,
    mask: &[u8],
    start: usize,
    number: usize,
    image: &mut [u64],
) -> Result<usize, Refusal> {
    let depths = header.depth as usize;
    let depth = number % depths;
    let tile = Tile::new(header, number / depths, mask);
    let pixels = tile.valid_pixels();
    let mut words = [0; MOST_PIXELS];
    let words = &mut words[..pixels.len()];
    read_block(bytes, start, header, tile.x, ranges.max[depth], words)?;
    for (pixel, &word) in pixels.iter().zip(words.iter()) {
        image[pixel * depths + depth] = word;
    }
    Ok(pixels.len())
}

fn write_constants(
    header: &Header,
    ranges: &Ranges,
    mask: &[u8],
    image: &mut [u64],
) -> Result<(), Refusal> {
    let depths = header.depth as usize;
    let words = constant_words(header, ranges)?;
    for pixel in (0..header.pixels()).filter(|&pixel| is_valid(mask, pixel)) {
        image[pixel * depths..][..depths].copy_from_slice(&words);
    }
    Ok(())
}

/// The word of each depth.
pub(crate) fn constant_words(header: &Header, ranges: &Ranges) -> Result<Vec<u64>, Refusal> {
    let minima = ranges.min[..header.depth as usize].iter();
    minima.map(|&min| stored(min, header.kind)).collect()
}

fn write_raw(
    bytes: &[u8],
    at: usize,
    header: &Header,
    mask: &[u8],
    image: &mut [u64],
) -> Result<usize, Refusal> {
    let depths = header.depth as usize;
    let pixel_bytes = depths * word_size(header.kind);
    // All words must be there before a cell is written.
    let end = raw_end(bytes, at, header)?;
    let valid = (0..header.pixels()).filter(|&pixel| is_valid(mask, pixel));
    for (nth, pixel) in valid.enumerate() {
        let cells = &mut image[pixel * depths..][..depths];
        read_raw_words(bytes, at + nth * pixel_bytes, header.kind, cells)?;
    }
    Ok(end)
}

fn write_huffman(
    bytes: &[u8],
    at: usize,
    header: &Header,
    mask: &[u8],
    image: &mut [u64],
) -> Result<usize, Refusal> {
    let depths = header.depth as usize;
    // All symbols are read before a cell is written.
    let (samples, end) = read_huffman(bytes, at, header, mask)?;
    for (cell, sample) in samples.into_iter().enumerate() {
        if is_valid(mask, cell / depths) {
            image[cell] = sample.into();
        }
    }
    Ok(end)
}

/// Where the words that begin at `at` end. A refusal's place is that of the
/// first one that is not whole.
pub(crate) fn raw_end(bytes: &[u8], at: usize, header: &Header) -> Result<usize, Refusal> {
    let word_bytes = word_size(header.kind);
    let end = at + header.valid as usize * header.depth as usize * word_bytes;
    if end > bytes.len() {
        let whole_words = (bytes.len() - at) / word_bytes;
        return Err(Refusal::at(PASSES_SIZE, at + whole_words * word_bytes));
    }
    Ok(end)
}
