//! Byte images as Huffman codes: the table, the symbols, the prediction.

use crate::bytes::{byte, little, part};
use crate::header::Header;
use crate::mask::is_valid;
use crate::packed::{packed_counts, MOST_COUNTS};
use crate::refusal::{Refusal, PASSES_SIZE, WRONG_BLOCK};

const LEAST_VERSION: u64 = 2;
const MOST_SYMBOLS: u64 = 256;
const LONGEST_CODE: u32 = 32;
const WORD_BYTES: usize = 4;
const WORD_BITS: usize = 32;

/// The mode whose symbols are differences.
const DELTA: u8 = 1;

const WRONG: Refusal = Refusal::of(WRONG_BLOCK);

/// A byte for each cell, 0 where the pixel is not valid, and where the body
/// ends. A refusal's place is `at`, the mode byte's, whatever is wrong or
/// missing behind it.
pub(crate) fn read_huffman(
    bytes: &[u8],
    at: usize,
    header: &Header,
    mask: &[u8],
) -> Result<(Vec<u8>, usize), Refusal> {
    image_from(bytes, at, header, mask).map_err(|refusal| refusal.moved(at))
}

fn image_from(
    bytes: &[u8],
    at: usize,
    header: &Header,
    mask: &[u8],
) -> Result<(Vec<u8>, usize), Refusal> {
    let mode = byte(bytes, at)?;
    let (tree, start) = read_table(bytes, at + 1)?;
    let mut bits = Bits::new(bytes, start);
    let image = match mode {
        DELTA => by_depth(&tree, &mut bits, header, mask)?,
        _ => by_pixel(&tree, &mut bits, header, mask)?,
    };
    // The word behind the symbols is not looked at.
    let end = start + run_bytes(bits.taken) + WORD_BYTES;
    if end > bytes.len() {
        return Err(Refusal::of(PASSES_SIZE));
    }
    Ok((image, end))
}

// ---- the image

/// Depth by depth, each symbol the difference from what is predicted.
fn by_depth(
    tree: &Tree,
    bits: &mut Bits,
    header: &Header,
    mask: &[u8],
) -> Result<Vec<u8>, Refusal> {
    let (columns, depths) = (header.columns as usize, header.depth as usize);
    let mut image = vec![0; header.cells()];
    for depth in 0..depths {
        let mut last = 0;
        for pixel in valid_pixels(header, mask) {
            let has_left = pixel % columns > 0 && is_valid(mask, pixel - 1);
            let has_above = pixel >= columns && is_valid(mask, pixel - columns);
            // The last value is the left pixel's, where that is valid.
            let predicted = match has_above && !has_left {
                true => image[(pixel - columns) * depths + depth],
                false => last,
            };
            last = value(tree.symbol(bits)?, header).wrapping_add(predicted);
            image[pixel * depths + depth] = last;
        }
    }
    Ok(image)
}

/// Pixel by pixel, each symbol a value.
fn by_pixel(
    tree: &Tree,
    bits: &mut Bits,
    header: &Header,
    mask: &[u8],
) -> Result<Vec<u8>, Refusal> {
    let depths = header.depth as usize;
    let mut image = vec![0; header.cells()];
    for pixel in valid_pixels(header, mask) {
        for cell in &mut image[pixel * depths..][..depths] {
            *cell = value(tree.symbol(bits)?, header);
        }
    }
    Ok(image)
}

fn valid_pixels<'a>(header: &Header, mask: &'a [u8]) -> impl Iterator<Item = usize> + 'a {
    (0..header.pixels()).filter(|&pixel| is_valid(mask, pixel))
}

/// Symbols of signed bytes are 128 above what they stand for.
fn value(symbol: u8, header: &Header) -> u8 {
    match header.kind {
        0 => symbol.wrapping_sub(128),
        _ => symbol,
    }
}

// ---- the table

/// The codes, and where the words of the symbols begin. Each number is judged
/// before the next one is read.
fn read_table(bytes: &[u8], at: usize) -> Result<(Tree, usize), Refusal> {
    let integer = |nth: usize| part(bytes, at + nth * WORD_BYTES, WORD_BYTES).map(little);
    if integer(0)? < LEAST_VERSION {
        return Err(WRONG);
    }
    let size = integer(1)?;
    if size > MOST_SYMBOLS {
        return Err(WRONG);
    }
    let first = integer(2)?;
    if first >= size {
        return Err(WRONG);
    }
    let end = integer(3)?;
    if end <= first || end - first > size {
        return Err(WRONG);
    }
    let (lengths, at) = read_lengths(bytes, at + 4 * WORD_BYTES, (end - first) as usize)?;
    // The range may go round, at the size and not at 256.
    let symbols = (first..end).map(|symbol| (symbol % size) as u8);
    read_codes(bytes, at, symbols.zip(lengths).collect())
}

/// The lengths of the codes, of which there must be `n`, and where they end.
fn read_lengths(bytes: &[u8], at: usize, n: usize) -> Result<(Vec<u32>, usize), Refusal> {
    let mut counts = [0; MOST_COUNTS];
    let (found, end) = packed_counts(bytes, at, &mut counts)?;
    let lengths = &counts[..found];
    let too_long = lengths.iter().any(|&length| length > LONGEST_CODE);
    let no_code = lengths.iter().all(|&length| length == 0);
    if found != n || too_long || no_code {
        return Err(WRONG);
    }
    Ok((lengths.to_vec(), end))
}

/// The codes stand one behind the other; a symbol of length 0 has none.
fn read_codes(bytes: &[u8], at: usize, lengths: Vec<(u8, u32)>) -> Result<(Tree, usize), Refusal> {
    let all_bits: u32 = lengths.iter().map(|&(_, length)| length).sum();
    // All words must be there before a code is judged.
    let run = part(bytes, at, run_bytes(all_bits as usize))?;
    let mut bits = Bits::new(run, 0);
    let mut tree = Tree::new();
    for (symbol, length) in lengths {
        if length > 0 {
            tree.put(symbol, length, &mut bits)?;
        }
    }
    Ok((tree, at + run.len()))
}

/// The whole words that so many bits take.
fn run_bytes(bits: usize) -> usize {
    bits.div_ceil(WORD_BITS) * WORD_BYTES
}

// ---- bits and codes

/// The bits of little-endian words, the highest of each first.
struct Bits<'a> {
    bytes: &'a [u8],
    start: usize,
    taken: usize,
}

impl<'a> Bits<'a> {
    fn new(bytes: &'a [u8], start: usize) -> Bits<'a> {
        Bits {
            bytes,
            start,
            taken: 0,
        }
    }

    /// The next one, 0 or 1. Its whole word must be there.
    fn next(&mut self) -> Result<usize, Refusal> {
        let at = self.start + self.taken / WORD_BITS * WORD_BYTES;
        let word = little(part(self.bytes, at, WORD_BYTES)?);
        let bit = word >> (WORD_BITS - 1 - self.taken % WORD_BITS) & 1;
        self.taken += 1;
        Ok(bit as usize)
    }
}

/// Codes as ways from a root, bit by bit.
struct Tree(Vec<Node>);

/// The nodes to go on to, 0 where there is none: nothing leads to the root.
#[derive(Clone, Copy, Default)]
struct Node {
    next: [usize; 2],
    symbol: Option<u8>,
}

impl Tree {
    fn new() -> Tree {
        Tree(vec![Node::default()])
    }

    /// Takes a code from the bits. None may begin another, nor be the same.
    fn put(&mut self, symbol: u8, length: u32, bits: &mut Bits) -> Result<(), Refusal> {
        let mut at = 0;
        for _ in 0..length {
            let bit = bits.next()?;
            if self.0[at].symbol.is_some() {
                return Err(WRONG);
            }
            if self.0[at].next[bit] == 0 {
                self.0[at].next[bit] = self.0.len();
                self.0.push(Node::default());
            }
            at = self.0[at].next[bit];
        }
        let node = &mut self.0[at];
        if node.symbol.is_some() || node.next != [0, 0] {
            return Err(WRONG);
        }
        node.symbol = Some(symbol);
        Ok(())
    }

    /// The symbol of the code that the bits go on with. They are refused as
    /// soon as they begin none.
    fn symbol(&self, bits: &mut Bits) -> Result<u8, Refusal> {
        let mut at = 0;
        loop {
            at = self.0[at].next[bits.next()?];
            if at == 0 {
                return Err(WRONG);
            }
            if let Some(symbol) = self.0[at].symbol {
                return Ok(symbol);
            }
        }
    }
}
