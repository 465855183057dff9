//! Byte images as Huffman codes: symbols by a table of their first bits, all of
//! them before anything is written.

use crate::bytes::{array, byte, part};
use crate::packed::{read_counts, MOST_COUNTS};
use crate::tile::valid_runs;
use crate::Refusal;
use second::refusal::{PASSES_SIZE, WRONG_BLOCK};
use second::{is_valid, Header};

const LONGEST_CODE: u32 = 32;
/// Codes of so many bits, and shorter ones, are found by one look.
const QUICK_BITS: u32 = 12;
const QUICK: usize = 1 << QUICK_BITS;

/// The mode whose symbols are differences.
const DELTA: u8 = 1;

/// Writes the image whose mode byte stands at `at`; gives where it ends.
pub(crate) fn write_huffman(
    bytes: &[u8],
    at: usize,
    header: &Header,
    mask: &[u8],
    image: &mut [u64],
) -> Result<usize, Refusal> {
    let mode = byte(bytes, at)?;
    let (codes, start) = read_table(bytes, at + 1)?;
    let cells = header.valid as usize * header.depth as usize;
    let (words, _) = bytes[start..].as_chunks();
    let (symbols, bits) = codes.read(words, cells)?;
    // The word behind the symbols is not looked at.
    let end = start + bits.div_ceil(32) * 4 + 4;
    if end > bytes.len() {
        return Err(PASSES_SIZE);
    }
    match mode {
        DELTA => put_by_depth(&symbols, header, mask, image),
        _ => put_by_pixel(&symbols, header, mask, image),
    }
    Ok(end)
}

/// What a symbol is above what it stands for.
fn above(header: &Header) -> u8 {
    match header.kind {
        0 => 128,
        _ => 0,
    }
}

/// Depth by depth, each symbol the difference from the pixel to the left, or
/// from the one above where there is none, or from the last one.
fn put_by_depth(symbols: &[u8], header: &Header, mask: &[u8], image: &mut [u64]) {
    let (columns, depths) = (header.columns as usize, header.depth as usize);
    let less = above(header);
    let mut symbols = symbols.iter();
    for depth in 0..depths {
        let mut last = 0;
        for run in valid_runs(mask, header.pixels()) {
            let mut first = run.start;
            while first < run.end {
                // No further than the row.
                let end = run.end.min(first - first % columns + columns);
                if first >= columns && is_valid(mask, first - columns) {
                    last = image[(first - columns) * depths + depth] as u8;
                }
                let cells = image[first * depths + depth..end * depths].iter_mut();
                for (cell, symbol) in cells.step_by(depths).zip(&mut symbols) {
                    last = last.wrapping_add(*symbol).wrapping_sub(less);
                    *cell = last.into();
                }
                first = end;
            }
        }
    }
}

/// Pixel by pixel, each symbol a value.
fn put_by_pixel(symbols: &[u8], header: &Header, mask: &[u8], image: &mut [u64]) {
    let depths = header.depth as usize;
    let less = above(header);
    let mut rest = symbols;
    for run in valid_runs(mask, header.pixels()) {
        let cells = &mut image[run.start * depths..run.end * depths];
        let (values, after) = rest.split_at(cells.len());
        for (cell, value) in cells.iter_mut().zip(values) {
            *cell = value.wrapping_sub(less).into();
        }
        rest = after;
    }
}

// ---- the table

struct Code {
    /// From the highest bit on.
    bits: u32,
    length: u32,
    symbol: u8,
}

struct Codes {
    /// In the order of their bits.
    codes: Vec<Code>,
    /// Length and symbol by the first bits; 0 where no code is short enough.
    quick: [u16; QUICK],
}

/// The codes, and where the words of the symbols begin. Each number is judged
/// before the next one is read.
fn read_table(bytes: &[u8], at: usize) -> Result<(Codes, usize), Refusal> {
    let integer = |nth: usize| array(bytes, at + nth * 4).map(u32::from_le_bytes);
    if integer(0)? < 2 {
        return Err(WRONG_BLOCK);
    }
    let size = integer(1)?;
    if size > 256 {
        return Err(WRONG_BLOCK);
    }
    let first = integer(2)?;
    if first >= size {
        return Err(WRONG_BLOCK);
    }
    let end = integer(3)?;
    if end <= first || end - first > size {
        return Err(WRONG_BLOCK);
    }
    let mut lengths = [0; MOST_COUNTS];
    let (n, at) = read_counts(bytes, at + 16, &mut lengths)?;
    let lengths = &lengths[..n];
    let too_long = lengths.iter().any(|&length| length > LONGEST_CODE);
    if n != (end - first) as usize || too_long || lengths.iter().all(|&length| length == 0) {
        return Err(WRONG_BLOCK);
    }
    let words = lengths.iter().sum::<u32>().div_ceil(32) as usize;
    let run = part(bytes, at, words * 4)?;
    let (words, _) = run.as_chunks();
    let mut codes = Vec::with_capacity(n);
    let mut p = 0;
    for (symbol, &length) in (first..end).zip(lengths) {
        if length > 0 {
            codes.push(Code {
                bits: front(words, p) & !u32::MAX.checked_shr(length).unwrap_or(0),
                length,
                symbol: (symbol % size) as u8,
            });
            p += length as usize;
        }
    }
    Ok((Codes::new(codes)?, at + run.len()))
}

/// The two words that bit p is in and before, p's the highest; zeros behind
/// the last.
fn window(words: &[[u8; 4]], p: usize) -> u64 {
    let word = |nth: usize| words.get(nth).map_or(0, |&word| u32::from_le_bytes(word));
    let both = u64::from(word(p / 32)) << 32 | u64::from(word(p / 32 + 1));
    both << (p % 32)
}

/// 32 bits from bit p on.
fn front(words: &[[u8; 4]], p: usize) -> u32 {
    (window(words, p) >> 32) as u32
}

/// The first n bits are the same.
fn agree(one: u32, other: u32, n: u32) -> bool {
    u64::from(one ^ other) >> (32 - n) == 0
}

impl Codes {
    /// None may begin another, nor be the same.
    fn new(mut codes: Vec<Code>) -> Result<Codes, Refusal> {
        codes.sort_unstable_by_key(|code| (code.bits, code.length));
        // One that begins any begins the next one.
        let mut pairs = codes.iter().zip(codes.iter().skip(1));
        if pairs.any(|(one, next)| agree(one.bits, next.bits, one.length)) {
            return Err(WRONG_BLOCK);
        }
        let mut quick = [0; QUICK];
        for code in codes.iter().filter(|code| code.length <= QUICK_BITS) {
            let from = (code.bits >> (32 - QUICK_BITS)) as usize;
            let entry = (code.length as u16) << 8 | u16::from(code.symbol);
            quick[from..][..1 << (QUICK_BITS - code.length)].fill(entry);
        }
        Ok(Codes { codes, quick })
    }

    /// So many symbols, and how many bits they take.
    fn read(&self, words: &[[u8; 4]], count: usize) -> Result<(Vec<u8>, usize), Refusal> {
        let all = words.len() * 32;
        let mut symbols = Vec::with_capacity(count);
        let mut p = 0;
        for _ in 0..count {
            let entry = self.quick[(window(words, p) >> (64 - QUICK_BITS)) as usize];
            let length = usize::from(entry >> 8);
            if length > 0 && p + length <= all {
                symbols.push(entry as u8);
                p += length;
            } else {
                let code = self.seek(front(words, p), all - p)?;
                symbols.push(code.symbol);
                p += code.length as usize;
            }
        }
        Ok((symbols, p))
    }

    /// The code that these bits begin with, of which the first `there` are
    /// there. They are refused as soon as they begin none.
    fn seek(&self, bits: u32, there: usize) -> Result<&Code, Refusal> {
        let there = there.min(LONGEST_CODE as usize) as u32;
        let behind = self.codes.partition_point(|code| code.bits <= bits);
        let code = self.codes[..behind].last();
        let whole = |code: &&Code| code.length <= there && agree(code.bits, bits, code.length);
        if let Some(code) = code.filter(whole) {
            return Ok(code);
        }
        let begun = |code: &Code| agree(code.bits, bits, code.length.min(there));
        if self.codes.iter().any(begun) {
            Err(PASSES_SIZE)
        } else {
            Err(WRONG_BLOCK)
        }
    }
}
