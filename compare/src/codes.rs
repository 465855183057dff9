//! What the bytes of a Huffman body say of it: its codes, and what is wrong with
//! it. By what the rules say of each code and bit, and slowly; the readers are
//! not asked.

use crate::places::Site;
use second::{packed_counts, Header, MOST_COUNTS};

/// What is wrong, and its number.
type Wrong = (Site, u32);

/// The codes of a table; a symbol without one has length 0.
#[derive(Debug)]
pub struct Table {
    pub size: usize,
    pub first: usize,
    pub codes: Vec<Code>,
    /// Where the symbols begin.
    pub end: usize,
}

#[derive(Clone, Copy, Debug, PartialEq, Eq)]
pub struct Code {
    pub bits: u64,
    pub length: usize,
}

impl Code {
    pub fn begins(&self, other: &Code) -> bool {
        self.length <= other.length && other.bits >> (other.length - self.length) == self.bits
    }
}

/// The mode byte's place, if the bytes have a Huffman body where the ranges end.
pub fn mode_at(bytes: &[u8], header: &Header, place: usize) -> Option<usize> {
    let has_mode = header.kind < 2 && header.error == 0.5f64.to_bits();
    match bytes.get(place..)? {
        [0, 1 | 2, ..] if has_mode => Some(place + 1),
        _ => None,
    }
}

impl Table {
    /// Of the body whose mode byte is at a place. Codes may begin others.
    pub fn new(bytes: &[u8], mode: usize) -> Result<Table, Wrong> {
        let at = mode + 1;
        let integer = |nth: usize| match bytes.get(at + 4 * nth..at + 4 * nth + 4) {
            Some(word) => Ok(word_of(word) as usize),
            None => Err((Site::IntegersMissing, 1)),
        };
        if integer(0)? < 2 {
            return Err((Site::TableVersion, 8));
        }
        let size = integer(1)?;
        if size > 256 {
            return Err((Site::TableSize, 8));
        }
        let first = integer(2)?;
        if first >= size {
            return Err((Site::TableFirst, 8));
        }
        let symbols = integer(3)?.saturating_sub(first);
        if symbols == 0 || symbols > size {
            return Err((Site::TableEnd, 8));
        }
        let (lengths, at) = lengths(bytes, at + 16, symbols)?;
        let (codes, end) = codes(bytes, at, &lengths)?;
        Ok(Table {
            size,
            first,
            codes,
            end,
        })
    }

    /// Those that there are.
    pub fn coded(&self) -> impl Iterator<Item = &Code> {
        self.codes.iter().filter(|code| code.length > 0)
    }

    pub fn longest(&self) -> usize {
        self.coded().map(|code| code.length).max().unwrap_or(0)
    }

    /// Every row of bits begins with a code.
    pub fn is_complete(&self) -> bool {
        let shares = self.coded().map(|code| 1u64 << (32 - code.length));
        shares.sum::<u64>() == 1 << 32
    }

    /// Two codes one of which begins the other, each with each: which begins and
    /// which is begun, counted without those that have no code.
    pub fn clashes(&self) -> Vec<(usize, usize)> {
        let codes: Vec<&Code> = self.coded().collect();
        let pairs = (0..codes.len()).flat_map(|a| (0..codes.len()).map(move |b| (a, b)));
        pairs
            .filter(|&(a, b)| a != b && codes[a].begins(codes[b]))
            .collect()
    }

    /// The code of the symbol that begins behind so many bits.
    pub fn symbol(&self, bytes: &[u8], taken: usize) -> Result<Code, Wrong> {
        let mut so_far = Code { bits: 0, length: 0 };
        loop {
            let bit = bit(bytes, self.end, taken + so_far.length);
            so_far.bits = so_far.bits << 1 | bit.ok_or((Site::SymbolMissing, 1))?;
            so_far.length += 1;
            if self.coded().any(|code| *code == so_far) {
                return Ok(so_far);
            }
            if !self.coded().any(|code| so_far.begins(code)) {
                return Err((Site::SymbolUnknown, 8));
            }
        }
    }
}

/// What is wrong with the body whose mode byte is at a place, of so many symbols.
pub fn wrong(bytes: &[u8], mode: usize, symbols: usize) -> Result<(), Wrong> {
    let table = Table::new(bytes, mode)?;
    if !table.clashes().is_empty() {
        return Err((Site::CodeBegins, 8));
    }
    let mut taken = 0;
    for _ in 0..symbols {
        taken += table.symbol(bytes, taken)?.length;
    }
    let end = table.end + 4 * taken.div_ceil(32) + 4;
    match end <= bytes.len() {
        true => Ok(()),
        false => Err((Site::LastWordMissing, 1)),
    }
}

fn lengths(bytes: &[u8], at: usize, symbols: usize) -> Result<(Vec<usize>, usize), Wrong> {
    let mut counts = [0; MOST_COUNTS];
    let (n, end) = match packed_counts(bytes, at, &mut counts) {
        Ok(read) => read,
        Err(refusal) if refusal.number == 1 => return Err((Site::LengthsMissing, 1)),
        Err(_) => return Err((Site::LengthsWrong, 8)),
    };
    let lengths: Vec<usize> = counts[..n].iter().map(|&count| count as usize).collect();
    if n != symbols {
        return Err((Site::LengthsNumber, 8));
    }
    if lengths.iter().any(|&length| length > 32) {
        return Err((Site::LengthTooLong, 8));
    }
    if lengths.iter().all(|&length| length == 0) {
        return Err((Site::NoLength, 8));
    }
    Ok((lengths, end))
}

fn codes(bytes: &[u8], at: usize, lengths: &[usize]) -> Result<(Vec<Code>, usize), Wrong> {
    let mut codes = Vec::new();
    let mut taken = 0;
    for &length in lengths {
        let bits = (taken..taken + length).try_fold(0, |bits, nth| {
            let bit = bit(bytes, at, nth).ok_or((Site::CodesMissing, 1))?;
            Ok(bits << 1 | bit)
        })?;
        codes.push(Code { bits, length });
        taken += length;
    }
    Ok((codes, at + 4 * taken.div_ceil(32)))
}

/// The bit with a number, from the highest of the first word on.
fn bit(bytes: &[u8], at: usize, nth: usize) -> Option<u64> {
    let at = at + nth / 32 * 4;
    let word = word_of(bytes.get(at..at + 4)?);
    Some(word >> (31 - nth % 32) & 1)
}

fn word_of(bytes: &[u8]) -> u64 {
    let bytes = bytes.try_into().expect("four bytes");
    u32::from_le_bytes(bytes).into()
}
