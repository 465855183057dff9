//! Bodies of Huffman codes: tables of every form that the rules allow, symbols
//! at random and the cells that they stand for, and bodies with one thing wrong.

use crate::form::packed;
use crate::random::Random;

/// What is wrong with a body.
#[derive(Clone, Copy, Debug, PartialEq, Eq)]
pub enum Broken {
    Version,
    Size,
    First,
    EndBefore,
    EndFar,
    /// Another number of lengths.
    Number,
    /// More than 256, no number, or wrong in a table.
    Counts,
    TooLong,
    NoLength,
    /// One code begins another.
    Begins,
    Twice,
    Unknown,
    /// Cut in one of the pieces.
    Cut(Piece),
}

#[derive(Clone, Copy, Debug, PartialEq, Eq)]
pub enum Piece {
    Integers,
    Lengths,
    Codes,
    Symbols,
    LastWord,
}

/// How often each is tried: those that damage finds as well are fewer.
pub const BROKEN: [Broken; 24] = [
    Broken::Version,
    Broken::Version,
    Broken::Size,
    Broken::First,
    Broken::EndBefore,
    Broken::EndFar,
    Broken::Number,
    Broken::Number,
    Broken::Counts,
    Broken::Counts,
    Broken::TooLong,
    Broken::TooLong,
    Broken::NoLength,
    Broken::Begins,
    Broken::Begins,
    Broken::Twice,
    Broken::Unknown,
    Broken::Unknown,
    Broken::Cut(Piece::Integers),
    Broken::Cut(Piece::Lengths),
    Broken::Cut(Piece::Codes),
    Broken::Cut(Piece::Symbols),
    Broken::Cut(Piece::LastWord),
    Broken::Cut(Piece::LastWord),
];

/// The image that a body is for.
pub struct Image<'a> {
    pub columns: usize,
    pub depth: usize,
    pub kind: u32,
    pub pixels: &'a [bool],
    /// Only what Esri's library reads alike.
    pub esri: bool,
}

/// A body from the mode byte on, and its cells: 0 where a pixel is not valid.
pub struct Made {
    pub bytes: Vec<u8>,
    pub cells: Vec<u64>,
}

/// Images above this many cells have no long codes, or they pass the ceiling.
const MANY_CELLS: usize = 100_000;

const LONGEST: u32 = 32;

pub fn made(random: &mut Random, image: &Image, broken: Option<Broken>) -> Made {
    let mode = random.pick(&[1, 2]);
    let longest = match image.pixels.len() * image.depth > MANY_CELLS {
        true => 12,
        false => random.pick(&[LONGEST, LONGEST, 16, 12, 10]),
    };
    let mut maker = Maker {
        table: Table::any(random, longest),
        random,
        image,
        broken,
    };
    maker.make_room();
    let symbols = maker.symbols(mode);
    let (bits, cells) = maker.coded(mode, &symbols);
    maker.spoil_codes();
    let bytes = maker.bytes(mode, bits);
    Made { bytes, cells }
}

/// A code: so many bits, the lowest of which is the last.
#[derive(Clone, Copy, Debug, PartialEq, Eq)]
struct Code {
    bits: u32,
    length: u32,
}

impl Code {
    const NONE: Code = Code { bits: 0, length: 0 };

    fn with(self, bit: u32) -> Code {
        Code {
            bits: self.bits << 1 | bit,
            length: self.length + 1,
        }
    }

    fn begins(self, other: Code) -> bool {
        self.length <= other.length
            && u64::from(other.bits) >> (other.length - self.length) == self.bits.into()
    }
}

/// Codes of a range of symbols; those without one have length 0.
struct Table {
    size: usize,
    first: usize,
    codes: Vec<Code>,
}

impl Table {
    fn any(random: &mut Random, longest: u32) -> Table {
        let codes = any_codes(random, longest);
        let n = codes.len();
        let size = match random.below(4) {
            0 => 256,
            1 => n,
            _ => random.between(n, 256),
        };
        let span = match random.below(3) {
            0 => n,
            1 => size,
            _ => random.between(n, size),
        };
        let first = match random.below(4) {
            0 => 0,
            1 => size - 1,
            _ => random.below(size),
        };
        Table {
            size,
            first,
            codes: spread(random, codes, span),
        }
    }

    /// Places of the range that have a code.
    fn coded(&self) -> Vec<usize> {
        let all = 0..self.codes.len();
        all.filter(|&at| self.codes[at].length > 0).collect()
    }
}

/// Codes none of which begins another, by splitting a tree at random. Some of
/// its ends may be without a symbol.
fn any_codes(random: &mut Random, longest: u32) -> Vec<Code> {
    let wanted = match random.below(6) {
        0 => 1,
        1 => random.between(2, 4),
        2 => 256,
        3 => random.between(1, 256),
        _ => random.between(2, 40),
    };
    // Below another root than the tree's codes are long, and there is a gap.
    let from = match random.below(4) {
        0 => random.between(0, longest as usize),
        1 => random.below(4),
        _ if wanted == 1 => random.between(1, longest as usize),
        _ => 0,
    };
    let mut ends = vec![any_code(random, from as u32)];
    let deep = random.pick(&[1, 2, 4, 1000]);
    // The whole tree may have fewer ends than are wanted.
    for _ in 0..4 * wanted {
        let at = match random.once_in(deep) {
            true => ends.len() - 1,
            false => random.below(ends.len()),
        };
        if ends.len() < wanted && ends[at].length < longest {
            let end = ends.swap_remove(at);
            ends.extend([end.with(0), end.with(1)]);
        }
    }
    if ends[0].length == 0 {
        ends[0] = any_code(random, 1);
    }
    if random.once_in(3) {
        let kept = random.between(1, ends.len());
        shuffle(random, &mut ends);
        ends.truncate(kept);
    }
    ends
}

fn any_code(random: &mut Random, length: u32) -> Code {
    let bits = (random.word() & ((1 << length) - 1)) as u32;
    Code { bits, length }
}

fn shuffle<T>(random: &mut Random, all: &mut [T]) {
    for at in 1..all.len() {
        all.swap(at, random.below(at + 1));
    }
}

/// The codes in any order, with none between them up to so many places.
fn spread(random: &mut Random, mut codes: Vec<Code>, span: usize) -> Vec<Code> {
    codes.resize(span, Code::NONE);
    shuffle(random, &mut codes);
    if random.once_in(4) {
        // In order, with none in front or behind.
        codes.sort_by_key(|code| (code.length == 0, code.length, code.bits));
        if random.once_in(2) {
            codes.reverse();
        }
    }
    codes
}

struct Maker<'a> {
    random: &'a mut Random,
    image: &'a Image<'a>,
    broken: Option<Broken>,
    table: Table,
}

impl Maker<'_> {
    fn has(&self, broken: Broken) -> bool {
        self.broken == Some(broken)
    }

    // ---- the image

    /// What the symbols are of: places of the range, one for each valid cell.
    fn symbols(&mut self, mode: u8) -> Vec<(usize, usize)> {
        let coded = self.table.coded();
        // Few of them in some images, the longest ones in others.
        let mut named = coded.clone();
        match self.random.below(4) {
            0 => named.truncate(self.random.between(1, coded.len())),
            1 => {
                named.sort_by_key(|&at| self.table.codes[at].length);
                named.drain(..self.random.below(coded.len()));
            }
            _ => {}
        }
        let cells = self.order(mode);
        cells
            .into_iter()
            .map(|cell| (cell, self.random.pick(&named)))
            .collect()
    }

    /// The valid cells as they are coded.
    fn order(&self, mode: u8) -> Vec<usize> {
        let (pixels, depth) = (self.image.pixels, self.image.depth);
        let valid = (0..pixels.len()).filter(|&pixel| pixels[pixel]);
        if mode == 2 {
            return valid
                .flat_map(|p| (0..depth).map(move |d| p * depth + d))
                .collect();
        }
        let valid: Vec<usize> = valid.collect();
        let depths = 0..depth;
        depths
            .flat_map(|d| valid.iter().map(move |p| p * depth + d))
            .collect()
    }

    /// The bits of the symbols, and the cells that they stand for.
    fn coded(&mut self, mode: u8, symbols: &[(usize, usize)]) -> (Run, Vec<u64>) {
        let mut run = Run::default();
        let mut cells = vec![0; self.image.pixels.len() * self.image.depth];
        let unknown = match self.has(Broken::Unknown) && !symbols.is_empty() {
            true => Some(self.random.below(symbols.len())),
            false => None,
        };
        for (nth, &(cell, at)) in symbols.iter().enumerate() {
            let code = match unknown == Some(nth) {
                true => self.unknown(),
                false => self.table.codes[at],
            };
            run.put(code);
            let symbol = (self.table.first + at) % self.table.size;
            let signed = if self.image.kind == 0 { 128 } else { 0 };
            let predicted = match mode {
                1 => self.predicted(cell, &cells),
                _ => 0,
            };
            cells[cell] = (symbol as u64 + signed + predicted) % 256;
        }
        (run, cells)
    }

    /// Left, else above, else the last valid pixel before it.
    fn predicted(&self, cell: usize, cells: &[u64]) -> u64 {
        let Image {
            columns,
            depth,
            pixels,
            ..
        } = *self.image;
        let (pixel, d) = (cell / depth, cell % depth);
        let is_valid = |other: &usize| pixels[*other];
        let left = (pixel % columns > 0).then(|| pixel - 1).filter(is_valid);
        let above = pixel.checked_sub(columns).filter(is_valid);
        let before = || (0..pixel).rev().find(is_valid);
        let known = left.or(above).or_else(before);
        known.map_or(0, |other| cells[other * depth + d])
    }

    // ---- codes that are wrong

    /// Codes enough for what is to be wrong with them.
    fn make_room(&mut self) {
        let coded = self.table.coded();
        match self.broken {
            Some(Broken::Unknown) if self.is_complete() => {
                self.table.codes[coded[0]] = Code::NONE;
            }
            Some(Broken::Begins | Broken::Twice) if coded.len() < 2 => {
                let code = Code { bits: 2, length: 2 };
                let other = Code { bits: 0, length: 1 };
                self.table.codes = vec![code, other];
                self.table.size = self.table.size.max(2);
            }
            _ => {}
        }
    }

    /// Every row of bits begins with a code.
    fn is_complete(&self) -> bool {
        let coded = self.table.coded();
        let shares = coded
            .iter()
            .map(|&at| 1u64 << (LONGEST - self.table.codes[at].length));
        shares.sum::<u64>() == 1 << LONGEST
    }

    /// Bits with which no code begins: the way of some code, and then the other
    /// way.
    fn unknown(&mut self) -> Code {
        let mut ways = self.table.coded();
        shuffle(self.random, &mut ways);
        let codes = ways.iter().map(|&at| self.table.codes[at]);
        let codes: Vec<Code> = codes.collect();
        let is_unknown = |way: &Code| {
            let mut codes = codes.iter();
            !codes.any(|code| code.begins(*way) || way.begins(*code))
        };
        let beside = codes.iter().map(|code| {
            let lengths = 1..=code.length;
            let beside = lengths.map(|length| Code {
                bits: code.bits >> (code.length - length) ^ 1,
                length,
            });
            Vec::from_iter(beside.filter(is_unknown))
        });
        let mut found = beside.filter(|ways| !ways.is_empty());
        let found = found.next().expect("a gap");
        self.random.pick(&found)
    }

    /// Two codes that clash, beside each other or far apart.
    fn spoil_codes(&mut self) {
        let coded = self.table.coded();
        let n = coded.len();
        let one = self.random.below(n);
        let other = match self.random.below(3) {
            0 => (one + 1) % n,
            1 => (one + n / 2) % n,
            _ => (one + self.random.below(n)) % n,
        };
        let other = if other == one { (one + 1) % n } else { other };
        let code = self.table.codes[coded[one]];
        match self.broken {
            Some(Broken::Twice) => self.table.codes[coded[other]] = code,
            Some(Broken::Begins) if code.length < LONGEST => {
                let longer = self.random.between(1, (LONGEST - code.length) as usize);
                let longer =
                    (0..longer).fold(code, |code, _| code.with(self.random.below(2) as u32));
                self.table.codes[coded[other]] = longer;
            }
            Some(Broken::Begins) => {
                let cut = self.random.between(1, 31) as u32;
                let (bits, length) = (code.bits >> cut, LONGEST - cut);
                self.table.codes[coded[other]] = Code { bits, length };
            }
            _ => {}
        }
    }

    // ---- bytes

    fn bytes(&mut self, mode: u8, symbols: Run) -> Vec<u8> {
        let integers = self.integers().map(u32::to_le_bytes).concat();
        let lengths = self.lengths();
        let mut codes = Run::default();
        self.table.codes.iter().for_each(|&code| codes.put(code));
        let pieces = [
            (Piece::Integers, integers),
            (Piece::Lengths, lengths),
            (Piece::Codes, codes.bytes(self.random)),
            (Piece::Symbols, symbols.bytes(self.random)),
            (Piece::LastWord, self.random.bytes(4)),
        ];
        let mut bytes = vec![mode];
        for (piece, run) in pieces {
            if self.has(Broken::Cut(piece)) && !run.is_empty() {
                let there = self.random.below(run.len());
                bytes.extend_from_slice(&run[..there]);
                return bytes;
            }
            bytes.extend(run);
        }
        bytes
    }

    fn integers(&mut self) -> [u32; 4] {
        let size = self.table.size as u32;
        let (first, span) = (self.table.first as u32, self.table.codes.len() as u32);
        let end = first + span;
        let random = &mut *self.random;
        let usual = [2, 2, 3, 4, 4, 4, 5, 1 << 30];
        let version = match random.below(8) {
            // Esri's version is signed.
            0 if !self.image.esri => random.pick(&[1 << 31, u32::MAX, (1 << 31) + 7]),
            _ => random.pick(&usual),
        };
        let far = [u32::MAX, 1 << 31, (1 << 31) - 1];
        let any_far = random.pick(&far);
        match self.broken {
            Some(Broken::Version) => [random.below(2) as u32, size, first, end],
            Some(Broken::Size) => {
                let size = random.pick(&[257, 258, 300, 32768, 65536, any_far]);
                [version, size, first, end]
            }
            Some(Broken::First) => {
                let first = random.pick(&[size, size + 1, any_far]);
                [version, size, first, first.saturating_add(span)]
            }
            Some(Broken::EndBefore) => {
                let end = random.pick(&[first, first.saturating_sub(1), 0]);
                [version, size, first, end]
            }
            Some(Broken::EndFar) => {
                let end = random.pick(&[first + size + 1, 2 * size + first, any_far]);
                [version, size, first, end]
            }
            _ => [version, size, first, end],
        }
    }

    /// The lengths as packed counts of any form.
    fn lengths(&mut self) -> Vec<u8> {
        let codes = self.table.codes.iter();
        let mut lengths: Vec<u64> = codes.map(|code| code.length.into()).collect();
        let at = self.random.below(lengths.len());
        match self.broken {
            Some(Broken::Number) => match self.random.below(3) {
                0 if lengths.len() > 1 => drop(lengths.pop()),
                1 if lengths.len() < 256 => lengths.push(1),
                _ => lengths.truncate(self.random.below(lengths.len())),
            },
            Some(Broken::TooLong) => {
                lengths[at] = self
                    .random
                    .pick(&[33, 33, 34, 63, 64, 255, 256 + 7, 1 << 30]);
            }
            Some(Broken::NoLength) => lengths.fill(0),
            _ => {}
        }
        let greatest = lengths.iter().copied().max().unwrap_or(0);
        let needed = 64 - greatest.leading_zeros() as usize;
        let in_table = self.random.once_in(2) && needed > 0;
        let counts = match in_table {
            true => self.by_table(&lengths, needed),
            false => self.one_by_one(&lengths, needed),
        };
        match self.has(Broken::Counts) {
            true => self.spoil_counts(counts),
            false => counts,
        }
    }

    /// The first byte and the number, in 1, 2 or 4 bytes.
    fn head(&mut self, n: usize, bits: usize, table: bool) -> Vec<u8> {
        let (code, width) = match n {
            0..=255 => self.random.pick(&[(0, 4), (1, 2), (2, 1)]),
            _ => self.random.pick(&[(0, 4), (1, 2)]),
        };
        let head = code << 6 | u8::from(table) << 5 | bits as u8;
        let number = (n as u32).to_le_bytes();
        [&[head], &number[..width]].concat()
    }

    /// Of just as many bits as are needed, or of more.
    fn width(&mut self, needed: usize) -> usize {
        match self.random.below(3) {
            0 => self.random.between(needed, 31),
            _ => needed,
        }
    }

    fn one_by_one(&mut self, lengths: &[u64], needed: usize) -> Vec<u8> {
        let bits = self.width(needed);
        let head = self.head(lengths.len(), bits, false);
        [head, self.run(lengths, bits)].concat()
    }

    /// Every length above 0 has an entry or more; some entries are not named.
    fn by_table(&mut self, lengths: &[u64], needed: usize) -> Vec<u8> {
        let mut entries: Vec<u64> = lengths.iter().copied().filter(|&n| n > 0).collect();
        entries.sort_unstable();
        entries.dedup();
        let bits = self.width(needed);
        for _ in 0..self.random.pick(&[0, 0, 1, 5, 200]) {
            let any = self.random.word() & ((1 << bits) - 1);
            entries.push(any);
        }
        entries.truncate(254);
        shuffle(self.random, &mut entries);
        let head = self.head(lengths.len(), bits, true);
        let stored = self.run(&entries, bits);
        let number = entries.len() + 1;
        entries.insert(0, 0);
        let indices: Vec<u64> = lengths
            .iter()
            .map(|length| {
                let all = 0..entries.len();
                let same: Vec<usize> = all.filter(|&at| entries[at] == *length).collect();
                self.random.pick(&same) as u64
            })
            .collect();
        let width = number.next_power_of_two().trailing_zeros() as usize;
        let indices = self.run(&indices, width);
        [head, vec![number as u8], stored, indices].concat()
    }

    /// Counts that are none, whatever the lengths are.
    fn spoil_counts(&mut self, counts: Vec<u8>) -> Vec<u8> {
        let mut rest = self.random.bytes(300);
        let front: Vec<u8> = match self.random.below(6) {
            // No width of the number, and numbers above 256.
            0 => vec![counts[0] | 0xC0],
            1 => vec![0x45, 1, 1],
            2 => vec![0x05, 0, 0, 1, 0],
            // A table of no bits, and one of no or of one entry.
            3 => vec![0xA0, 3, 7],
            4 => vec![0xA5, 3, self.random.below(2) as u8],
            // Indices of 3 in a table of three entries.
            _ => {
                rest.fill(255);
                vec![0xA5, 3, 3]
            }
        };
        [front, rest].concat()
    }

    /// Values of some bits each; bits behind the last one are any.
    fn run(&mut self, values: &[u64], bits: usize) -> Vec<u8> {
        let mut run = packed(values, bits);
        let rest = values.len() * bits % 8;
        if let (Some(last), true) = (run.last_mut(), rest > 0) {
            *last |= self.random.byte() << rest;
        }
        run
    }
}

/// Codes one behind the other.
#[derive(Default)]
struct Run(Vec<bool>);

impl Run {
    fn put(&mut self, code: Code) {
        let bits = (0..code.length).rev().map(|at| code.bits >> at & 1 == 1);
        self.0.extend(bits);
    }

    /// Whole words, the highest bit first; bits behind the last code are any.
    fn bytes(mut self, random: &mut Random) -> Vec<u8> {
        let any = random.word();
        let words = self.0.len().div_ceil(32);
        let rest = 32 * words - self.0.len();
        self.0.extend((0..rest).map(|at| any >> at & 1 == 1));
        let word = |bits: &[bool]| {
            let word = bits.iter().fold(0, |word, &bit| word << 1 | u32::from(bit));
            word.to_le_bytes()
        };
        self.0.chunks(32).flat_map(word).collect()
    }
}
