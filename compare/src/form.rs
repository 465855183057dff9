//! Blobs of every form that the rules allow, put together piece by piece, and
//! forms with one thing wrong.

use crate::checksum;
use crate::huffman::{self, Broken, BROKEN};
use crate::random::Random;
use second::{is_finite, less, number, word_size};

/// Fields of a header as they are written, the size and mask bytes apart.
#[derive(Clone, Debug)]
pub struct Fields {
    pub rows: u32,
    pub columns: u32,
    pub depth: u32,
    pub valid: u32,
    pub side: u32,
    pub kind: u32,
    pub error: u64,
    pub min: u64,
    pub max: u64,
}

/// A blob in pieces.
#[derive(Clone, Debug)]
pub struct Form {
    pub fields: Fields,
    /// The mask section.
    pub section: Vec<u8>,
    /// Ranges and body.
    pub after: Vec<u8>,
    /// Bytes between the body's end and the declared size.
    pub gap: Vec<u8>,
    /// Bytes after the declared size.
    pub slack: Vec<u8>,
    /// One bit for each pixel.
    pub mask: Vec<u8>,
    /// Where the blocks begin.
    pub starts: Vec<usize>,
    /// What a body of Huffman codes stands for, whatever is wrong with it: 0
    /// where a pixel is not valid. Other bodies have none.
    pub cells: Vec<u64>,
}

impl Form {
    pub fn size(&self) -> usize {
        70 + self.section.len() + self.after.len() + self.gap.len()
    }

    pub fn bytes(&self) -> Vec<u8> {
        let f = &self.fields;
        let mut bytes = b"Lerc2 ".to_vec();
        for field in [4, 0, f.rows, f.columns, f.depth, f.valid, f.side] {
            bytes.extend(u32::to_le_bytes(field));
        }
        bytes.extend((self.size() as u32).to_le_bytes());
        bytes.extend(f.kind.to_le_bytes());
        for number in [f.error, f.min, f.max] {
            bytes.extend(u64::to_le_bytes(number));
        }
        bytes.extend((self.section.len() as u32).to_le_bytes());
        bytes.extend_from_slice(&self.section);
        bytes.extend_from_slice(&self.after);
        bytes.extend_from_slice(&self.gap);
        checksum::mend(&mut bytes);
        bytes.extend_from_slice(&self.slack);
        bytes
    }
}

/// What is wrong with a form.
#[derive(Clone, Copy, Debug, PartialEq, Eq)]
pub enum Fault {
    None,
    MaskRunOfZero,
    MaskEndsEarly,
    MaskEndsLate,
    MaskRunPasses,
    MaskWithoutEnd,
    MaskCount,
    MaskOfUniform,
    MaskMissing,
    RangeCrossed,
    RangeNotFinite,
    /// Several numbers, of several depths.
    RangesWrong,
    RangesCut,
    ConstantTooLarge,
    Sweep,
    SweepMissing,
    /// Blocks where the mode byte says codes.
    ModeTurned,
    ModeWrong,
    ModeMissing,
    CheckBits,
    OffsetCode,
    OffsetNotFinite,
    CountsNumber,
    CountsCode,
    CountsMany,
    TableBits,
    TableEntries,
    TableIndex,
    /// At a block's first bytes.
    BlockCut,
    Cut,
    /// Of a body of Huffman codes.
    Codes(Broken),
}

const FAULTS: [Fault; 29] = [
    Fault::MaskRunOfZero,
    Fault::MaskEndsEarly,
    Fault::MaskEndsLate,
    Fault::MaskRunPasses,
    Fault::MaskWithoutEnd,
    Fault::MaskCount,
    Fault::MaskOfUniform,
    Fault::MaskMissing,
    Fault::RangeCrossed,
    Fault::RangeNotFinite,
    Fault::RangesWrong,
    Fault::RangesCut,
    Fault::ConstantTooLarge,
    Fault::Sweep,
    Fault::SweepMissing,
    Fault::ModeTurned,
    Fault::ModeWrong,
    Fault::ModeMissing,
    Fault::CheckBits,
    Fault::OffsetCode,
    Fault::OffsetNotFinite,
    Fault::CountsNumber,
    Fault::CountsCode,
    Fault::CountsMany,
    Fault::TableBits,
    Fault::TableEntries,
    Fault::TableIndex,
    Fault::BlockCut,
    Fault::Cut,
];

impl Fault {
    fn is_of_mode(self) -> bool {
        matches!(
            self,
            Fault::ModeTurned | Fault::ModeWrong | Fault::ModeMissing
        )
    }

    /// The blob ends where something should be.
    fn is_of_end(self) -> bool {
        matches!(
            self,
            Fault::RangesCut
                | Fault::SweepMissing
                | Fault::ModeMissing
                | Fault::BlockCut
                | Fault::Codes(Broken::Cut(_))
        )
    }
}

/// By kind and code; 9 is none.
pub const OFFSET_KINDS: [[u32; 4]; 8] = [
    [0, 9, 9, 9],
    [1, 9, 9, 9],
    [2, 1, 0, 9],
    [3, 1, 9, 9],
    [4, 3, 2, 1],
    [5, 3, 1, 9],
    [6, 2, 1, 9],
    [7, 6, 4, 2],
];

/// What sort of body is wanted.
#[derive(Clone, Copy, Debug, PartialEq, Eq)]
pub enum Body {
    /// Min and max of the header are the same.
    ConstantByHeader,
    /// Each pair of ranges is the same.
    ConstantByRanges,
    Raw,
    Blocks,
    /// Of kinds 0 and 1 alone.
    Huffman,
}

/// What is wanted of a form.
#[derive(Clone, Copy, Debug)]
pub struct Wanted {
    pub rows: usize,
    pub columns: usize,
    pub depth: usize,
    pub side: usize,
    pub kind: u32,
    pub body: Body,
    pub fault: Fault,
    /// Only forms on which Esri's library agrees by docs/DIFFERENCES.md.
    pub esri: bool,
    /// Error, offsets, ranges and counts so large that products are infinite.
    pub huge: bool,
}

impl Wanted {
    pub fn any(random: &mut Random, esri: bool) -> Wanted {
        let wanted = Wanted::without_codes(random, esri);
        let is_of_bytes = wanted.kind < 2 && wanted.body == Body::Blocks;
        // About a fifth of all forms of bytes.
        if is_of_bytes && !wanted.fault.is_of_mode() && random.below(5) < 2 {
            wanted.in_codes(random)
        } else {
            wanted
        }
    }

    /// The same image as Huffman codes.
    pub fn in_codes(self, random: &mut Random) -> Wanted {
        let fault = match random.below(10) {
            _ if self.esri => Fault::None,
            0..=3 => Fault::Codes(random.pick(&BROKEN)),
            // What was wrong with mask, ranges or sweep byte still is.
            4 => self.fault,
            _ => Fault::None,
        };
        let body = Body::Huffman;
        Wanted {
            body,
            fault,
            ..self
        }
    }

    fn without_codes(random: &mut Random, esri: bool) -> Wanted {
        let (rows, columns, depth) = geometry(random);
        let side = match random.below(4) {
            0 => 8,
            1 => 16,
            _ => random.between(1, 16),
        };
        let body = match random.below(10) {
            0 => Body::ConstantByHeader,
            1 => Body::ConstantByRanges,
            2 => Body::Raw,
            _ => Body::Blocks,
        };
        let fault = if !esri && random.once_in(3) {
            random.pick(&FAULTS)
        } else {
            Fault::None
        };
        let wanted = Wanted {
            rows,
            columns,
            depth,
            side,
            kind: random.below(8) as u32,
            body,
            fault,
            esri,
            huge: false,
        };
        wanted.with_room_for_fault(random)
    }

    /// Only some images can have these faults.
    fn with_room_for_fault(self, random: &mut Random) -> Wanted {
        match self.fault {
            Fault::RangesWrong => Wanted {
                depth: self.depth.max(random.between(2, 4)),
                kind: random.between(6, 7) as u32,
                body: random.pick(&[Body::Raw, Body::Blocks]),
                ..self
            },
            Fault::OffsetNotFinite => Wanted {
                kind: random.between(6, 7) as u32,
                body: Body::Blocks,
                ..self
            },
            fault if fault.is_of_mode() => Wanted {
                kind: random.below(2) as u32,
                body: Body::Blocks,
                ..self
            },
            _ => self,
        }
    }

    /// Blocks in which products are infinite, mostly of kind 7, whose offsets
    /// reach as far as the products.
    pub fn overflowing(random: &mut Random, esri: bool) -> Wanted {
        let kind = match random.below(8) {
            0 => random.below(6) as u32,
            1 => 6,
            _ => 7,
        };
        Wanted {
            kind,
            body: Body::Blocks,
            huge: true,
            ..Wanted::without_codes(random, esri)
        }
    }

    /// Tiles of eight columns, most of them squares whose rows are bytes of
    /// the mask.
    pub fn in_eights(random: &mut Random, esri: bool) -> Wanted {
        Wanted {
            rows: random.pick(&[3, 8, 8, 13, 16, 24]),
            columns: 8 * random.between(1, 4),
            depth: random.pick(&[1, 1, 1, 2]),
            side: 8,
            body: Body::Blocks,
            ..Wanted::without_codes(random, esri)
        }
    }
}

fn geometry(random: &mut Random) -> (usize, usize, usize) {
    let (rows, columns, depth) = match random.below(200) {
        0..=109 => (12, 12, 3),
        110..=149 => (20, 40, 3),
        150..=164 => (3, 300, 2),
        165..=174 => (33, 33, 1),
        175..=184 => (5, 5, 64),
        185..=195 => (3, 3, 2),
        196 => return (1, 4096, 1),
        197 => return (4096, 1, 1),
        198 => return (random.between(1, 4), random.between(1, 4), 64),
        _ => (60, 60, 2),
    };
    (
        random.between(1, rows),
        random.between(1, columns),
        random.between(1, depth),
    )
}

/// A form of any sort.
pub fn any_form(random: &mut Random, esri: bool) -> Form {
    let wanted = match random.below(8) {
        0 => Wanted::overflowing(random, esri),
        1 => Wanted::in_eights(random, esri),
        _ => Wanted::any(random, esri),
    };
    form(random, wanted)
}

pub fn form(random: &mut Random, wanted: Wanted) -> Form {
    let mut maker = Maker::new(random, wanted);
    maker.put_mask();
    maker.put_body();
    maker.finish()
}

struct Maker<'a> {
    random: &'a mut Random,
    wanted: Wanted,
    pixels: Vec<bool>,
    /// Words of the ranges, by depth.
    pairs: Vec<(u64, u64)>,
    form: Form,
    /// The block that has the fault.
    faulty: usize,
    /// About the last count of the block that is not clamped.
    fitting: u64,
}

impl<'a> Maker<'a> {
    fn new(random: &'a mut Random, wanted: Wanted) -> Maker<'a> {
        let Wanted {
            rows,
            columns,
            depth,
            side,
            kind,
            ..
        } = wanted;
        let pixels = any_pixels(random, &wanted);
        let valid = pixels.iter().filter(|&&pixel| pixel).count();
        let error = any_error(random, &wanted);
        let pairs = any_pairs(random, &wanted);
        let (min, max) = header_pair(random, &wanted, &pairs);
        let tiles = rows.div_ceil(side) * columns.div_ceil(side);
        let faulty = random.below(tiles * depth);
        let mask = mask_of(random, &pixels);
        Maker {
            random,
            wanted,
            pixels,
            pairs,
            faulty,
            fitting: u64::MAX,
            form: Form {
                fields: Fields {
                    rows: rows as u32,
                    columns: columns as u32,
                    depth: depth as u32,
                    valid: valid as u32,
                    side: side as u32,
                    kind,
                    error,
                    min,
                    max,
                },
                section: Vec::new(),
                after: Vec::new(),
                gap: Vec::new(),
                slack: Vec::new(),
                mask,
                starts: Vec::new(),
                cells: Vec::new(),
            },
        }
    }

    fn has(&self, fault: Fault) -> bool {
        self.wanted.fault == fault
    }

    // ---- the mask section

    fn put_mask(&mut self) {
        let uniform = self.pixels.iter().all(|&pixel| pixel == self.pixels[0]);
        if uniform && !self.has(Fault::MaskOfUniform) || self.has(Fault::MaskMissing) {
            return;
        }
        let mut mask = self.form.mask.clone();
        match self.wanted.fault {
            Fault::MaskEndsEarly => {
                mask.pop();
            }
            Fault::MaskEndsLate => mask.push(0),
            Fault::MaskCount => {
                let at = self.random.below(mask.len());
                mask[at] ^= 1 << self.random.below(8);
            }
            _ => {}
        }
        let mut section = runs(self.random, &mask);
        match self.wanted.fault {
            Fault::MaskRunOfZero => {
                section.splice(0..0, [0, 0]);
            }
            Fault::MaskRunPasses => {
                // A copying or a repeating run that the section does not hold.
                let run = self.random.pick(&[1i16, 7, 32767, -1, -7, -32767]);
                section.truncate(section.len() - 2);
                section.extend(run.to_le_bytes());
            }
            Fault::MaskWithoutEnd => {
                let cut = self.random.between(1, 2);
                section.truncate(section.len() - cut);
            }
            _ => {}
        }
        self.form.section = section;
    }

    // ---- ranges and body

    fn put_body(&mut self) {
        let Fields { min, max, .. } = self.form.fields;
        if self.form.fields.valid == 0 && !self.random.once_in(3) || second::same(min, max) {
            return;
        }
        self.put_ranges();
        if self.has(Fault::RangesCut) {
            let cut = self.random.between(1, self.form.after.len());
            self.form.after.truncate(self.form.after.len() - cut);
            return;
        }
        let kind = self.wanted.kind;
        let constant = self
            .pairs
            .iter()
            .all(|&(low, high)| second::same(number(low, kind), number(high, kind)));
        if !constant && !self.has(Fault::SweepMissing) {
            self.put_after_ranges();
        }
    }

    /// Sweep and mode byte, and what they say.
    fn put_after_ranges(&mut self) {
        let raw = self.wanted.body == Body::Raw;
        let sweep = if self.has(Fault::Sweep) {
            self.random.pick(&[2, 3, 128, 255])
        } else {
            u8::from(raw)
        };
        self.form.after.push(sweep);
        if raw {
            let cells = self.form.fields.valid as usize * self.wanted.depth;
            self.put_raw(cells);
            return;
        }
        if self.has_mode() {
            if self.has(Fault::ModeMissing) {
                return;
            }
            if self.wanted.body == Body::Huffman {
                self.put_codes();
                return;
            }
            let mode = match self.wanted.fault {
                Fault::ModeTurned => self.random.pick(&[1, 2]),
                Fault::ModeWrong => self.random.pick(&[3, 4, 128, 255]),
                _ => 0,
            };
            self.form.after.push(mode);
        }
        self.put_blocks();
    }

    /// The mode byte and all that is behind it.
    fn put_codes(&mut self) {
        let Wanted {
            columns,
            depth,
            kind,
            esri,
            ..
        } = self.wanted;
        let image = huffman::Image {
            columns,
            depth,
            kind,
            pixels: &self.pixels,
            esri,
        };
        let broken = match self.wanted.fault {
            Fault::Codes(broken) => Some(broken),
            _ => None,
        };
        let made = huffman::made(self.random, &image, broken);
        self.form.after.extend(made.bytes);
        self.form.cells = made.cells;
    }

    fn has_mode(&self) -> bool {
        self.wanted.kind < 2 && self.form.fields.error == 0.5f64.to_bits()
    }

    fn put_ranges(&mut self) {
        let kind = self.wanted.kind;
        let mut pairs = self.pairs.clone();
        let at = self.random.below(pairs.len());
        match self.wanted.fault {
            Fault::RangeCrossed => {
                let (low, high) = pairs[at];
                pairs[at] = (high, low);
            }
            Fault::RangeNotFinite if kind >= 6 => {
                let word = not_finite(self.random, kind);
                if self.random.once_in(2) {
                    pairs[at].0 = word;
                } else {
                    pairs[at].1 = word;
                }
            }
            Fault::RangesWrong => self.spoil(&mut pairs),
            _ => {}
        }
        for &(low, _) in &pairs {
            put_word(&mut self.form.after, low, kind);
        }
        for &(_, high) in &pairs {
            put_word(&mut self.form.after, high, kind);
        }
    }

    /// About half of the pairs, each in one of several ways.
    fn spoil(&mut self, pairs: &mut [(u64, u64)]) {
        for (low, high) in pairs {
            let kind = self.wanted.kind;
            match self.random.below(8) {
                0 => *low = not_finite(self.random, kind),
                1 => *high = not_finite(self.random, kind),
                2 => {
                    *low = not_finite(self.random, kind);
                    *high = not_finite(self.random, kind);
                }
                3 => (*low, *high) = (*high, *low),
                _ => {}
            }
        }
    }

    fn put_raw(&mut self, words: usize) {
        let kind = self.wanted.kind;
        for _ in 0..words {
            // Raw words are not judged: any bits.
            let word = self.random.word();
            put_word(&mut self.form.after, word, kind);
        }
    }

    // ---- blocks

    fn put_blocks(&mut self) {
        let Wanted {
            rows,
            columns,
            depth,
            side,
            ..
        } = self.wanted;
        for y in (0..rows).step_by(side) {
            for x in (0..columns).step_by(side) {
                let mut valid = 0;
                for row in y..rows.min(y + side) {
                    for column in x..columns.min(x + side) {
                        valid += usize::from(self.pixels[row * columns + column]);
                    }
                }
                for d in 0..depth {
                    self.put_block(x, d, valid);
                }
            }
        }
    }

    fn put_block(&mut self, x: usize, depth: usize, valid: usize) {
        let number = self.form.starts.len();
        let start = 70 + self.form.section.len() + self.form.after.len();
        self.form.starts.push(start);
        let fault = if number == self.faulty {
            self.wanted.fault
        } else {
            Fault::None
        };
        let low = self.low_bits(valid, fault);
        let code = self.code(low, fault);
        let check = self.check_bits(x, fault);
        self.form.after.push(low | check << 2 | code << 6);
        match low {
            0 => self.put_raw(valid),
            2 => {}
            _ => {
                let row = OFFSET_KINDS[self.wanted.kind as usize];
                let kind = row[usize::from(code)].min(7);
                let word = self.offset(kind, depth, fault);
                put_word(&mut self.form.after, word, kind);
                if low == 1 {
                    self.fitting = self.last_fitting(second::number(word, kind), depth);
                    self.put_counts(valid, fault);
                }
            }
        }
    }

    /// The sort of a block.
    fn low_bits(&mut self, valid: usize, fault: Fault) -> u8 {
        match fault {
            Fault::CountsNumber
            | Fault::CountsCode
            | Fault::CountsMany
            | Fault::TableBits
            | Fault::TableEntries
            | Fault::TableIndex => 1,
            Fault::OffsetCode | Fault::OffsetNotFinite => self.random.pick(&[1, 3]),
            // DIFFERENCES 3.1, 3.2: no counts where no pixel is valid.
            _ if self.wanted.esri && valid == 0 => 2,
            _ => self.random.pick(&[0, 1, 1, 1, 1, 2, 3, 3]),
        }
    }

    /// The offset's code.
    fn code(&mut self, low: u8, fault: Fault) -> u8 {
        // Without an offset it is not looked at.
        if matches!(low, 0 | 2) || fault == Fault::OffsetCode {
            return self.random.below(4) as u8;
        }
        if self.wanted.huge && self.random.once_in(2) {
            // The image's own kind: others have no huge numbers.
            return 0;
        }
        let row = OFFSET_KINDS[self.wanted.kind as usize];
        let codes: Vec<u8> = (0..4).filter(|&code| row[usize::from(code)] < 9).collect();
        self.random.pick(&codes)
    }

    fn check_bits(&mut self, x: usize, fault: Fault) -> u8 {
        let check = (x / 8 % 16) as u8;
        if fault != Fault::CheckBits {
            return check;
        }
        // The tile's number is a slip that has been made.
        self.random.pick(&[
            (check + 1) % 16,
            (x / self.wanted.side % 16) as u8,
            (check + 8) % 16,
        ])
    }

    /// An offset, often the least number of the depth.
    fn offset(&mut self, kind: u32, depth: usize, fault: Fault) -> u64 {
        if fault == Fault::OffsetNotFinite && kind >= 6 {
            return not_finite(self.random, kind);
        }
        let low = self.pairs[depth].0;
        if kind == self.wanted.kind && self.random.once_in(2) {
            return low;
        }
        wanted_word(self.random, &self.wanted, kind)
    }

    /// Or one that is never packed: with huge errors, and if even the offset is
    /// above the maximum.
    fn last_fitting(&self, offset: u64, depth: usize) -> u64 {
        let maximum = number(self.pairs[depth].1, self.wanted.kind);
        let room = f64::from_bits(maximum) - f64::from_bits(offset);
        if self.wanted.huge || room < 0.0 {
            return u64::MAX;
        }
        (room / (2.0 * f64::from_bits(self.form.fields.error))) as u64
    }

    fn put_counts(&mut self, valid: usize, fault: Fault) {
        let n = self.counts(valid, fault);
        let codes: &[(u8, usize)] = match n {
            0..=255 => &[(0, 4), (1, 2), (2, 1)],
            256..=65535 => &[(0, 4), (1, 2)],
            _ => &[(0, 4)],
        };
        let (mut code, width) = self.random.pick(codes);
        if fault == Fault::CountsCode {
            code = 3;
        }
        let in_table = matches!(
            fault,
            Fault::TableBits | Fault::TableEntries | Fault::TableIndex
        );
        let table = in_table || self.random.once_in(3);
        let bits = self.bits(table, fault);
        self.form
            .after
            .push(code << 6 | u8::from(table) << 5 | bits as u8);
        let count = (n as u32).to_le_bytes();
        self.form.after.extend_from_slice(&count[..width]);
        // Past 256 nothing is read; the run of a wrong number is still there.
        let n = n.min(600);
        if table {
            self.put_table(n, bits, fault);
        } else {
            let counts = self.some_counts(n, bits);
            self.put_run(&counts, bits);
        }
    }

    /// How many counts are said to be there.
    fn counts(&mut self, valid: usize, fault: Fault) -> usize {
        match fault {
            Fault::CountsNumber => self.random.pick(&[
                valid + 1,
                valid.saturating_sub(1),
                valid + 8,
                0,
                256,
                valid + 256,
            ]),
            Fault::CountsMany => self.random.pick(&[257, 258, 65535, 65536, 1 << 31]),
            _ => valid,
        }
    }

    /// The bits of a count.
    fn bits(&mut self, table: bool, fault: Fault) -> usize {
        // DIFFERENCES 4.3: Esri's reader leaves counts of 0 bits unread.
        let least = usize::from(table || self.wanted.esri);
        match self.random.below(3) {
            _ if fault == Fault::TableBits => 0,
            1 | 2 if !self.wanted.huge => self.random.between(least, 9),
            _ => self.random.between(least, 31),
        }
    }

    fn put_table(&mut self, n: usize, bits: usize, fault: Fault) {
        let entries = match fault {
            Fault::TableEntries => self.random.below(2),
            // Not a power of two, or every index is below it.
            Fault::TableIndex => self.random.pick(&[3, 5, 6, 7, 9, 17, 100, 129, 200, 255]),
            _ => match self.random.below(4) {
                0 => self.random.between(2, 255),
                1 => self.random.pick(&[2, 3, 4, 5, 127, 128, 129, 254, 255]),
                _ => self.random.between(2, 17),
            },
        };
        self.form.after.push(entries as u8);
        let mut table = self.some_counts(entries.max(1) - 1, bits);
        self.put_run(&table, bits);
        table.insert(0, 0);
        let width = entries.max(1).next_power_of_two().trailing_zeros() as usize;
        let below = match fault {
            Fault::TableIndex => 1 << width,
            _ => table.len() as u64,
        };
        let indices = self.some_indices(n, below, &table);
        self.put_run(&indices, width);
    }

    /// Counts of some bits.
    fn some_counts(&mut self, n: usize, bits: usize) -> Vec<u64> {
        let greatest = (1 << bits) - 1;
        let last = last_finite(self.form.fields.error);
        match self.random.below(4) {
            0 => vec![greatest; n],
            1 if last < greatest => (0..n).map(|_| last + self.random.word() % 2).collect(),
            2 if self.fitting < greatest => {
                // Up to the last one that is not clamped, or one above it.
                let largest = self.fitting + u64::from(self.random.once_in(4));
                self.up_to(n, largest)
            }
            _ => (0..n).map(|_| self.random.word() & greatest).collect(),
        }
    }

    /// The largest at any place, and the others at most that.
    fn up_to(&mut self, n: usize, largest: u64) -> Vec<u64> {
        let place = self.random.below(n.max(1));
        let counts = (0..n).map(|at| match at {
            _ if at == place => largest,
            _ => self.random.word() % (largest + 1),
        });
        counts.collect()
    }

    /// Indices below a limit, in some tables only of entries that are not clamped.
    fn some_indices(&mut self, n: usize, below: u64, table: &[u64]) -> Vec<u64> {
        let within = below == table.len() as u64;
        let mut named: Vec<u64> = (0..below).collect();
        match self.random.below(4) {
            0 => named = vec![below - 1],
            1 if within => named.retain(|&index| table[index as usize] <= self.fitting),
            _ => {}
        }
        (0..n).map(|_| self.random.pick(&named)).collect()
    }

    /// Values of some bits each, the lowest bit first; bits after the last one
    /// are any.
    fn put_run(&mut self, values: &[u64], bits: usize) {
        let mut run = packed(values, bits);
        let rest = values.len() * bits % 8;
        if let (Some(last), true) = (run.last_mut(), rest > 0) {
            *last |= self.random.byte() << rest;
        }
        self.form.after.extend(run);
    }

    fn finish(self) -> Form {
        let Maker {
            random,
            wanted,
            mut form,
            faulty,
            ..
        } = self;
        if wanted.fault == Fault::BlockCut {
            let behind = 70 + form.section.len();
            let start = form.starts.get(faulty).map(|start| start - behind);
            let end = start.unwrap_or(form.after.len());
            form.after.truncate(end + random.below(3));
        } else if wanted.fault == Fault::Cut && !form.after.is_empty() {
            let cut = random.between(1, form.after.len());
            form.after.truncate(form.after.len() - cut);
        } else if !wanted.fault.is_of_end() && random.once_in(4) {
            let n = random.between(1, 9);
            form.gap = random.bytes(n);
        }
        if !wanted.esri && random.once_in(4) {
            let n = random.between(1, 9);
            form.slack = random.bytes(n);
        }
        form
    }
}

/// Values of some bits each, the lowest bit first.
pub fn packed(values: &[u64], bits: usize) -> Vec<u8> {
    let mut run = vec![0; (values.len() * bits).div_ceil(8)];
    for (n, value) in values.iter().enumerate() {
        for bit in 0..bits {
            let at = n * bits + bit;
            run[at / 8] |= ((value >> bit & 1) as u8) << (at % 8);
        }
    }
    run
}

/// The section of a mask: runs of both sorts, cut anywhere, and the end mark.
pub fn runs(random: &mut Random, mask: &[u8]) -> Vec<u8> {
    const MOST: usize = 32767;
    let mut section = Vec::new();
    let mut at = 0;
    let short = random.once_in(2);
    while at < mask.len() {
        let rest = &mask[at..];
        let alike = rest.iter().take_while(|&&byte| byte == rest[0]).count();
        let repeat = random.below(4) < if alike > 1 { 3 } else { 1 };
        let most = if repeat { alike } else { rest.len() }.min(MOST);
        let n = match random.below(4) {
            0 if short => random.between(1, most.min(3)),
            1 if short => random.between(1, most),
            _ => most,
        };
        if repeat {
            section.extend((-(n as i16)).to_le_bytes());
            section.push(rest[0]);
        } else {
            section.extend((n as i16).to_le_bytes());
            section.extend_from_slice(&rest[..n]);
        }
        at += n;
    }
    section.extend(i16::MIN.to_le_bytes());
    section
}

/// Pixels as a mask; bits after the last pixel are any.
fn mask_of(random: &mut Random, pixels: &[bool]) -> Vec<u8> {
    let mut mask = vec![0u8; pixels.len().div_ceil(8)];
    for (pixel, &valid) in pixels.iter().enumerate() {
        mask[pixel / 8] |= u8::from(valid) << (7 - pixel % 8);
    }
    let rest = pixels.len() % 8;
    if let (Some(last), true) = (mask.last_mut(), rest > 0 && random.once_in(2)) {
        *last |= random.byte() >> rest;
    }
    mask
}

fn any_pixels(random: &mut Random, wanted: &Wanted) -> Vec<bool> {
    let (rows, columns, side) = (wanted.rows, wanted.columns, wanted.side);
    let count = rows * columns;
    match random.below(10) {
        0..=2 => vec![true; count],
        3 => {
            if random.once_in(3) {
                vec![false; count]
            } else {
                vec![true; count]
            }
        }
        4 => {
            let odd = random.below(count);
            let valid = random.once_in(2);
            (0..count).map(|pixel| (pixel == odd) == valid).collect()
        }
        5 => {
            // Whole tiles without a valid pixel.
            let keep: Vec<bool> = (0..count).map(|_| random.once_in(2)).collect();
            let across = columns.div_ceil(side);
            (0..count)
                .map(|pixel| keep[pixel / columns / side * across + pixel % columns / side])
                .collect()
        }
        6 => {
            let stripe = random.between(1, 40);
            (0..count).map(|pixel| pixel / stripe % 2 == 0).collect()
        }
        _ => {
            let rare = random.pick(&[2, 2, 3, 10, 30]);
            let valid = random.once_in(2);
            (0..count).map(|_| random.once_in(rare) != valid).collect()
        }
    }
}

/// An error that a header may have.
fn any_error(random: &mut Random, wanted: &Wanted) -> u64 {
    let usual = [0.5, 0.5, 1.0, 2.0, 0.3, 1.5, 10.0, 0.01, 0.001, 0.1, 0.25];
    if wanted.fault.is_of_mode() || wanted.body == Body::Huffman {
        return 0.5f64.to_bits();
    }
    if wanted.huge {
        return huge_error(random);
    }
    match random.below(12) {
        0 => 0,
        1 => random.pick(&[
            1,
            2,
            (1 << 52) - 1,
            1 << 52,
            0x7FDF_FFFF_FFFF_FFFF,
            0x7FD0_0000_0000_0000,
            0x7C10_0000_0000_0000,
        ]),
        2 => random.word() % 0x7FE0_0000_0000_0000,
        _ => f64::to_bits(random.pick(&usual)),
    }
}

/// From 2^900 up to the last one below 2^1023. Below 2^992 no count that is
/// packed makes the product infinite.
fn huge_error(random: &mut Random) -> u64 {
    let power = match random.below(4) {
        0 => random.between(900, 1022),
        _ => random.between(992, 1022),
    };
    (power as u64 + 1023) << 52 | any_fraction(random, 52)
}

fn any_fraction(random: &mut Random, bits: u32) -> u64 {
    let all = (1 << bits) - 1;
    match random.below(4) {
        0 => 0,
        1 => all,
        _ => random.word() & all,
    }
}

/// About the greatest count whose product is finite, or one that is never packed.
fn last_finite(error: u64) -> u64 {
    (f64::MAX / (2.0 * f64::from_bits(error))) as u64
}

/// A word of ranges and offsets.
fn wanted_word(random: &mut Random, wanted: &Wanted, kind: u32) -> u64 {
    if wanted.huge && kind >= 6 && random.below(4) > 0 {
        huge_word(random, kind)
    } else {
        any_word(random, kind, wanted.esri)
    }
}

/// A float of either sign, near the greatest one of its kind. Of kind 7 some
/// are too small to show beside 2^1024: those below 2^970.
fn huge_word(random: &mut Random, kind: u32) -> u64 {
    let (bits, top) = if kind == 6 { (23, 254) } else { (52, 2046) };
    let below = match random.below(3) {
        0 => random.below(60) as u64,
        _ => 0,
    };
    let sign = (random.word() & 1) << (8 * word_size(kind) - 1);
    sign | (top - below) << bits | any_fraction(random, bits)
}

/// A word of the kind whose number is finite.
pub fn any_word(random: &mut Random, kind: u32, small: bool) -> u64 {
    let bits = 8 * word_size(kind);
    let modulo = |word: u64| word & (u64::MAX >> (64 - bits));
    if kind < 6 {
        let edge = 1u64 << (bits - 1);
        return modulo(match random.below(6) {
            0 => random.pick(&[0, 1, edge - 1, edge, edge + 1, u64::MAX]),
            1 | 2 => random.word(),
            _ => random.word() % 20,
        });
    }
    let value = match random.below(4) {
        0 => random.below(2000) as f64 - 1000.0,
        1 => (random.word() >> 11) as f64 / 1e13 - 300.0,
        _ => random.below(200_000) as f64 / 64.0,
    };
    // Esri's encoder writes no -0, and its reader differs there: 1.1, 3.3.
    let usual = if kind == 6 {
        u64::from((value as f32).to_bits())
    } else {
        value.to_bits()
    };
    if small || random.below(4) > 0 {
        return usual;
    }
    let sign = 1u64 << (bits - 1);
    let word = match random.below(5) {
        0 => random.pick(&[0, sign, 1, sign | 1, sign - 1]),
        // The greatest finite ones, of both signs.
        1 if kind == 6 => random.pick(&[0x7F7F_FFFF, 0xFF7F_FFFF, 0x0080_0000]),
        1 => random.pick(&[
            0x7FEF_FFFF_FFFF_FFFF,
            0xFFEF_FFFF_FFFF_FFFF,
            0xFFE0_0000_0000_0000,
        ]),
        _ => modulo(random.word()),
    };
    if is_finite(number(word, kind)) {
        word
    } else {
        usual
    }
}

fn not_finite(random: &mut Random, kind: u32) -> u64 {
    if kind == 6 {
        random.pick(&[0x7F80_0000, 0xFF80_0000, 0x7FC0_0000, 0x7F80_0001])
    } else {
        random.pick(&[
            0x7FF0_0000_0000_0000,
            0xFFF0_0000_0000_0000,
            0x7FF8_0000_0000_0000,
            0xFFF0_0000_0000_0001,
        ])
    }
}

/// Least and greatest word of each depth.
fn any_pairs(random: &mut Random, wanted: &Wanted) -> Vec<(u64, u64)> {
    let Wanted {
        kind, depth, esri, ..
    } = *wanted;
    (0..depth)
        .map(|_| {
            let a = wanted_word(random, wanted, kind);
            let b = wanted_word(random, wanted, kind);
            if wanted.body == Body::ConstantByRanges {
                // Zeros of both signs are the same.
                let zero = !esri && kind >= 6 && number(a, kind) << 1 == 0;
                return if zero { (a, 0) } else { (a, a) };
            }
            if less(number(b, kind), number(a, kind)) {
                (b, a)
            } else {
                (a, b)
            }
        })
        .collect()
}

/// Min and max of the header. By the rules they need not be those of the
/// ranges.
fn header_pair(random: &mut Random, wanted: &Wanted, pairs: &[(u64, u64)]) -> (u64, u64) {
    let kind = wanted.kind;
    let numbers = pairs
        .iter()
        .map(|&(a, b)| (number(a, kind), number(b, kind)));
    let all = numbers
        .reduce(|(a, b), (c, d)| {
            (
                if less(c, a) { c } else { a },
                if less(b, d) { d } else { b },
            )
        })
        .unwrap();
    if wanted.body == Body::ConstantByHeader {
        if wanted.fault == Fault::ConstantTooLarge {
            let big = random.pick(&[300.0, -129.5, 65536.0, 4294967296.0, -2147483649.0, 1e30]);
            return (f64::to_bits(big), f64::to_bits(big));
        }
        let zeros = [0.0, -0.0].map(f64::to_bits);
        if !wanted.esri && random.once_in(8) {
            let (a, b) = (random.pick(&zeros), random.pick(&zeros));
            return (a, b);
        }
        if !wanted.esri && random.once_in(4) {
            // Numbers that are cut, or that just fit.
            let value = random.pick(&[
                -128.5,
                -128.999,
                127.5,
                255.9,
                -0.5,
                -0.99,
                32767.5,
                65535.99,
                1.5,
                4294967295.9,
            ]);
            return (f64::to_bits(value), f64::to_bits(value));
        }
        return (all.0, all.0);
    }
    // DIFFERENCES 4.1, 4.2: with one depth Esri takes the header's.
    if wanted.esri || random.once_in(2) {
        return all;
    }
    (
        f64::to_bits(-1.0),
        f64::to_bits(random.pick(&[1.0, 0.0, 1e300])),
    )
}

fn put_word(out: &mut Vec<u8>, word: u64, kind: u32) {
    out.extend_from_slice(&word.to_le_bytes()[..word_size(kind)]);
}
