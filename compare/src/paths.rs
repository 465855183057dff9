//! How many blocks, tiles and bodies there were of each sort that a fast reader
//! takes another way, told from a blob's own bytes. A run that leaves one of
//! them out has not compared that way.

use crate::block_paths::{block_paths, Block};
use crate::case::{After, Case, Op};
use crate::codes::{mode_at, Table};
use crate::counted::pixels;
use crate::sides::{header_of, ranges_of};
use crate::table::grouped;
use lerc2::raw;
use second::{Header, Ranges};

/// What is told apart.
#[derive(Clone, Copy, Debug, PartialEq, Eq)]
pub enum Path {
    UsualHead,
    HeadAtEnd,
    WideNumber,
    Table,
    RawBlock,
    ZeroBlock,
    OneOffset,
    WholeByWidth,
    WholeByLargest,
    WholeClamped,
    WholeOneByOne,
    Float6Unclamped,
    Float6Clamped,
    Float6OverWhole,
    Float7Unclamped,
    Float7Clamped,
    Float7OverWhole,
    NormalAbove0,
    NormalBelow0,
    NormalEach,
    NotNormal,
    Bits8,
    Bits16,
    Bits31,
    FullEight,
    FullTile,
    EmptyTile,
    Square,
    PartlyValid,
    RawFull,
    RawMasked,
    ConstantFull,
    ConstantMasked,
    Empty,
    Blocks,
    DifferencesFull,
    DifferencesMasked,
    ValuesFull,
    ValuesMasked,
    Longest8,
    Longest12,
    Longest32,
    OneCode,
    Complete,
    WithGaps,
    GoesRound,
}

/// All of them in order, with their names.
pub const PATHS: [(Path, &str); 46] = [
    (Path::UsualHead, "block: usual head"),
    (Path::HeadAtEnd, "block: usual head, under 11 bytes left"),
    (Path::WideNumber, "block: number of counts in 2 or 4 bytes"),
    (Path::Table, "block: table"),
    (Path::RawBlock, "block: raw"),
    (Path::ZeroBlock, "block: zero"),
    (Path::OneOffset, "block: one offset"),
    (
        Path::WholeByWidth,
        "kinds 0 to 5: whole numbers, no clamp by the width",
    ),
    (
        Path::WholeByLargest,
        "kinds 0 to 5: whole numbers, no clamp by the largest count",
    ),
    (Path::WholeClamped, "kinds 0 to 5: whole numbers, clamped"),
    (Path::WholeOneByOne, "kinds 0 to 5: one by one"),
    (Path::Float6Unclamped, "kind 6: by the float unit, no clamp"),
    (Path::Float6Clamped, "kind 6: by the float unit, clamped"),
    (Path::Float6OverWhole, "kind 6: over whole numbers"),
    (Path::Float7Unclamped, "kind 7: by the float unit, no clamp"),
    (Path::Float7Clamped, "kind 7: by the float unit, clamped"),
    (Path::Float7OverWhole, "kind 7: over whole numbers"),
    (Path::NormalAbove0, "kind 6: rounded at once, above 0"),
    (Path::NormalBelow0, "kind 6: rounded at once, below 0"),
    (Path::NormalEach, "kind 6: rounded at once, each looked at"),
    (Path::NotNormal, "kind 6: rounded one by one"),
    (Path::Bits8, "packed numbers: at most 8 bits"),
    (Path::Bits16, "packed numbers: 9 to 16 bits"),
    (Path::Bits31, "packed numbers: 17 bits and more"),
    (Path::FullEight, "tile: full, eight wide, depth 1"),
    (Path::FullTile, "tile: full, other"),
    (Path::EmptyTile, "tile: empty"),
    (Path::Square, "tile: square, partly valid"),
    (Path::PartlyValid, "tile: other, partly valid"),
    (Path::RawFull, "body: raw, full"),
    (Path::RawMasked, "body: raw, masked"),
    (Path::ConstantFull, "body: constant, full"),
    (Path::ConstantMasked, "body: constant, masked"),
    (Path::Empty, "body: empty"),
    (Path::Blocks, "body: blocks"),
    (Path::DifferencesFull, "body: Huffman, differences, full"),
    (
        Path::DifferencesMasked,
        "body: Huffman, differences, masked",
    ),
    (Path::ValuesFull, "body: Huffman, values, full"),
    (Path::ValuesMasked, "body: Huffman, values, masked"),
    (Path::Longest8, "codes: the longest at most 8 bits"),
    (Path::Longest12, "codes: the longest 9 to 12 bits"),
    (Path::Longest32, "codes: the longest 13 bits and more"),
    (Path::OneCode, "codes: one alone"),
    (Path::Complete, "codes: any bits begin with one"),
    (Path::WithGaps, "codes: some bits begin with none"),
    (Path::GoesRound, "codes: the range goes round"),
];

impl Path {
    /// Of a whole image; a fill has none of these.
    pub fn is_body(self) -> bool {
        self as usize >= Path::RawFull as usize
    }
}

/// Counts by path, of whole reads, of fills and of publishes.
#[derive(Clone, Default)]
pub struct Paths {
    pub reads: Counts,
    pub fills: Counts,
    pub publishes: Counts,
}

#[derive(Clone, Debug, PartialEq, Eq)]
pub struct Counts([u64; PATHS.len()]);

impl Default for Counts {
    fn default() -> Counts {
        Counts([0; PATHS.len()])
    }
}

impl Counts {
    pub fn add(&mut self, path: Path) {
        self.0[path as usize] += 1;
    }

    pub fn of(&self, path: Path) -> u64 {
        self.0[path as usize]
    }

    /// The block at `start`, of a depth with this maximum.
    fn add_block(&mut self, blob: &[u8], start: usize, header: &Header, maximum: u64) {
        let block = Block {
            bytes: &blob[..header.size as usize],
            start,
            kind: header.kind,
            error: header.error,
            maximum,
        };
        block_paths(&block, |path| self.add(path));
    }

    /// A blob that was read or published, given the mask in force and the block
    /// starts.
    fn add_whole(&mut self, blob: &[u8], mask: &[u8], starts: &[usize]) {
        let header = second::read_header(blob).expect("it was read");
        if header.valid == 0 {
            self.add(Path::Empty);
            return;
        }
        let ranges = second::read_ranges(blob, &header).expect("it was read");
        let mode = mode_at(blob, &header, ranges.place).filter(|_| !ranges.constant);
        if let Some(mode) = mode {
            self.add_codes(blob, &header, mode);
            return;
        }
        self.add(body_path(&header, &ranges, starts));
        let depths = header.depth as usize;
        for (block, &start) in starts.iter().enumerate() {
            if block % depths == 0 {
                self.add(tile_path(&header, mask, block / depths));
            }
            let maximum = ranges.max[block % depths];
            self.add_block(blob, start, &header, maximum);
        }
    }
}

impl Counts {
    /// A Huffman body whose mode byte is at a place.
    fn add_codes(&mut self, blob: &[u8], header: &Header, mode: usize) {
        let full = header.valid as usize == header.pixels();
        self.add(match (blob[mode], full) {
            (1, true) => Path::DifferencesFull,
            (1, false) => Path::DifferencesMasked,
            (_, true) => Path::ValuesFull,
            (_, false) => Path::ValuesMasked,
        });
        let bytes = &blob[..header.size as usize];
        let table = Table::new(bytes, mode).expect("it was read");
        self.add(match table.longest() {
            0..=8 => Path::Longest8,
            9..=12 => Path::Longest12,
            _ => Path::Longest32,
        });
        if table.coded().count() == 1 {
            self.add(Path::OneCode);
        }
        self.add(match table.is_complete() {
            true => Path::Complete,
            false => Path::WithGaps,
        });
        if table.first + table.codes.len() > table.size {
            self.add(Path::GoesRound);
        }
    }
}

impl Paths {
    /// Counts a call that both sides answered alike, given what is left of it.
    pub fn count(&mut self, case: &Case, after: &After) {
        if after.answer != 0 {
            return;
        }
        let lent = &after.lent;
        match case.op {
            Op::Read => {
                let blocks = lent.said[raw::HEADER] as usize;
                self.reads
                    .add_whole(&case.blob, &lent.kept, &lent.list[..blocks]);
            }
            Op::Publish => {
                let blocks = lent.staged[raw::HEADER] as usize;
                self.publishes
                    .add_whole(&case.blob, &lent.kept, &lent.list[..blocks]);
            }
            Op::Fill => self.count_fill(case),
            _ => {}
        }
    }

    /// Reads a blob by the plain reader and counts it, if it is accepted.
    pub fn count_blob(&mut self, blob: &[u8]) {
        let Ok(header) = second::read_header(blob) else {
            return;
        };
        let mut kept = vec![0; header.mask_length()];
        let mut spare = kept.clone();
        let mut list = vec![0; header.blocks()];
        let mut image = vec![0; header.cells()];
        let read = second::read(blob, false, &mut kept, &mut spare, &mut list, &mut image);
        if let Ok((_, blocks, _)) = read {
            self.reads.add_whole(blob, &kept, &list[..blocks]);
        }
    }

    /// An accepted fill: its block, and the block's tile.
    fn count_fill(&mut self, case: &Case) {
        let header = header_of(&case.header).expect("it was filled");
        let ranges = ranges_of(&case.ranges).expect("it was filled");
        let (block, depths) = (case.numbers[0] as usize, header.depth as usize);
        self.fills
            .add(tile_path(&header, &case.mask, block / depths));
        let (start, maximum) = (case.list[block], ranges.max[block % depths]);
        self.fills.add_block(&case.blob, start, &header, maximum);
    }

    /// What no whole read had, no fill, or no publish.
    pub fn missing(&self) -> Vec<String> {
        let mut missing = Vec::new();
        for (path, name) in PATHS {
            if self.reads.of(path) == 0 {
                missing.push(format!("{name} (whole reads)"));
            }
            if self.fills.of(path) == 0 && !path.is_body() {
                missing.push(format!("{name} (fills)"));
            }
            if self.publishes.of(path) == 0 {
                missing.push(format!("{name} (publishes)"));
            }
        }
        missing
    }

    pub fn text(&self) -> String {
        let mut text = String::from("| path | whole reads | fills | publishes |\n");
        text += "|---|---|---|---|\n";
        for (path, name) in PATHS {
            // A fill has no body, and not every run has fills and publishes.
            let [fills, publishes] = [&self.fills, &self.publishes].map(|c| match c.of(path) {
                0 => "-".into(),
                count => grouped(count),
            });
            let reads = grouped(self.reads.of(path));
            text += &format!("| {name} | {reads} | {fills} | {publishes} |\n");
        }
        text
    }
}

fn body_path(header: &Header, ranges: &Ranges, starts: &[usize]) -> Path {
    let full = header.valid as usize == header.pixels();
    match (ranges.constant, full) {
        (true, true) => Path::ConstantFull,
        (true, false) => Path::ConstantMasked,
        _ if !starts.is_empty() => Path::Blocks,
        (false, true) => Path::RawFull,
        (false, false) => Path::RawMasked,
    }
}

fn tile_path(header: &Header, mask: &[u8], tile: usize) -> Path {
    let (rows, columns) = (header.rows as usize, header.columns as usize);
    let side = header.side as usize;
    let across = columns.div_ceil(side);
    let (x, y) = (tile % across * side, tile / across * side);
    let (width, height) = (side.min(columns - x), side.min(rows - y));
    let valid = pixels(header, mask, tile).len();
    let is_square = width == 8 && height == 8 && x % 8 == 0 && columns % 8 == 0;
    match valid {
        0 => Path::EmptyTile,
        _ if valid < width * height && is_square => Path::Square,
        _ if valid < width * height => Path::PartlyValid,
        _ if width == 8 && header.depth == 1 => Path::FullEight,
        _ => Path::FullTile,
    }
}
