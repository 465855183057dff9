//! Blocks, tiles and bodies of blobs made by hand have the paths that they
//! should, a run comes upon every path, and one that does not is told.

#[path = "common/full.rs"]
mod full;

use compare::case::{Case, Op};
use compare::form::{form, packed, Fault, Fields, Form, Wanted};
use compare::paths::{Counts, Path, Paths, PATHS};
use compare::random::Random;
use compare::run::{Report, Run, FULL_RUN};
use compare::sides::{plain, ranges_record, record};
use full::{a_failure, full_report, paths_but};
use lerc2::raw;
use std::process::Command;

/// An image with one depth of kind 2, all pixels valid, unless said otherwise.
struct Image {
    rows: u32,
    columns: u32,
    depth: u32,
    side: u32,
    kind: u32,
    error: u64,
    /// The header's min and max.
    ends: [f64; 2],
    /// Empty if all pixels are valid.
    mask: Vec<u8>,
    /// Ranges and body.
    after: Vec<u8>,
}

/// One row of two pixels.
fn pair() -> Image {
    Image {
        rows: 1,
        columns: 2,
        depth: 1,
        side: 8,
        kind: 2,
        error: 0.5f64.to_bits(),
        ends: [0.0, 1.0],
        mask: Vec::new(),
        after: Vec::new(),
    }
}

impl Image {
    fn blob(&self) -> Vec<u8> {
        let pixels = self.rows * self.columns;
        let mut section = Vec::new();
        let mut valid = pixels;
        if !self.mask.is_empty() {
            valid = self.mask.iter().map(|byte| byte.count_ones()).sum();
            section.extend((self.mask.len() as i16).to_le_bytes());
            section.extend_from_slice(&self.mask);
            section.extend(i16::MIN.to_le_bytes());
        }
        Form {
            fields: Fields {
                rows: self.rows,
                columns: self.columns,
                depth: self.depth,
                valid,
                side: self.side,
                kind: self.kind,
                error: self.error,
                min: self.ends[0].to_bits(),
                max: self.ends[1].to_bits(),
            },
            section: if valid == 0 { Vec::new() } else { section },
            after: self.after.clone(),
            gap: Vec::new(),
            // Behind the size: no block may take it for its own.
            slack: vec![0; 20],
            mask: Vec::new(),
            starts: Vec::new(),
            cells: Vec::new(),
        }
        .bytes()
    }
}

/// What a blob is for, the blob, and what is counted of it.
type Known = (&'static str, Vec<u8>, Vec<Path>);

/// An image of kind 2 with one block: ranges from -999 to `maximum`, and so
/// many bytes behind the block.
fn block_of_2(error: f64, maximum: i16, block: &[u8], behind: usize) -> Vec<u8> {
    let mut after = [-999i16, maximum].map(i16::to_le_bytes).concat();
    after.push(0);
    after.extend_from_slice(block);
    after.extend(vec![0; behind]);
    let error = error.to_bits();
    let image = Image {
        error,
        after,
        ..pair()
    };
    image.blob()
}

/// A block of kind 2 with offset 10 and two counts of so many bits.
fn counts_of(bits: u8) -> Vec<u8> {
    let mut block = vec![1, 10, 0, 2 << 6 | bits, 2];
    block.extend(packed(&[0, 1], bits.into()));
    block
}

fn heads() -> Vec<Known> {
    use Path::*;
    let table = [1, 10, 0, 2 << 6 | 32 | 12, 2, 3, 1, 0x20, 0, 0b1001];
    let wide_table = [1, 10, 0, 1 << 6 | 32 | 12, 2, 0, 3, 1, 0x20, 0, 0b1001];
    let two = [1, 10, 0, 1 << 6 | 4, 2, 0, 0x21];
    let four = [1, 10, 0, 4, 2, 0, 0, 0, 0x21];
    let block = |bytes: &[u8], behind| block_of_2(0.5, 5000, bytes, behind);
    let stepped = |head| vec![Blocks, FullTile, head, WholeByWidth, Bits8];
    let other = |head| vec![Blocks, FullTile, head];
    vec![
        ("11 bytes", block(&counts_of(4), 5), stepped(UsualHead)),
        ("10 bytes", block(&counts_of(4), 4), stepped(HeadAtEnd)),
        ("number in 2 bytes", block(&two, 9), stepped(WideNumber)),
        ("number in 4 bytes", block(&four, 9), stepped(WideNumber)),
        ("table", block(&table, 9), stepped(Table)),
        ("table, 2 bytes", block(&wide_table, 9), stepped(Table)),
        ("raw", block(&[0, 1, 2, 3, 4], 9), other(RawBlock)),
        ("zero", block(&[2], 9), other(ZeroBlock)),
        ("one offset", block(&[3, 10, 0], 9), other(OneOffset)),
    ]
}

fn widths() -> Vec<Known> {
    use Path::*;
    let width = |name, bits, path| {
        let blob = block_of_2(0.5, 9, &counts_of(bits), 9);
        let paths = vec![Blocks, FullTile, UsualHead, WholeClamped, path];
        (name, blob, paths)
    };
    vec![
        width("8 bits", 8, Bits8),
        width("9 bits", 9, Bits16),
        width("16 bits", 16, Bits16),
        width("17 bits", 17, Bits31),
        width("31 bits", 31, Bits31),
    ]
}

fn whole_steps() -> Vec<Known> {
    use Path::*;
    let known = |name, error, maximum, path| {
        let blob = block_of_2(error, maximum, &counts_of(4), 9);
        (name, blob, vec![Blocks, FullTile, UsualHead, Bits8, path])
    };
    let half = f64::from(1 << 19);
    vec![
        known("last step is the maximum", 0.5, 25, WholeByWidth),
        known("last step above it", 0.5, 24, WholeByLargest),
        known("largest count to the maximum", 0.5, 11, WholeByLargest),
        known("largest count above it", 0.5, 10, WholeClamped),
        known("offset above it", 0.5, 9, WholeClamped),
        known("steps of 3, to 55", 1.5, 55, WholeByWidth),
        known("steps of 3, to 54", 1.5, 54, WholeByLargest),
        known("steps of 3, to 13", 1.5, 13, WholeByLargest),
        known("steps of 3, to 12", 1.5, 12, WholeClamped),
        known("steps of 2^20", half, 99, WholeClamped),
        known("steps of 2^20 + 1", half + 0.5, 99, WholeOneByOne),
        known("error 0.3", 0.3, 99, WholeOneByOne),
        known("error 0.25", 0.25, 99, WholeOneByOne),
        known("error 0.75", 0.75, 99, WholeOneByOne),
        known("error 0", 0.0, 99, WholeOneByOne),
    ]
}

/// Two counts of 4 bits wherever the largest is, and a number in 2 or 4 bytes.
fn largest_counts() -> Vec<Known> {
    use Path::*;
    let known = |name, block: &[u8], head, maximum, path| {
        let blob = block_of_2(0.5, maximum, block, 9);
        (name, blob, vec![Blocks, FullTile, head, Bits8, path])
    };
    let one = |run| [1, 10, 0, 2 << 6 | 4, 2, run];
    let two = [1, 10, 0, 1 << 6 | 4, 2, 0, 0x05];
    let four = [1, 10, 0, 4, 2, 0, 0, 0, 0x50];
    let no_bits = [1, 10, 0, 2 << 6, 2];
    let below_0 = [1, 0xF6, 0xFF, 2 << 6 | 4, 2, 0x53];
    vec![
        known("5 and 1, to 15", &one(0x15), UsualHead, 15, WholeByLargest),
        known("5 and 1, to 14", &one(0x15), UsualHead, 14, WholeClamped),
        known("1 and 5, to 15", &one(0x51), UsualHead, 15, WholeByLargest),
        known("1 and 5, to 14", &one(0x51), UsualHead, 14, WholeClamped),
        known("15, to 25", &one(0xF0), UsualHead, 25, WholeByWidth),
        known("15, to 24", &one(0xF0), UsualHead, 24, WholeClamped),
        known("0, to 10", &one(0), UsualHead, 10, WholeByLargest),
        known("0, to 9", &one(0), UsualHead, 9, WholeClamped),
        known("2 bytes, to 15", &two, WideNumber, 15, WholeByLargest),
        known("2 bytes, to 14", &two, WideNumber, 14, WholeClamped),
        known("4 bytes, to 15", &four, WideNumber, 15, WholeByLargest),
        known("4 bytes, to 14", &four, WideNumber, 14, WholeClamped),
        known("0 bits, to 10", &no_bits, UsualHead, 10, WholeByWidth),
        known("0 bits, to 9", &no_bits, UsualHead, 9, WholeClamped),
        known("-10, to -5", &below_0, UsualHead, -5, WholeByLargest),
        known("-10, to -6", &below_0, UsualHead, -6, WholeClamped),
    ]
}

/// Entries 0, 9 and 3 of 12 bits, two indices of 2: the width's last step is
/// 10 + 4095, and what an index names counts, not the index.
fn table_counts() -> Vec<Known> {
    use Path::*;
    let known = |name, indices, maximum, path| {
        let table = [1, 10, 0, 2 << 6 | 32 | 12, 2, 3, 9, 0x30, 0, indices];
        let blob = block_of_2(0.5, maximum, &table, 9);
        (name, blob, vec![Blocks, FullTile, Table, Bits8, path])
    };
    vec![
        known("table, to 4105", 0b0110, 4105, WholeByWidth),
        known("table, to 4104", 0b0110, 4104, WholeByLargest),
        known("9 and 3 named, to 19", 0b0110, 19, WholeByLargest),
        known("9 and 3 named, to 18", 0b0110, 18, WholeClamped),
        known("3 and 9 named, to 19", 0b1001, 19, WholeByLargest),
        known("3 and 9 named, to 18", 0b1001, 18, WholeClamped),
        known("9 not named, to 13", 0b0010, 13, WholeByLargest),
        known("9 not named, to 12", 0b0010, 12, WholeClamped),
        known("0 alone, to 10", 0b0000, 10, WholeByLargest),
        known("0 alone, to 9", 0b0000, 9, WholeClamped),
    ]
}

/// An image of kind 6 or 7 with one block: counts of 4 bits.
fn float_blob(kind: u32, error: u64, offset: f64, maximum: f64) -> Vec<u8> {
    let word = |value: f64| match kind {
        6 => (value as f32).to_le_bytes().to_vec(),
        _ => value.to_le_bytes().to_vec(),
    };
    let mut after = [word(-1e30), word(maximum), vec![0, 1], word(offset)].concat();
    after.extend([2 << 6 | 4, 2, 0x21, 0, 0, 0, 0]);
    let image = Image {
        kind,
        error,
        after,
        ..pair()
    };
    image.blob()
}

fn float_steps() -> Vec<Known> {
    use Path::*;
    let half = 0.5f64.to_bits();
    let (below, limit) = (0x7DDF_FFFF_FFFF_FFFF, 0x7DE0_0000_0000_0000);
    let six = |name, error, maximum, path| {
        let blob = float_blob(6, error, 1.0, maximum);
        let paths = vec![Blocks, FullTile, UsualHead, Bits8, path, NormalAbove0];
        (name, blob, paths)
    };
    let seven = |name, error, maximum, path| {
        let blob = float_blob(7, error, 1.0, maximum);
        (name, blob, vec![Blocks, FullTile, UsualHead, Bits8, path])
    };
    vec![
        six("kind 6, below", half, 17.0, Float6Unclamped),
        six("kind 6, the maximum", half, 16.0, Float6Clamped),
        six("kind 6, below 2^991", below, 17.0, Float6Clamped),
        six("kind 6, 2^991", limit, 17.0, Float6OverWhole),
        seven("kind 7, below", half, 17.0, Float7Unclamped),
        seven("kind 7, the maximum", half, 16.0, Float7Clamped),
        seven("kind 7, below 2^991", below, 17.0, Float7Clamped),
        seven("kind 7, 2^991", limit, 17.0, Float7OverWhole),
    ]
}

fn normal_steps() -> Vec<Known> {
    use Path::*;
    let least = f64::from(f32::MIN_POSITIVE);
    let known = |name, offset, maximum, path| {
        let blob = float_blob(6, 0.5f64.to_bits(), offset, maximum);
        let clamp = if offset + 15.0 < maximum {
            Float6Unclamped
        } else {
            Float6Clamped
        };
        let paths = vec![Blocks, FullTile, UsualHead, Bits8, clamp, path];
        (name, blob, paths)
    };
    vec![
        known("from the least", least, 99.0, NormalAbove0),
        known("from below it", least / 2.0, 99.0, NormalEach),
        known("from 0", 0.0, 99.0, NormalEach),
        known("from -0", -0.0, 99.0, NormalEach),
        known("below 0", -20.0, 99.0, NormalBelow0),
        known("across 0", -5.0, 99.0, NormalEach),
        known("across 0, clamped", -5.0, 3.0, NormalEach),
        known("to both sides of 0", -1.5, 99.0, NormalEach),
        known("to 0 with the first count", -1.0, 99.0, NotNormal),
        known("to 0 with the second", -2.0, 99.0, NotNormal),
        known("to the least below 0", -5.0, -least, NormalBelow0),
        known("nearer to 0", -5.0, -least / 2.0, NormalEach),
        known("nearer to 0, clamped", -0.5, -least / 2.0, NotNormal),
        known(
            "the greatest",
            f32::MAX.into(),
            f32::MAX.into(),
            NormalAbove0,
        ),
    ]
}

/// An image in tiles, with ranges from 0 to 1, whose blocks are all zero.
fn zeros(rows: u32, columns: u32, mask: &[u8], change: fn(&mut Image)) -> Vec<u8> {
    let mut image = Image {
        rows,
        columns,
        mask: mask.to_vec(),
        ..pair()
    };
    change(&mut image);
    for range in [0, 1] {
        image.after.extend([range, 0].repeat(image.depth as usize));
    }
    image.after.push(0);
    for _ in (0..rows).step_by(image.side as usize) {
        for x in (0..columns).step_by(image.side as usize) {
            let zero = 2 | (x as u8 / 8) << 2;
            image.after.extend(vec![zero; image.depth as usize]);
        }
    }
    image.blob()
}

fn side_8(image: &mut Image) {
    image.side = 8;
}

fn side_16(image: &mut Image) {
    image.side = 16;
}

fn depth_2(image: &mut Image) {
    image.depth = 2;
}

/// The tiles of an image whose blocks are zero.
fn tiled(name: &'static str, blob: Vec<u8>, tiles: &[Path]) -> Known {
    let mut paths = vec![Path::Blocks];
    for &tile in tiles {
        paths.extend([tile, Path::ZeroBlock]);
    }
    (name, blob, paths)
}

fn full_tiles() -> Vec<Known> {
    use Path::*;
    let right = [0, 255].repeat(8);
    let mut deep = tiled("depth 2", zeros(3, 8, &[], depth_2), &[FullTile]);
    deep.2.push(ZeroBlock);
    let both = [FullEight, FullTile];
    vec![
        tiled("8 wide", zeros(3, 8, &[], side_8), &[FullEight]),
        tiled("8 of 16", zeros(8, 8, &[], side_16), &[FullEight]),
        tiled("7 wide", zeros(3, 7, &[], side_8), &[FullTile]),
        tiled("16 wide", zeros(3, 16, &[], side_16), &[FullTile]),
        tiled("8 and 4 wide", zeros(3, 12, &[], side_8), &both),
        tiled(
            "left tile empty",
            zeros(8, 16, &right, side_8),
            &[EmptyTile, FullEight],
        ),
        deep,
    ]
}

/// The last pixel is not valid.
fn partly_valid() -> Vec<Known> {
    use Path::*;
    let mut mask = [255; 16];
    mask[15] = 254;
    let nine = [255, 255, 255, 255, 255, 255, 255, 255, 254];
    let known = |name, rows, columns, change, tiles: &[Path]| {
        let bytes = (rows * columns / 8) as usize;
        let blob = zeros(rows, columns, &mask[16 - bytes..], change);
        tiled(name, blob, tiles)
    };
    vec![
        known("square", 8, 8, side_8, &[Square]),
        known("square of 16", 8, 8, side_16, &[Square]),
        known("7 rows", 7, 8, side_8, &[PartlyValid]),
        known("16 columns", 8, 16, side_16, &[PartlyValid]),
        known("right square", 8, 16, side_8, &[FullEight, Square]),
        tiled(
            "9 columns",
            zeros(8, 9, &nine, side_8),
            &[FullEight, PartlyValid],
        ),
        tiled(
            "8 x 8 of 9 columns",
            zeros(8, 9, &[127, 255, 255, 255, 255, 255, 255, 255, 255], side_8),
            &[PartlyValid, FullTile],
        ),
    ]
}

/// Two tiles, the left one empty, in three depths with maxima 25, 24 and 12;
/// the blocks on the right have the last step 25 and the largest count 3.
fn three_depths() -> Vec<u8> {
    let ranges = [-999i16, -999, -999, 25, 24, 12];
    let mut after = ranges.map(i16::to_le_bytes).concat();
    after.extend([0, 2, 2, 2]);
    for _ in 0..3 {
        after.extend([1 | 1 << 2, 10, 0, 2 << 6 | 4, 4, 0x10, 0x32]);
    }
    after.extend([0; 9]);
    let image = Image {
        columns: 12,
        depth: 3,
        mask: vec![0, 0xF0],
        after,
        ..pair()
    };
    image.blob()
}

fn depths() -> Known {
    use Path::*;
    let mut paths = vec![Blocks, EmptyTile, FullTile];
    for step in [WholeByWidth, WholeByLargest, WholeClamped] {
        paths.extend([ZeroBlock, UsualHead, Bits8, step]);
    }
    ("three depths", three_depths(), paths)
}

/// The left one of two tiles has no valid pixel, and a block without counts.
fn no_counts() -> Known {
    use Path::*;
    let mut after = vec![0, 0, 1, 0, 0];
    after.extend([1, 10, 0, 2 << 6 | 4, 0]);
    after.extend([2 | 1 << 2, 0, 0, 0, 0, 0]);
    let image = Image {
        rows: 1,
        columns: 16,
        mask: vec![0, 255],
        after,
        ..pair()
    };
    let paths = vec![Blocks, EmptyTile, UsualHead, FullEight, ZeroBlock];
    ("no counts", image.blob(), paths)
}

fn bodies() -> Vec<Known> {
    use Path::*;
    let known = |name, ends, mask: &[u8], after: &[u8], path| {
        let image = Image {
            columns: 8,
            ends,
            mask: mask.to_vec(),
            after: after.to_vec(),
            ..pair()
        };
        (name, image.blob(), vec![path])
    };
    let raw: Vec<u8> = [0, 0, 1, 0, 1].into_iter().chain(0..16).collect();
    let (apart, alike) = ([0.0, 1.0], [1.0, 1.0]);
    let ranges = [1, 0, 1, 0];
    vec![
        known("raw", apart, &[], &raw, RawFull),
        known("raw, masked", apart, &[254], &raw, RawMasked),
        known("constant", alike, &[], &[], ConstantFull),
        known("constant by ranges", apart, &[], &ranges, ConstantFull),
        known("constant, masked", alike, &[254], &[], ConstantMasked),
        known("ranges, masked", apart, &[254], &ranges, ConstantMasked),
        known("empty", apart, &[0], &[], Empty),
        known("empty, constant", alike, &[0], &[], Empty),
    ]
}

/// A body of codes: mode, integers behind the version, lengths of four bits each,
/// words of codes and symbols.
fn in_codes(mode: u8, range: [u32; 3], lengths: &[u64], words: &[u32]) -> Vec<u8> {
    let counts = [vec![0x84, lengths.len() as u8], packed(lengths, 4)].concat();
    let [size, first, end] = range;
    let integers = [2, size, first, end].map(u32::to_le_bytes).concat();
    let words = Vec::from_iter(words.iter().flat_map(|word| word.to_le_bytes()));
    [vec![0, 1, 0, mode], integers, counts, words].concat()
}

fn codes() -> Vec<Known> {
    use Path::*;
    // Codes 0 and 1; codes 1 and many 0; the code 0 alone.
    let two = |mode| in_codes(mode, [9, 3, 5], &[1, 1], &[1 << 30, 0, 0]);
    let long = |length| in_codes(2, [9, 3, 5], &[1, length], &[1 << 31, 1 << 31, 0]);
    let one = |end| in_codes(1, [3, 2, end], &[1, 0, 0][..end as usize - 2], &[0; 3]);
    let known: [(&str, u8, Vec<u8>, &[Path]); 10] = [
        ("", 192, two(1), &[DifferencesFull, Longest8, Complete]),
        ("", 192, two(2), &[ValuesFull, Longest8, Complete]),
        ("", 64, two(1), &[DifferencesMasked, Longest8, Complete]),
        ("", 64, two(2), &[ValuesMasked, Longest8, Complete]),
        ("8 bits", 128, long(8), &[ValuesMasked, Longest8, WithGaps]),
        ("9 bits", 128, long(9), &[ValuesMasked, Longest12, WithGaps]),
        ("12", 128, long(12), &[ValuesMasked, Longest12, WithGaps]),
        ("13", 128, long(13), &[ValuesMasked, Longest32, WithGaps]),
        (
            "one code, up to the size",
            192,
            one(3),
            &[DifferencesFull, Longest8, OneCode, WithGaps],
        ),
        (
            "round",
            192,
            one(4),
            &[DifferencesFull, Longest8, OneCode, WithGaps, GoesRound],
        ),
    ];
    let blob = |mask, after| Image {
        kind: 1,
        // No mask if both pixels are valid.
        mask: Vec::from_iter((mask != 192).then_some(mask)),
        after,
        ..pair()
    };
    known
        .into_iter()
        .map(|(name, mask, after, paths)| (name, blob(mask, after).blob(), paths.to_vec()))
        .collect()
}

fn all() -> Vec<Known> {
    let mut all = heads();
    all.extend(widths());
    all.extend(whole_steps());
    all.extend(largest_counts());
    all.extend(table_counts());
    all.extend(float_steps());
    all.extend(normal_steps());
    all.extend(full_tiles());
    all.extend(partly_valid());
    all.push(depths());
    all.push(no_counts());
    all.extend(bodies());
    all.extend(codes());
    all
}

fn counts(paths: &[Path]) -> Counts {
    let mut counts = Counts::default();
    paths.iter().for_each(|&path| counts.add(path));
    counts
}

fn names(counts: &Counts) -> Vec<(&'static str, u64)> {
    let named = PATHS.iter().map(|&(path, name)| (name, counts.of(path)));
    named.filter(|(_, count)| *count > 0).collect()
}

#[test]
fn blobs_made_by_hand_have_their_paths() {
    for (name, blob, paths) in all() {
        let mut found = Paths::default();
        found.count_blob(&blob);
        assert_eq!(names(&found.reads), names(&counts(&paths)), "{name}");
    }
}

#[test]
fn every_path_has_a_blob_made_by_hand() {
    let all: Vec<Path> = all().into_iter().flat_map(|known| known.2).collect();
    for (n, (path, name)) in PATHS.into_iter().enumerate() {
        assert_eq!(path as usize, n);
        assert!(all.contains(&path), "{name}");
    }
}

fn whole_read(blob: &[u8]) -> Case {
    let header = second::read_header(blob).unwrap();
    let mut case = Case::new(Op::Read);
    case.blob = blob.to_vec();
    case.kept = vec![0; header.mask_length()];
    case.spare = vec![0; header.mask_length()];
    case.list = vec![0; header.blocks()];
    case.image = vec![0; header.cells()];
    case.said = vec![0; raw::READ];
    case
}

/// A publish of what staging left.
fn publish(blob: &[u8]) -> Case {
    let mut case = whole_read(blob);
    case.op = Op::Stage;
    case.staged = vec![0; raw::STAGED];
    Case {
        op: Op::Publish,
        ..plain(&case).lent
    }
}

fn fill(blob: &[u8], block: u64) -> Case {
    let header = second::read_header(blob).unwrap();
    let ranges = second::read_ranges(blob, &header).unwrap();
    let mut case = plain(&whole_read(blob)).lent;
    case.op = Op::Fill;
    case.header = record(&header).to_vec();
    case.ranges = ranges_record(&ranges).to_vec();
    case.mask = case.kept.clone();
    case.numbers[0] = block;
    case
}

fn found(calls: &[Case]) -> Paths {
    let mut found = Paths::default();
    for case in calls {
        found.count(case, &plain(case));
    }
    found
}

#[test]
fn calls_are_counted() {
    let whole = [whole_steps(), largest_counts(), table_counts()].concat();
    for (name, blob, mut paths) in [heads(), whole, float_steps()].concat() {
        let found = found(&[whole_read(&blob), fill(&blob, 0), publish(&blob)]);
        assert_eq!(found.reads, counts(&paths), "{name}");
        assert_eq!(found.publishes, counts(&paths), "{name}");
        paths.retain(|path| !path.is_body());
        assert_eq!(found.fills, counts(&paths), "{name}");
    }
}

#[test]
fn a_fill_is_counted_by_its_tile_and_depth() {
    use Path::*;
    let blob = three_depths();
    let steps = |path| counts(&[FullTile, UsualHead, Bits8, path]);
    assert_eq!(found(&[fill(&blob, 3)]).fills, steps(WholeByWidth));
    assert_eq!(found(&[fill(&blob, 4)]).fills, steps(WholeByLargest));
    assert_eq!(found(&[fill(&blob, 5)]).fills, steps(WholeClamped));
    let left = counts(&[EmptyTile, ZeroBlock]);
    assert_eq!(found(&[fill(&blob, 1)]).fills, left);
}

#[test]
fn refused_calls_are_not_counted() {
    let blob = block_of_2(0.5, 99, &counts_of(4), 9);
    let mut calls = [whole_read(&blob), fill(&blob, 0), publish(&blob)];
    calls.iter_mut().for_each(|case| case.image.clear());
    let mut found = found(&calls);
    found.count_blob(&blob[..80]);
    assert_eq!(found.reads, Counts::default());
    assert_eq!(found.fills, Counts::default());
    assert_eq!(found.publishes, Counts::default());
}

/// Maxima by value that are not of the image's kind.
#[test]
fn maxima_that_are_no_words() {
    let maximum = 2 + second::MOST_DEPTH;
    let mut case = fill(&block_of_2(0.5, 99, &counts_of(4), 9), 0);
    case.ranges[maximum] = 1e6f64.to_bits();
    assert_eq!(found(&[case]).fills.of(Path::WholeOneByOne), 1);
    // A last step above the greatest binary32.
    let mut case = fill(&float_blob(6, 1e38f64.to_bits(), 3e38, 3.1e38), 0);
    assert_eq!(found(&[case.clone()]).fills.of(Path::NormalAbove0), 1);
    case.ranges[maximum] = 2f64.powi(128).to_bits();
    assert_eq!(found(&[case]).fills.of(Path::NotNormal), 1);
}

/// Maxima by value are cut to the kind.
#[test]
fn maxima_with_a_fraction() {
    use Path::*;
    let cut = [
        (25.0, WholeByWidth),
        (24.9, WholeByLargest),
        (11.9, WholeByLargest),
        (10.9, WholeClamped),
    ];
    let mut case = fill(&block_of_2(0.5, 99, &counts_of(4), 9), 0);
    for (maximum, path) in cut {
        case.ranges[2 + second::MOST_DEPTH] = f64::to_bits(maximum);
        assert_eq!(found(&[case.clone()]).fills.of(path), 1, "{maximum}");
    }
}

#[test]
fn a_full_run_that_leaves_a_path_out_is_told() {
    assert_eq!(full_report(FULL_RUN).verdict(), Ok(true));
    for (path, name) in PATHS {
        let all = [
            (Op::Read, "whole reads"),
            (Op::Fill, "fills"),
            (Op::Publish, "publishes"),
        ];
        for (op, calls) in all {
            if op == Op::Fill && path.is_body() {
                continue;
            }
            let without = |calls| Report {
                paths: paths_but(Some((path, op))),
                ..full_report(calls)
            };
            let mut report = without(FULL_RUN);
            let said = report.verdict().unwrap_err();
            assert!(said.ends_with(&format!(": {name} ({calls})")), "{said}");
            report.failures.push(a_failure());
            assert_eq!(report.verdict(), Ok(false));
            assert_eq!(without(FULL_RUN - 1).verdict(), Ok(true));
        }
    }
}

#[test]
fn a_run_comes_upon_every_path() {
    let run = Run {
        seed: 2,
        from: 0,
        calls: FULL_RUN,
        failures: 1,
    };
    let paths = run.go(plain, plain).paths;
    for (path, name) in PATHS {
        let (reads, fills) = (paths.reads.of(path), paths.fills.of(path));
        let publishes = paths.publishes.of(path);
        // Few images are in codes, and they have no blocks and tiles.
        let in_codes = path as usize > Path::Blocks as usize;
        let least = if in_codes { 50 } else { 300 };
        assert!(reads >= least, "{name}: {reads}");
        assert!(publishes >= least, "{name}: {publishes}");
        assert!(fills >= 20 || path.is_body(), "{name}: {fills}");
    }
}

/// In full tiles eight wide, by kind: the steps and the widths.
#[test]
fn every_step_comes_up_in_full_tiles_of_each_kind() {
    let mut random = Random::new(9);
    let mut found: [Paths; 8] = Default::default();
    for _ in 0..20_000 {
        let wanted = Wanted {
            depth: 1,
            fault: Fault::None,
            ..Wanted::in_eights(&mut random, false)
        };
        let form = form(&mut random, wanted);
        if form.fields.valid as usize == wanted.rows * wanted.columns {
            found[wanted.kind as usize].count_blob(&form.bytes());
        }
    }
    use Path::*;
    let float6 = [Float6Unclamped, Float6Clamped, Float6OverWhole].as_slice();
    let float7 = [Float7Unclamped, Float7Clamped, Float7OverWhole].as_slice();
    for (kind, found) in found.iter().enumerate() {
        let steps: &[Path] = match kind {
            6 => &[float6, &[NormalAbove0, NormalBelow0, NormalEach, NotNormal]].concat(),
            7 => float7,
            _ => &[WholeByWidth, WholeByLargest, WholeClamped, WholeOneByOne],
        };
        for &path in [steps, &[Bits8, Bits16, Bits31, UsualHead, FullEight]]
            .concat()
            .iter()
        {
            let count = found.reads.of(path);
            assert!(count >= 20, "kind {kind}, {path:?}: {count}");
        }
    }
}

/// In images of one tile: the steps over whole numbers, by head.
#[test]
fn every_whole_step_comes_up_with_each_head() {
    use Path::*;
    let mut random = Random::new(10);
    let heads = [UsualHead, HeadAtEnd, WideNumber, Table];
    let steps = [WholeByWidth, WholeByLargest, WholeClamped, WholeOneByOne];
    let mut found = [[0; 4]; 4];
    for _ in 0..40_000 {
        let wanted = Wanted {
            rows: random.between(1, 8),
            columns: 8,
            depth: 1,
            kind: random.below(6) as u32,
            fault: Fault::None,
            ..Wanted::in_eights(&mut random, false)
        };
        let mut paths = Paths::default();
        paths.count_blob(&form(&mut random, wanted).bytes());
        for (row, head) in found.iter_mut().zip(heads) {
            for (count, step) in row.iter_mut().zip(steps) {
                *count += paths.reads.of(head) * paths.reads.of(step);
            }
        }
    }
    assert!(found.as_flattened().iter().all(|&n| n >= 10), "{found:?}");
}

/// The program prints the table, and its full run ends well.
#[test]
fn the_program_shows_the_paths() {
    let run = Command::new(env!("CARGO_BIN_EXE_compare"))
        .args(["run", "--seed", "1", "--calls", "500000"])
        .output()
        .unwrap();
    assert!(run.status.success());
    let text = String::from_utf8(run.stdout).unwrap();
    for (_, name) in PATHS {
        let row = format!("\n| {name} | ");
        assert_eq!(text.matches(&row).count(), 1, "{name}");
    }
}
