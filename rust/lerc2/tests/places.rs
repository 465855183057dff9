//! The place of each refusal, worked out from what stands in front of it: 70
//! bytes of header, the mask section, minima and maxima, sweep and mode byte,
//! blocks.

mod sealed;

use lerc2::{
    fill, prepare_mask, raw, read, read_header, read_ranges, stage, walk, Kind, Ranges, Refusal,
    Why,
};

/// A blob of one row of three pixels, in one tile.
#[derive(Clone, Copy)]
struct Row<'a> {
    depth: u32,
    valid: u32,
    kind: Kind,
    error: f64,
    least: f64,
    greatest: f64,
    mask: &'a [u8],
    ranges: &'a [u8],
    body: &'a [u8],
}

/// Numbers from 10 to 12; with an error of 1 there is no mode byte.
const ROW: Row = Row {
    depth: 1,
    valid: 3,
    kind: Kind::U8,
    error: 1.0,
    least: 10.0,
    greatest: 12.0,
    mask: &[],
    ranges: &[10, 12],
    body: &[0, 3, 11],
};

/// Two of three pixels.
const TWO: &[u8] = &[1, 0, 0xA0, 0, 0x80];

impl<'a> Row<'a> {
    fn with(self, body: &'a [u8]) -> Row<'a> {
        Row { body, ..self }
    }

    fn masked(self, valid: u32, mask: &'a [u8]) -> Row<'a> {
        Row {
            valid,
            mask,
            ..self
        }
    }

    /// Without ranges and body.
    fn constant(self, value: f64) -> Row<'a> {
        Row {
            least: value,
            greatest: value,
            ranges: &[],
            body: &[],
            ..self
        }
    }

    /// Its checksum is true.
    fn blob(&self) -> Vec<u8> {
        let size = (self.sweep() + self.body.len()) as u32;
        let shape = [1, 3, self.depth, self.valid, 8];
        let mut blob = b"Lerc2 ".to_vec();
        for field in [&[4, 0], &shape[..], &[size, self.kind as u32]].concat() {
            blob.extend(field.to_le_bytes());
        }
        for number in [self.error, self.least, self.greatest] {
            blob.extend(number.to_le_bytes());
        }
        blob.extend((self.mask.len() as u32).to_le_bytes());
        let mut blob = [&blob[..], self.mask, self.ranges, self.body].concat();
        sealed::seal(&mut blob);
        blob
    }

    fn first_range(&self) -> usize {
        70 + self.mask.len()
    }

    fn sweep(&self) -> usize {
        self.first_range() + self.ranges.len()
    }

    /// What a whole read says, with room for everything; staging says the same.
    fn refused(&self) -> Refusal {
        let (mut kept, mut spare, mut list, mut image) = ([0; 8], [0; 8], [0; 8], [0; 64]);
        let blob = self.blob();
        let staged = stage(&blob, false, &kept, &mut spare, &mut list, &image);
        let refusal = read(&blob, false, &mut kept, &mut spare, &mut list, &mut image);
        let refusal = refusal.unwrap_err();
        assert_eq!(staged, Err(refusal));
        refusal
    }

    /// What a walk says of ranges that a test may change.
    fn walk_refused(&self, change: impl FnOnce(&mut Ranges)) -> Refusal {
        let blob = self.blob();
        let header = read_header(&blob).unwrap();
        let mut ranges = read_ranges(&blob, &header).unwrap();
        change(&mut ranges);
        walk(&blob, &header, &ranges, &[0xE0], &mut [0; 8]).unwrap_err()
    }

    /// What a fill of block 0 says, at a start of the test's.
    fn fill_refused(&self, start: usize, change: impl FnOnce(&mut Ranges)) -> Refusal {
        let blob = self.blob();
        let header = read_header(&blob).unwrap();
        let mut ranges = read_ranges(&blob, &header).unwrap();
        change(&mut ranges);
        let list = [start; 8];
        fill(&blob, &header, &ranges, &[0xE0], &list, 0, &mut [0; 64]).unwrap_err()
    }
}

fn at(why: Why, place: usize) -> Refusal {
    Refusal { why, place }
}

fn words(numbers: &[f32]) -> Vec<u8> {
    let bytes = numbers.iter().flat_map(|number| number.to_le_bytes());
    bytes.collect()
}

#[test]
fn the_header_has_no_place() {
    let blob = ROW.blob();
    let changed = |place: usize, byte: u8| {
        let mut blob = blob.clone();
        blob[place] = byte;
        read_header(&blob).unwrap_err()
    };
    assert_eq!(read_header(&blob[..69]), Err(at(Why::PassesSize, 0)));
    assert_eq!(read_header(&blob[..74]), Err(at(Why::PassesSize, 0)));
    assert_eq!(changed(0, b'M'), at(Why::WrongKey, 0));
    assert_eq!(changed(38, 8), at(Why::WrongField, 0));
    assert_eq!(changed(30, 17), at(Why::Ceiling, 0));
}

#[test]
fn a_wrong_mask_is_at_its_count() {
    let rows = [
        ROW.masked(2, &[0, 0, 0, 0x80]),
        ROW.masked(1, TWO),
        ROW.masked(2, &[]),
        ROW.masked(3, TWO),
        ROW.masked(0, TWO),
    ];
    for row in rows {
        assert_eq!(row.refused(), at(Why::WrongMask, 66));
        let blob = row.blob();
        let header = read_header(&blob).unwrap();
        // One pixel is kept, which no row has: reuse does not help.
        for reuse in [false, true] {
            let spare = &mut [0];
            let mask = prepare_mask(&blob, &header, reuse, &[0x80], spare);
            assert_eq!(mask, Err(at(Why::WrongMask, 66)));
        }
    }
}

#[test]
fn cut_ranges_are_at_their_first_byte() {
    let ranges = &[10];
    let short = Row { ranges, ..ROW }.with(&[]);
    for row in [short, short.masked(2, TWO)] {
        let place = row.first_range();
        assert_eq!(row.refused(), at(Why::PassesSize, place));
        let header = read_header(&row.blob()).unwrap();
        let ranges = read_ranges(&row.blob(), &header);
        assert_eq!(ranges, Err(at(Why::PassesSize, place)));
    }
}

/// Two depths of binary32: minima at 0 and 4, maxima at 8 and 12.
#[test]
fn the_first_wrong_number_by_depth() {
    let (nan, inf) = (f32::NAN, f32::INFINITY);
    for (numbers, behind) in [
        ([nan, nan, nan, nan], 0),
        ([-inf, 1.0, 0.0, 2.0], 0),
        ([1.0, nan, 2.0, 3.0], 4),
        // Depth by depth, not byte by byte.
        ([1.0, nan, 0.5, 3.0], 8),
        ([1.0, nan, inf, 3.0], 8),
        ([1.0, 2.0, 0.5, 3.0], 8),
        ([1.0, 2.0, 1.0, nan], 12),
        ([1.0, 2.0, 1.0, 1.5], 12),
    ] {
        let ranges = &words(&numbers)[..];
        let (kind, depth) = (Kind::F32, 2);
        let plain = Row {
            kind,
            depth,
            ranges,
            ..ROW
        };
        for row in [plain, plain.masked(2, TWO)] {
            let refusal = at(Why::WrongRange, row.first_range() + behind);
            assert_eq!(row.refused(), refusal, "{numbers:?}");
            let header = read_header(&row.blob()).unwrap();
            let read = read_ranges(&row.blob(), &header);
            assert_eq!(read.unwrap_err(), refusal, "{numbers:?}");
        }
    }
}

#[test]
fn ranges_by_value_have_no_place() {
    let wrong = |ranges: &mut Ranges| ranges.max[0] = 9.0;
    assert_eq!(ROW.walk_refused(wrong), at(Why::WrongRange, 0));
    assert_eq!(ROW.fill_refused(73, wrong), at(Why::WrongRange, 0));
}

#[test]
fn the_sweep_byte() {
    for row in [ROW, ROW.masked(2, TWO)] {
        let place = row.sweep();
        let missing = row.with(&[]);
        assert_eq!(missing.refused(), at(Why::PassesSize, place));
        assert_eq!(missing.walk_refused(|_| {}), at(Why::PassesSize, place));
        let wrong = row.with(&[2]);
        assert_eq!(wrong.refused(), at(Why::WrongBlock, place));
        assert_eq!(wrong.walk_refused(|_| {}), at(Why::WrongBlock, place));
        let raw = row.with(&[1, 10, 11, 12]);
        assert_eq!(raw.walk_refused(|_| {}), at(Why::NotBlocks, place));
    }
}

#[test]
fn the_body_is_where_the_ranges_say() {
    let size = ROW.blob().len();
    // The key's first byte, the block's flag, its offset: none is a sweep byte.
    for place in [0, 73, 74] {
        let refusal = ROW.walk_refused(|ranges| ranges.place = place);
        assert_eq!(refusal, at(Why::WrongBlock, place));
    }
    for place in [size, size + 1, 1 << 32, usize::MAX - 1, usize::MAX] {
        let refusal = ROW.walk_refused(|ranges| ranges.place = place);
        assert_eq!(refusal, at(Why::PassesSize, place));
    }
}

#[test]
fn the_mode_byte() {
    for kind in [Kind::I8, Kind::U8] {
        let error = 0.5;
        let row = Row { kind, error, ..ROW };
        let place = row.sweep() + 1;
        for (body, why) in [
            (&[0][..], Why::PassesSize),
            (&[0, 3], Why::WrongBlock),
            (&[0, 255], Why::WrongBlock),
        ] {
            let row = row.with(body);
            assert_eq!(row.refused(), at(why, place));
            assert_eq!(row.walk_refused(|_| {}), at(why, place));
        }
    }
}

/// A walk does not look at the table; a whole read has its faults, and those of
/// the symbols, at the mode byte.
#[test]
fn a_huffman_image_is_at_its_mode_byte() {
    // 10, 11 and 12 have the codes 0, 10 and 11.
    let image = [
        [2, 0, 0, 0, 13, 0, 0, 0, 10, 0, 0, 0, 13, 0, 0, 0].as_slice(),
        &[0x82, 3, 0x29, 0, 0, 0, 0x58],
        &[0, 0, 0, 0x58, 0, 0, 0, 0],
    ]
    .concat();
    let error = 0.5;
    let row = Row { error, ..ROW };
    let place = row.sweep() + 1;
    for mode in [1, 2] {
        let body = |image: &[u8]| [&[0, mode], image].concat();
        let refused = |image: &[u8]| row.with(&body(image)).refused();
        for length in 0..image.len() {
            assert_eq!(refused(&image[..length]), at(Why::PassesSize, place));
        }
        // The version, the size, no length above 0, a length above 32, a code that
        // begins another.
        for (byte, value) in [(0, 1), (5, 1), (18, 0), (16, 0x86), (22, 0x48)] {
            let mut image = image.clone();
            image[byte] = value;
            assert_eq!(refused(&image), at(Why::WrongBlock, place), "{byte}");
        }
        let walked = row.with(&body(&image)).walk_refused(|_| {});
        assert_eq!(walked, at(Why::NotBlocks, place));
    }
}

#[test]
fn no_body_to_walk_has_no_place() {
    let constant = ROW.constant(5.0);
    assert_eq!(constant.walk_refused(|_| {}), at(Why::NotBlocks, 0));
    let marked = ROW.walk_refused(|ranges| ranges.constant = true);
    assert_eq!(marked, at(Why::NotBlocks, 0));
    let empty = ROW.masked(0, &[]);
    assert_eq!(empty.walk_refused(|_| {}), at(Why::NotBlocks, 0));
}

/// Not the first byte that is missing.
#[test]
fn a_raw_body_is_cut_in_a_word() {
    let all = [1, 10, 0, 11, 0, 12, 0];
    let (kind, ranges) = (Kind::U16, &[10, 0, 12, 0]);
    for length in 1..all.len() {
        let row = Row {
            kind,
            ranges,
            ..ROW.with(&all[..length])
        };
        let word = (length - 1) / 2;
        let place = row.sweep() + 1 + 2 * word;
        assert_eq!(row.refused(), at(Why::PassesSize, place), "{length}");
    }
}

/// Every fault inside a block, in the first and behind another.
#[test]
fn a_block_is_at_its_flag_byte() {
    for (block, why) in [
        (&[][..], Why::PassesSize),
        (&[3], Why::PassesSize),
        (&[0, 10, 11], Why::PassesSize),
        (&[1, 10, 0x82, 3], Why::PassesSize),
        (&[7, 10], Why::WrongBlock),
        (&[0x43, 10], Why::WrongBlock),
        (&[1, 10, 0xC2], Why::WrongBlock),
        (&[1, 10, 0x82, 2, 0x24], Why::WrongBlock),
    ] {
        let body = [&[0], block].concat();
        let row = ROW.with(&body);
        let place = row.sweep() + 1;
        assert_eq!(row.refused(), at(why, place));
        assert_eq!(row.walk_refused(|_| {}), at(why, place));
        assert_eq!(row.fill_refused(place, |_| {}), at(why, place));

        let body = [&[0, 3, 11], block].concat();
        let (depth, ranges) = (2, &[10, 10, 12, 12][..]);
        let row = Row {
            depth,
            ranges,
            ..ROW.with(&body)
        };
        let place = row.sweep() + 3;
        assert_eq!(row.refused(), at(why, place));
        assert_eq!(row.walk_refused(|_| {}), at(why, place));
    }
}

/// A value past its kind needs a maximum past it, which a caller can give.
#[test]
fn a_value_is_at_its_flag_byte() {
    let row = ROW.with(&[0, 1, 250, 0x86, 3, 50, 0, 0]);
    let place = row.sweep() + 1;
    let wide = |ranges: &mut Ranges| ranges.max[0] = 300.0;
    assert_eq!(row.walk_refused(wide), at(Why::DoesNotFit, place));
    assert_eq!(row.fill_refused(place, wide), at(Why::DoesNotFit, place));
    let constant = ROW.constant(300.0);
    assert_eq!(constant.refused(), at(Why::DoesNotFit, 0));
    assert_eq!(Kind::U8.stored(256.0), Err(at(Why::DoesNotFit, 0)));
}

#[test]
fn a_listed_start_is_the_place_however_far_out() {
    let size = ROW.blob().len();
    for start in [size, size + 1, 1 << 32, usize::MAX - 1, usize::MAX] {
        let refusal = ROW.fill_refused(start, |_| {});
        assert_eq!(refusal, at(Why::PassesSize, start));
    }
    // Its own bytes are no block: those of the key, the version's, the size's.
    for start in [0, 6, 34] {
        let refusal = ROW.fill_refused(start, |_| {});
        assert_eq!((refusal.why, refusal.place), (Why::WrongBlock, start));
    }
}

#[test]
fn no_room_and_no_block_have_no_place() {
    let blob = ROW.blob();
    let header = read_header(&blob).unwrap();
    let ranges = read_ranges(&blob, &header).unwrap();
    let spare = &mut [0];
    let mask = prepare_mask(&blob, &header, false, &[], spare);
    assert_eq!(mask, Err(at(Why::NoRoom, 0)));
    let walked = walk(&blob, &header, &ranges, &[0xE0], &mut []);
    assert_eq!(walked, Err(at(Why::NoRoom, 0)));
    let image = &mut [0; 3];
    let filled = fill(&blob, &header, &ranges, &[], &[73], 0, image);
    assert_eq!(filled, Err(at(Why::NoRoom, 0)));
    let filled = fill(&blob, &header, &ranges, &[0xE0], &[73], 1, image);
    assert_eq!(filled, Err(at(Why::NoSuchBlock, 0)));
}

/// All that the entries of the C interface are lent, with room and marks; what
/// one writes to `said` none reads.
#[derive(Clone, Debug, PartialEq)]
struct Lent {
    header: [u64; raw::HEADER],
    ranges: [u64; raw::RANGES],
    staged: [u64; raw::STAGED],
    masks: [[u8; 2]; 2],
    list: [usize; 2],
    image: [u64; 4],
    said: [u64; raw::RANGES],
}

type Entry = fn(&[u8], &mut Lent, &mut [u64]) -> u32;

/// The entries that can refuse; `tests/pack.rs` has those for packs.
const ENTRIES: [(&str, Entry); 9] = [
    ("read_header", |blob, lent, place| {
        raw::read_header(blob, &mut lent.said, place)
    }),
    ("read", |blob, lent, place| {
        let [kept, spare] = &mut lent.masks;
        let (list, image) = (&mut lent.list, &mut lent.image);
        raw::read(blob, false, kept, spare, list, image, &mut lent.said, place)
    }),
    ("stage", |blob, lent, place| {
        let ([kept, spare], image) = (&mut lent.masks, &lent.image);
        let (list, said) = (&mut lent.list, &mut lent.said);
        raw::stage(blob, false, kept, spare, list, image, said, place)
    }),
    ("publish", |blob, lent, place| {
        let (staged, [kept, _]) = (&lent.staged, &mut lent.masks);
        let (image, said) = (&mut lent.image, &mut lent.said);
        raw::publish(blob, false, staged, kept, &[255], &[73], image, said, place)
    }),
    ("prepare_mask", |blob, lent, place| {
        let [kept, spare] = &mut lent.masks;
        raw::prepare_mask(
            blob,
            &lent.header,
            false,
            kept,
            spare,
            &mut lent.said,
            place,
        )
    }),
    ("read_ranges", |blob, lent, place| {
        raw::read_ranges(blob, &lent.header, &mut lent.said, place)
    }),
    ("walk", |blob, lent, place| {
        let (header, ranges, mask) = (&lent.header, &lent.ranges, &[0xE0]);
        raw::walk(
            blob,
            header,
            ranges,
            mask,
            &mut lent.list,
            &mut lent.said,
            place,
        )
    }),
    ("fill", |blob, lent, place| {
        let (header, ranges, mask) = (&lent.header, &lent.ranges, &[0xE0]);
        let (image, said) = (&mut lent.image, &mut lent.said);
        raw::fill(blob, header, ranges, mask, &[73], 0, image, said, place)
    }),
    ("stored", |_, lent, place| {
        raw::stored(10f64.to_bits(), 1, &mut lent.said, place)
    }),
];

fn lent(blob: &[u8]) -> Lent {
    let (mut header, mut ranges) = ([0; raw::HEADER], [0; raw::RANGES]);
    assert_eq!(raw::read_header(blob, &mut header, &mut [0]), 0);
    assert_eq!(raw::read_ranges(blob, &header, &mut ranges, &mut [0]), 0);
    let mut staged = [0; raw::STAGED];
    let (spare, list) = (&mut [0], &mut [0]);
    let number = raw::stage(
        blob,
        false,
        &[0],
        spare,
        list,
        &[0; 3],
        &mut staged,
        &mut [0],
    );
    assert_eq!((number, *spare, *list), (0, [255], [73]));
    Lent {
        header,
        ranges,
        staged,
        masks: [[1; 2], [2; 2]],
        list: [3; 2],
        image: [4; 4],
        said: [5; raw::RANGES],
    }
}

#[test]
fn without_room_for_a_place_nothing_is_written() {
    let blob = ROW.blob();
    for (name, entry) in ENTRIES {
        // Five comes before anything else: before a blob that is too short.
        for blob in [&blob[..], &[]] {
            let before = lent(&ROW.blob());
            let mut after = before.clone();
            assert_eq!(entry(blob, &mut after, &mut []), 5, "{name}");
            assert_eq!(after, before, "{name}");
        }
    }
}

#[test]
fn acceptance_writes_a_place_of_0() {
    let blob = ROW.blob();
    for (name, entry) in ENTRIES {
        let mut place = [7; 3];
        assert_eq!(entry(&blob, &mut lent(&blob), &mut place), 0, "{name}");
        assert_eq!(place, [0, 7, 7], "{name}");
    }
}

#[test]
fn a_refusal_writes_its_place_and_no_more() {
    let right = ROW.blob();
    let wrong = ROW.with(&[0, 7, 11]).blob();
    for (name, entry) in ENTRIES {
        let (number, at) = match name {
            "read" | "stage" | "publish" | "walk" | "fill" => (8, 73),
            _ => (0, 0),
        };
        let mut place = [7; 3];
        assert_eq!(
            entry(&wrong, &mut lent(&right), &mut place),
            number,
            "{name}"
        );
        assert_eq!(place, [at, 7, 7], "{name}");
        let mut place = [7; 3];
        let cut = entry(&right[..74], &mut lent(&right), &mut place);
        assert_eq!(
            (cut, place),
            ((name != "stored").into(), [0, 7, 7]),
            "{name}"
        );
    }
}
