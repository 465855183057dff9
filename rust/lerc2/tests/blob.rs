//! The whole blob of the rules, step by step and at once, and what each
//! refusal leaves behind.

mod sealed;

use lerc2::{
    fill, prepare_mask, read, read_header, read_ranges, walk, Header, Kind, Mask, Refusal, Why,
};

const BODY: [u8; 9] = [0x0A, 0x0C, 0, 0, 1, 0x0A, 0x82, 3, 0x24];

/// One row of three u8, with a mask section and what follows it, and a true
/// checksum.
fn blob(valid: u32, mask: &[u8], after: &[u8]) -> Vec<u8> {
    let size = 70 + mask.len() + after.len();
    let mut blob = b"Lerc2 ".to_vec();
    for field in [4, 0, 1, 3, 1, valid, 8, size as u32, 1] {
        blob.extend(u32::to_le_bytes(field));
    }
    for number in [0.5, 10.0, 12.0] {
        blob.extend(f64::to_le_bytes(number));
    }
    blob.extend((mask.len() as u32).to_le_bytes());
    blob.extend_from_slice(mask);
    blob.extend_from_slice(after);
    sealed::seal(&mut blob);
    blob
}

fn refused<T>(why: Why, place: usize) -> Result<T, Refusal> {
    Err(Refusal { why, place })
}

fn header() -> Header {
    Header {
        rows: 1,
        columns: 3,
        depth: 1,
        valid: 3,
        side: 8,
        size: 79,
        kind: Kind::U8,
        error: 0.5,
        min: 10.0,
        max: 12.0,
        mask_bytes: 0,
    }
}

#[test]
fn header_of_the_rules() {
    assert_eq!(read_header(&blob(3, &[], &BODY)), Ok(header()));
    let header = header();
    assert_eq!((header.pixels(), header.cells()), (3, 3));
    assert_eq!((header.mask_length(), header.blocks()), (1, 1));
}

#[test]
fn whole_blob_of_the_rules() {
    let blob = blob(3, &[], &BODY);
    let (mut kept, mut spare, mut list, mut image) = ([1; 2], [2; 2], [7; 2], [9; 4]);
    let whole = read(&blob, false, &mut kept, &mut spare, &mut list, &mut image).unwrap();
    assert_eq!(whole.header, header());
    assert_eq!((whole.blocks, whole.end), (1, 79));
    // What lies past the mask, the blocks and the cells stays.
    assert_eq!(kept, [255, 1]);
    assert_eq!(spare, [255, 2]);
    assert_eq!(list, [74, 7]);
    assert_eq!(image, [10, 11, 12, 9]);
}

#[test]
fn step_by_step() {
    let blob = blob(3, &[], &BODY);
    let header = read_header(&blob).unwrap();
    let (kept, mut spare, mut list, mut image) = ([0; 1], [0; 1], [0; 1], [9; 3]);
    let mask = prepare_mask(&blob, &header, false, &kept, &mut spare).unwrap();
    assert_eq!(mask, Mask::Spare(&[255]));
    let mask = mask.bytes();
    let ranges = read_ranges(&blob, &header).unwrap();
    assert_eq!((ranges.place, ranges.constant), (72, false));
    assert_eq!(ranges.min, [10.0; 64]);
    assert_eq!(ranges.max, [12.0; 64]);
    let walked = walk(&blob, &header, &ranges, mask, &mut list).unwrap();
    assert_eq!((walked.blocks, walked.end, list), (1, 79, [74]));
    for _ in 0..2 {
        let words = fill(&blob, &header, &ranges, mask, &list, 0, &mut image);
        assert_eq!(words, Ok(3));
        assert_eq!(image, [10, 11, 12]);
    }
    let past = fill(&blob, &header, &ranges, mask, &list, 1, &mut image);
    assert_eq!(past, refused(Why::NoSuchBlock, 0));
}

#[test]
fn a_kept_mask_is_reused() {
    let blob = blob(2, &[], &[0x0A, 0x0C, 0, 0, 3, 11]);
    let header = read_header(&blob).unwrap();
    let (kept, mut spare) = ([0b1010_0000], [7]);
    let mask = prepare_mask(&blob, &header, true, &kept, &mut spare);
    assert_eq!(mask, Ok(Mask::Kept(&[0b1010_0000])));
    assert_eq!(spare, [7]);
    let mask = prepare_mask(&blob, &header, false, &kept, &mut spare);
    assert_eq!(mask, refused(Why::WrongMask, 66));
    let (mut kept, mut list, mut image) = (kept, [0], [9; 3]);
    read(&blob, true, &mut kept, &mut spare, &mut list, &mut image).unwrap();
    assert_eq!(image, [11, 9, 11]);
}

#[test]
fn a_refusal_leaves_the_spare_mask_alone_changed() {
    // The mask is right, the block is not.
    let mask = [1, 0, 0xA0, 0, 0x80];
    let blob = blob(2, &mask, &[0x0A, 0x0C, 0, 0, 5, 11]);
    let (mut kept, mut spare, mut list, mut image) = ([1], [2], [7], [9; 3]);
    let answer = read(&blob, false, &mut kept, &mut spare, &mut list, &mut image);
    let flag = 70 + mask.len() + 4;
    assert_eq!(answer, refused(Why::WrongBlock, flag));
    assert_eq!((kept, spare, list, image), ([1], [0xA0], [7], [9; 3]));
}

#[test]
fn every_cut_is_refused() {
    let blob = blob(3, &[], &BODY);
    for length in 0..blob.len() {
        let (mut kept, mut spare, mut list, mut image) = ([1], [2], [7], [9; 3]);
        let cut = &blob[..length];
        let answer = read(cut, false, &mut kept, &mut spare, &mut list, &mut image);
        assert_eq!(answer, refused(Why::PassesSize, 0), "{length} bytes");
        assert_eq!((kept, spare, list, image), ([1], [2], [7], [9; 3]));
    }
}

#[test]
fn every_slice_needs_room() {
    let blob = blob(3, &[], &BODY);
    for short in 0..4 {
        let room = |slice: usize, length: usize| length - usize::from(slice == short);
        let (mut kept, mut spare) = (vec![0; room(0, 1)], vec![0; room(1, 1)]);
        let (mut list, mut image) = (vec![0; room(2, 1)], vec![0; room(3, 3)]);
        let answer = read(&blob, false, &mut kept, &mut spare, &mut list, &mut image);
        assert_eq!(answer, refused(Why::NoRoom, 0));
    }
}

#[test]
fn a_header_by_hand_is_held_to_the_rules() {
    let blob = blob(3, &[], &BODY);
    let wrong = |change: fn(&mut Header)| {
        let mut header = header();
        change(&mut header);
        read_ranges(&blob, &header)
    };
    assert_eq!(wrong(|header| header.side = 0), refused(Why::WrongField, 0));
    assert_eq!(wrong(|header| header.side = 17), refused(Why::Ceiling, 0));
    assert_eq!(
        wrong(|header| header.size = 80),
        refused(Why::PassesSize, 0)
    );
    assert_eq!(
        wrong(|header| header.max = f64::NAN),
        refused(Why::WrongField, 0)
    );
}

#[test]
fn records_of_any_length() {
    use lerc2::raw;
    let blob = blob(3, &[], &BODY);
    let (mut short, mut place) = ([5; raw::HEADER - 1], [7; 2]);
    assert_eq!(raw::read_header(&blob, &mut short, &mut place), 5);
    assert_eq!((short, place), ([5; raw::HEADER - 1], [0, 7]));
    let (mut long, mut place) = ([5; raw::HEADER + 1], [7; 2]);
    assert_eq!(raw::read_header(&blob, &mut long, &mut place), 0);
    assert_eq!(long[..4], [1, 3, 1, 3]);
    assert_eq!((long[raw::HEADER], place), (5, [0, 7]));
    // A number that its field cannot hold.
    long[0] = 1 << 32 | 1;
    let (mut ranges, mut place) = ([5; raw::RANGES], [7; 2]);
    assert_eq!(raw::read_ranges(&blob, &long, &mut ranges, &mut place), 3);
    assert_eq!((ranges, place), ([5; raw::RANGES], [0, 7]));
}

#[test]
fn arithmetic() {
    let big = 2f64.powi(53);
    assert_eq!(lerc2::sum(big, 3.0), big + 4.0);
    assert_eq!(lerc2::sum(1.0, -1.0).to_bits(), 0);
    let overflowed = lerc2::scaled(2f64.powi(1000), 1 << 30);
    assert_eq!(overflowed, f64::INFINITY);
    assert_eq!(lerc2::sum(-2f64.powi(1023), overflowed), f64::INFINITY);
    assert_eq!(lerc2::sum(f64::NEG_INFINITY, f64::MAX), f64::NEG_INFINITY);
    assert_eq!(lerc2::scaled(0.5, 7), 7.0);
    assert_eq!(lerc2::narrow(f64::from_bits(0x3FF0_0000_1000_0000)), 1.0);
    assert_eq!(Kind::I8.number(0x80), -128.0);
    assert_eq!(Kind::F32.number(0x3F80_0000), 1.0);
    assert_eq!(Kind::I8.stored(-128.5), Ok(128));
    assert_eq!(Kind::I8.stored(128.0), refused(Why::DoesNotFit, 0));
    assert_eq!(Kind::U8.stored(-0.5), Ok(0));
}
