//! Steps that are given a header or ranges by value, and the order in which
//! they refuse.

use crate::blob::{header_bytes, hex, Blob};
use crate::given::Given;
use crate::lent::{Lent, IMAGE, LIST, SPARE};
use second::{fill, prepare_mask, read_header, read_ranges, walk};
use second::{Header, Mask, Ranges, Refusal};

/// What each step answers for a header by value, with room for anything small.
fn every_step(bytes: &[u8], header: &Header) -> [Option<Refusal>; 4] {
    let whole = Blob::whole();
    let ranges = read_ranges(&whole.bytes(), &whole.header()).unwrap();
    let mut lent = Lent::of(8, 8, 64);
    let mask = prepare_mask(bytes, header, true, &lent.kept, &mut lent.spare);
    let read = read_ranges(bytes, header);
    let walked = walk(bytes, header, &ranges, &[255; 8], &mut lent.list);
    let list = [74; 8];
    let filled = fill(bytes, header, &ranges, &[255; 8], &list, 0, &mut lent.image);
    [mask.err(), read.err(), walked.err(), filled.err()]
}

fn refused_by_all(change: impl Fn(&mut Header)) -> u32 {
    let mut header = Blob::whole().header();
    change(&mut header);
    let answers = every_step(&Blob::whole().bytes(), &header);
    let refusal = answers[0].unwrap();
    assert_eq!(answers, [Some(refusal); 4]);
    // The same number as for a blob with such a header, and no place.
    assert_eq!(read_header(&header_bytes(&header)), Err(refusal));
    assert_eq!(refusal.place, 0);
    refusal.number
}

#[test]
fn headers_within_the_rules_are_taken() {
    let blob = Blob::whole();
    assert_eq!(every_step(&blob.bytes(), &blob.header()), [None; 4]);
}

#[test]
fn headers_are_held_to_r3() {
    assert_eq!(refused_by_all(|h| h.rows = 0), 3);
    assert_eq!(refused_by_all(|h| h.columns = 0), 3);
    assert_eq!(refused_by_all(|h| h.depth = 0), 3);
    assert_eq!(refused_by_all(|h| h.side = 0), 3);
    assert_eq!(refused_by_all(|h| h.valid = 4), 3);
    assert_eq!(refused_by_all(|h| h.kind = 8), 3);
    assert_eq!(refused_by_all(|h| h.error = 1 << 63), 3);
    assert_eq!(refused_by_all(|h| h.error = 0x7FE0 << 48), 3);
    assert_eq!(refused_by_all(|h| h.min = f64::NAN.to_bits()), 3);
    assert_eq!(refused_by_all(|h| h.max = f64::INFINITY.to_bits()), 3);
    assert_eq!(refused_by_all(|h| h.max = 9f64.to_bits()), 3);
    assert_eq!(refused_by_all(|h| h.size = 69), 3);
    assert_eq!(refused_by_all(|h| h.mask = 10), 3);
    assert_eq!(refused_by_all(|h| h.mask = u32::MAX), 3);
}

#[test]
fn headers_are_held_to_r4() {
    assert_eq!(refused_by_all(|h| h.rows = 4097), 4);
    assert_eq!(refused_by_all(|h| h.columns = u32::MAX), 4);
    assert_eq!(refused_by_all(|h| h.depth = 65), 4);
    assert_eq!(refused_by_all(|h| h.side = 17), 4);
    assert_eq!(refused_by_all(|h| h.size = 16_777_217), 4);
    assert_eq!(refused_by_all(|h| (h.rows, h.columns) = (4096, 1025)), 4);
    assert_eq!(
        refused_by_all(|h| (h.rows, h.columns, h.depth) = (4096, 4096, 64)),
        4
    );
    assert_eq!(refused_by_all(|h| (h.side, h.kind) = (17, 8)), 3);
}

#[test]
fn headers_are_held_to_r1() {
    assert_eq!(refused_by_all(|h| h.size = 80), 1);
    assert_eq!(refused_by_all(|h| h.size = 16_777_216), 1);
    // No room either, but the slice is judged before.
    assert_eq!(refused_by_all(|h| (h.size, h.rows) = (80, 4096)), 1);
    let header = Blob::whole().header();
    assert_eq!(every_step(&[], &header), [Some(Refusal::of(1)); 4]);
}

#[test]
fn headers_are_not_compared_with_the_blob() {
    // The blob is 79 bytes of which only the section behind 70 is looked at.
    let mut bytes = Blob::whole().bytes();
    bytes[..70].fill(0xEE);
    assert_eq!(every_step(&bytes, &Blob::whole().header()), [None; 4]);
}

#[test]
fn masks_need_room_in_both() {
    let blob = Blob {
        valid: 3,
        mask: hex("02 00 A0 40 00 80"),
        ..Blob::row(10, &[])
    };
    let (bytes, header) = (blob.bytes(), blob.header());
    for reuse in [false, true] {
        let mut spare = [SPARE; 2];
        assert_eq!(
            prepare_mask(&bytes, &header, reuse, &[0; 1], &mut spare),
            Err(Refusal::of(5))
        );
        assert_eq!(
            prepare_mask(&bytes, &header, reuse, &[0; 2], &mut spare[..1]),
            Err(Refusal::of(5))
        );
        assert_eq!(spare, [SPARE; 2]);
        // With a section it is never the kept mask.
        assert_eq!(
            prepare_mask(&bytes, &header, reuse, &[0; 2], &mut spare),
            Ok(Mask::Spare(2))
        );
        assert_eq!(spare, [0xA0, 0x40]);
    }
}

#[test]
fn room_comes_before_the_mask_section() {
    let blob = Blob {
        valid: 3,
        mask: hex("00 00"),
        ..Blob::row(10, &[])
    };
    let (bytes, header) = (blob.bytes(), blob.header());
    assert_eq!(
        prepare_mask(&bytes, &header, false, &[0; 1], &mut [0; 2]),
        Err(Refusal::of(5))
    );
    assert_eq!(
        prepare_mask(&bytes, &header, false, &[0; 2], &mut [0; 2]),
        Err(Refusal::at(6, 66))
    );
}

#[test]
fn masks_reused_and_new() {
    let blob = |valid: u32| Blob {
        valid,
        ..Blob::row(10, &[])
    };
    let prepare = |valid: u32, reuse: bool, kept: [u8; 3]| {
        let mut spare = [SPARE; 3];
        let blob = blob(valid);
        let mask = prepare_mask(&blob.bytes(), &blob.header(), reuse, &kept, &mut spare);
        (mask, spare)
    };
    let untouched = [SPARE; 3];
    assert_eq!(
        prepare(3, true, [0xA0, 0x40, 9]),
        (Ok(Mask::Kept(2)), untouched)
    );
    assert_eq!(
        prepare(3, true, [0xA0, 0x7F, 9]),
        (Ok(Mask::Kept(2)), untouched)
    );
    let wrong = (Err(Refusal::at(6, 66)), untouched);
    assert_eq!(prepare(3, true, [0xA0, 0xC0, 9]), wrong);
    assert_eq!(prepare(3, false, [0xA0, 0x40, 9]), wrong);
    for reuse in [false, true] {
        let none = (Ok(Mask::Spare(2)), [0, 0, SPARE]);
        let all = (Ok(Mask::Spare(2)), [255, 255, SPARE]);
        assert_eq!(prepare(0, reuse, [0xA0, 0x40, 9]), none);
        assert_eq!(prepare(10, reuse, [0xA0, 0x40, 9]), all);
    }
}

#[test]
fn ranges_of_equal_min_and_max() {
    let blob = Blob {
        min: 1 << 63,
        max: 0,
        valid: 1,
        mask: hex("01 00 80 00 80"),
        ..Blob::row(3, &hex("FF"))
    };
    let ranges = read_ranges(&blob.bytes(), &blob.header()).unwrap();
    let expected = Ranges {
        place: 75,
        constant: true,
        min: [1 << 63; 64],
        max: [0; 64],
    };
    assert_eq!(ranges, expected);
}

#[test]
fn ranges_of_each_depth() {
    let blob = Blob {
        kind: 2,
        depth: 3,
        ..Blob::row(3, &hex("FFFF 0500 0600  0100 0500 0700"))
    };
    let ranges = read_ranges(&blob.bytes(), &blob.header()).unwrap();
    assert_eq!((ranges.place, ranges.constant), (82, false));
    let bits = |values: [f64; 4]| values.map(f64::to_bits);
    assert_eq!(ranges.min[..4], bits([-1.0, 5.0, 6.0, 10.0]));
    assert_eq!(ranges.max[..4], bits([1.0, 5.0, 7.0, 12.0]));
    assert!(ranges.min[3..].iter().all(|&min| min == 10f64.to_bits()));
    assert!(ranges.max[3..].iter().all(|&max| max == 12f64.to_bits()));
}

#[test]
fn ranges_do_not_look_at_valid() {
    let blob = |body: &str| Blob {
        valid: 0,
        ..Blob::row(3, &hex(body))
    };
    let read = |body: &str| read_ranges(&blob(body).bytes(), &blob(body).header());
    assert_eq!(read("0A").err(), Some(Refusal::at(1, 70)));
    assert_eq!(read("0A 09").err(), Some(Refusal::at(7, 71)));
    assert_eq!(read("0A 0C").map(|ranges| ranges.place), Ok(72));
    assert_eq!(read("0A 0A").map(|ranges| ranges.constant), Ok(true));
    // The whole read does.
    let (_, blocks, end, _) = crate::lent::accepted(&blob("0A 09").bytes());
    assert_eq!((blocks, end), (0, 70));
}

#[test]
fn walk_then_fill() {
    let mut given = Given::new();
    assert_eq!(given.walk(), Ok((1, 79)));
    assert_eq!(given.list, [74]);
    assert_eq!(given.fill(0), Ok(3));
    assert_eq!(given.image, [10, 11, 12]);
}

#[test]
fn walk_refuses_in_order() {
    let mut given = Given::new();
    given.header.valid = 0;
    given.ranges.max[0] = 9f64.to_bits();
    given.list.clear();
    given.header.size = 80;
    given.header.side = 17;
    given.header.kind = 8;
    assert_eq!(given.walk(), Err(3));
    given.header.kind = 1;
    assert_eq!(given.walk(), Err(4));
    given.header.side = 8;
    assert_eq!(given.walk(), Err(1));
    given.header.size = 79;
    assert_eq!(given.walk(), Err(5));
    given.list.push(LIST);
    assert_eq!(given.walk(), Err(7));
    given.ranges.max[0] = 12f64.to_bits();
    assert_eq!(given.walk(), Err(10));
    given.header.valid = 3;
    assert_eq!(given.walk(), Ok((1, 79)));
}

#[test]
fn walk_needs_room_for_mask_and_list() {
    let mut given = Given::new();
    given.mask.clear();
    assert_eq!(given.walk(), Err(5));
    let mut given = Given::new();
    given.list.clear();
    // Room before the body's form.
    given.ranges.constant = true;
    assert_eq!(given.walk(), Err(5));
}

#[test]
fn walk_on_a_body_not_in_blocks() {
    let mut given = Given::new();
    given.ranges.constant = true;
    assert_eq!(given.walk(), Err(10));
    let mut given = Given::new();
    given.header.valid = 0;
    assert_eq!(given.walk(), Err(10));
    // Raw, even if its words are missing.
    let mut given = Given::new();
    given.bytes[72] = 1;
    given.header.size = 73;
    assert_eq!(given.walk(), Err(10));
    for mode in [1, 2] {
        let mut given = Given::new();
        given.bytes[73] = mode;
        assert_eq!(given.walk(), Err(10));
    }
}

#[test]
fn walk_takes_the_place_as_given() {
    for place in [79, 80, usize::MAX - 1, usize::MAX] {
        let mut given = Given::new();
        given.ranges.place = place;
        assert_eq!(given.walk(), Err(1));
        // An empty or constant body has no sweep byte to miss.
        given.ranges.constant = true;
        assert_eq!(given.walk(), Err(10));
    }
    let mut given = Given::new();
    given.ranges.place = 78;
    given.bytes[78] = 0;
    assert_eq!(given.walk(), Err(1));
    // Into the header, whose first byte is no sweep byte.
    given.ranges.place = 0;
    assert_eq!(given.walk(), Err(8));
}

#[test]
fn walk_takes_the_constant_mark_as_given() {
    let mut given = Given::new();
    given.header.max = given.header.min;
    assert_eq!(given.walk(), Ok((1, 79)));
    let mut given = Given::new();
    given.ranges.min[0] = 12f64.to_bits();
    assert_eq!(given.walk(), Ok((1, 79)));
}

#[test]
fn ranges_by_value_are_held_to_r7() {
    let words = [f64::NAN, f64::INFINITY, -f64::INFINITY].map(f64::to_bits);
    for word in words {
        let mut given = Given::new();
        given.ranges.max[0] = word;
        assert_eq!((given.walk(), given.fill(0)), (Err(7), Err(7)));
        let mut given = Given::new();
        given.ranges.min[0] = word;
        assert_eq!((given.walk(), given.fill(0)), (Err(7), Err(7)));
        // Entries past the depth are not looked at.
        let mut given = Given::new();
        given.ranges.min[1] = word;
        given.ranges.max[63] = word;
        assert_eq!(given.walk(), Ok((1, 79)));
        assert_eq!(given.fill(0), Ok(3));
    }
    let mut given = Given::new();
    given.ranges.max[0] = 9.5f64.to_bits();
    assert_eq!((given.walk(), given.fill(0)), (Err(7), Err(7)));
}

#[test]
fn ranges_of_other_depths_count_for_fill() {
    let blob = Blob {
        depth: 2,
        ..Blob::row(3, &hex("0A 0A 0C 0C 00 03 0A 03 0B"))
    };
    let (bytes, header) = (blob.bytes(), blob.header());
    let mut ranges = read_ranges(&bytes, &header).unwrap();
    ranges.max[1] = f64::NAN.to_bits();
    let mut image = [IMAGE; 6];
    let list = [75, 77];
    assert_eq!(
        fill(&bytes, &header, &ranges, &[255], &list, 0, &mut image),
        Err(Refusal::of(7))
    );
    ranges.max[1] = 12f64.to_bits();
    assert_eq!(
        fill(&bytes, &header, &ranges, &[255], &list, 0, &mut image),
        Ok(3)
    );
    assert_eq!(image, [10, IMAGE, 10, IMAGE, 10, IMAGE]);
    assert_eq!(
        fill(&bytes, &header, &ranges, &[255], &list, 1, &mut image),
        Ok(3)
    );
    assert_eq!(image, [10, 11, 10, 11, 10, 11]);
}

#[test]
fn values_past_the_kind_by_ranges_by_value() {
    // Offset 254 and count 3 give 257; only a maximum of the kind, which ranges
    // that were read always have, keeps it inside.
    let mut given = Given::new();
    given.bytes[75] = 254;
    given.bytes[78] = 0b11_11_11;
    given.ranges.max[0] = 255f64.to_bits();
    assert_eq!(given.walk(), Ok((1, 79)));
    given.ranges.max[0] = 300f64.to_bits();
    assert_eq!(given.walk(), Err(9));
    given.list[0] = 74;
    assert_eq!(given.fill(0), Err(9));
    // Below the kind: a negative maximum.
    let mut given = Given::new();
    given.ranges.min[0] = (-5f64).to_bits();
    given.ranges.max[0] = (-1f64).to_bits();
    assert_eq!(given.walk(), Err(9));
    // Counts that are not the tile's come before any value is converted.
    given.bytes[77] = 2;
    assert_eq!(given.walk(), Err(8));
}

#[test]
fn fill_refuses_in_order() {
    let mut given = Given::new();
    given.ranges.max[0] = 9f64.to_bits();
    given.list.clear();
    given.header.size = 80;
    given.header.side = 17;
    given.header.kind = 8;
    assert_eq!(given.fill(1), Err(3));
    given.header.kind = 1;
    assert_eq!(given.fill(1), Err(4));
    given.header.side = 8;
    assert_eq!(given.fill(1), Err(1));
    given.header.size = 79;
    assert_eq!(given.fill(1), Err(11));
    assert_eq!(given.fill(usize::MAX), Err(11));
    assert_eq!(given.fill(0), Err(5));
    given.list.push(79);
    assert_eq!(given.fill(0), Err(7));
    given.ranges.max[0] = 12f64.to_bits();
    assert_eq!(given.fill(0), Err(1));
    given.list[0] = 74;
    assert_eq!(given.fill(0), Ok(3));
}

#[test]
fn fill_needs_room_for_everything() {
    let short = |change: fn(&mut Given)| {
        let mut given = Given::new();
        given.list[0] = 74;
        change(&mut given);
        given.fill(0)
    };
    assert_eq!(short(|given| given.mask.clear()), Err(5));
    assert_eq!(short(|given| given.list.clear()), Err(5));
    assert_eq!(short(|given| given.image.truncate(2)), Err(5));
    assert_eq!(short(|_| ()), Ok(3));
}

#[test]
fn fill_needs_the_whole_list() {
    let blob = Blob::row(9, &hex("0A 0C 00 03 0A 07 0B"));
    let (bytes, header) = (blob.bytes(), blob.header());
    let ranges = read_ranges(&bytes, &header).unwrap();
    let mut image = [IMAGE; 9];
    assert_eq!(
        fill(&bytes, &header, &ranges, &[255; 2], &[73], 0, &mut image),
        Err(Refusal::of(5))
    );
    assert_eq!(
        fill(&bytes, &header, &ranges, &[255; 2], &[73, 0], 0, &mut image),
        Ok(8)
    );
    assert_eq!(image, [10, 10, 10, 10, 10, 10, 10, 10, IMAGE]);
    assert_eq!(
        fill(&bytes, &header, &ranges, &[255; 2], &[0, 75], 1, &mut image),
        Ok(1)
    );
    assert_eq!(image[8], 11);
    assert_eq!(
        fill(&bytes, &header, &ranges, &[255; 2], &[0, 75], 2, &mut image),
        Err(Refusal::of(11))
    );
}

#[test]
fn fill_reads_at_the_listed_start() {
    for start in [79, 80, usize::MAX] {
        let mut given = Given::new();
        given.list[0] = start;
        assert_eq!(given.fill(0), Err(1));
    }
    let mut given = Given::new();
    // 'L' has other check bits; the sweep byte 0 is a raw block, cut to size.
    given.list[0] = 0;
    assert_eq!(given.fill(0), Err(8));
    given.list[0] = 72;
    assert_eq!(given.fill(0), Ok(3));
    assert_eq!(given.image, [0, 1, 10]);
}

#[test]
fn fill_does_not_look_at_the_bodys_form() {
    let mut given = Given::new();
    given.list[0] = 74;
    given.bytes[72] = 9;
    given.bytes[73] = 9;
    given.ranges.constant = true;
    given.ranges.place = usize::MAX;
    given.header.valid = 0;
    assert_eq!(given.fill(0), Ok(3));
}

#[test]
fn a_lent_mask_is_not_compared_with_valid() {
    let mut given = Given::new();
    given.mask[0] = 0b0100_0000;
    // Three counts for one valid pixel.
    assert_eq!(given.walk(), Err(8));
    given.bytes[77] = 1;
    assert_eq!(given.walk(), Ok((1, 79)));
    assert_eq!(given.fill(0), Ok(1));
    assert_eq!(given.image, [IMAGE, 10, IMAGE]);
}
