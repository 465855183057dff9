//! The place of every refusal, with the sentence that it follows from.

use crate::blob::{hex, sealed, Blob};
use crate::given::Given;
use crate::lent::{refused_at, Lent};
use second::{packed_counts, prepare_mask, read_header, read_ranges, stored, word_size, Refusal};

const AT: fn(u32, usize) -> Refusal = Refusal::at;

/// One row of u8 pixels whose only block begins at 73.
fn one_block(body: &str) -> Blob {
    Blob::row(3, &hex(&format!("0A 0C 00 {body}")))
}

/// By a whole read, by a walk and by a fill.
fn block_refused(blob: &Blob, start: usize, expected: Refusal) {
    let whole = refused_at(&blob.bytes(), &vec![255; blob.header().mask_length()]);
    assert_eq!(whole, expected, "whole read");
    given_refused(Given::of(blob), start, expected);
}

/// By a walk, and by a fill of the block that begins at `start`, the last one.
fn given_refused(mut given: Given, start: usize, expected: Refusal) {
    assert_eq!(given.walk_at(), Err(expected), "walk");
    let last = given.list.len() - 1;
    given.list[last] = start;
    assert_eq!(given.fill_at(last), Err(expected), "fill");
}

/// "The place is the flag byte for any refusal inside a block."
#[test]
fn the_flag_byte_inside_a_block() {
    let faults = [
        // Check bits.
        ("07 0A", 8),
        // Raw words: none, one, two of three.
        ("00", 1),
        ("00 0A", 1),
        ("00 0A 0B", 1),
        // The offset's kind, the offset.
        ("43 0A", 8),
        ("03", 1),
        ("01", 1),
        // Head and number of the counts, their run.
        ("01 0A", 1),
        ("01 0A 82", 1),
        ("01 0A 42 03", 1),
        ("01 0A 82 03", 1),
        ("01 0A C2 03", 8),
        ("01 0A 40 01 01", 8),
        ("01 0A 82 02 24", 8),
        // A table: bits, entries, its run, indices.
        ("01 0A A0 03", 8),
        ("01 0A A4 03", 1),
        ("01 0A A4 03 01", 8),
        ("01 0A A4 03 03", 1),
        ("01 0A A4 03 03 95", 1),
        ("01 0A A4 03 03 95 1C", 8),
    ];
    for (body, number) in faults {
        block_refused(&one_block(body), 73, AT(number, 73));
    }
}

/// The same: an offset of several bytes that is not finite, or is cut.
#[test]
fn the_flag_byte_and_a_wide_offset() {
    let ranges = "00002041 00006041 00";
    for (block, number) in [
        ("03 0000C07F", 8),
        ("01 000080FF 82 03 24", 8),
        ("03 0000C0", 1),
        ("03", 1),
    ] {
        let blob = Blob {
            kind: 6,
            ..Blob::row(3, &hex(&format!("{ranges} {block}")))
        };
        block_refused(&blob, 79, AT(number, 79));
    }
}

/// The same, of a later block: not the body's first byte, nor the image's first
/// block.
#[test]
fn the_flag_byte_of_a_later_block() {
    for (body, number) in [("03 0B", 8), ("07", 1), ("05 0B C0", 8), ("04", 1)] {
        let blob = Blob::row(9, &hex(&format!("0A 0C 00 03 0A {body}")));
        block_refused(&blob, 75, AT(number, 75));
    }
    // The second depth of one tile.
    let blob = Blob {
        depth: 2,
        ..Blob::row(3, &hex("0A 0A 0C 0C 00 03 0A 07 0B"))
    };
    block_refused(&blob, 77, AT(8, 77));
}

/// "9 in a block": the flag byte, and not the count's.
#[test]
fn the_flag_byte_of_a_value_that_does_not_fit() {
    let mut given = Given::new();
    given.bytes[75] = 254;
    given.ranges.max[0] = 300f64.to_bits();
    given_refused(given, 74, AT(9, 74));
}

/// "Where the missing one should be", of a flag byte: the block's start.
#[test]
fn a_missing_flag_byte() {
    block_refused(&one_block(""), 73, AT(1, 73));
    let blob = Blob::row(9, &hex("0A 0C 00 03 0A"));
    block_refused(&blob, 75, AT(1, 75));
    // What is behind the size is not there.
    let mut behind = blob.bytes();
    behind.extend(hex("07 0B"));
    assert_eq!(refused_at(&behind, &[255; 2]), AT(1, 75));
}

/// "In a fill the listed start as given, however far out."
#[test]
fn a_listed_start_far_out() {
    let starts = [
        79,
        80,
        u32::MAX as usize,
        1 << 32,
        // The true start, but for digits above the 32nd.
        1 << 32 | 74,
        1 << 63 | 74,
        usize::MAX - 1,
        usize::MAX,
    ];
    for start in starts {
        let mut given = Given::new();
        given.list[0] = start;
        assert_eq!(given.fill_at(0), Err(AT(1, start)));
    }
}

const NAN: u32 = 0x7FC0_0000;
const INFINITY: u32 = 0x7F80_0000;

/// Two depths of f32: minima at 70 and 74, maxima at 78 and 82.
fn two_depths(minima: [u32; 2], maxima: [u32; 2]) -> Result<(), Refusal> {
    let words = [minima, maxima].concat();
    let body: Vec<u8> = words.into_iter().flat_map(u32::to_le_bytes).collect();
    let mut blob = Blob {
        kind: 6,
        depth: 2,
        ..Blob::row(3, &body)
    };
    let read = read_ranges(&blob.bytes(), &blob.header()).map(|_| ());
    // A sweep byte and two blocks, for the whole read.
    blob.body.extend(hex("00 02 02"));
    match read {
        Ok(()) => assert!(Lent::to_read(&blob.bytes())
            .read(&blob.bytes(), false)
            .is_ok()),
        Err(refusal) => assert_eq!(refused_at(&blob.bytes(), &[255]), refusal),
    }
    read
}

/// "For 7 the first byte of the first wrong number, depth by depth, minimum
/// before maximum, the maximum where it is the lesser."
#[test]
fn the_first_wrong_number_of_the_ranges() {
    let [one, two, three] = [1f32, 2.0, 3.0].map(f32::to_bits);
    let below = (-1f32).to_bits();
    assert_eq!(two_depths([one, one], [two, two]), Ok(()));
    let wrong = [
        // One wrong number, of each sort.
        ([NAN, one], [two, two], 70),
        ([INFINITY, one], [two, two], 70),
        ([one, NAN], [two, two], 74),
        ([one, one], [NAN, two], 78),
        ([one, one], [INFINITY, two], 78),
        ([one, one], [two, INFINITY], 82),
        // The maximum where it is the lesser.
        ([three, one], [two, two], 78),
        ([one, three], [two, two], 82),
        ([one, one], [two, below], 82),
        // Both of a pair: the minimum's, since it comes before.
        ([NAN, one], [NAN, two], 70),
        ([one, NAN], [two, INFINITY], 74),
        // Depth by depth, though the later depth's minimum comes first in the
        // blob.
        ([three, NAN], [two, two], 78),
        ([one, NAN], [NAN, two], 78),
        ([one, NAN], [INFINITY | 1 << 31, two], 78),
        ([three, three], [two, two], 78),
    ];
    for (minima, maxima, place) in wrong {
        let refused = two_depths(minima, maxima);
        assert_eq!(refused, Err(AT(7, place)), "{minima:x?} {maxima:x?}");
    }
}

/// The same: the places are those of numbers of the kind, behind the mask.
#[test]
fn the_first_wrong_number_of_each_kind() {
    for kind in 0..8 {
        let size = word_size(kind);
        // Minima 0 0 1, maxima 0 0 0.
        let mut body = vec![0; 6 * size];
        let one = word_of_one(kind);
        body[2 * size..3 * size].copy_from_slice(&one[..size]);
        let blob = Blob {
            kind,
            depth: 3,
            valid: 2,
            mask: hex("01 00 A0 00 80"),
            ..Blob::row(3, &body)
        };
        let expected = AT(7, 75 + 5 * size);
        let read = read_ranges(&blob.bytes(), &blob.header());
        assert_eq!(read, Err(expected), "kind {kind}");
        assert_eq!(refused_at(&blob.bytes(), &[0xA0]), expected);
    }
}

fn word_of_one(kind: u32) -> [u8; 8] {
    stored(1f64.to_bits(), kind).unwrap().to_le_bytes()
}

/// "0 for ranges by value."
#[test]
fn ranges_by_value_have_no_place() {
    let words = [f64::NAN, f64::INFINITY, 9.5].map(f64::to_bits);
    for word in words {
        let mut given = Given::new();
        given.ranges.max[0] = word;
        given_refused(given, 74, AT(7, 0));
    }
    let mut given = Given::new();
    given.ranges.min[0] = f64::NAN.to_bits();
    given_refused(given, 74, AT(7, 0));
}

/// "66 for 6."
#[test]
fn every_wrong_mask() {
    let sections = [
        // The section, valid pixels of ten, reuse.
        ("00 00", 3, false),
        ("02 00 A0 40", 3, false),
        ("02 00 A0 00 00 80", 3, true),
        ("02 00 A0 40 00 80 00", 3, false),
        // Mask bytes that must be 0.
        ("01 00 E0 00 80", 10, false),
        ("00", 0, true),
        // No section: no reuse, or a kept mask with another count.
        ("", 3, false),
        ("", 3, true),
    ];
    for (section, valid, reuse) in sections {
        let blob = Blob {
            valid,
            mask: hex(section),
            ..Blob::row(10, &[])
        };
        let (bytes, header) = (blob.bytes(), blob.header());
        let mut lent = Lent::to_read(&bytes);
        assert_eq!(lent.read(&bytes, reuse), Err(AT(6, 66)), "{section}");
        // The header by value, too.
        let kept = [0xFF; 2];
        let prepared = prepare_mask(&bytes, &header, reuse, &kept, &mut [0; 2]);
        assert_eq!(prepared, Err(AT(6, 66)), "{section}");
    }
}

/// "The sweep or mode byte for a fault in it, 10 included, or where the missing
/// one should be." First the sweep byte.
#[test]
fn the_sweep_byte() {
    for (body, number) in [("0A 0C", 1), ("0A 0C 02", 8), ("0A 0C FF", 8)] {
        let blob = Blob::row(3, &hex(body));
        assert_eq!(refused_at(&blob.bytes(), &[255]), AT(number, 72));
        assert_eq!(Given::of(&blob).walk_at(), Err(AT(number, 72)));
    }
    // Raw in a walk, even if its words are missing.
    for body in ["0A 0C 01 0A 0B 0C", "0A 0C 01"] {
        let mut given = Given::of(&Blob::row(3, &hex(body)));
        assert_eq!(given.walk_at(), Err(AT(10, 72)));
    }
}

/// The same in a walk, whose place of the body is taken as given.
#[test]
fn the_sweep_byte_where_it_is_said_to_be() {
    let far = [79, 80, 1 << 32, 1 << 32 | 72, usize::MAX - 1, usize::MAX];
    for place in far {
        let mut given = Given::new();
        given.ranges.place = place;
        assert_eq!(given.walk_at(), Err(AT(1, place)));
    }
    // "Lerc2 " begins with no sweep byte, and 14 holds the 1 of the rows.
    for (place, number) in [(0, 8), (3, 8), (14, 10)] {
        let mut given = Given::new();
        given.ranges.place = place;
        assert_eq!(given.walk_at(), Err(AT(number, place)));
    }
}

/// The same, of the mode byte: its own place and not the sweep byte's.
#[test]
fn the_mode_byte() {
    let faults = [
        ("0A 0C 00", 1),
        ("0A 0C 00 03", 8),
        ("0A 0C 00 FF 01 0A 82 03 24", 8),
    ];
    for (body, number) in faults {
        for kind in [0, 1] {
            let blob = Blob {
                kind,
                body: hex(body),
                ..Blob::whole()
            };
            assert_eq!(refused_at(&blob.bytes(), &[255]), AT(number, 73));
            assert_eq!(Given::of(&blob).walk_at(), Err(AT(number, 73)));
        }
    }
    // What is missing behind it is told by it; a walk does not look there.
    for body in ["0A 0C 00 01", "0A 0C 00 02 04000000 00"] {
        let blob = Blob {
            body: hex(body),
            ..Blob::whole()
        };
        assert_eq!(refused_at(&blob.bytes(), &[255]), AT(1, 73));
        assert_eq!(Given::of(&blob).walk_at(), Err(AT(10, 73)));
    }
}

/// "0 for all else": a walk on an empty or a constant body.
#[test]
fn a_walk_on_an_empty_or_constant_body() {
    // The body's place does not matter.
    for place in [0, 72, usize::MAX] {
        let mut given = Given::new();
        given.ranges.place = place;
        given.header.valid = 0;
        assert_eq!(given.walk_at(), Err(AT(10, 0)));
        given.ranges.constant = true;
        assert_eq!(given.walk_at(), Err(AT(10, 0)));
        given.header.valid = 3;
        assert_eq!(given.walk_at(), Err(AT(10, 0)));
    }
}

/// "The missing raw word's first byte": of the first word that is not whole,
/// and not the first byte that is missing.
#[test]
fn a_raw_body_cut_at_every_byte() {
    for kind in 0..8 {
        let size = word_size(kind);
        let mut body = vec![0; 4 * size];
        body[3 * size..].copy_from_slice(&word_of_one(kind)[..size]);
        body.push(1);
        let first = 75 + body.len();
        // Two valid pixels of three, two depths: four words.
        body.extend(vec![7; 4 * size]);
        let blob = Blob {
            kind,
            depth: 2,
            valid: 2,
            mask: hex("01 00 A0 00 80"),
            ..Blob::row(3, &body)
        };
        let whole = blob.bytes();
        for end in first..whole.len() {
            let mut words = (first..).step_by(size);
            let place = words.find(|word| word + size > end).unwrap();
            let mut bytes = whole.clone();
            // Bytes behind the size do not count as there.
            bytes[34..38].copy_from_slice(&(end as u32).to_le_bytes());
            let refused = refused_at(&sealed(bytes), &[0xA0]);
            assert_eq!(refused, AT(1, place), "kind {kind}, size {end}");
        }
    }
}

/// The same, once in plain numbers: words of two bytes at 75, 77 and 79.
#[test]
fn a_raw_body_of_three_words() {
    let places = [75, 75, 77, 77, 79, 79];
    let body = hex("0A00 0C00 01 0A00 0B00 0C00");
    for (there, place) in places.into_iter().enumerate() {
        let blob = Blob {
            kind: 3,
            ..Blob::row(3, &body[..5 + there])
        };
        assert_eq!(refused_at(&blob.bytes(), &[255]), AT(1, place));
    }
}

/// "The first range byte where the ranges do not fit", however many of them do.
#[test]
fn ranges_that_do_not_fit() {
    for (mask, valid) in [("", 3), ("01 00 A0 00 80", 2)] {
        for there in 0..16 {
            // The minimum that is there is not finite; it is not judged.
            let words = hex("0000C07F 0000C07F 0000C07F 0000C07F");
            let blob = Blob {
                kind: 6,
                depth: 2,
                valid,
                mask: hex(mask),
                ..Blob::row(3, &words[..there])
            };
            let expected = AT(1, 70 + blob.mask.len());
            let read = read_ranges(&blob.bytes(), &blob.header());
            assert_eq!(read, Err(expected));
            let mask = if valid == 3 { 255 } else { 0xA0 };
            assert_eq!(refused_at(&blob.bytes(), &[mask]), expected);
        }
    }
}

/// "0 for all else": what is told of the header or of the slices alone.
#[test]
fn no_place_before_the_mask() {
    let whole = Blob::whole().bytes();
    let read = |bytes: &[u8]| Lent::to_read(bytes).read(bytes, false);
    for length in 0..79 {
        assert_eq!(read(&whole[..length]), Err(AT(1, 0)));
        assert_eq!(read_header(&whole[..length]), Err(AT(1, 0)));
    }
    let changes = [
        (0, 7, 2),
        (6, 5, 2),
        (30, 0, 3),
        (38, 8, 3),
        (30, 17, 4),
        // The checksum itself, and the first and the last byte that it sums.
        (10, 0, 13),
        (14, 2, 13),
        (78, 0, 13),
    ];
    for (at, value, number) in changes {
        let mut bytes = whole.clone();
        bytes[at] = value;
        assert_eq!(read(&bytes), Err(AT(number, 0)));
        assert_eq!(read_header(&bytes), Err(AT(number, 0)));
    }
    assert_eq!(Lent::of(0, 0, 0).read(&whole, false), Err(AT(5, 0)));
}

type Change = fn(&mut Given);

/// The same of steps by value: 3, 4, 1, 5 and 11.
#[test]
fn no_place_of_what_is_by_value() {
    let changes: [(Change, u32); 4] = [
        (|given| given.header.kind = 8, 3),
        (|given| given.header.side = 17, 4),
        (|given| given.header.size = 80, 1),
        (|given| given.mask.clear(), 5),
    ];
    for (change, number) in changes {
        let mut given = Given::new();
        change(&mut given);
        given_refused(given, 74, AT(number, 0));
    }
    for number in [1, usize::MAX] {
        assert_eq!(Given::new().fill_at(number), Err(AT(11, 0)));
    }
}

/// "0 for all else": a constant that its kind does not hold.
#[test]
fn no_place_of_a_constant() {
    let too_large = 300f64.to_bits();
    let blob = Blob {
        min: too_large,
        max: too_large,
        ..Blob::row(3, &[])
    };
    assert_eq!(refused_at(&blob.bytes(), &[255]), AT(9, 0));
    // By the ranges none is: they are of the image's kind.
    assert_eq!(stored(too_large, 1), Err(AT(9, 0)));
}

/// "The lowest readers shall promise a place with each number": packed counts
/// by themselves have their first byte's.
#[test]
fn packed_counts_by_themselves() {
    let faults = [
        ("", 1),
        ("82", 1),
        ("82 03", 1),
        ("C2 03 39", 8),
        ("40 01 01", 8),
        ("A4 03 01", 8),
        ("A4 03 03 95 1C", 8),
    ];
    for (counts, number) in faults {
        for at in [0, 5] {
            let bytes = [vec![0xEE; at], hex(counts)].concat();
            let refused = packed_counts(&bytes, at, &mut [0; 256]);
            assert_eq!(refused, Err(AT(number, at)), "{counts}");
        }
    }
    let refused = packed_counts(&[0; 9], usize::MAX, &mut [0; 256]);
    assert_eq!(refused, Err(AT(1, usize::MAX)));
}

/// "The program writes 'refused 8 at 74'."
#[test]
fn as_text() {
    assert_eq!(AT(8, 74).to_string(), "refused 8 at 74");
    assert_eq!(
        AT(1, usize::MAX).to_string(),
        "refused 1 at 18446744073709551615"
    );
}
