//! Every refusal number of the whole read, in several ways. The helpers also
//! check that the lent slices are left as the rules say.

use crate::blob::{header_bytes, hex, sealed, Blob};
use crate::lent::{accepted, cells, refused, refused_after, Lent};
use second::{read_header, Refusal};

const ALL_VALID: [u8; 1] = [255];

/// A row of u8 pixels, all valid; the body begins with the ranges.
fn row_refused(columns: u32, body: &str) -> u32 {
    refused_after(&Blob::row(columns, &hex(body)).bytes(), &ALL_VALID)
}

#[test]
fn r1_slice_shorter_than_the_header() {
    let bytes = Blob::whole().bytes();
    for length in 0..70 {
        assert_eq!(read_header(&bytes[..length]), Err(Refusal::of(1)));
        assert_eq!(refused(&bytes[..length]), 1);
    }
    // Before the key is looked at.
    assert_eq!(refused(&[0; 69]), 1);
}

#[test]
fn r1_slice_shorter_than_the_size() {
    let bytes = Blob::whole().bytes();
    for length in 70..79 {
        assert_eq!(refused(&bytes[..length]), 1);
    }
}

#[test]
fn r1_body_passes_the_declared_size() {
    // Every byte of this body is needed, though the slice has them all.
    let bytes = Blob::whole().bytes();
    for size in 70..79 {
        let mut bytes = bytes.clone();
        bytes[34] = size;
        let bytes = sealed(bytes);
        assert_eq!(refused_after(&bytes, &ALL_VALID), 1, "size {size}");
    }
}

#[test]
fn r1_each_form_of_body_cut_short() {
    let bodies = [
        "0A 0C 01 0A 0B 0C",
        "0A 0C 00 00 0A 0B 0C",
        "0A 0C 00 03 0A",
        "0A 0C 00 01 0A 82 03 24",
        "0A 0C 00 01 0A 42 03 00 24",
        "0A 0C 00 01 0A 02 03 00 00 00 24",
        "0A 0C 00 01 0A A4 03 03 95 18",
        "0A 0C 00 01 0A BF 03 03 FF FF FF FF FF FF FF FF 18",
        "0A 0C 00 01 0A 80 03",
    ];
    for body in bodies {
        let bytes = hex(body);
        assert_eq!(accepted(&Blob::row(3, &bytes).bytes()).2, 70 + bytes.len());
        for length in 0..bytes.len() {
            let blob = Blob::row(3, &bytes[..length]);
            assert_eq!(
                refused_after(&blob.bytes(), &ALL_VALID),
                1,
                "{body}, {length}"
            );
        }
    }
}

#[test]
fn r1_ranges_must_be_there_before_one_is_judged() {
    let mut blob = Blob {
        kind: 6,
        depth: 2,
        ..Blob::row(3, &hex("0000C07F 0000C07F 0000C07F 0000C0"))
    };
    assert_eq!(refused_after(&blob.bytes(), &ALL_VALID), 1);
    blob.body.push(0x7F);
    assert_eq!(refused_after(&blob.bytes(), &ALL_VALID), 7);
}

#[test]
fn r1_runs_must_be_there_before_their_content_is_judged() {
    // An index past the table in a run that is cut: 8 indices of 2 bits.
    assert_eq!(row_refused(8, "0A 0C 00 01 0A A4 08 03 95 FF"), 1);
    assert_eq!(row_refused(8, "0A 0C 00 01 0A A4 08 03 95 FF FF"), 8);
    // A count that is not the tile's, in front of a run that is cut.
    assert_eq!(row_refused(3, "0A 0C 00 01 0A 82 05 24"), 1);
    assert_eq!(row_refused(3, "0A 0C 00 01 0A 82 05 24 00"), 8);
}

#[test]
fn r1_second_block() {
    assert_eq!(
        refused_after(&Blob::row(9, &hex("0A 0C 00 03 0A")).bytes(), &[255; 2]),
        1
    );
    assert_eq!(
        refused_after(&Blob::row(9, &hex("0A 0C 00 03 0A 07")).bytes(), &[255; 2]),
        1
    );
}

#[test]
fn r2_key_and_version() {
    let bytes = Blob::whole().bytes();
    for at in 0..10 {
        for change in [1, 0x20, 0x80] {
            let mut bytes = bytes.clone();
            bytes[at] ^= change;
            assert_eq!(refused(&bytes), 2);
        }
    }
    for version in [0u32, 1, 2, 3, 5, 6, u32::MAX] {
        let mut bytes = bytes.clone();
        bytes[6..10].copy_from_slice(&version.to_le_bytes());
        assert_eq!(refused(&bytes), 2);
    }
}

#[test]
fn r2_before_r3() {
    let mut bytes = [0; 70];
    assert_eq!(refused(&bytes), 2);
    bytes[..6].copy_from_slice(b"Lerc2 ");
    bytes[6] = 4;
    assert_eq!(refused(&bytes), 3);
}

fn changed(change: impl Fn(&mut Blob)) -> Vec<u8> {
    let mut blob = Blob::whole();
    change(&mut blob);
    blob.bytes()
}

#[test]
fn r3_fields_at_least_one() {
    assert_eq!(refused(&changed(|b| b.rows = 0)), 3);
    assert_eq!(refused(&changed(|b| b.columns = 0)), 3);
    assert_eq!(refused(&changed(|b| b.depth = 0)), 3);
    assert_eq!(refused(&changed(|b| b.side = 0)), 3);
}

#[test]
fn r3_valid_and_kind() {
    assert_eq!(refused(&changed(|b| b.valid = 4)), 3);
    assert_eq!(refused(&changed(|b| b.valid = u32::MAX)), 3);
    assert_eq!(refused(&changed(|b| b.kind = 8)), 3);
    assert_eq!(refused(&changed(|b| b.kind = u32::MAX)), 3);
}

#[test]
fn r3_error() {
    let two_1023 = 0x7FE0_0000_0000_0000;
    let wrong = [
        (-0.0f64).to_bits(),
        (-1.0f64).to_bits(),
        two_1023,
        f64::MAX.to_bits(),
        f64::INFINITY.to_bits(),
        f64::NAN.to_bits(),
        u64::MAX,
    ];
    for error in wrong {
        assert_eq!(refused(&changed(|b| b.error = error)), 3);
    }
    assert!(read_header(&changed(|b| b.error = two_1023 - 1)).is_ok());
    assert!(read_header(&changed(|b| b.error = 0)).is_ok());
}

#[test]
fn r3_min_and_max() {
    let infinities = [f64::INFINITY, -f64::INFINITY, f64::NAN, -f64::NAN];
    for wrong in infinities.map(f64::to_bits) {
        assert_eq!(refused(&changed(|b| b.min = wrong)), 3);
        assert_eq!(refused(&changed(|b| b.max = wrong)), 3);
    }
    assert_eq!(
        refused(&changed(|b| b.max = 10f64.next_down().to_bits())),
        3
    );
    assert_eq!(refused(&changed(|b| b.max = (-10f64).to_bits())), 3);
    // A maximum of -0 is not less than a minimum of +0.
    let zeros = changed(|b| (b.min, b.max) = (0, 1 << 63));
    assert!(read_header(&zeros).is_ok());
}

#[test]
fn r3_size() {
    assert_eq!(refused(&changed(|b| b.size = Some(69))), 3);
    assert_eq!(refused(&changed(|b| b.size = Some(0))), 3);
    let mut blob = Blob {
        valid: 1,
        mask: hex("01 00 80 00 80"),
        ..Blob::row(3, &[])
    };
    assert!(read_header(&blob.bytes()).is_ok());
    blob.size = Some(74);
    assert_eq!(refused(&blob.bytes()), 3);
    // 70 more than the greatest number of mask bytes passes 32 bits.
    let mut header = Blob::whole().header();
    header.mask = u32::MAX;
    assert_eq!(refused(&header_bytes(&header)), 3);
}

#[test]
fn r3_before_r4_and_r1() {
    assert_eq!(refused(&changed(|b| (b.rows, b.kind) = (5000, 8))), 3);
    assert_eq!(refused(&changed(|b| (b.size, b.kind) = (Some(80), 8))), 3);
}

#[test]
fn r4_ceilings() {
    assert_eq!(refused(&changed(|b| b.rows = 4097)), 4);
    assert_eq!(refused(&changed(|b| b.columns = 4097)), 4);
    assert_eq!(refused(&changed(|b| b.depth = 65)), 4);
    assert_eq!(refused(&changed(|b| b.side = 17)), 4);
    assert_eq!(refused(&changed(|b| b.side = u32::MAX)), 4);
    assert_eq!(refused(&changed(|b| (b.rows, b.columns) = (1025, 4096))), 4);
    let all = |b: &mut Blob| (b.rows, b.columns, b.depth) = (u32::MAX, u32::MAX, u32::MAX);
    assert_eq!(refused(&changed(all)), 4);
    let cells = |b: &mut Blob| (b.rows, b.columns, b.depth) = (4096, 4096, 64);
    assert_eq!(refused(&changed(cells)), 4);
}

#[test]
fn r4_size() {
    assert_eq!(refused(&changed(|b| b.size = Some(16_777_217))), 4);
    // At the ceiling it is the slice that is too short.
    let mut bytes = changed(|b| b.size = Some(16_777_216));
    assert_eq!(refused(&bytes), 1);
    bytes.resize(16_777_215, 0);
    assert_eq!(refused(&bytes), 1);
    bytes.push(0);
    assert_eq!(cells(&sealed(bytes)), [10, 11, 12]);
}

#[test]
fn r4_ceilings_may_be_reached() {
    let sizes = [(4096, 1024, 1), (1024, 4096, 1), (256, 256, 64)];
    for (rows, columns, depth) in sizes {
        let blob = Blob {
            rows,
            columns,
            depth,
            valid: rows * columns,
            side: 16,
            max: 10f64.to_bits(),
            ..Blob::row(1, &[])
        };
        assert!(cells(&blob.bytes()).iter().all(|&word| word == 10));
    }
}

#[test]
fn r5_each_slice_for_every_body() {
    let constant = Blob {
        max: 10f64.to_bits(),
        ..Blob::row(3, &[])
    };
    let empty = Blob {
        valid: 0,
        ..Blob::row(3, &[])
    };
    let raw = Blob::row(3, &hex("0A 0C 01 0A 0B 0C"));
    // The mask section and the body are wrong, but room comes first.
    let wrong = Blob {
        valid: 2,
        ..Blob::row(3, &hex("FF"))
    };
    for blob in [Blob::whole(), constant, empty, raw, wrong] {
        let bytes = blob.bytes();
        for reuse in [false, true] {
            short_by_one(&bytes, reuse);
        }
    }
}

fn short_by_one(bytes: &[u8], reuse: bool) {
    let header = read_header(bytes).unwrap();
    let full = Lent::of(header.mask_length(), header.blocks(), header.cells());
    for slice in 0..4 {
        let mut lent = full.clone();
        match slice {
            0 => lent.kept.truncate(full.kept.len() - 1),
            1 => lent.spare.truncate(full.spare.len() - 1),
            2 => lent.list.truncate(full.list.len() - 1),
            _ => lent.image.truncate(full.image.len() - 1),
        }
        let before = lent.clone();
        assert_eq!(lent.read(bytes, reuse), Err(Refusal::of(5)));
        assert_eq!(lent, before);
    }
    assert_ne!(full.clone().read_number(bytes, reuse), Err(5));
}

#[test]
fn r5_after_the_header_refusals() {
    let mut none = Lent::of(0, 0, 0);
    assert_eq!(
        none.read_number(&Blob::whole().bytes()[..78], false),
        Err(1)
    );
    assert_eq!(none.read_number(&changed(|b| b.side = 0), false), Err(3));
    assert_eq!(none.read_number(&changed(|b| b.side = 17), false), Err(4));
    assert_eq!(none.read_number(&Blob::whole().bytes(), false), Err(5));
}

/// A row of `columns` with `valid` pixels by a mask section.
fn masked(columns: u32, valid: u32, section: &str) -> Vec<u8> {
    let blob = Blob {
        valid,
        mask: hex(section),
        max: 10f64.to_bits(),
        ..Blob::row(columns, &[])
    };
    blob.bytes()
}

#[test]
fn r6_uniform_masks_have_no_section() {
    assert_eq!(refused(&masked(3, 3, "01 00 E0 00 80")), 6);
    assert_eq!(refused(&masked(3, 0, "01 00 00 00 80")), 6);
    assert_eq!(refused(&masked(3, 3, "00")), 6);
}

#[test]
fn r6_no_section_and_no_reuse() {
    assert_eq!(refused(&masked(3, 1, "")), 6);
}

#[test]
fn r6_runs() {
    let wrong = [
        // No end, half an end, half a run head.
        "02 00 A0 40",
        "02 00 A0 40 00",
        "02 00 A0 40 80",
        "02",
        // A run that passes the section, copied and repeated.
        "03 00 A0 40",
        "FE FF",
        // Too few and too many bytes, none at all.
        "01 00 A0 00 80",
        "03 00 A0 40 00 00 80",
        "FD FF A0 00 80",
        "00 80",
        // A run of 0, in front and behind.
        "00 00 02 00 A0 40 00 80",
        "02 00 A0 40 00 00 00 80",
        // Something after the end.
        "02 00 A0 40 00 80 00",
        "02 00 A0 40 00 80 00 80",
        // The longest runs.
        "FF 7F A0 40 00 80",
        "01 80 A0 00 80",
        // Not three pixels.
        "02 00 A0 00 00 80",
        "02 00 A0 C0 00 80",
        "FE FF FF 00 80",
        // Three bits, but one lies behind the last pixel.
        "02 00 A0 20 00 80",
    ];
    for section in wrong {
        assert_eq!(refused(&masked(10, 3, section)), 6, "{section}");
    }
    let right = [
        "02 00 A0 40 00 80",
        "01 00 A0 01 00 40 00 80",
        "FF FF A0 FF FF 40 00 80",
        // Bits behind the last pixel are not looked at.
        "02 00 A0 7F 00 80",
    ];
    for section in right {
        let (header, _, end, lent) = accepted(&masked(10, 3, section));
        assert_eq!(end, header.size as usize);
        assert_eq!(lent.kept[0], 0xA0);
        assert_eq!(lent.kept[1] & 0xC0, 0x40);
    }
}

#[test]
fn r6_long_runs() {
    // 4,096 bytes of mask from one run; 32,767 is the longest.
    let blob = Blob {
        rows: 8,
        valid: 4 * 4096,
        mask: hex("00 F0 AA 00 80"),
        max: 10f64.to_bits(),
        ..Blob::row(4096, &[])
    };
    let (_, _, _, lent) = accepted(&blob.bytes());
    assert_eq!(lent.kept[..4096], [0xAA; 4096]);
    let longest = Blob {
        rows: 64,
        valid: 4 * 32_767,
        mask: hex("01 80 AA 01 00 00 00 80"),
        ..blob
    };
    let (_, _, _, lent) = accepted(&longest.bytes());
    assert_eq!(
        lent.kept[..32_768].iter().filter(|&&b| b == 0xAA).count(),
        32_767
    );
}

#[test]
fn r6_kept_mask_with_another_count() {
    let bytes = masked(10, 3, "");
    let mut lent = Lent::to_read(&bytes);
    lent.kept[..2].copy_from_slice(&[0xA0, 0x3F]);
    let before = lent.clone();
    assert_eq!(lent.read(&bytes, true), Err(Refusal::at(6, 66)));
    assert_eq!(lent, before);
    lent.kept[1] = 0x7F;
    assert!(lent.read(&bytes, true).is_ok());
}

#[test]
fn r6_before_the_body() {
    let blob = Blob {
        valid: 2,
        ..Blob::row(3, &hex("FF FF FF FF"))
    };
    assert_eq!(refused(&blob.bytes()), 6);
}

#[test]
fn r7_ranges() {
    assert_eq!(row_refused(3, "0C 0A 00 03 0B"), 7);
    // Crossed as numbers of the kind, at any depth.
    let two = |body: &str| {
        let blob = Blob {
            depth: 2,
            ..Blob::row(3, &hex(body))
        };
        refused_after(&blob.bytes(), &ALL_VALID)
    };
    assert_eq!(two("0A 0C 0C 0B 00"), 7);
    assert_eq!(two("0A 0C 09 0C 00"), 7);
    let kind_0 = |body: &str| Blob {
        kind: 0,
        ..Blob::row(3, &hex(body))
    };
    assert_eq!(refused_after(&kind_0("01 FF 02").bytes(), &ALL_VALID), 7);
    assert_eq!(refused_after(&kind_0("FF 01 02").bytes(), &ALL_VALID), 8);
}

#[test]
fn r7_ranges_not_finite() {
    let float = |body: &str| {
        let blob = Blob {
            kind: 6,
            ..Blob::row(3, &hex(body))
        };
        refused_after(&blob.bytes(), &ALL_VALID)
    };
    assert_eq!(float("00002041 0000807F"), 7);
    assert_eq!(float("000080FF 00002041"), 7);
    assert_eq!(float("00002041 0000C07F"), 7);
    assert_eq!(float("0100807F 00002041"), 7);
    assert_eq!(float("0000807F 0000807F"), 7);
    let double = |body: &str| {
        let blob = Blob {
            kind: 7,
            ..Blob::row(3, &hex(body))
        };
        refused_after(&blob.bytes(), &ALL_VALID)
    };
    assert_eq!(double("0000000000002440 000000000000F07F"), 7);
    assert_eq!(double("000000000000F87F 0000000000002440"), 7);
}

#[test]
fn r8_sweep_and_mode() {
    for sweep in [2, 3, 128, 255] {
        let blob = Blob::row(3, &[10, 12, sweep, 10, 11, 12]);
        assert_eq!(refused_after(&blob.bytes(), &ALL_VALID), 8);
    }
    for mode in [3, 4, 128, 255] {
        for kind in [0, 1] {
            let mut blob = Blob::whole();
            blob.kind = kind;
            blob.body[3] = mode;
            assert_eq!(refused_after(&blob.bytes(), &ALL_VALID), 8);
        }
    }
}

#[test]
fn r8_check_bits() {
    for check in 0..16 {
        let body = [10, 12, 0, check * 4 + 3, 10];
        let bytes = Blob::row(3, &body).bytes();
        if check == 0 {
            assert_eq!(cells(&bytes), [10; 3]);
        } else {
            assert_eq!(refused_after(&bytes, &ALL_VALID), 8);
        }
    }
}

/// All offset kinds of the rules; 8 is none.
pub const OFFSET_KINDS: [[u32; 4]; 8] = [
    [0, 8, 8, 8],
    [1, 8, 8, 8],
    [2, 1, 0, 8],
    [3, 1, 8, 8],
    [4, 3, 2, 1],
    [5, 3, 1, 8],
    [6, 2, 1, 8],
    [7, 6, 4, 2],
];

#[test]
fn r8_offset_kinds() {
    for kind in 0..8u32 {
        let codes = OFFSET_KINDS[kind as usize].into_iter().zip(0u8..);
        for (_, code) in codes.filter(|&(offset_kind, _)| offset_kind == 8) {
            for low in [1, 3] {
                let mut body = vec![0; 2 * second::word_size(kind)];
                // A maximum above the minimum, whatever the kind.
                *body.last_mut().unwrap() = 1;
                // The offset is missing, but its kind is judged first.
                body.extend([0, code * 64 + low]);
                let blob = Blob {
                    kind,
                    ..Blob::row(3, &body)
                };
                assert_eq!(refused_after(&blob.bytes(), &ALL_VALID), 8);
            }
        }
    }
}

#[test]
fn r8_offset_not_finite() {
    let float = |kind: u32, body: &str| {
        let blob = Blob {
            kind,
            ..Blob::row(3, &hex(body))
        };
        refused_after(&blob.bytes(), &ALL_VALID)
    };
    for word in ["0000807F", "000080FF", "0000C07F", "0100807F"] {
        for flag in ["01", "03"] {
            assert_eq!(
                float(6, &format!("00002041 00006041 00 {flag} {word} 82 03 24")),
                8
            );
        }
        let ranges = "0000000000002440 0000000000002C40";
        assert_eq!(float(7, &format!("{ranges} 00 43 {word}")), 8);
    }
    for word in ["000000000000F07F", "010000000000F0FF"] {
        let ranges = "0000000000002440 0000000000002C40";
        assert_eq!(float(7, &format!("{ranges} 00 03 {word}")), 8);
    }
}

#[test]
fn r8_packed_counts() {
    let wrong = [
        // No width for the count, before the count is missed.
        "C2",
        "E2",
        // More than 256, in two and four bytes.
        "40 01 01",
        "00 01 01 00 00",
        "00 03 00 00 80",
        "1F FF FF FF FF",
        // Not the tile's three pixels.
        "82 02 24",
        "82 04 24",
        "80 00",
        "80 04",
        "00 04 00 00 00",
        // A table of no bits, of no entry, of one entry.
        "A0 03",
        "A4 03 00",
        "A4 03 01",
        // An index past the table, first and last.
        "A4 03 03 95 1C",
        "A4 03 03 95 37",
        "A4 03 03 95 33",
        // Counts by table that are not the tile's.
        "A4 02 03 95 08",
        "A4 04 03 95 18",
        // 300 counts and a table of no bits.
        "60 2C 01",
    ];
    for counts in wrong {
        assert_eq!(
            row_refused(3, &format!("0A 0C 00 01 0A {counts}")),
            8,
            "{counts}"
        );
    }
}

#[test]
fn r8_counts_of_a_masked_tile() {
    let blob = |body: &str| Blob {
        valid: 2,
        mask: hex("01 00 A0 00 80"),
        ..Blob::row(3, &hex(body))
    };
    assert_eq!(
        refused_after(&blob("0A 0C 00 01 0A 82 03 24").bytes(), &[0xA0]),
        8
    );
    let bytes = blob("0A 0C 00 01 0A 82 02 04").bytes();
    assert_eq!(cells(&bytes), [10, crate::lent::IMAGE, 12]);
}

#[test]
fn r8_in_a_later_block_leaves_the_image() {
    // The first block is right; its cells must not show.
    let blob = Blob::row(9, &hex("0A 0C 00 03 0A 03 0B"));
    assert_eq!(refused_after(&blob.bytes(), &[255; 2]), 8);
}

fn constant(kind: u32, value: f64) -> Vec<u8> {
    let blob = Blob {
        kind,
        min: value.to_bits(),
        max: value.to_bits(),
        ..Blob::row(3, &[])
    };
    blob.bytes()
}

#[test]
fn r9_constants_outside_their_kind() {
    let wrong = [
        (0, 128.0),
        (0, -129.0),
        (1, 256.0),
        (1, -1.0),
        (2, 32768.0),
        (2, -32769.0),
        (3, 65536.0),
        (3, -1.0),
        (4, 2147483648.0),
        (4, -2147483649.0),
        (5, 4294967296.0),
        (5, -1.0),
        (5, 1e308),
    ];
    for (kind, value) in wrong {
        assert_eq!(refused_after(&constant(kind, value), &ALL_VALID), 9);
    }
    assert_eq!(cells(&constant(1, 255.9)), [255; 3]);
    assert_eq!(cells(&constant(0, -128.9)), [128; 3]);
    assert_eq!(cells(&constant(6, 1e308)), [0x7F80_0000; 3]);
}

#[test]
fn r9_not_for_an_empty_image() {
    let mut bytes = constant(1, 300.0);
    bytes[26] = 0;
    let (_, blocks, end, _) = accepted(&sealed(bytes));
    assert_eq!((blocks, end), (0, 70));
}
