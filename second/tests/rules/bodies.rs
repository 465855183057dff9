//! Bodies that are accepted: cells, list, masks and end.

use crate::blob::{hex, sealed, Blob};
use crate::lent::{accepted, cells, whole_and_steps, Lent, IMAGE, KEPT, LIST, SPARE};
use crate::refusals::OFFSET_KINDS;
use second::{number, packed_counts, stored, word_size, Refusal};

#[test]
fn empty_body_whatever_min_and_max_are() {
    for max in [10.0, 12.0] {
        let blob = Blob {
            valid: 0,
            max: f64::to_bits(max),
            ..Blob::row(10, &hex("FF FF"))
        };
        let (_, blocks, end, lent) = accepted(&blob.bytes());
        assert_eq!((blocks, end), (0, 70));
        assert_eq!(lent.kept[..3], [0, 0, KEPT]);
        assert_eq!(lent.spare[..3], [0, 0, SPARE]);
        assert!(lent.image.iter().all(|&word| word == IMAGE));
        assert!(lent.list.iter().all(|&start| start == LIST));
    }
}

#[test]
fn constant_by_header() {
    let blob = Blob {
        depth: 2,
        valid: 2,
        mask: hex("01 00 A0 00 80"),
        kind: 2,
        min: (-2.5f64).to_bits(),
        max: (-2.5f64).to_bits(),
        ..Blob::row(3, &hex("FF"))
    };
    let (_, blocks, end, lent) = accepted(&blob.bytes());
    assert_eq!((blocks, end), (0, 75));
    assert_eq!(
        lent.image[..7],
        [0xFFFE, 0xFFFE, IMAGE, IMAGE, 0xFFFE, 0xFFFE, IMAGE]
    );
    assert_eq!(lent.kept[..2], [0xA0, KEPT]);
    assert!(lent.list.iter().all(|&start| start == LIST));
}

#[test]
fn constant_by_ranges() {
    let blob = Blob {
        depth: 2,
        ..Blob::row(2, &hex("05 06 05 06 FF"))
    };
    let (_, blocks, end, lent) = accepted(&blob.bytes());
    assert_eq!((blocks, end), (0, 74));
    assert_eq!(lent.image[..5], [5, 6, 5, 6, IMAGE]);
    // One other pair, and there is a sweep byte, which is wrong.
    let mut other = blob.bytes();
    other[73] = 7;
    assert_eq!(crate::lent::refused_after(&sealed(other), &[255]), 8);
}

#[test]
fn zeros_of_either_sign_are_the_same() {
    let blob = |min: u64, max: u64| Blob {
        kind: 6,
        min,
        max,
        ..Blob::row(2, &[])
    };
    assert_eq!(cells(&blob(1 << 63, 0).bytes()), [0x8000_0000; 2]);
    assert_eq!(cells(&blob(0, 1 << 63).bytes()), [0; 2]);
    let ranges = Blob {
        depth: 2,
        body: hex("00000080 0000A040 00000000 0000A040"),
        ..blob(1 << 63, 5f64.to_bits())
    };
    assert_eq!(
        cells(&ranges.bytes()),
        [0x8000_0000, 0x40A0_0000, 0x8000_0000, 0x40A0_0000]
    );
}

#[test]
fn raw_body() {
    let blob = Blob {
        depth: 2,
        valid: 2,
        mask: hex("01 00 A0 00 80"),
        kind: 3,
        ..Blob::row(3, &hex("0A00 0B00 0C00 0C00 01 0102 0304 0506 0708 FF"))
    };
    let (_, blocks, end, lent) = accepted(&blob.bytes());
    assert_eq!((blocks, end), (0, 92));
    let expected = [0x0201, 0x0403, IMAGE, IMAGE, 0x0605, 0x0807, IMAGE];
    assert_eq!(lent.image[..7], expected);
    assert!(lent.list.iter().all(|&start| start == LIST));
}

#[test]
fn raw_words_are_not_judged() {
    // NaN, infinity and words outside the ranges.
    let blob = Blob {
        kind: 6,
        ..Blob::row(3, &hex("00002041 00004041 01 0100C07F 000080FF 00000000"))
    };
    assert_eq!(cells(&blob.bytes()), [0x7FC0_0001, 0xFF80_0000, 0]);
}

#[test]
fn raw_body_comes_before_the_mode_byte() {
    let blob = Blob {
        body: hex("0A 0C 01 02 0B 0C"),
        ..Blob::whole()
    };
    assert_eq!(cells(&blob.bytes()), [2, 11, 12]);
}

#[test]
fn mode_byte_only_for_byte_kinds_with_error_one_half() {
    for kind in 0..8u32 {
        for error in [0.5f64, 0.5f64.next_up(), 0.5f64.next_down(), 0.0] {
            let mut body = vec![0; 2 * word_size(kind)];
            *body.last_mut().unwrap() = 1;
            body.push(0);
            if kind < 2 && error == 0.5 {
                body.push(0);
            }
            body.push(2);
            let blob = Blob {
                kind,
                error: error.to_bits(),
                ..Blob::row(3, &body)
            };
            let (_, blocks, end, lent) = accepted(&blob.bytes());
            assert_eq!((blocks, end), (1, 70 + body.len()));
            assert_eq!(lent.image[..3], [0; 3]);
        }
    }
}

#[test]
fn blocks_of_each_form() {
    let row = |body: &str| cells(&Blob::row(3, &hex(body)).bytes());
    assert_eq!(row("0A 0C 00 00 01 02 FF"), [1, 2, 255]);
    assert_eq!(row("0A 0C 00 02"), [0, 0, 0]);
    assert_eq!(row("0A 28 00 01 0A 82 03 24"), [10, 12, 14]);
    assert_eq!(row("0A 28 00 01 0A A4 03 03 95 18"), [10, 28, 20]);
    // Counts of no bits are zeros.
    assert_eq!(row("0A 28 00 01 0A 80 03"), [10, 10, 10]);
    // A count in two and four bytes.
    assert_eq!(row("0A 28 00 01 0A 42 03 00 24"), [10, 12, 14]);
    assert_eq!(row("0A 28 00 01 0A 02 03 00 00 00 24"), [10, 12, 14]);
}

#[test]
fn counted_values_are_clamped_and_offsets_are_not() {
    let row = |body: &str| cells(&Blob::row(3, &hex(body)).bytes());
    assert_eq!(row("0A 0C 00 01 0A 82 03 24"), [10, 12, 12]);
    assert_eq!(row("0A 0C 00 01 C8 82 03 24"), [12, 12, 12]);
    assert_eq!(row("0A 0C 00 03 C8"), [200; 3]);
    // Below the minimum nothing is clamped.
    assert_eq!(row("0A 0C 00 01 01 82 03 24"), [1, 3, 5]);
}

#[test]
fn upper_flag_bits_matter_only_with_an_offset() {
    for code in 0..4 {
        let raw = Blob::row(3, &[10, 12, 0, code * 64, 1, 2, 3]);
        assert_eq!(cells(&raw.bytes()), [1, 2, 3]);
        let zero = Blob::row(3, &[10, 12, 0, code * 64 + 2]);
        assert_eq!(cells(&zero.bytes()), [0, 0, 0]);
    }
}

#[test]
fn every_offset_kind() {
    for kind in 0..8u32 {
        let codes = OFFSET_KINDS[kind as usize].into_iter().zip(0u8..);
        for (offset_kind, code) in codes.filter(|&(offset_kind, _)| offset_kind < 8) {
            let size = word_size(offset_kind);
            // The highest bit is set, so that signs show.
            let word = 0xC0C1_C2C3_C4C5_C6C7 >> (64 - 8 * size);
            let mut body = vec![0; 2 * word_size(kind)];
            *body.last_mut().unwrap() = 1;
            body.extend([0, code * 64 + 3]);
            body.extend(&u64::to_le_bytes(word)[..size]);
            let blob = Blob {
                kind,
                ..Blob::row(2, &body)
            };
            let expected = stored(number(word, offset_kind), kind).unwrap();
            assert_eq!(
                cells(&blob.bytes()),
                [expected; 2],
                "kind {kind}, code {code}"
            );
        }
    }
    let kind_4 = Blob {
        kind: 4,
        ..Blob::row(1, &hex("00000000 01000000 00 83 FEFF"))
    };
    assert_eq!(cells(&kind_4.bytes()), [0xFFFF_FFFE]);
}

#[test]
fn integers_are_cut_after_the_clamp() {
    // 10, 10.6 and 11.2.
    let blob = Blob {
        error: 0.3f64.to_bits(),
        ..Blob::row(3, &hex("0A 0C 00 01 0A 82 03 24"))
    };
    assert_eq!(cells(&blob.bytes()), [10, 10, 11]);
    // -10, -9.4 and -8.8 are cut toward zero.
    let negative = Blob {
        kind: 0,
        ..blob.clone()
    };
    let mut bytes = negative.bytes();
    (bytes[70], bytes[74]) = (0xF0, 0xF6);
    assert_eq!(cells(&sealed(bytes)), [0xF6, 0xF7, 0xF8]);
}

#[test]
fn maximum_on_a_tie_of_zeros() {
    // Offset -1, count 1, error 0.5: +0; the maximum is -0.
    let blob = Blob {
        kind: 6,
        error: 0.5f64.to_bits(),
        min: (-1f64).to_bits(),
        max: 1 << 63,
        ..Blob::row(2, &hex("000080BF 00000080 00 01 000080BF 81 02 01"))
    };
    assert_eq!(cells(&blob.bytes()), [0x8000_0000, 0xBF80_0000]);
}

#[test]
fn a_product_that_passes_the_largest_number() {
    // From 2^24 * 2^1000 on the product is infinite, whatever the offset is.
    let counts = [0, 1 << 22, (1 << 23) - 1, 1 << 23, 1 << 30];
    let (offset, max) = (-(2f64.powi(1023)), 1.5 * 2f64.powi(1023));
    let mut body = hex("000000000000E0FF 000000000000E87F 00 01 000000000000E0FF 9F 05");
    body.extend(packed(&counts, 31));
    let blob = Blob {
        kind: 7,
        error: 2f64.powi(1000).to_bits(),
        min: offset.to_bits(),
        max: max.to_bits(),
        ..Blob::row(5, &body)
    };
    let below = 2f64.powi(1023) - 2f64.powi(1001);
    let expected = [offset, 0.0, below, max, max];
    assert_eq!(cells(&blob.bytes()), expected.map(f64::to_bits));
}

#[test]
fn an_infinite_product_in_every_kind_of_image() {
    let least = [-128.0, 0.0, -32768.0, 0.0, -2147483648.0, 0.0];
    let least = least.into_iter().chain([f64::from(f32::MIN), f64::MIN]);
    for (kind, offset) in (0..).zip(least) {
        let [low, high] = [offset, 3.0].map(|number| stored(number.to_bits(), kind).unwrap());
        let bytes = |word: u64| word.to_le_bytes()[..word_size(kind)].to_vec();
        // Counts 0 and 2; 2 * 2 * 2^1022 is infinite.
        let counts = hex("82 02 08");
        let blob = Blob {
            kind,
            error: 2f64.powi(1022).to_bits(),
            ..Blob::row(
                2,
                &[bytes(low), bytes(high), vec![0, 1], bytes(low), counts].concat(),
            )
        };
        assert_eq!(cells(&blob.bytes()), [low, high], "kind {kind}");
    }
}

#[test]
fn product_and_sum_round_one_after_the_other() {
    let body = "6CFECBABDF0135C0 30B7EE5CD8280840 00 01 6CFECBABDF0135C0 8B 02 0088 25";
    let blob = Blob {
        kind: 7,
        error: 0.01f64.to_bits(),
        min: 0xC035_01DF_ABCB_FE6C,
        max: 0x4008_28D8_5CEE_B730,
        ..Blob::row(2, &hex(body))
    };
    assert_eq!(
        cells(&blob.bytes()),
        [0xC035_01DF_ABCB_FE6C, 0x4008_19F8_642F_68C8]
    );
}

#[test]
fn check_bits_are_the_column_over_eight() {
    for side in 1..=16 {
        let columns = 300u32;
        let mut body = vec![10, 12, 0];
        for x in (0..columns).step_by(side as usize) {
            body.extend([(x / 8 % 16 * 4 + 3) as u8, (x / side % 256) as u8]);
        }
        let blob = Blob {
            side,
            ..Blob::row(columns, &body)
        };
        let (_, blocks, _, lent) = accepted(&blob.bytes());
        assert_eq!(blocks, columns.div_ceil(side) as usize);
        for (x, &word) in lent.image[..columns as usize].iter().enumerate() {
            assert_eq!(word, (x / side as usize % 256) as u64);
        }
    }
}

#[test]
fn check_bits_follow_columns_and_not_rows_or_depths() {
    // 20 rows of one tile across: every flag has check bits 0.
    let mut body = vec![10, 10, 12, 12, 0];
    for block in 0..6 {
        body.extend([3, block]);
    }
    let blob = Blob {
        rows: 20,
        depth: 2,
        valid: 60,
        ..Blob::row(3, &body)
    };
    let (_, blocks, end, lent) = accepted(&blob.bytes());
    assert_eq!((blocks, end), (6, 87));
    assert_eq!(lent.list[..7], [75, 77, 79, 81, 83, 85, LIST]);
    for cell in 0..120 {
        let (row, depth) = (cell / 6, cell % 2);
        assert_eq!(lent.image[cell], (row / 8 * 2 + depth) as u64);
    }
}

#[test]
fn blocks_step_depth_then_column_then_row() {
    // 3 rows and 5 columns in tiles of side 2, two depths: 12 blocks.
    let mut body = vec![10, 10, 12, 12, 0];
    for block in 0..12 {
        body.extend([3, block]);
    }
    let blob = Blob {
        rows: 3,
        depth: 2,
        valid: 15,
        side: 2,
        ..Blob::row(5, &body)
    };
    let (_, blocks, _, lent) = accepted(&blob.bytes());
    assert_eq!(blocks, 12);
    for row in 0..3 {
        for column in 0..5 {
            for depth in 0..2 {
                let block = ((row / 2) * 3 + column / 2) * 2 + depth;
                assert_eq!(lent.image[(row * 5 + column) * 2 + depth], block as u64);
            }
        }
    }
}

#[test]
fn tiles_without_valid_pixels() {
    let blob = |block: &str| Blob {
        valid: 8,
        mask: hex("02 00 FF 00 00 80"),
        ..Blob::row(16, &hex(&format!("0A 0C 00 03 0A {block}")))
    };
    // Raw, zero, offset, and packed with no counts, bits or a table or not.
    for block in [
        "04",
        "06",
        "07 0B",
        "05 0A 80 00",
        "05 0A 81 00",
        "05 0A A1 00 02 01",
    ] {
        let bytes = blob(block).bytes();
        let (_, blocks, end, lent) = accepted(&bytes);
        assert_eq!((blocks, end), (2, bytes.len()));
        assert_eq!(lent.image[..8], [10; 8]);
        assert_eq!(lent.image[8..16], [IMAGE; 8]);
    }
    for block in ["07 0B", "05 0A 81 00", "05 0A A1 00 02 01"] {
        let mut short = blob(block);
        short.body.pop();
        assert_eq!(crate::lent::refused_after(&short.bytes(), &[0xFF, 0]), 1);
    }
}

#[test]
fn reuse_of_the_kept_mask() {
    let blob = Blob {
        valid: 2,
        ..Blob::row(3, &hex("0A 0C 00 01 0A 82 02 04"))
    };
    let bytes = blob.bytes();
    let mut lent = Lent::to_read(&bytes);
    lent.kept[0] = 0x7F;
    let before = lent.clone();
    // 0111...: pixels 1 and 2.
    let after = whole_and_steps(&bytes, true, &lent).unwrap();
    assert_eq!(after.image[..4], [IMAGE, 10, 12, IMAGE]);
    assert_eq!((&after.kept, &after.spare), (&before.kept, &before.spare));
}

#[test]
fn a_new_mask_replaces_the_kept_one_only_on_acceptance() {
    let blob = Blob {
        valid: 2,
        mask: hex("01 00 A1 00 80"),
        ..Blob::row(3, &hex("0A 0C 00 03 0A"))
    };
    let bytes = blob.bytes();
    for reuse in [false, true] {
        let mut lent = Lent::to_read(&bytes);
        assert!(lent.read(&bytes, reuse).is_ok());
        // Bits behind the last pixel are copied as they come.
        assert_eq!(lent.kept[..2], [0xA1, KEPT]);
        assert_eq!(lent.spare[..2], [0xA1, SPARE]);
        let mut wrong = bytes.clone();
        wrong[78] = 7;
        let wrong = sealed(wrong);
        let mut lent = Lent::to_read(&wrong);
        assert_eq!(lent.read_number(&wrong, reuse), Err(8));
        assert_eq!(lent.kept[..2], [KEPT, KEPT]);
        assert_eq!(lent.spare[..2], [0xA1, SPARE]);
    }
}

#[test]
fn a_refusal_after_reuse_leaves_everything() {
    let blob = Blob {
        valid: 2,
        ..Blob::row(3, &hex("0A 0C 00 01 0A 82 03 24"))
    };
    let mut lent = Lent::to_read(&blob.bytes());
    lent.kept[0] = 0xA0;
    let before = lent.clone();
    assert_eq!(lent.read_number(&blob.bytes(), true), Err(8));
    assert_eq!(lent, before);
}

#[test]
fn bytes_after_the_end_are_not_looked_at() {
    let mut bytes = Blob::whole().bytes();
    bytes.extend([0xFF; 9]);
    assert_eq!(accepted(&bytes).2, 79);
    // Inside the declared size, too, but that they are summed.
    bytes[34] = 85;
    assert_eq!(accepted(&sealed(bytes)).2, 79);
}

#[test]
fn counts_of_every_width() {
    for bits in 0..32usize {
        for n in [0usize, 1, 2, 7, 8, 255, 256] {
            let mask = (1u64 << bits) - 1;
            let values: Vec<u64> = (0..n as u64)
                .map(|k| k.wrapping_mul(0x9E37_79B9_7F4A_7C15) >> 20 & mask)
                .collect();
            let run = packed(&values, bits);
            let mut bytes = vec![0xEE, 0x40 + bits as u8, n as u8, (n / 256) as u8];
            bytes.extend(&run);
            let mut counts = [7; 256];
            assert_eq!(packed_counts(&bytes, 1, &mut counts), Ok((n, bytes.len())));
            assert!(counts.iter().zip(&values).all(|(&c, &v)| u64::from(c) == v));
            assert!(counts[n..].iter().all(|&count| count == 7));
            if !run.is_empty() {
                bytes.pop();
                let refused = packed_counts(&bytes, 1, &mut counts);
                assert_eq!(refused, Err(Refusal::at(1, 1)));
            }
        }
    }
}

#[test]
fn tables_of_every_length() {
    for entries in 2..256usize {
        let width = (1..9).find(|&width| 1 << width >= entries).unwrap();
        let table: Vec<u64> = (1..entries as u64).map(|k| k * 3).collect();
        let indices: Vec<u64> = (0..256).map(|k| k * 7 % entries as u64).collect();
        let mut bytes = vec![0x40 + 32 + 10, 0, 1, entries as u8];
        bytes.extend(packed(&table, 10));
        bytes.extend(packed(&indices, width));
        let mut counts = [7; 256];
        assert_eq!(
            packed_counts(&bytes, 0, &mut counts),
            Ok((256, bytes.len()))
        );
        assert!(counts
            .iter()
            .zip(&indices)
            .all(|(&c, &i)| u64::from(c) == i * 3));
        // One index past the table, where the width has room for it.
        if entries < 1 << width {
            let mut wrong = indices.clone();
            wrong[255] = entries as u64;
            bytes.truncate(4 + (entries - 1).wrapping_mul(10).div_ceil(8));
            bytes.extend(packed(&wrong, width));
            let before = counts;
            let refused = packed_counts(&bytes, 0, &mut counts);
            assert_eq!(refused, Err(Refusal::of(8)));
            assert_eq!(counts, before);
        }
    }
}

/// Values of `bits` bits, the lowest first, one bit at a time.
pub fn packed(values: &[u64], bits: usize) -> Vec<u8> {
    let mut run = vec![0; (values.len() * bits).div_ceil(8)];
    for (k, value) in values.iter().enumerate() {
        for bit in (0..bits).filter(|bit| value >> bit & 1 == 1) {
            let place = k * bits + bit;
            run[place / 8] |= 1 << (place % 8);
        }
    }
    run
}

#[test]
fn packed_counts_past_the_slice() {
    let mut counts = [7; 256];
    for at in [3, 4, usize::MAX] {
        let refused = packed_counts(&hex("82 03 39"), at, &mut counts);
        assert_eq!(refused, Err(Refusal::at(1, at)));
    }
    let refused = packed_counts(&[], 0, &mut counts);
    assert_eq!(refused, Err(Refusal::of(1)));
    assert_eq!(counts, [7; 256]);
}
