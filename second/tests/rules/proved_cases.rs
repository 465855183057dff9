//! P1 to P12 of the rules, and the whole blob.

use crate::blob::{hex, Blob};
use crate::lent::{accepted, LIST};
use second::{is_valid, narrow, packed_counts, prepare_mask, stored, sum, Mask, Refusal};

fn counts(text: &str) -> Result<Vec<u32>, u32> {
    let bytes = hex(text);
    let mut counts = [u32::MAX; 256];
    match packed_counts(&bytes, 0, &mut counts) {
        Ok((n, end)) => {
            assert_eq!(end, bytes.len());
            assert!(counts[n..].iter().all(|&count| count == u32::MAX));
            Ok(counts[..n].to_vec())
        }
        Err(refusal) => {
            assert_eq!(counts, [u32::MAX; 256]);
            assert_eq!(refusal.place, 0);
            Err(refusal.number)
        }
    }
}

#[test]
fn p1_plain_counts() {
    assert_eq!(counts("82 03 39"), Ok(vec![1, 2, 3]));
}

#[test]
fn p2_counts_by_table() {
    assert_eq!(counts("A4 03 03 95 18"), Ok(vec![0, 9, 5]));
}

#[test]
fn p3_index_past_the_table() {
    assert_eq!(counts("A4 03 03 95 1C"), Err(8));
}

#[test]
fn p4_count_of_no_width() {
    assert_eq!(counts("C2 01 00"), Err(8));
}

#[test]
fn p5_counts_of_no_bits() {
    assert_eq!(counts("40 00 01"), Ok(vec![0; 256]));
}

#[test]
fn p6_too_many_counts() {
    assert_eq!(counts("40 01 01"), Err(8));
}

#[test]
fn p7_mask_run() {
    let blob = Blob {
        valid: 3,
        mask: hex("02 00 A0 40 00 80"),
        ..Blob::row(10, &[])
    };
    let mut spare = [0xC3; 3];
    let mask = prepare_mask(&blob.bytes(), &blob.header(), false, &[0; 2], &mut spare);
    assert_eq!(mask, Ok(Mask::Spare(2)));
    assert_eq!(spare, [0xA0, 0x40, 0xC3]);
    let valid: Vec<usize> = (0..10).filter(|&pixel| is_valid(&spare, pixel)).collect();
    assert_eq!(valid, [0, 2, 9]);
}

#[test]
fn p8_sum_ties_to_even() {
    let two_53 = 2f64.powi(53).to_bits();
    assert_eq!(sum(two_53, 3f64.to_bits()), 0x4340_0000_0000_0002);
}

#[test]
fn p9_cancelling_gives_plus_zero() {
    assert_eq!(sum(1f64.to_bits(), (-1f64).to_bits()), 0);
}

#[test]
fn p10_narrowing_ties_to_even() {
    assert_eq!(narrow(0x3FF0_0000_1000_0000), 0x3F80_0000);
}

#[test]
fn p11_cut_toward_zero() {
    assert_eq!(stored((-128.5f64).to_bits(), 0), Ok(128));
    assert_eq!(stored(128f64.to_bits(), 0), Err(Refusal::of(9)));
}

#[test]
fn p12_cut_to_zero() {
    assert_eq!(stored((-0.5f64).to_bits(), 1), Ok(0));
}

#[test]
fn whole_blob() {
    let bytes = Blob::whole().bytes();
    assert_eq!(bytes.len(), 79);
    let (header, blocks, end, lent) = accepted(&bytes);
    assert_eq!(header, Blob::whole().header());
    assert_eq!((blocks, end), (1, 79));
    assert_eq!(lent.list[..2], [74, LIST]);
    assert_eq!(lent.image[..3], [10, 11, 12]);
    assert_eq!(lent.kept[0], 255);
}
