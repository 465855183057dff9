//! Checksums of blobs out of a folder: what is counted, and that planted faults
//! are found.

#[path = "common/judged.rs"]
mod judged;

use compare::case::{After, Case, Op};
use compare::checksum::{damaged, mended, stored, truth, words_of, wrong, Wrong};
use compare::folder::{Both, Counts};
use compare::form::{form, Fault, Wanted};
use compare::random::Random;
use compare::run::Side;
use compare::sides::plain;
use compare::sums::Sums;
use judged::{judged, tested_by_value, untested};
use std::fs;
use std::path::PathBuf;
use std::process::{Command, Output};

/// Blobs of small images, without a fault.
fn blobs(count: usize) -> Vec<Vec<u8>> {
    let mut random = Random::new(12);
    let mut blob = || {
        let wanted = Wanted {
            rows: 4,
            columns: 6,
            depth: 2,
            fault: Fault::None,
            ..Wanted::any(&mut random, true)
        };
        form(&mut random, wanted).bytes()
    };
    (0..count).map(|_| blob()).collect()
}

fn sums(other: Side) -> Sums {
    let mut sums = Sums::default();
    for blob in blobs(10) {
        sums.count("blob", &blob, plain, other);
    }
    sums
}

/// Four bytes, each changed in nine ways.
#[test]
fn each_blob_and_each_copy_is_counted() {
    let sums = sums(plain);
    let counts = (sums.taken, sums.refused, sums.before);
    assert_eq!(counts, (10, 360, 0));
    assert!(sums.differ.is_empty());
    assert!(sums.text().starts_with("10 blobs whose own checksum"));
}

#[test]
fn a_side_without_the_test_is_told() {
    let sums = sums(untested);
    assert_eq!((sums.taken, sums.refused), (10, 0));
    assert_eq!(sums.differ.len(), 360);
    let said = &sums.differ[0];
    assert!(said.contains("byte 10 changed to"), "{said}");
    assert!(said.ends_with("answer 0 and 13") || said.ends_with("answer 13 and 0"));
}

#[test]
fn a_side_that_takes_no_checksum_is_told() {
    fn other(case: &Case) -> After {
        judged(case, |_| false)
    }
    let sums = sums(other);
    assert_eq!((sums.taken, sums.refused), (0, 0));
    assert!(sums.differ.iter().all(|said| said.contains("as it is")));
    assert_eq!(sums.differ.len(), 10);
}

/// One byte of the field that is not looked at.
#[test]
fn a_side_that_leaves_a_byte_out_is_told() {
    fn other(case: &Case) -> After {
        let upper = |sum: u32| sum >> 8;
        judged(case, |blob| {
            stored(blob).map(upper) == truth(blob).map(upper)
        })
    }
    let sums = sums(other);
    assert_eq!((sums.taken, sums.refused), (10, 270));
    assert_eq!(sums.differ.len(), 90);
}

/// Of a wrong blob both sides may say the same: it is told all the same.
#[test]
fn a_blob_that_stores_another_is_told() {
    let mut sums = Sums::default();
    let mut blob = blobs(1).remove(0);
    blob[12] ^= 1;
    sums.count("blob", &blob, plain, plain);
    assert_eq!((sums.taken, sums.differ.len()), (0, 1));
    // What is refused before is none of its business.
    blob[6] = 5;
    sums.count("blob", &blob, plain, plain);
    assert_eq!((sums.before, sums.differ.len()), (1, 1));
}

fn folder_counts(blob: &[u8], other: Side) -> Result<Counts, Box<Case>> {
    let mut counts = Counts::default();
    let mut both = Both {
        proved: other,
        plain,
        counts: &mut counts,
    };
    both.compare(blob).map(|()| counts)
}

#[test]
fn blobs_of_a_folder_are_damaged() {
    for blob in blobs(10) {
        let counts = folder_counts(&blob, plain).unwrap();
        let fields = damaged(&blob).len() as u64;
        for op in [Op::Header, Op::Read, Op::Stage, Op::Publish] {
            assert!(counts.table.of(op, 13) >= fields);
            assert!(counts.table.of(op, 0) > 0);
        }
        // By value it is taken with any.
        assert_eq!(counts.table.of(Op::Mask, 13), 0);
        let case = folder_counts(&blob, untested).err().unwrap();
        assert!(wrong(&case.blob).is_some());
        let case = folder_counts(&blob, tested_by_value).err().unwrap();
        assert!(case.op.is_given_header());
    }
}

/// A blob that comes with a wrong checksum is compared mended as well.
#[test]
fn a_blob_of_a_folder_is_mended() {
    for mut blob in blobs(10) {
        blob[10] ^= 1;
        let counts = folder_counts(&blob, plain).unwrap();
        assert!(counts.table.of(Op::Read, 0) > 0);
    }
}

#[test]
fn every_copy_is_wrong_in_its_way() {
    for blob in blobs(10) {
        assert_eq!(wrong(&blob), None);
        let copies = damaged(&blob);
        assert!(copies.len() >= 6);
        let sorts: Vec<Wrong> = copies.iter().filter_map(|copy| wrong(copy)).collect();
        assert_eq!(sorts.len(), copies.len());
        for sort in [Wrong::Zero, Wrong::OneBit, Wrong::Swapped, Wrong::OtherEnd] {
            assert!(sorts.contains(&sort), "{sort:?}");
        }
        assert!(copies.iter().all(|copy| mended(copy) == blob));
    }
}

/// Nothing is said of, and nothing done to, what does not reach its size.
#[test]
fn blobs_cut_short_have_no_checksum() {
    let blob = blobs(1).remove(0);
    for length in 0..70 {
        let cut = &blob[..length];
        assert_eq!((truth(cut), words_of(cut), wrong(cut)), (None, None, None));
        assert_eq!(mended(cut), cut);
        assert!(damaged(cut).is_empty());
    }
}

/// A folder of blobs, which is taken away at the end.
struct Folder(PathBuf);

impl Folder {
    fn new(name: &str, blobs: &[Vec<u8>]) -> Folder {
        let path = std::env::temp_dir().join(format!("{name}-{}", std::process::id()));
        fs::create_dir_all(&path).unwrap();
        for (nth, blob) in blobs.iter().enumerate() {
            fs::write(path.join(format!("{nth}.lerc2")), blob).unwrap();
        }
        Folder(path)
    }

    fn checked(&self) -> Output {
        Command::new(env!("CARGO_BIN_EXE_compare"))
            .arg("checksums")
            .arg(&self.0)
            .output()
            .unwrap()
    }
}

impl Drop for Folder {
    fn drop(&mut self) {
        let _ = fs::remove_dir_all(&self.0);
    }
}

#[test]
fn the_program_counts_them() {
    let mut blobs = blobs(3);
    let right = Folder::new("compare-right", &blobs).checked();
    let text = String::from_utf8(right.stdout).unwrap();
    assert!(text.starts_with("3 blobs whose own checksum is taken, 108 copies"));
    assert!(text.ends_with("; 0 disagreements\n"), "{text}");
    assert_eq!(right.status.code(), Some(0));
    blobs[1][10..14].fill(0);
    let wrong = Folder::new("compare-wrong", &blobs).checked();
    let text = String::from_utf8(wrong.stdout).unwrap();
    assert!(text.contains("; 1 disagreements\n"), "{text}");
    assert_eq!(wrong.status.code(), Some(1));
    let none = Folder::new("compare-none", &[]).checked();
    assert_eq!(none.status.code(), Some(2));
}
