//! This reader against `second`, on the calls of the comparison: answer, number
//! and every lent slice afterwards must be the same.
//!
//! `LERC2_CALLS` and `LERC2_SEED` ask for another number of calls or other
//! blobs. `LERC2_VECTORS` names a folder whose blobs NAME.lerc2, at any depth,
//! are read too; without it that test says that it is skipped.

mod sides;

use compare::case::{Case, Op};
use compare::random::Random;
use compare::run::Failure;
use compare::{folder, plan, store};
use lerc2::raw;
use second::{Header, Ranges};
use sides::{fast, slow};
use std::collections::HashMap;
use std::env;
use std::fs;
use std::io::{stderr, Write};
use std::path::{Path, PathBuf};

/// Calls of a usual run.
const CALLS: u64 = if cfg!(debug_assertions) {
    20_000
} else {
    200_000
};
/// One blob in so many is a large one.
const LARGE: u64 = 8192;

/// The number in a variable of the environment.
fn asked(name: &str, usual: u64) -> u64 {
    let Ok(word) = env::var(name) else {
        return usual;
    };
    word.parse()
        .unwrap_or_else(|_| panic!("{name}={word}: not a number"))
}

/// How the two readers end.
fn both(case: &Case, blob: u64) -> u32 {
    let (one, other) = (slow(case), fast(case));
    if one.difference(&other).is_some() {
        let failure = Failure::new(blob, case.clone(), slow, fast);
        let file = env::temp_dir().join("plain-differs.case");
        fs::write(&file, store::text(&failure.small)).unwrap();
        let (difference, file) = (failure.difference, file.display());
        panic!("blob {blob}: {difference} (second, plain); the call, made smaller: {file}");
    }
    one.answer
}

#[test]
fn calls_of_the_comparison() {
    let (calls, seed) = (asked("LERC2_CALLS", CALLS), asked("LERC2_SEED", 1));
    let mut answers = HashMap::new();
    let (mut made, mut blob) = (0, 0);
    let mut cases = Vec::new();
    while made < calls {
        let mut random = Random::of(seed, blob);
        if blob % LARGE == LARGE - 1 {
            plan::large(&mut random, &mut cases);
        } else {
            plan::calls(&mut random, &mut cases);
        }
        cases.retain(|case| matches!(case.op, Op::Walk | Op::Fill | Op::Read));
        for case in cases.drain(..) {
            let answer = both(&case, blob);
            *answers.entry((case.op.name(), answer)).or_insert(0) += 1;
            if case.op == Op::Read && answer == 0 {
                walk_and_fill(&case.blob, &blob.to_string());
            }
            made += 1;
        }
        blob += 1;
    }
    let _ = writeln!(stderr(), "{made} calls on {blob} blobs: nothing differs");
    // Each number that an operation has comes up.
    let only = |op, numbers: &[u32]| {
        let come_up = |&&number: &&u32| answers.contains_key(&(op, number));
        assert_eq!(numbers.iter().filter(come_up).count(), numbers.len());
    };
    only("read", &[0, 1, 2, 3, 4, 5, 6, 7, 8, 9]);
    only("walk", &[0, 1, 3, 4, 5, 7, 8, 9, 10]);
    only("fill", &[0, 1, 3, 4, 5, 7, 8, 9, 11]);
}

/// A walk, and every block filled, the last one first, by both readers.
fn walk_and_fill(blob: &[u8], name: &str) {
    let header = second::read_header(blob).unwrap();
    let mut mask = vec![0; header.mask_length()];
    let kept = mask.clone();
    let prepared = second::prepare_mask(blob, &header, false, &kept, &mut mask);
    let (Ok(_), Ok(ranges)) = (prepared, second::read_ranges(blob, &header)) else {
        return;
    };
    let mut lists = [(); 2].map(|()| vec![7; header.blocks()]);
    let walked = second::walk(blob, &header, &ranges, &mask, &mut lists[0]);
    let other = plain::walk(blob, &header, &ranges, &mask, &mut lists[1]);
    let walked = walked.map_err(u32::from);
    assert_eq!((walked, &lists[0]), (other, &lists[1]), "{name}: walk");
    if walked.is_ok() {
        fill_all(blob, &header, &ranges, &mask, &lists[0], name);
    }
}

fn fill_all(
    blob: &[u8],
    header: &Header,
    ranges: &Ranges,
    mask: &[u8],
    list: &[usize],
    name: &str,
) {
    let mut images = [(); 2].map(|()| (0..header.cells() as u64).collect::<Vec<u64>>());
    for number in (0..list.len()).rev() {
        let [one, other] = &mut images;
        let words = second::fill(blob, header, ranges, mask, list, number, one);
        let same = plain::fill(blob, header, ranges, mask, list, number, other);
        assert_eq!(words.map_err(u32::from), same, "{name}: block {number}");
    }
    assert!(images[0] == images[1], "{name}: cells");
}

/// Every NAME.lerc2 of a folder and of those in it.
fn blobs(folder: &Path) -> Vec<PathBuf> {
    let mut files = folder::files(folder).unwrap();
    for entry in folder.read_dir().unwrap() {
        let path = entry.unwrap().path();
        if path.is_dir() {
            files.extend(blobs(&path));
        }
    }
    files
}

#[test]
fn blobs_of_a_folder() {
    let Some(folder) = env::var_os("LERC2_VECTORS") else {
        let _ = writeln!(stderr(), "skipped: LERC2_VECTORS is not set");
        return;
    };
    let files = blobs(Path::new(&folder));
    assert!(!files.is_empty(), "LERC2_VECTORS: there is no NAME.lerc2");
    let mut accepted = 0;
    for (number, file) in files.iter().enumerate() {
        let blob = fs::read(file).unwrap();
        let mut case = Case::new(Op::Read);
        if let Ok(header) = second::read_header(&blob) {
            case.kept = vec![0x0F; header.mask_length()];
            case.spare = vec![0xF0; header.mask_length()];
            case.list = vec![7; header.blocks()];
            case.image = (0..header.cells() as u64).collect();
            walk_and_fill(&blob, &file.to_string_lossy());
        }
        case.blob = blob;
        case.said = vec![7; raw::READ];
        both(&case, number as u64);
        case.reuse = true;
        accepted += u32::from(both(&case, number as u64) == 0);
    }
    let count = files.len();
    let _ = writeln!(
        stderr(),
        "{count} blobs, {accepted} accepted: nothing differs"
    );
}
