//! A fault planted in one side is found, made small, saved and replayed.

mod common;
#[path = "common/judged.rs"]
mod judged;

use common::sum_by_count;
use compare::case::{After, Case, Op};
use compare::checksum::{by_words, mended, stored, truth, words_of, wrong};
use compare::counted::counted;
use compare::publishes::Sort;
use compare::run::{Report, Run};
use compare::sides::{plain, proved};
use compare::store;
use judged::{judged, tested_by_value, untested};
use lerc2::raw;

fn run(other: fn(&Case) -> After) -> Report {
    let run = Run {
        seed: 5,
        from: 0,
        calls: 100_000,
        failures: 1,
    };
    run.go(proved, other)
}

#[test]
fn both_sides_agree() {
    assert!(run(plain).failures.is_empty());
}

/// A later block's refusal leaves a cell written.
#[test]
fn a_cell_written_before_a_refusal() {
    fn other(case: &Case) -> After {
        let mut after = plain(case);
        if case.op == Op::Read && after.answer == 8 {
            if let Some(cell) = after.lent.image.last_mut() {
                *cell ^= 1;
            }
        }
        after
    }
    let failure = run(other).failures.remove(0);
    assert_eq!(failure.small.op, Op::Read);
    assert!(failure.difference.starts_with("image["));
    assert!(failure.small.blob.len() <= failure.case.blob.len());
    assert!(failure.small.image.len() <= failure.case.image.len());
}

/// One refusal number for another.
#[test]
fn a_wrong_number() {
    fn other(case: &Case) -> After {
        let mut after = plain(case);
        if case.op == Op::Fill && after.answer == 11 {
            after.answer = 5;
        }
        after
    }
    let failure = run(other).failures.remove(0);
    assert_eq!(failure.difference, "answer 11 and 5");
    assert!(failure.small.list.is_empty());
    let saved = store::text(&failure.small);
    assert_eq!(store::case(&saved).unwrap(), failure.small);
}

/// A product that is rounded twice too often.
#[test]
fn a_wrong_word() {
    fn other(case: &Case) -> After {
        let mut after = plain(case);
        if case.op == Op::Scaled && case.numbers[1] > 1 << 30 {
            after.word ^= 1;
        }
        after
    }
    let failure = run(other).failures.remove(0);
    assert_eq!(failure.small.op, Op::Scaled);
    assert_eq!(failure.small.numbers, [0, (1 << 30) + 1]);
}

/// A mark beside a slice.
#[test]
fn a_mark_overwritten() {
    fn other(case: &Case) -> After {
        let mut after = plain(case);
        after.outside = case.op == Op::Mask && after.answer == 0;
        after
    }
    let failure = run(other).failures.remove(0);
    assert!(failure.difference.starts_with("a mark"));
}

/// An infinity beside a finite number that counts as 2^1024, in a sum.
#[test]
fn an_infinity_counted_in_a_sum() {
    fn other(case: &Case) -> After {
        let mut after = plain(case);
        if case.op == Op::Sum {
            let [a, b] = case.numbers;
            after.word = sum_by_count(a, b);
        }
        after
    }
    let failure = run(other).failures.remove(0);
    assert_eq!(failure.small.op, Op::Sum);
    let words = failure.small.numbers.map(f64::from_bits);
    assert!(words[0].is_infinite() != words[1].is_infinite());
}

/// The same in the cells of a whole read.
#[test]
fn an_infinity_counted_in_a_read() {
    fn other(case: &Case) -> After {
        let mut after = plain(case);
        if case.op != Op::Read || after.answer != 0 {
            return after;
        }
        let lent = &mut after.lent;
        let (kind, blocks) = (lent.said[6] as u32, lent.said[raw::HEADER] as usize);
        for cell in counted(&case.blob, &lent.kept, &lent.list[..blocks]) {
            let sum = sum_by_count(cell.offset, cell.product);
            lent.image[cell.cell] = cell.word(sum, kind);
        }
        after
    }
    let failure = run(other).failures.remove(0);
    assert_eq!(failure.small.op, Op::Read);
    assert!(failure.difference.starts_with("image["));
    assert_eq!(failure.small.blob[38], 7);
}

/// A fault of the place alone.
fn place_is_found(other: fn(&Case) -> After) -> Case {
    let failure = run(other).failures.remove(0);
    assert!(
        failure.difference.contains("place"),
        "{}",
        failure.difference
    );
    let saved = store::text(&failure.small);
    assert_eq!(store::case(&saved).unwrap(), failure.small);
    failure.small
}

/// Another place, where there is room for one.
fn moved(mut after: After, place: impl Fn(u64) -> u64) -> After {
    if let Some(first) = after.lent.place.first_mut() {
        *first = place(*first);
    }
    after
}

/// The sweep byte's place for a fault of the mode byte behind it.
#[test]
fn the_sweep_byte_for_the_mode_byte() {
    fn other(case: &Case) -> After {
        let after = plain(case);
        let mode = case.ranges.first().map_or(0, |at| at.wrapping_add(1));
        let is_mode = case.op == Op::Walk && after.answer == 10 && after.place() == Some(mode);
        moved(after, |place| place - u64::from(is_mode))
    }
    assert_eq!(place_is_found(other).op, Op::Walk);
}

/// The first byte of a raw body that is missing, and not the first of its word.
#[test]
fn the_missing_byte_for_its_word() {
    fn other(case: &Case) -> After {
        let after = plain(case);
        let sweep = second::read_header(&case.blob).and_then(|header| {
            let ranges = second::read_ranges(&case.blob, &header)?;
            Ok((ranges.place as u64, u64::from(header.size)))
        });
        match sweep {
            Ok((at, size)) if case.op == Op::Read && after.answer == 1 => {
                let is_raw = case.blob.get(at as usize) == Some(&1);
                moved(after, |place| match is_raw && place > at {
                    true => size,
                    false => place,
                })
            }
            _ => after,
        }
    }
    let small = place_is_found(other);
    assert_eq!(small.op, Op::Read);
    // A word of one byte does not tell.
    assert!(small.blob[38] > 1);
}

/// The first wrong number as the blob has them: all minima, then all maxima.
#[test]
fn ranges_judged_byte_by_byte() {
    fn other(case: &Case) -> After {
        let after = plain(case);
        if case.op != Op::Ranges || after.answer != 7 {
            return after;
        }
        let [depth, kind, mask] = [2, 6, 10].map(|n| case.header[n] as usize);
        let size = second::word_size(kind as u32);
        let minima = case.blob[70 + mask..].chunks(size).take(depth);
        let number = |word: &[u8]| {
            let mut bytes = [0; 8];
            bytes[..size].copy_from_slice(word);
            second::number(u64::from_le_bytes(bytes), kind as u32)
        };
        let wrong = minima.map(number).position(|min| !second::is_finite(min));
        let first = wrong.map(|nth| (70 + mask + nth * size) as u64);
        moved(after, |place| first.unwrap_or(place))
    }
    let small = place_is_found(other);
    assert_eq!(small.op, Op::Ranges);
    // One depth does not tell.
    assert!(small.header[2] > 1);
}

/// A listed start of which only 32 bits are kept.
#[test]
fn a_start_cut_to_32_bits() {
    fn other(case: &Case) -> After {
        let after = plain(case);
        moved(after, |place| place & u64::from(u32::MAX))
    }
    let small = place_is_found(other);
    assert!(matches!(small.op, Op::Fill | Op::Walk));
}

/// An accepted call that leaves the place as it was.
#[test]
fn a_place_that_is_not_cleared() {
    fn other(case: &Case) -> After {
        let mut after = plain(case);
        if after.answer == 0 {
            after.lent.place.clone_from(&case.place);
        }
        after
    }
    place_is_found(other);
}

/// A number behind the place.
#[test]
fn a_number_behind_the_place() {
    fn other(case: &Case) -> After {
        let mut after = plain(case);
        if let Some(second) = after.lent.place.get_mut(1) {
            *second = 0;
        }
        after
    }
    let small = place_is_found(other);
    assert_eq!(small.place.len(), 2);
}

/// A call that is made though there is no room for its place.
#[test]
fn a_call_without_room_for_its_place() {
    fn other(case: &Case) -> After {
        let mut roomy = case.clone();
        roomy.place.resize(case.place.len().max(1), 0);
        let mut after = plain(&roomy);
        after.lent.place.truncate(case.place.len());
        after
    }
    let failure = run(other).failures.remove(0);
    assert!(failure.difference.starts_with("answer 5 and "));
    assert!(failure.small.place.is_empty());
}

/// A fault of the test of the checksum, and the call made small.
fn sum_is_found(other: fn(&Case) -> After) -> Case {
    let failure = run(other).failures.remove(0);
    let difference = &failure.difference;
    assert!(difference.contains("13"), "{difference}");
    assert!(failure.small.blob.len() <= failure.case.blob.len());
    failure.small
}

#[test]
fn a_checksum_that_is_not_tested() {
    let small = sum_is_found(untested);
    assert!(small.op.reads_header());
    assert!(wrong(&small.blob).is_some());
}

#[test]
fn a_checksum_tested_by_value() {
    let small = sum_is_found(tested_by_value);
    assert!(small.op.is_given_header());
}

/// Odd sizes alone tell.
#[test]
fn a_checksum_by_the_words() {
    fn other(case: &Case) -> After {
        judged(case, |blob| stored(blob) == words_of(blob))
    }
    let small = sum_is_found(other);
    assert_ne!(truth(&small.blob), words_of(&small.blob));
    assert_eq!(small.blob[34] % 2, 1);
}

/// An odd last byte under zero, and not over it.
#[test]
fn an_odd_last_byte_low() {
    fn other(case: &Case) -> After {
        judged(case, |blob| {
            let mut summed = size_of(blob)[14..].to_vec();
            if summed.len() % 2 == 1 {
                summed.insert(summed.len() - 1, 0);
            }
            stored(blob) == Some(second::checksum(&summed))
        })
    }
    let small = sum_is_found(other);
    assert_eq!(small.blob[34] % 2, 1);
}

/// Up to the declared size.
fn size_of(blob: &[u8]) -> &[u8] {
    let size = u32::from_le_bytes(blob[34..38].try_into().unwrap());
    &blob[..size as usize]
}

/// Words whose first byte is the lower one: the sums turned round.
#[test]
fn words_turned_round() {
    fn other(case: &Case) -> After {
        judged(case, |blob| {
            let turned = |word: &[u8]| word.iter().rev().copied().collect::<Vec<u8>>();
            let summed: Vec<Vec<u8>> = size_of(blob)[14..].chunks(2).map(turned).collect();
            stored(blob) == Some(by_words(&summed.concat()))
        })
    }
    sum_is_found(other);
}

#[test]
fn bytes_behind_the_size_summed() {
    fn other(case: &Case) -> After {
        judged(case, |blob| {
            stored(blob) == Some(second::checksum(&blob[14..]))
        })
    }
    let small = sum_is_found(other);
    assert!(size_of(&small.blob).len() < small.blob.len());
}

#[test]
fn the_last_byte_not_summed() {
    fn other(case: &Case) -> After {
        judged(case, |blob| {
            let bytes = size_of(blob);
            stored(blob) == Some(second::checksum(&bytes[14..bytes.len() - 1]))
        })
    }
    sum_is_found(other);
}

#[test]
fn one_half_of_the_checksum() {
    fn lower(case: &Case) -> After {
        let half = |sum: u32| sum & 0xFFFF;
        judged(case, |blob| stored(blob).map(half) == truth(blob).map(half))
    }
    fn upper(case: &Case) -> After {
        let half = |sum: u32| sum >> 16;
        judged(case, |blob| stored(blob).map(half) == truth(blob).map(half))
    }
    sum_is_found(lower);
    sum_is_found(upper);
}

#[test]
fn a_checksum_of_0_for_none() {
    fn other(case: &Case) -> After {
        judged(case, |blob| {
            stored(blob) == Some(0) || wrong(blob).is_none()
        })
    }
    let small = sum_is_found(other);
    assert_eq!(stored(&small.blob), Some(0));
}

/// Room before the checksum.
#[test]
fn a_checksum_tested_too_late() {
    fn other(case: &Case) -> After {
        let after = plain(case);
        let later = untested(case);
        match (after.answer, later.answer) {
            (13, 5) => later,
            _ => after,
        }
    }
    let small = sum_is_found(other);
    assert!(small.op.reads_header() && small.op != Op::Header);
}

/// The checksum before the fields, wherever the size is there.
#[test]
fn a_checksum_tested_too_early() {
    fn other(case: &Case) -> After {
        let mut after = plain(case);
        let own = case.op.reads_header();
        if own && matches!(after.answer, 3 | 4) && wrong(&case.blob).is_some() {
            after.answer = 13;
        }
        after
    }
    sum_is_found(other);
}

/// A mask that is written before the checksum is refused.
#[test]
fn a_spare_written_before_13() {
    fn other(case: &Case) -> After {
        let mut after = plain(case);
        if case.op == Op::Read && after.answer == 13 {
            let mut right = case.clone();
            right.blob = mended(&case.blob);
            after.lent.spare = plain(&right).lent.spare;
        }
        after
    }
    let failure = run(other).failures.remove(0);
    assert!(failure.difference.starts_with("spare["));
}

/// The field's own place, and not 0.
#[test]
fn a_place_of_13() {
    fn other(case: &Case) -> After {
        let after = plain(case);
        let is_sum = after.answer == 13;
        moved(after, |place| if is_sum { 10 } else { place })
    }
    let small = place_is_found(other);
    assert!(small.op.reads_header());
}

/// A fault of a publish alone, and the call made small.
fn publish_is_found(other: fn(&Case) -> After) -> (Case, String) {
    let failure = run(other).failures.remove(0);
    assert_eq!(failure.small.op, Op::Publish, "{}", failure.difference);
    let saved = store::text(&failure.small);
    assert_eq!(store::case(&saved).unwrap(), failure.small);
    (failure.small, failure.difference)
}

/// What the plain reader stages of a publish's inputs, if it accepts them.
fn staged(case: &Case) -> Option<Case> {
    let stage = Case {
        op: Op::Stage,
        staged: vec![0; raw::STAGED],
        place: vec![0],
        ..case.clone()
    };
    let after = plain(&stage);
    (after.answer == 0).then_some(after.lent)
}

/// The plain publish of a call that is put right in part, with what it is not
/// looked at left as it was.
fn as_if(case: &Case, mend: fn(&mut Case, &Case)) -> After {
    let Some(right) = staged(case).filter(|_| case.op == Op::Publish) else {
        return plain(case);
    };
    let mut other = case.clone();
    mend(&mut other, &right);
    let mut after = plain(&other);
    after.lent.spare.clone_from(&case.spare);
    after.lent.list.clone_from(&case.list);
    after.lent.staged.clone_from(&case.staged);
    after
}

const ACCEPTED_FOR_3: &str = "answer 3 and 0";

#[test]
fn a_spare_that_is_not_compared() {
    fn other(case: &Case) -> After {
        as_if(case, |other, right| other.spare.clone_from(&right.spare))
    }
    let (small, difference) = publish_is_found(other);
    assert_eq!(difference, ACCEPTED_FOR_3);
    assert_ne!(small.spare, staged(&small).unwrap().spare);
}

/// All but the last bit of it, which often is behind the last pixel.
#[test]
fn a_last_bit_of_the_spare() {
    fn other(case: &Case) -> After {
        as_if(case, |other, right| {
            let last = right.staged[15] as usize - 1;
            other.spare[last] = other.spare[last] & !1 | right.spare[last] & 1;
        })
    }
    assert_eq!(publish_is_found(other).1, ACCEPTED_FOR_3);
}

#[test]
fn a_list_that_is_not_compared() {
    fn other(case: &Case) -> After {
        as_if(case, |other, right| other.list.clone_from(&right.list))
    }
    let (small, difference) = publish_is_found(other);
    assert_eq!(difference, ACCEPTED_FOR_3);
    assert_ne!(small.list, staged(&small).unwrap().list);
}

#[test]
fn a_last_start_that_is_not_compared() {
    fn other(case: &Case) -> After {
        as_if(case, |other, right| {
            if let Some(last) = (right.staged[11] as usize).checked_sub(1) {
                other.list[last] = right.list[last];
            }
        })
    }
    assert_eq!(publish_is_found(other).1, ACCEPTED_FOR_3);
}

/// Starts of which only 32 bits are compared.
#[test]
fn starts_compared_in_32_bits() {
    fn other(case: &Case) -> After {
        as_if(case, |other, right| {
            for (start, right) in other.list.iter_mut().zip(&right.list) {
                if *start as u32 == *right as u32 {
                    *start = *right;
                }
            }
        })
    }
    assert_eq!(publish_is_found(other).1, ACCEPTED_FOR_3);
}

/// Of the answer only the number of blocks.
#[test]
fn an_answer_of_which_the_count_is_compared() {
    fn other(case: &Case) -> After {
        as_if(case, |other, right| {
            if other.staged.len() >= raw::STAGED && other.staged[11] == right.staged[11] {
                other.staged.clone_from(&right.staged);
            }
        })
    }
    assert_eq!(publish_is_found(other).1, ACCEPTED_FOR_3);
}

/// Each number of the answer is looked at.
#[test]
fn a_number_of_the_answer_that_is_not_compared() {
    fn without<const AT: usize>(case: &Case) -> After {
        as_if(case, |other, right| {
            if other.staged.len() >= raw::STAGED {
                other.staged[AT] = right.staged[AT];
            }
        })
    }
    let others: [fn(&Case) -> After; 16] = [
        without::<0>,
        without::<1>,
        without::<2>,
        without::<3>,
        without::<4>,
        without::<5>,
        without::<6>,
        without::<7>,
        without::<8>,
        without::<9>,
        without::<10>,
        without::<11>,
        without::<12>,
        without::<13>,
        without::<14>,
        without::<15>,
    ];
    for (at, other) in others.into_iter().enumerate() {
        assert_eq!(publish_is_found(other).1, ACCEPTED_FOR_3, "{at}");
    }
}

/// Fields, body and mask of which only the lower 32 bits are looked at.
#[test]
fn an_answer_cut_to_32_bits() {
    fn other(case: &Case) -> After {
        as_if(case, |other, _| {
            for at in [0, 1, 2, 3, 4, 5, 6, 10, 13, 14] {
                if let Some(number) = other.staged.get_mut(at) {
                    *number &= u64::from(u32::MAX);
                }
            }
        })
    }
    assert_eq!(publish_is_found(other).1, ACCEPTED_FOR_3);
}

/// 3 before what the blob itself earns.
#[test]
fn the_answer_looked_at_first() {
    fn other(case: &Case) -> After {
        let mut after = plain(case);
        let own = |number| !matches!(number, 0 | 3 | 5);
        if case.op == Op::Publish && own(after.answer) {
            after.answer = 3;
        }
        after
    }
    let (_, difference) = publish_is_found(other);
    assert!(difference.ends_with(" and 3"), "{difference}");
}

/// A spare that is wrong comes before a block that is.
#[test]
fn the_spare_looked_at_before_the_blocks() {
    fn other(case: &Case) -> After {
        let mut after = plain(case);
        let is_block = matches!(after.answer, 1 | 8) && after.place() > Some(66);
        if case.op == Op::Publish && is_block {
            let header = second::read_header(&case.blob).unwrap();
            let mut spare = case.spare.clone();
            let mask =
                second::prepare_mask(&case.blob, &header, case.reuse, &case.kept, &mut spare);
            if mask.is_ok() && spare != case.spare {
                (after.answer, after.lent.place[0]) = (3, 0);
            }
        }
        after
    }
    let (_, difference) = publish_is_found(other);
    assert!(difference.ends_with(" and 3"), "{difference}");
}

/// A record that is no answer, before what the blob earns.
#[test]
fn numbers_that_no_field_holds_first() {
    fn other(case: &Case) -> After {
        let mut after = plain(case);
        let has_wide = case.staged.iter().take(7).any(|&number| number >> 32 > 0);
        let is_own = !matches!(after.answer, 0 | 3 | 5);
        if case.op == Op::Publish && is_own && has_wide {
            (after.answer, after.lent.place[0]) = (3, 0);
        }
        after
    }
    let (_, difference) = publish_is_found(other);
    assert!(difference.ends_with(" and 3"), "{difference}");
}

/// The body judged by the mask that the spare holds.
#[test]
fn a_body_judged_by_the_spare() {
    fn other(case: &Case) -> After {
        let after = plain(case);
        let Some(right) = staged(case).filter(|_| case.op == Op::Publish) else {
            return after;
        };
        let (header, ranges) = match second::read_header(&case.blob) {
            Ok(header) if right.staged[13] == 3 && right.staged[14] == 2 => {
                (header, second::read_ranges(&case.blob, &header).unwrap())
            }
            _ => return after,
        };
        let mut list = case.list.clone();
        match second::walk(&case.blob, &header, &ranges, &case.spare, &mut list) {
            Err(refusal) if after.answer == 3 => {
                let mut after = after;
                (after.answer, after.lent.place[0]) = (refusal.number, refusal.place as u64);
                after
            }
            _ => after,
        }
    }
    let (_, difference) = publish_is_found(other);
    assert!(difference.starts_with("answer 3 and "), "{difference}");
}

/// What is not to be looked at: a spare under reuse, the list of a raw body.
#[test]
fn more_compared_than_is_asked() {
    fn spare(case: &Case) -> After {
        let mut after = plain(case);
        let mask = case.staged.get(14).copied();
        let kept = case.kept.iter().zip(&case.spare).all(|(a, b)| a == b);
        if case.op == Op::Publish && after.answer == 0 && mask == Some(1) && !kept {
            after.lent.clone_from(case);
            (after.answer, after.lent.place[0]) = (3, 0);
        }
        after
    }
    fn list(case: &Case) -> After {
        let mut after = plain(case);
        let body = case.staged.get(13).copied();
        let in_blob = case.list.iter().any(|&start| start < case.blob.len());
        if case.op == Op::Publish && after.answer == 0 && body != Some(3) && in_blob {
            after.lent.clone_from(case);
            (after.answer, after.lent.place[0]) = (3, 0);
        }
        after
    }
    assert_eq!(publish_is_found(spare).1, "answer 0 and 3");
    assert_eq!(publish_is_found(list).1, "answer 0 and 3");
}

/// A refusal that has written: the mask into the spare or the kept mask, a cell.
#[test]
fn a_publish_that_writes_before_it_refuses() {
    fn spare(case: &Case) -> After {
        let mut after = plain(case);
        if case.op == Op::Publish && after.answer == 3 {
            if let Some(right) = staged(case) {
                after.lent.spare = right.spare;
            }
        }
        after
    }
    fn kept(case: &Case) -> After {
        let mut after = plain(case);
        if case.op == Op::Publish && after.answer == 3 {
            if let Some(right) = staged(case).filter(|right| right.staged[14] == 2) {
                let length = right.staged[15] as usize;
                after.lent.kept[..length].copy_from_slice(&right.spare[..length]);
            }
        }
        after
    }
    fn image(case: &Case) -> After {
        let mut after = plain(case);
        if case.op == Op::Publish && after.answer == 3 {
            let right = staged(case).map(|right| Case {
                op: Op::Publish,
                ..right
            });
            if let Some(right) = right {
                after.lent.image = plain(&right).lent.image;
            }
        }
        after
    }
    assert!(publish_is_found(spare).1.starts_with("spare["));
    assert!(publish_is_found(kept).1.starts_with("kept["));
    assert!(publish_is_found(image).1.starts_with("image["));
}

/// An accepted publish that leaves the kept mask, or takes a reused one from the
/// spare.
#[test]
fn a_publish_with_another_kept_mask() {
    fn left(case: &Case) -> After {
        let mut after = plain(case);
        if case.op == Op::Publish {
            after.lent.kept.clone_from(&case.kept);
        }
        after
    }
    fn taken(case: &Case) -> After {
        let mut after = plain(case);
        if case.op == Op::Publish && after.answer == 0 {
            let length = case.staged[15] as usize;
            after.lent.kept[..length].copy_from_slice(&case.spare[..length]);
        }
        after
    }
    assert!(publish_is_found(left).1.starts_with("kept["));
    let (small, difference) = publish_is_found(taken);
    assert!(difference.starts_with("kept["), "{difference}");
    assert!(small.reuse);
}

/// A kept mask that changed with its count right is published by.
#[test]
fn a_publish_by_the_mask_of_staging() {
    fn other(case: &Case) -> After {
        let mut after = plain(case);
        if case.sort == Some(Sort::Kept) && after.answer == 0 {
            after.lent.clone_from(case);
            (after.answer, after.lent.place[0]) = (3, 0);
        }
        after
    }
    let (small, difference) = publish_is_found(other);
    assert_eq!(difference, "answer 0 and 3");
    assert!(small.reuse);
}

/// What was published, or filled, already is refused.
#[test]
fn a_publish_that_is_taken_once() {
    fn again(case: &Case) -> After {
        refused_as(case, Sort::Again)
    }
    fn filled(case: &Case) -> After {
        refused_as(case, Sort::Filled)
    }
    fn refused_as(case: &Case, sort: Sort) -> After {
        let mut after = plain(case);
        if case.sort == Some(sort) && after.answer == 0 {
            after.lent.clone_from(case);
            (after.answer, after.lent.place[0]) = (3, 0);
        }
        after
    }
    assert_eq!(publish_is_found(again).1, "answer 0 and 3");
    assert_eq!(publish_is_found(filled).1, "answer 0 and 3");
}

/// The number of words said for an image that is partly valid.
#[test]
fn words_of_all_pixels() {
    fn other(case: &Case) -> After {
        let mut after = plain(case);
        if case.op == Op::Publish && after.answer == 0 {
            let header = second::read_header(&case.blob).unwrap();
            after.lent.said[1] = header.cells() as u64;
        }
        after
    }
    assert!(publish_is_found(other).1.starts_with("said[1]"));
}

/// Faults of staging.
fn stage_is_found(other: fn(&Case) -> After) -> String {
    let failure = run(other).failures.remove(0);
    assert_eq!(failure.small.op, Op::Stage, "{}", failure.difference);
    failure.difference
}

/// A raw body that is listed, and said to be in blocks.
#[test]
fn a_stage_that_lists_a_raw_body() {
    fn listed(case: &Case) -> After {
        let mut after = plain(case);
        if case.op == Op::Stage && after.answer == 0 && after.lent.staged[13] == 2 {
            after.lent.list[0] = after.lent.staged[12] as usize;
        }
        after
    }
    fn said(case: &Case) -> After {
        let mut after = plain(case);
        if case.op == Op::Stage && after.answer == 0 && after.lent.staged[13] == 2 {
            after.lent.staged[13] = 3;
        }
        after
    }
    assert!(stage_is_found(listed).starts_with("list["));
    assert_eq!(stage_is_found(said), "staged[13]: 0x2 and 0x3");
}

/// A stage that publishes: the mask, or the cells; and one that leaves the list
/// of a blob that it refuses.
#[test]
fn a_stage_that_writes_too_much() {
    fn kept(case: &Case) -> After {
        let mut after = plain(case);
        if case.op == Op::Stage && after.answer == 0 && after.lent.staged[14] == 2 {
            let (lent, length) = (&mut after.lent, case.kept.len().min(case.spare.len()));
            lent.kept[..length].copy_from_slice(&lent.spare[..length]);
        }
        after
    }
    fn image(case: &Case) -> After {
        let mut after = plain(case);
        if case.op == Op::Stage && after.answer == 0 {
            if let Some(word) = after.lent.image.first_mut() {
                *word ^= 1;
            }
        }
        after
    }
    fn list(case: &Case) -> After {
        let mut after = plain(case);
        if case.op == Op::Stage && after.answer == 8 {
            if let Some(start) = after.lent.list.first_mut() {
                *start = 70;
            }
        }
        after
    }
    assert!(stage_is_found(kept).starts_with("kept["));
    assert!(stage_is_found(image).starts_with("image["));
    assert!(stage_is_found(list).starts_with("list["));
}

/// A stage that asks no room of the image, and one that leaves no mask behind
/// where a block is refused.
#[test]
fn a_stage_that_does_too_little() {
    fn room(case: &Case) -> After {
        let mut roomy = case.clone();
        if case.op == Op::Stage {
            let cells = second::read_header(&case.blob).map_or(0, |header| header.cells());
            roomy.image.resize(case.image.len().max(cells), 0);
        }
        let mut after = plain(&roomy);
        after.lent.image.clone_from(&case.image);
        if case.op != Op::Stage {
            return plain(case);
        }
        after
    }
    fn mask(case: &Case) -> After {
        let mut after = plain(case);
        if case.op == Op::Stage && after.answer == 8 {
            after.lent.spare.clone_from(&case.spare);
        }
        after
    }
    let difference = stage_is_found(room);
    assert!(difference.starts_with("answer 5 and "), "{difference}");
    assert!(stage_is_found(mask).starts_with("spare["));
}

/// Stage and publish in one that differ from a whole read.
#[test]
fn a_pair_that_is_no_whole_read() {
    fn other(case: &Case) -> After {
        let mut after = plain(case);
        if case.op == Op::Both && after.answer == 0 {
            after.lent.said[12] += 1;
        }
        after
    }
    let failure = run(other).failures.remove(0);
    assert_eq!(failure.small.op, Op::Both);
    assert!(failure.difference.starts_with("said[12]"));
}

/// A call that was saved without a line for the place has room for it.
#[test]
fn a_saved_call_without_a_place() {
    let case = Case::new(Op::Header);
    let saved = store::text(&case);
    let lines = saved.lines().filter(|line| !line.starts_with("place"));
    let before: Vec<&str> = lines.collect();
    assert_eq!(store::case(&before.join("\n")).unwrap().place.len(), 1);
}
