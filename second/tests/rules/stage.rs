//! Stage and publish: what each leaves, refuses and does not look at. That one
//! after the other they equal a whole read is checked wherever blobs are read
//! in steps, too.

use crate::blob::{hex, sealed, Blob};
use crate::huffman::Coded;
use crate::lent::{check_two, Lent, IMAGE, KEPT, LIST, SPARE};
use second::{fill, read_ranges, BodyKind, Header, Mask, Published, Refusal, StageAnswer, Staged};

/// An answer, spare or list that staging did not give.
const NOT_STAGED: Refusal = Refusal::of(3);

/// Two blocks, at 79 and 81, with nine valid pixels: eight of 10, one of 11.
fn two_blocks() -> Blob {
    Blob {
        valid: 9,
        mask: hex("02 00 FF 80 00 80"),
        ..Blob::row(16, &hex("0A 0C 00 03 0A 07 0B"))
    }
}

/// The same, but for check bits of the second block.
fn wrong_block() -> Blob {
    Blob {
        body: hex("0A 0C 00 03 0A 03 0B"),
        ..two_blocks()
    }
}

/// Two pixels of three by the kept mask; raw words, so that it is told by their
/// number alone which tile has them.
fn two_reused() -> Blob {
    Blob {
        valid: 2,
        side: 2,
        ..Blob::row(3, &hex("0A 0C 00 00 0B 00 0C"))
    }
}

/// Bodies without blocks: kind, end and words.
fn without_blocks() -> [(Blob, BodyKind, usize, usize); 5] {
    let ten = Blob::row(10, &[]);
    [
        (
            Blob {
                valid: 0,
                ..ten.clone()
            },
            BodyKind::Empty,
            70,
            0,
        ),
        (
            Blob {
                max: ten.min,
                depth: 2,
                ..ten
            },
            BodyKind::Constant,
            70,
            20,
        ),
        (
            Blob::row(2, &hex("05 05 00 03 0A")),
            BodyKind::Constant,
            72,
            2,
        ),
        (
            Blob {
                valid: 2,
                mask: hex("01 00 A0 00 80"),
                ..Blob::row(3, &hex("0A 0C 01 0B 0C"))
            },
            BodyKind::Raw,
            80,
            2,
        ),
        (
            Blob {
                body: [hex("0A 0C 00 01"), Coded::three("0 10 11").bytes()].concat(),
                ..Blob::whole()
            },
            BodyKind::Huffman,
            108,
            3,
        ),
    ]
}

fn staged(bytes: &[u8]) -> (Lent, StageAnswer) {
    let mut lent = Lent::to_read(bytes);
    let answer = lent.stage(bytes, false);
    (lent, answer)
}

#[test]
fn staging_leaves_mask_and_list_alone() {
    let blob = two_blocks();
    let (lent, answer) = staged(&blob.bytes());
    let expected = Staged {
        header: blob.header(),
        body: BodyKind::Blocks,
        blocks: 2,
        end: 83,
        mask: Mask::Spare(2),
    };
    assert_eq!(answer, Ok(expected));
    assert_eq!(lent.spare, [0xFF, 0x80, SPARE, SPARE, SPARE]);
    assert_eq!(lent.list, [79, 81, LIST, LIST, LIST]);
    assert_eq!(lent.kept, [KEPT; 5]);
    assert_eq!(lent.image, [IMAGE; 19]);
}

#[test]
fn staging_lists_no_body_without_blocks() {
    for (blob, body, end, _) in without_blocks() {
        let (lent, answer) = staged(&blob.bytes());
        let answer = answer.unwrap();
        assert_eq!((answer.body, answer.blocks, answer.end), (body, 0, end));
        assert_eq!(answer.header, blob.header());
        assert_eq!(answer.mask, Mask::Spare(blob.header().mask_length()));
        assert!(lent.list.iter().all(|&start| start == LIST));
    }
}

#[test]
fn staging_under_reuse_says_kept_and_leaves_the_spare() {
    let bytes = two_reused().bytes();
    let mut lent = Lent::to_read(&bytes);
    lent.kept[0] = 0x60;
    let answer = lent.stage(&bytes, true).unwrap();
    assert_eq!(answer.mask, Mask::Kept(1));
    assert_eq!(lent.spare, [SPARE; 4]);
    assert_eq!((answer.blocks, answer.end), (2, 77));
    assert_eq!(lent.list, [73, 75, LIST, LIST, LIST]);
    // Masks that are all of one sort are new, reuse or not.
    let bytes = Blob::row(3, &hex("0A 0C 01 0A 0B 0C")).bytes();
    let mut lent = Lent::to_read(&bytes);
    assert_eq!(lent.stage(&bytes, true).unwrap().mask, Mask::Spare(1));
    assert_eq!(lent.spare[..2], [255, SPARE]);
}

#[test]
fn publishing_fills_then_copies_the_mask() {
    let bytes = two_blocks().bytes();
    let (mut lent, answer) = staged(&bytes);
    let before = lent.clone();
    let published = lent.publish(&bytes, false, answer);
    assert_eq!(published, Ok(Published { end: 83, words: 9 }));
    assert_eq!(lent.image[..9], [10, 10, 10, 10, 10, 10, 10, 10, 11]);
    assert_eq!(lent.image[9..], [IMAGE; 10]);
    assert_eq!(lent.kept, [0xFF, 0x80, KEPT, KEPT, KEPT]);
    assert_eq!((lent.spare, lent.list), (before.spare, before.list));
}

#[test]
fn publishing_bodies_without_blocks() {
    for (blob, _, end, words) in without_blocks() {
        let bytes = blob.bytes();
        let (mut lent, answer) = staged(&bytes);
        let published = lent.publish(&bytes, false, answer);
        assert_eq!(published, Ok(Published { end, words }));
        let written = lent.image.iter().filter(|&&word| word != IMAGE).count();
        assert_eq!(written, words);
        let length = blob.header().mask_length();
        assert_eq!(lent.kept[..length], lent.spare[..length]);
        assert_eq!(lent.kept[length..], [KEPT; 3]);
    }
}

#[test]
fn the_two_equal_a_whole_read() {
    let mut blobs = vec![two_blocks(), wrong_block(), two_reused(), Blob::whole()];
    blobs.extend(without_blocks().map(|(blob, ..)| blob));
    for blob in blobs {
        for reuse in [false, true] {
            let bytes = blob.bytes();
            let mut lent = Lent::to_read(&bytes);
            lent.kept[0] = 0xA0;
            let mut whole = lent.clone();
            let answer = whole.read(&bytes, reuse);
            check_two(&bytes, reuse, &lent, answer, &whole);
        }
    }
}

// ---- answers that staging did not give

fn each_change() -> Vec<fn(&mut Staged)> {
    vec![
        |s| s.header.rows += 1,
        |s| s.header.columns += 1,
        |s| s.header.depth += 1,
        |s| s.header.valid -= 1,
        |s| s.header.side += 1,
        |s| s.header.size += 1,
        |s| s.header.kind = 0,
        |s| s.header.error += 1,
        |s| s.header.min += 1,
        |s| s.header.max += 1,
        |s| s.header.mask += 1,
        |s| s.body = BodyKind::Raw,
        |s| s.body = BodyKind::Constant,
        |s| s.body = BodyKind::Empty,
        |s| s.blocks -= 1,
        |s| s.blocks += 1,
        |s| s.blocks = 0,
        |s| s.blocks = usize::MAX,
        |s| s.end -= 1,
        |s| s.end += 1,
        |s| s.end = usize::MAX,
        |s| s.mask = Mask::Kept(2),
        |s| s.mask = Mask::Spare(1),
        |s| s.mask = Mask::Spare(3),
        |s| s.mask = Mask::Spare(usize::MAX),
    ]
}

#[test]
fn an_answer_changed_in_any_number() {
    let bytes = two_blocks().bytes();
    let (mut lent, answer) = staged(&bytes);
    for change in each_change() {
        let mut forged = answer.unwrap();
        change(&mut forged);
        assert_eq!(lent.publish(&bytes, false, Ok(forged)), Err(NOT_STAGED));
    }
    assert!(lent.publish(&bytes, false, answer).is_ok());
}

#[test]
fn another_kind_of_a_body_without_blocks() {
    let kinds = [
        BodyKind::Empty,
        BodyKind::Constant,
        BodyKind::Raw,
        BodyKind::Blocks,
    ];
    for (blob, body, ..) in without_blocks() {
        let bytes = blob.bytes();
        let (mut lent, answer) = staged(&bytes);
        for other in kinds.into_iter().filter(|&other| other != body) {
            let forged = answer.map(|staged| Staged {
                body: other,
                ..staged
            });
            assert_eq!(lent.publish(&bytes, false, forged), Err(NOT_STAGED));
        }
    }
}

#[test]
fn a_refused_answer() {
    let bytes = two_blocks().bytes();
    let (mut lent, _) = staged(&bytes);
    for refusal in [Refusal::of(0), NOT_STAGED, Refusal::at(8, 81)] {
        assert_eq!(lent.publish(&bytes, false, Err(refusal)), Err(NOT_STAGED));
    }
    // On the blob that earned it, it is what the blob earns.
    let bytes = wrong_block().bytes();
    let (mut lent, answer) = staged(&bytes);
    assert_eq!(answer, Err(Refusal::at(8, 81)));
    assert_eq!(lent.publish(&bytes, false, answer), Err(Refusal::at(8, 81)));
}

#[test]
fn a_stale_answer() {
    let (old, new) = (two_blocks(), Blob::whole());
    let (mut lent, answer) = staged(&old.bytes());
    assert_eq!(lent.publish(&new.bytes(), false, answer), Err(NOT_STAGED));
    // The same numbers, mask and starts, and other cells: nothing tells.
    let mut other = old.bytes();
    other[80] = 12;
    let other = sealed(other);
    let published = lent.publish(&other, false, answer);
    assert_eq!(published, Ok(Published { end: 83, words: 9 }));
    assert_eq!(lent.image[..9], [12, 12, 12, 12, 12, 12, 12, 12, 11]);
    // Reuse is not in the answer, where it changes nothing.
    assert!(lent.publish(&old.bytes(), true, answer).is_ok());
}

#[test]
fn a_mask_that_moved_in_the_blob() {
    // Nine others of the sixteen pixels, in a section of the same length.
    let (mut lent, answer) = staged(&two_blocks().bytes());
    let other = Blob {
        mask: hex("02 00 7F C0 00 80"),
        ..two_blocks()
    };
    let bytes = other.bytes();
    assert_eq!(lent.publish(&bytes, false, answer), Err(NOT_STAGED));
    assert_eq!(lent.stage(&bytes, false), answer);
    assert!(lent.publish(&bytes, false, answer).is_ok());
    assert_eq!(lent.kept[..2], [0x7F, 0xC0]);
}

#[test]
fn a_changed_spare() {
    let bytes = two_blocks().bytes();
    let (lent, answer) = staged(&bytes);
    for at in 0..2 {
        for bit in 0..8 {
            let mut lent = lent.clone();
            lent.spare[at] ^= 1 << bit;
            assert_eq!(lent.publish(&bytes, false, answer), Err(NOT_STAGED));
        }
    }
    // Past the mask nothing is looked at.
    let mut lent = lent;
    lent.spare[2] ^= 1;
    assert!(lent.publish(&bytes, false, answer).is_ok());
}

#[test]
fn a_changed_spare_of_a_mask_of_one_sort() {
    for (blob, ..) in without_blocks() {
        let bytes = blob.bytes();
        let (lent, answer) = staged(&bytes);
        let length = blob.header().mask_length();
        // The last bit is behind the last pixel, and is compared as well.
        for (at, bit) in [(0, 7), (length - 1, 0)] {
            let mut lent = lent.clone();
            lent.spare[at] ^= 1 << bit;
            assert_eq!(lent.publish(&bytes, false, answer), Err(NOT_STAGED));
        }
    }
}

#[test]
fn a_changed_list() {
    let bytes = two_blocks().bytes();
    let (lent, answer) = staged(&bytes);
    for at in 0..2 {
        let start = lent.list[at];
        for other in [0, start - 1, start + 1, start + (1 << 32), usize::MAX] {
            let mut lent = lent.clone();
            lent.list[at] = other;
            assert_eq!(lent.publish(&bytes, false, answer), Err(NOT_STAGED));
        }
    }
    let mut turned = lent.clone();
    turned.list.swap(0, 1);
    assert_eq!(turned.publish(&bytes, false, answer), Err(NOT_STAGED));
    let mut lent = lent;
    lent.list[2] = 0;
    assert!(lent.publish(&bytes, false, answer).is_ok());
}

#[test]
fn a_list_that_is_not_looked_at() {
    for (blob, ..) in without_blocks() {
        let bytes = blob.bytes();
        let (mut lent, answer) = staged(&bytes);
        lent.list.fill(5);
        assert!(lent.publish(&bytes, false, answer).is_ok());
    }
}

// ---- the kept mask between the two

#[test]
fn a_spare_that_is_not_looked_at() {
    let bytes = two_reused().bytes();
    let mut lent = Lent::to_read(&bytes);
    lent.kept[0] = 0x60;
    let answer = lent.stage(&bytes, true);
    lent.spare.fill(0);
    let published = lent.publish(&bytes, true, answer);
    assert_eq!(published, Ok(Published { end: 77, words: 2 }));
    assert_eq!(lent.image[..4], [IMAGE, 11, 12, IMAGE]);
    assert_eq!(lent.kept, [0x60, KEPT, KEPT, KEPT]);
}

#[test]
fn a_kept_mask_that_changed() {
    let bytes = two_reused().bytes();
    let mut lent = Lent::to_read(&bytes);
    lent.kept[0] = 0x60;
    let answer = lent.stage(&bytes, true);
    let changed = |kept: u8| Lent {
        kept: vec![kept; 1],
        ..lent.clone()
    };
    // Other pixels of the same tiles: published by, and behind the last pixel.
    let mut other = changed(0xBF);
    assert!(other.publish(&bytes, true, answer).is_ok());
    assert_eq!(other.image[..4], [11, IMAGE, 12, IMAGE]);
    assert_eq!(other.kept, [0xBF]);
    // Another count.
    let mut other = changed(0xE0);
    let refused = Err(Refusal::at(6, 66));
    assert_eq!(other.publish(&bytes, true, answer), refused);
    // Two pixels in the first tile: the second block would begin at the word
    // 12, in which the check bits are wrong.
    let mut other = changed(0xC0);
    let refused = Err(Refusal::at(8, 76));
    assert_eq!(other.publish(&bytes, true, answer), refused);
    // Not reused any more.
    let mut other = changed(0x60);
    let refused = Err(Refusal::at(6, 66));
    assert_eq!(other.publish(&bytes, false, answer), refused);
}

#[test]
fn a_kept_mask_that_moves_a_start() {
    // Read by either mask: a raw block of one pixel or of two, then a zero one
    // at 2, which is a word or a flag.
    let blob = Blob {
        valid: 2,
        side: 2,
        ..Blob::row(3, &hex("0A 0C 00 00 02 02 02"))
    };
    let bytes = blob.bytes();
    let mut lent = Lent::to_read(&bytes);
    lent.kept[0] = 0x60;
    let answer = lent.stage(&bytes, true);
    assert_eq!(lent.list[..2], [73, 75]);
    lent.kept[0] = 0xC0;
    assert_eq!(lent.publish(&bytes, true, answer), Err(NOT_STAGED));
    let answer = lent.stage(&bytes, true);
    assert_eq!(lent.list[..2], [73, 76]);
    lent.list[1] = 75;
    assert_eq!(lent.publish(&bytes, true, answer), Err(NOT_STAGED));
    lent.list[1] = 76;
    assert!(lent.publish(&bytes, true, answer).is_ok());
}

#[test]
fn a_kept_mask_is_no_matter_where_there_is_a_new_one() {
    let bytes = two_blocks().bytes();
    for reuse in [false, true] {
        let (mut lent, answer) = staged(&bytes);
        lent.kept.fill(0);
        assert!(lent.publish(&bytes, reuse, answer).is_ok());
        assert_eq!(lent.kept[..2], [0xFF, 0x80]);
    }
}

// ---- what the blob itself earns comes first

/// An answer, spare and list that are all wrong, with room for the blob.
fn nothing_right(bytes: &[u8]) -> (Lent, StageAnswer) {
    (Lent::to_read(bytes), Err(Refusal::of(7)))
}

#[test]
fn the_blob_comes_before_3() {
    let changed = |change: fn(&mut Blob)| {
        let mut blob = two_blocks();
        change(&mut blob);
        blob.bytes()
    };
    let mut summed = two_blocks().bytes();
    summed[10] ^= 1;
    let blobs = [
        (two_blocks().bytes()[..82].to_vec(), Refusal::of(1)),
        (changed(|b| b.side = 17), Refusal::of(4)),
        (summed, Refusal::of(13)),
        (changed(|b| b.valid = 8), Refusal::at(6, 66)),
        (changed(|b| b.body[1] = 9), Refusal::at(7, 77)),
        (changed(|b| b.body.truncate(1)), Refusal::at(1, 76)),
        (changed(|b| b.body[2] = 2), Refusal::at(8, 78)),
        (wrong_block().bytes(), Refusal::at(8, 81)),
    ];
    for (bytes, refusal) in blobs {
        let (mut lent, forged) = nothing_right(&bytes);
        assert_eq!(lent.publish(&bytes, false, forged), Err(refusal));
        // The true list and mask of a blob that was right, with its answer.
        let (mut lent, answer) = staged(&two_blocks().bytes());
        assert_eq!(lent.publish(&bytes, false, answer), Err(refusal));
        lent.spare[0] ^= 1;
        assert_eq!(lent.publish(&bytes, false, answer), Err(refusal));
    }
}

#[test]
fn the_body_is_judged_by_the_blobs_mask() {
    // By the spare the second tile has no pixel, and its counts are too many.
    let blob = Blob {
        body: hex("0A 0C 00 03 0A 05 0A 82 01 40"),
        ..two_blocks()
    };
    let bytes = blob.bytes();
    let (mut lent, answer) = staged(&bytes);
    assert!(answer.is_ok());
    lent.spare[..2].copy_from_slice(&[0xFF, 0]);
    assert_eq!(lent.publish(&bytes, false, answer), Err(NOT_STAGED));
    // The other way round: they would be right by the spare alone.
    let blob = Blob {
        body: hex("0A 0C 00 03 0A 05 0A 80 00"),
        ..two_blocks()
    };
    let bytes = blob.bytes();
    let refusal = Err(Refusal::at(8, 81));
    assert_eq!(lent.publish(&bytes, false, answer), refusal);
}

#[test]
fn room_is_asked_for_again() {
    let bytes = two_blocks().bytes();
    let (lent, answer) = staged(&bytes);
    let cuts: [fn(&mut Lent); 4] = [
        |lent| lent.kept.truncate(1),
        |lent| lent.spare.truncate(1),
        |lent| lent.list.truncate(1),
        |lent| lent.image.truncate(15),
    ];
    for cut in cuts {
        let mut short = lent.clone();
        cut(&mut short);
        let refused = Err(Refusal::of(5));
        assert_eq!(short.publish(&bytes, false, answer), refused);
        let forged = Err(Refusal::of(3));
        assert_eq!(short.publish(&bytes, false, forged), refused);
        let before = short.clone();
        assert_eq!(short.stage(&bytes, false), Err(Refusal::of(5)));
        assert_eq!(short, before);
    }
    // Just enough is enough.
    let mut exact = Lent::of(2, 2, 16);
    let answer = exact.stage(&bytes, false);
    assert!(exact.publish(&bytes, false, answer).is_ok());
}

// ---- what staging leaves where it refuses

#[test]
fn a_refused_body_leaves_the_new_mask() {
    let bytes = wrong_block().bytes();
    let (lent, answer) = staged(&bytes);
    assert_eq!(answer, Err(Refusal::at(8, 81)));
    let mut expected = Lent::to_read(&bytes);
    expected.spare[..2].copy_from_slice(&[0xFF, 0x80]);
    assert_eq!(lent, expected);
}

#[test]
fn a_refused_mask_or_a_reused_one_leaves_all() {
    let mut refused = two_blocks();
    refused.valid = 8;
    let mut reused = two_reused();
    reused.body.pop();
    for (blob, refusal) in [(refused, Refusal::at(6, 66)), (reused, Refusal::at(1, 75))] {
        let bytes = blob.bytes();
        let mut lent = Lent::to_read(&bytes);
        lent.kept[0] = 0x60;
        let before = lent.clone();
        assert_eq!(lent.stage(&bytes, true), Err(refusal));
        assert_eq!(lent, before);
    }
}

// ---- more than once, and with fills in between

#[test]
fn staging_again_gives_the_same() {
    let bytes = two_blocks().bytes();
    let (mut lent, answer) = staged(&bytes);
    let before = lent.clone();
    assert_eq!(lent.stage(&bytes, false), answer);
    assert_eq!(lent, before);
    assert!(lent.publish(&bytes, false, answer).is_ok());
    assert_eq!(lent.stage(&bytes, false), answer);
}

#[test]
fn publishing_again_changes_nothing_more() {
    let bytes = two_blocks().bytes();
    let (mut lent, answer) = staged(&bytes);
    let published = lent.publish(&bytes, false, answer);
    let after = lent.clone();
    for _ in 0..2 {
        assert_eq!(lent.publish(&bytes, false, answer), published);
        assert_eq!(lent, after);
    }
    // And puts right what was changed of it.
    lent.image[3] = 0;
    lent.kept[0] = 0;
    assert_eq!(lent.publish(&bytes, false, answer), published);
    assert_eq!(lent, after);
}

#[test]
fn fills_between_the_two() {
    let bytes = two_blocks().bytes();
    let (mut lent, answer) = staged(&bytes);
    let header: Header = answer.unwrap().header;
    let ranges = read_ranges(&bytes, &header).unwrap();
    let mask = lent.spare.clone();
    for number in [1, 0, 1] {
        let (list, image) = (&lent.list, &mut lent.image);
        let words = fill(&bytes, &header, &ranges, &mask, list, number, image);
        assert_eq!(words, Ok([8, 1][number]));
    }
    let mut whole = Lent::to_read(&bytes);
    whole.read(&bytes, false).unwrap();
    // The fills are all of the image; what is left is the mask.
    assert_eq!(lent.image, whole.image);
    assert_eq!(lent.kept, [KEPT; 5]);
    assert!(lent.publish(&bytes, false, answer).is_ok());
    assert_eq!(lent, whole);
}
