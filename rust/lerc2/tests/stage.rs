//! Stage and publish: what each leaves, what it refuses and in which order, and
//! what it does not look at; one after the other they are a whole read.

mod sealed;

use lerc2::{fill, publish, raw, read, read_ranges, stage};
use lerc2::{BodyKind, Header, Mask, Published, Refusal, Staged, StagedMask, Why};

/// One row of u8 from 10 to 12, in tiles of 8, or all of 10.
#[derive(Clone, Copy)]
struct Row<'a> {
    columns: u32,
    valid: u32,
    greatest: f64,
    mask: &'a [u8],
    after: &'a [u8],
}

/// Two blocks, at 80 and 82: eight pixels of 10, then one of 11.
const TWO: Row = Row {
    columns: 16,
    valid: 9,
    greatest: 12.0,
    mask: &[2, 0, 0xFF, 0x80, 0, 0x80],
    after: &[10, 12, 0, 0, 3, 10, 7, 11],
};

/// The same, but for the check bits of the second block.
const SPOILT: Row = Row {
    after: &[10, 12, 0, 0, 3, 10, 3, 11],
    ..TWO
};

/// Two of three pixels, by the kept mask: raw words of them in a block.
const REUSED: Row = Row {
    columns: 3,
    valid: 2,
    mask: &[],
    after: &[10, 12, 0, 0, 0, 11, 12],
    ..TWO
};

const CONSTANT: Row = Row {
    columns: 10,
    valid: 10,
    greatest: 10.0,
    mask: &[],
    after: &[],
};

const EMPTY: Row = Row {
    valid: 0,
    ..CONSTANT
};

const RAW: Row = Row {
    columns: 3,
    valid: 2,
    mask: &[1, 0, 0xA0, 0, 0x80],
    after: &[10, 12, 1, 11, 12],
    ..TWO
};

/// By differences: 1 and 11 have the codes 0 and 1, and the bits say 11, then 1.
const HUFFMAN: Row = Row {
    after: &[
        10, 12, 0, 1, 2, 0, 0, 0, 13, 0, 0, 0, 1, 0, 0, 0, 12, 0, 0, 0, 0x81, 11, 1, 4, 0, 0, 0,
        0x40, 0, 0, 0, 0x80, 0, 0, 0, 0,
    ],
    ..RAW
};

/// Bodies without blocks: kind, end and words.
const WITHOUT: [(Row, BodyKind, usize, usize); 4] = [
    (EMPTY, BodyKind::Empty, 70, 0),
    (CONSTANT, BodyKind::Constant, 70, 10),
    (RAW, BodyKind::Raw, 80, 2),
    (HUFFMAN, BodyKind::Huffman, 111, 2),
];

impl Row<'_> {
    fn blob(&self) -> Vec<u8> {
        let size = 70 + self.mask.len() + self.after.len();
        let mut blob = b"Lerc2 ".to_vec();
        for field in [4, 0, 1, self.columns, 1, self.valid, 8, size as u32, 1] {
            blob.extend(u32::to_le_bytes(field));
        }
        for number in [0.5, 10.0, self.greatest] {
            blob.extend(f64::to_le_bytes(number));
        }
        blob.extend((self.mask.len() as u32).to_le_bytes());
        let mut blob = [&blob[..], self.mask, self.after].concat();
        sealed::seal(&mut blob);
        blob
    }
}

/// All that is lent, with marks.
#[derive(Clone, Debug, PartialEq)]
struct Lent {
    kept: Vec<u8>,
    spare: Vec<u8>,
    list: Vec<usize>,
    image: Vec<u64>,
}

fn lent() -> Lent {
    Lent {
        kept: vec![0x60, 1, 1],
        spare: vec![2; 3],
        list: vec![7; 3],
        image: vec![99; 17],
    }
}

impl Lent {
    fn stage(&mut self, blob: &[u8], reuse: bool) -> Result<Staged, Refusal> {
        let before = self.clone();
        let (spare, list) = (&mut self.spare, &mut self.list);
        let answer = stage(blob, reuse, &self.kept, spare, list, &self.image);
        if answer.is_err() {
            assert_eq!(self.list, before.list);
        }
        answer
    }

    /// A refusal must leave all of it.
    fn publish(&mut self, blob: &[u8], reuse: bool, staged: &Staged) -> Result<Published, Refusal> {
        let before = self.clone();
        let (kept, image) = (&mut self.kept, &mut self.image);
        let answer = publish(blob, reuse, staged, kept, &self.spare, &self.list, image);
        if answer.is_err() {
            assert_eq!(*self, before);
        }
        answer
    }
}

fn staged(blob: &[u8]) -> (Lent, Staged) {
    let mut lent = lent();
    let answer = lent.stage(blob, false).unwrap();
    (lent, answer)
}

fn at<T>(why: Why, place: usize) -> Result<T, Refusal> {
    Err(Refusal { why, place })
}

/// An answer, spare or list that staging did not give.
fn not_staged<T>() -> Result<T, Refusal> {
    at(Why::WrongField, 0)
}

#[test]
fn staging_leaves_mask_and_list_alone() {
    let (after, answer) = staged(&TWO.blob());
    assert_eq!((answer.body, answer.blocks), (BodyKind::Blocks, 2));
    assert_eq!((answer.end, answer.mask), (84, StagedMask::Spare(2)));
    assert_eq!((answer.header.columns, answer.header.mask_bytes), (16, 6));
    let expected = Lent {
        spare: vec![0xFF, 0x80, 2],
        list: vec![80, 82, 7],
        ..lent()
    };
    assert_eq!(after, expected);
    let mask = answer.mask_in(&after.kept, &after.spare);
    assert_eq!(mask, Some(Mask::Spare(&[0xFF, 0x80])));
    assert_eq!(answer.mask_in(&after.kept, &[1]), None);
}

#[test]
fn a_body_without_blocks_has_no_list() {
    for (row, body, end, words) in WITHOUT {
        let (mut after, answer) = staged(&row.blob());
        assert_eq!((answer.body, answer.blocks, answer.end), (body, 0, end));
        assert_eq!(after.list, lent().list);
        // And none is looked at.
        after.list.fill(5);
        let published = after.publish(&row.blob(), false, &answer);
        assert_eq!(published, Ok(Published { end, words }));
        let changed = after.image.iter().filter(|&&word| word != 99);
        assert_eq!(changed.count(), words);
    }
}

#[test]
fn a_reused_mask_leaves_the_spare() {
    let blob = REUSED.blob();
    let mut after = lent();
    let answer = after.stage(&blob, true).unwrap();
    assert_eq!((answer.mask, answer.end), (StagedMask::Kept(1), 77));
    assert_eq!(after.spare, lent().spare);
    let mask = answer.mask_in(&after.kept, &after.spare);
    assert_eq!(mask, Some(Mask::Kept(&[0x60])));
    // It is not looked at either.
    after.spare.fill(0);
    after.publish(&blob, true, &answer).unwrap();
    assert_eq!(after.image[..4], [99, 11, 12, 99]);
    assert_eq!(after.kept, lent().kept);
}

#[test]
fn publishing_writes_image_and_kept_mask() {
    let (mut after, answer) = staged(&TWO.blob());
    let before = after.clone();
    let published = after.publish(&TWO.blob(), false, &answer);
    assert_eq!(published, Ok(Published { end: 84, words: 9 }));
    let mut image = vec![10; 8];
    image.extend([11, 99, 99, 99, 99, 99, 99, 99, 99]);
    let expected = Lent {
        kept: vec![0xFF, 0x80, 1],
        image,
        ..before
    };
    assert_eq!(after, expected);
}

#[test]
fn once_more_is_accepted_and_changes_nothing() {
    for (row, reuse) in [
        (TWO, false),
        (REUSED, true),
        (RAW, false),
        (HUFFMAN, false),
        (EMPTY, false),
    ] {
        let mut after = lent();
        let answer = after.stage(&row.blob(), reuse).unwrap();
        let published = after.publish(&row.blob(), reuse, &answer);
        let once = after.clone();
        assert_eq!(after.publish(&row.blob(), reuse, &answer), published);
        assert_eq!(after, once);
        // Nor does staging what was published say anything else.
        assert_eq!(after.stage(&row.blob(), reuse), Ok(answer));
    }
}

#[test]
fn fills_between_change_nothing() {
    let blob = TWO.blob();
    let (mut after, answer) = staged(&blob);
    let mut straight = after.clone();
    straight.publish(&blob, false, &answer).unwrap();
    let (header, ranges) = (answer.header, read_ranges(&blob, &answer.header).unwrap());
    for number in [1, 0, 1] {
        let mask = answer.mask_in(&after.kept, &after.spare).unwrap().bytes();
        let (list, image) = (&after.list, &mut after.image);
        assert!(fill(&blob, &header, &ranges, mask, list, number, image).is_ok());
    }
    assert_eq!(after.image, straight.image);
    assert!(after.publish(&blob, false, &answer).is_ok());
    assert_eq!(after, straight);
}

/// Right ones, wrong ones, and all that are cut.
fn blobs() -> Vec<Vec<u8>> {
    let rows = [TWO, SPOILT, REUSED, CONSTANT, EMPTY, RAW, HUFFMAN];
    let mut blobs: Vec<Vec<u8>> = rows.iter().map(Row::blob).collect();
    let wrong = [
        Row {
            mask: &[2, 0, 0xFF, 0xC0, 0, 0x80],
            ..TWO
        },
        Row {
            after: &[12, 10, 0, 0, 3, 10, 7, 11],
            ..TWO
        },
        Row {
            after: &[10, 12, 2],
            ..TWO
        },
        Row {
            after: &[10, 12, 0, 1],
            ..TWO
        },
        Row {
            after: &[10, 12, 1, 11],
            ..RAW
        },
    ];
    blobs.extend(wrong.iter().map(Row::blob));
    let whole = TWO.blob();
    blobs.extend((0..whole.len()).map(|length| whole[..length].to_vec()));
    for (place, byte) in [(0, b'M'), (10, 0), (30, 17), (38, 8)] {
        let mut blob = whole.clone();
        blob[place] = byte;
        blobs.push(blob);
    }
    blobs
}

/// Number and place, image, both masks, list and end.
#[test]
fn the_two_are_a_whole_read() {
    for blob in blobs() {
        for reuse in [false, true] {
            let (mut whole, mut two) = (lent(), lent());
            let (kept, spare) = (&mut whole.kept, &mut whole.spare);
            let (list, image) = (&mut whole.list, &mut whole.image);
            let answer = read(&blob, reuse, kept, spare, list, image);
            let answers = two.stage(&blob, reuse).and_then(|staged| {
                let published = two.publish(&blob, reuse, &staged)?;
                assert_eq!(published.end, staged.end);
                Ok((staged.header, staged.blocks, published.end))
            });
            let answer = answer.map(|whole| (whole.header, whole.blocks, whole.end));
            assert_eq!(answers, answer);
            assert_eq!(two, whole);
        }
    }
}

#[test]
fn a_refused_stage_leaves_a_new_mask_at_most() {
    let mut after = lent();
    assert_eq!(after.stage(&SPOILT.blob(), false), at(Why::WrongBlock, 82));
    let spare = vec![0xFF, 0x80, 2];
    assert_eq!(after, Lent { spare, ..lent() });
    // The mask section itself is wrong, or one is reused.
    let one_more = Row {
        mask: &[2, 0, 0xFF, 0xC0, 0, 0x80],
        ..TWO
    };
    let mut after = lent();
    assert_eq!(after.stage(&one_more.blob(), false), at(Why::WrongMask, 66));
    let spoilt = Row {
        after: &[10, 12, 0, 0, 4, 11, 12],
        ..REUSED
    };
    assert_eq!(after.stage(&spoilt.blob(), true), at(Why::WrongBlock, 74));
    assert_eq!(after, lent());
}

/// What the blob earns comes first, with its place, whatever is handed over.
#[test]
fn publishing_refuses_first_what_staging_refuses() {
    let (good, answer) = staged(&TWO.blob());
    let forged = Staged { end: 0, ..answer };
    for blob in blobs() {
        for reuse in [false, true] {
            let Err(refusal) = good.clone().stage(&blob, reuse) else {
                continue;
            };
            for staged in [&answer, &forged] {
                let mut after = good.clone();
                assert_eq!(after.publish(&blob, reuse, staged), Err(refusal));
                after.spare.fill(0);
                after.list.fill(0);
                assert_eq!(after.publish(&blob, reuse, staged), Err(refusal));
            }
        }
    }
    // By the blob's own mask: by the one in the spare block 1 has no word, and
    // nothing is missing.
    let cut = Row {
        after: &[10, 12, 0, 0, 0, 10, 10, 10, 10, 10, 10, 10, 10, 4],
        ..TWO
    };
    let mut after = good;
    after.spare[..2].copy_from_slice(&[0xFF, 0]);
    let refused = after.publish(&cut.blob(), false, &answer);
    assert_eq!(refused, at(Why::PassesSize, 89));
}

#[test]
fn every_slice_needs_room() {
    let blob = TWO.blob();
    let (good, answer) = staged(&blob);
    let shorten: [fn(&mut Lent); 4] = [
        |lent| lent.kept.truncate(1),
        |lent| lent.spare.truncate(1),
        |lent| lent.list.truncate(1),
        |lent| lent.image.truncate(15),
    ];
    for short in shorten {
        let mut after = good.clone();
        short(&mut after);
        let before = after.clone();
        assert_eq!(after.stage(&blob, false), at(Why::NoRoom, 0));
        assert_eq!(after, before);
        assert_eq!(after.publish(&blob, false, &answer), at(Why::NoRoom, 0));
    }
    // Just enough.
    let mut after = good;
    after.kept.truncate(2);
    after.spare.truncate(2);
    after.list.truncate(2);
    after.image.truncate(16);
    assert_eq!(after.stage(&blob, false), Ok(answer));
    assert!(after.publish(&blob, false, &answer).is_ok());
}

#[test]
fn a_forged_answer() {
    let blob = TWO.blob();
    let (mut after, answer) = staged(&blob);
    let header = |change: fn(&mut Header)| {
        let mut forged = answer;
        change(&mut forged.header);
        forged
    };
    let mut forged = vec![
        header(|header| header.rows += 1),
        header(|header| header.columns += 1),
        header(|header| header.depth += 1),
        header(|header| header.valid -= 1),
        header(|header| header.side += 1),
        header(|header| header.size -= 1),
        header(|header| header.kind = lerc2::Kind::I8),
        header(|header| header.error = 1.0),
        header(|header| header.min = -10.0),
        header(|header| header.max = f64::NAN),
        header(|header| header.mask_bytes -= 1),
    ];
    for blocks in [0, 1, 3, usize::MAX] {
        forged.push(Staged { blocks, ..answer });
    }
    for end in [0, 83, 85, 84 + (1 << 32), usize::MAX] {
        forged.push(Staged { end, ..answer });
    }
    let others = BodyKind::ALL.into_iter();
    for body in others.filter(|&body| body != answer.body) {
        forged.push(Staged { body, ..answer });
    }
    for mask in [
        StagedMask::Kept(2),
        StagedMask::Spare(1),
        StagedMask::Spare(3),
        StagedMask::Spare(usize::MAX),
    ] {
        forged.push(Staged { mask, ..answer });
    }
    for forged in forged {
        assert_ne!(forged, answer);
        assert_eq!(after.publish(&blob, false, &forged), not_staged());
    }
    assert!(after.publish(&blob, false, &answer).is_ok());
}

/// As `publish` judges them, and not as numbers are compared.
#[test]
fn answers_are_equal_bit_for_bit() {
    let (_, answer) = staged(&TWO.blob());
    let with_least = |min: f64| {
        let header = Header {
            min,
            ..answer.header
        };
        Staged { header, ..answer }
    };
    assert_ne!(with_least(0.0), with_least(-0.0));
    assert_eq!(with_least(f64::NAN), with_least(f64::NAN));
    assert_eq!(with_least(10.0), answer);
}

#[test]
fn the_answer_of_another_blob() {
    let (mut after, old) = staged(&RAW.blob());
    assert_eq!(after.publish(&TWO.blob(), false, &old), not_staged());
    let (mut after, old) = staged(&TWO.blob());
    assert_eq!(after.publish(&RAW.blob(), false, &old), not_staged());
}

#[test]
fn a_stale_spare() {
    let blob = TWO.blob();
    let (good, answer) = staged(&blob);
    for bit in 0..16 {
        let mut after = good.clone();
        after.spare[bit / 8] ^= 1 << (bit % 8);
        assert_eq!(after.publish(&blob, false, &answer), not_staged());
    }
    let mut after = good;
    after.spare[2] ^= 1;
    assert!(after.publish(&blob, false, &answer).is_ok());
    // The same numbers of another mask, of as many pixels.
    let moved = Row {
        mask: &[2, 0, 0x7F, 0xC0, 0, 0x80],
        after: &[10, 12, 0, 0, 3, 10, 7, 11],
        ..TWO
    };
    let (mut after, same) = staged(&blob);
    assert_eq!(same, answer);
    assert_eq!(after.publish(&moved.blob(), false, &answer), not_staged());
}

#[test]
fn a_spare_of_one_sort() {
    for row in [EMPTY, CONSTANT] {
        let (good, answer) = staged(&row.blob());
        // The last bit of the second byte is behind the last pixel.
        for (byte, bit) in [(0, 0x80), (1, 1)] {
            let mut after = good.clone();
            after.spare[byte] ^= bit;
            assert_eq!(after.publish(&row.blob(), false, &answer), not_staged());
        }
    }
}

#[test]
fn a_stale_list() {
    let blob = TWO.blob();
    let (good, answer) = staged(&blob);
    for block in 0..2 {
        let start = good.list[block];
        for other in [0, start - 1, start + 1, start + (1 << 32), usize::MAX] {
            let mut after = good.clone();
            after.list[block] = other;
            assert_eq!(after.publish(&blob, false, &answer), not_staged());
        }
    }
    let mut after = good;
    after.list[2] = 0;
    assert!(after.publish(&blob, false, &answer).is_ok());
}

#[test]
fn a_kept_mask_that_changed() {
    let blob = REUSED.blob();
    let mut good = lent();
    let answer = good.stage(&blob, true).unwrap();
    // As many pixels, and bits behind the last: published by.
    for (kept, image) in [(0xA0, [11, 99, 12]), (0x7F, [99, 11, 12])] {
        let mut after = good.clone();
        after.kept[0] = kept;
        assert!(after.publish(&blob, true, &answer).is_ok());
        assert_eq!((after.kept[0], &after.image[..3]), (kept, &image[..]));
    }
    // Another count, or not reused any more.
    let mut after = good.clone();
    after.kept[0] = 0xE0;
    assert_eq!(after.publish(&blob, true, &answer), at(Why::WrongMask, 66));
    assert_eq!(good.publish(&blob, false, &answer), at(Why::WrongMask, 66));
    // Where there is a new one it does not count.
    let (mut after, answer) = staged(&TWO.blob());
    after.kept.fill(0);
    assert!(after.publish(&TWO.blob(), false, &answer).is_ok());
}

// ---- records, as C has them

const RECORD: [u64; raw::STAGED] = [5; raw::STAGED];

fn staged_record(blob: &[u8], lent: &mut Lent) -> (u32, [u64; raw::STAGED], [u64; 2]) {
    let (mut record, mut place) = (RECORD, [7; 2]);
    let (spare, list) = (&mut lent.spare, &mut lent.list);
    let said = raw::stage(
        blob,
        false,
        &lent.kept,
        spare,
        list,
        &lent.image,
        &mut record,
        &mut place,
    );
    (said, record, place)
}

/// Number, place, and what was said.
fn publish_record(blob: &[u8], lent: &mut Lent, record: &[u64]) -> (u32, [u64; 2], [u64; 3]) {
    let (mut said, mut place) = ([6; 3], [7; 2]);
    let (kept, image) = (&mut lent.kept, &mut lent.image);
    let (spare, list) = (&lent.spare, &lent.list);
    let number = raw::publish(
        blob, false, record, kept, spare, list, image, &mut said, &mut place,
    );
    (number, place, said)
}

#[test]
fn the_record_number_by_number() {
    let blob = TWO.blob();
    let mut after = lent();
    let (number, record, place) = staged_record(&blob, &mut after);
    let bits = [0.5, 10.0, 12.0].map(f64::to_bits);
    let expected = [&[1, 16, 1, 9, 8, 84, 1][..], &bits, &[6, 2, 84, 3, 2, 2]];
    assert_eq!(
        (number, &record[..], place),
        (0, &expected.concat()[..], [0, 7])
    );
    for at in 0..raw::STAGED {
        let true_one = record[at];
        for other in [
            true_one + 1,
            true_one.wrapping_sub(1),
            true_one ^ 1 << 32,
            true_one ^ 1 << 63,
            u64::MAX,
        ] {
            let mut forged = record;
            forged[at] = other;
            let before = after.clone();
            let answer = publish_record(&blob, &mut after, &forged);
            assert_eq!(answer, (3, [0, 7], [6; 3]), "{at}: {other}");
            assert_eq!(after, before);
        }
    }
    let answer = publish_record(&blob, &mut after, &record);
    assert_eq!(answer, (0, [0, 7], [84, 9, 6]));
}

/// A record that staging refused to write is no answer.
#[test]
fn a_refused_record() {
    let mut after = lent();
    let (number, record, place) = staged_record(&SPOILT.blob(), &mut after);
    assert_eq!((number, record, place), (8, RECORD, [82, 7]));
    let answer = publish_record(&SPOILT.blob(), &mut after, &record);
    assert_eq!(answer, (8, [82, 7], [6; 3]));
    let (mut good, _) = staged(&TWO.blob());
    let answer = publish_record(&TWO.blob(), &mut good, &record);
    assert_eq!(answer, (3, [0, 7], [6; 3]));
}

/// Before all that the blob earns.
#[test]
fn records_that_are_too_short() {
    for blob in [&TWO.blob()[..], &SPOILT.blob(), &[]] {
        let (good, _) = staged(&TWO.blob());
        let mut after = good.clone();
        let (record, said) = (&mut [5; raw::STAGED - 1], &mut [6; raw::PUBLISH]);
        let place = &mut [7; 2];
        let (spare, list) = (&mut after.spare, &mut after.list);
        let number = raw::stage(
            blob,
            false,
            &after.kept,
            spare,
            list,
            &after.image,
            record,
            place,
        );
        assert_eq!((number, place[0]), (5, 0));
        assert_eq!(*record, [5; raw::STAGED - 1]);
        for (record, said) in [
            (&[5; raw::STAGED - 1][..], &mut said[..]),
            (&RECORD, &mut [6; raw::PUBLISH - 1]),
        ] {
            let place = &mut [7; 2];
            let (kept, image) = (&mut after.kept, &mut after.image);
            let (spare, list) = (&after.spare, &after.list);
            let number = raw::publish(blob, false, record, kept, spare, list, image, said, place);
            assert_eq!((number, place[0]), (5, 0));
            assert!(said.iter().all(|&number| number == 6));
        }
        assert_eq!(after, good);
    }
}
