//! The checksum: a field that is not true is refused 13 at 0 by the four
//! functions that read a header, behind the header's other refusals and before
//! room. Those that are given a header do not look at it. By itself it is
//! compared with a plain loop.

mod sealed;

use lerc2::{fill, prepare_mask, publish, raw, read, read_header, read_ranges, stage, walk};
use lerc2::{Refusal, Whole, Why};
use sealed::{seal, FIELD};

const BODY: [u8; 9] = [0x0A, 0x0C, 0, 0, 1, 0x0A, 0x82, 3, 0x24];

const FALSE: Refusal = Refusal {
    why: Why::WrongChecksum,
    place: 0,
};

/// One row of u8 from `least` to `greatest`, without a checksum.
fn row(columns: u32, valid: u32, [least, greatest]: [u8; 2], mask: &[u8], after: &[u8]) -> Vec<u8> {
    let size = 70 + mask.len() + after.len();
    let mut blob = b"Lerc2 ".to_vec();
    for field in [4, 0, 1, columns, 1, valid, 8, size as u32, 1] {
        blob.extend(u32::to_le_bytes(field));
    }
    for number in [0.5, least.into(), greatest.into()] {
        blob.extend(f64::to_le_bytes(number));
    }
    blob.extend((mask.len() as u32).to_le_bytes());
    [&blob[..], mask, after].concat()
}

fn sealed_row(columns: u32, valid: u32, ends: [u8; 2], mask: &[u8], after: &[u8]) -> Vec<u8> {
    let mut blob = row(columns, valid, ends, mask, after);
    seal(&mut blob);
    blob
}

/// The rules' own blob.
fn rules() -> Vec<u8> {
    sealed_row(3, 3, [10, 12], &[], &BODY)
}

fn with_field(blob: &[u8], field: u32) -> Vec<u8> {
    let mut blob = blob.to_vec();
    blob[FIELD].copy_from_slice(&field.to_le_bytes());
    blob
}

fn field(blob: &[u8]) -> u32 {
    u32::from_le_bytes(blob[FIELD].try_into().unwrap())
}

fn changed(blob: &[u8], place: usize, by: u8) -> Vec<u8> {
    let mut blob = blob.to_vec();
    blob[place] ^= by;
    blob
}

/// All that is lent, with room: kept mask, spare, list and image.
type Lent = ([u8; 90], [u8; 90], [usize; 90], [u64; 700]);

const LENT: Lent = ([0xA0; 90], [2; 90], [7; 90], [9; 700]);

/// A whole read, which must leave all of it as it was if it is refused 13.
/// Staging refuses alike, and so does publishing what was staged of another.
fn whole(blob: &[u8], reuse: bool) -> Result<Whole, Refusal> {
    let (mut kept, mut spare, mut list, mut image) = LENT;
    let answer = read(blob, reuse, &mut kept, &mut spare, &mut list, &mut image);
    if answer == Err(FALSE) {
        assert_eq!((kept, spare, list, image), LENT);
        not_published(blob, reuse);
    }
    let (kept, mut spare, mut list, image) = LENT;
    let staged = stage(blob, reuse, &kept, &mut spare, &mut list, &image);
    assert_eq!(staged.err(), answer.err());
    if answer == Err(FALSE) {
        assert_eq!((kept, spare, list, image), LENT);
    }
    answer
}

fn not_published(blob: &[u8], reuse: bool) {
    let (mut kept, mut spare, mut list, mut image) = LENT;
    let staged = stage(&rules(), false, &kept, &mut spare, &mut list, &image).unwrap();
    let before = (kept, spare, list, image);
    let published = publish(blob, reuse, &staged, &mut kept, &spare, &list, &mut image);
    assert_eq!(published, Err(FALSE));
    assert_eq!((kept, spare, list, image), before);
}

fn is_refused(blob: &[u8]) {
    assert_eq!(read_header(blob), Err(FALSE));
    assert_eq!(whole(blob, false), Err(FALSE));
    assert_eq!(whole(blob, true), Err(FALSE));
}

fn is_read(blob: &[u8]) {
    assert!(read_header(blob).is_ok());
    assert!(whole(blob, false).is_ok());
}

#[test]
fn number_and_words() {
    assert_eq!((FALSE.number(), Why::WrongChecksum.number()), (13, 13));
    assert_eq!(FALSE.to_string(), "refused 13 at 0");
    assert_eq!(Why::ALL.last(), Some(&Why::WrongChecksum));
}

#[test]
fn the_field_of_the_rules_blob() {
    let blob = rules();
    assert_eq!(blob[FIELD], [0xDA, 0x3D, 0x6B, 0x38]);
    is_read(&blob);
}

#[test]
fn every_bit_of_the_field_counts() {
    let blob = rules();
    let true_field = field(&blob);
    for bit in 0..32 {
        is_refused(&with_field(&blob, true_field ^ 1 << bit));
    }
    for other in [
        0,
        u32::MAX,
        true_field.swap_bytes(),
        true_field.rotate_left(16),
    ] {
        is_refused(&with_field(&blob, other));
    }
}

/// The blob with a checksum that is true up to the size it declares, if it has
/// that many bytes.
fn resealed(blob: &[u8]) -> Vec<u8> {
    let mut blob = blob.to_vec();
    let size = u32::from_le_bytes(blob[34..38].try_into().unwrap()) as usize;
    if (FIELD.end..=blob.len()).contains(&size) {
        seal(&mut blob[..size]);
    }
    blob
}

/// Changes a byte in every way. What is refused with a true checksum too keeps
/// that refusal, and all else is refused 13: whether there is any of it.
fn counts(blob: &[u8], place: usize) -> bool {
    let mut found = false;
    for spoilt in (1..=255).map(|by| changed(blob, place, by)) {
        if let Err(other) = read_header(&resealed(&spoilt)) {
            assert_ne!(other, FALSE);
            assert_eq!(read_header(&spoilt), Err(other));
            assert_eq!(whole(&spoilt, false), Err(other));
        } else {
            is_refused(&spoilt);
            found = true;
        }
    }
    found
}

/// From 14 on, for an even and an odd count of bytes.
#[test]
fn every_byte_up_to_the_size_counts() {
    for behind in [&[1, 2, 3][..], &[1, 2]] {
        let blob = sealed_row(3, 3, [10, 12], &[], &[&BODY[..], behind].concat());
        let found = (14..blob.len()).filter(|&place| counts(&blob, place));
        // All but high bytes of fields: whatever those become, the header is
        // refused for another reason. Rows, columns, depth, valid, side, size,
        // kind; error, least, greatest and the count of mask bytes; the rest.
        let fields = [14, 15, 18, 19, 22, 26, 30, 34, 38];
        let expected = fields.into_iter().chain(42..67).chain(70..blob.len());
        assert_eq!(found.collect::<Vec<_>>(), expected.collect::<Vec<_>>());
    }
}

#[test]
fn bytes_behind_the_size_do_not_count() {
    let blob = [&rules()[..], &[4, 5]].concat();
    is_read(&blob);
    is_read(&changed(&blob, 79, 0xFF));
    is_read(&changed(&blob, 80, 0xFF));
    is_refused(&changed(&blob, 78, 0xFF));
}

/// Whatever is wrong behind the header.
#[test]
fn before_mask_ranges_and_body() {
    let mask = [1, 0, 0xA0, 0, 0x80];
    for blob in [
        sealed_row(3, 2, [10, 12], &mask, &BODY),
        sealed_row(3, 1, [10, 12], &mask, &BODY),
        sealed_row(3, 2, [10, 12], &[], &[10, 12, 1, 10, 11]),
        sealed_row(3, 3, [10, 12], &[], &[12, 10]),
        sealed_row(3, 3, [10, 12], &[], &[10, 12, 2]),
        sealed_row(3, 3, [10, 12], &[], &[10, 12, 0, 1]),
        sealed_row(3, 0, [10, 12], &[], &[]),
        sealed_row(3, 3, [5, 5], &[], &[]),
    ] {
        assert!(read_header(&blob).is_ok());
        assert_ne!(whole(&blob, false), Err(FALSE));
        is_refused(&with_field(&blob, 0));
    }
}

#[test]
fn behind_the_headers_other_refusals() {
    let blob = with_field(&rules(), 0);
    for (place, byte, why) in [
        (0, b'M', Why::WrongKey),
        (6, 5, Why::WrongKey),
        (38, 8, Why::WrongField),
        (30, 17, Why::Ceiling),
        (34, 80, Why::PassesSize),
    ] {
        let mut blob = blob.clone();
        blob[place] = byte;
        assert_eq!(read_header(&blob), Err(Refusal { why, place: 0 }));
        assert_eq!(whole(&blob, false), Err(Refusal { why, place: 0 }));
    }
    let (why, place) = (Why::PassesSize, 0);
    assert_eq!(read_header(&blob[..78]), Err(Refusal { why, place }));
}

#[test]
fn before_room() {
    let nothing = |blob: &[u8]| read(blob, false, &mut [], &mut [], &mut [], &mut []);
    let staged = |blob: &[u8]| stage(blob, false, &[], &mut [], &mut [], &[]);
    let other = stage(&rules(), false, &[0], &mut [0], &mut [0], &[0; 3]).unwrap();
    let published = |blob: &[u8]| publish(blob, false, &other, &mut [], &[], &[], &mut []);
    let untrue = with_field(&rules(), 0);
    assert_eq!(nothing(&untrue), Err(FALSE));
    assert_eq!(staged(&untrue), Err(FALSE));
    assert_eq!(published(&untrue), Err(FALSE));
    let (why, place) = (Why::NoRoom, 0);
    assert_eq!(nothing(&rules()), Err(Refusal { why, place }));
    assert_eq!(staged(&rules()), Err(Refusal { why, place }));
    assert_eq!(published(&rules()), Err(Refusal { why, place }));
}

#[test]
fn a_header_by_value_has_none() {
    let header = read_header(&rules()).unwrap();
    let blob = with_field(&rules(), 0);
    let (mut spare, mut list, mut image) = ([0], [0], [0; 3]);
    let mask = prepare_mask(&blob, &header, false, &[0], &mut spare).unwrap();
    let mask = mask.bytes();
    let ranges = read_ranges(&blob, &header).unwrap();
    let walked = walk(&blob, &header, &ranges, mask, &mut list).unwrap();
    assert_eq!((walked.blocks, walked.end), (1, 79));
    let words = fill(&blob, &header, &ranges, mask, &list, 0, &mut image);
    assert_eq!((words, image), (Ok(3), [10, 11, 12]));
}

/// Odd sizes of which the sentences of the rules have another checksum than
/// Esri's code, which decides; of the row of 662 they have the same, and sums
/// that are folded after 360 words another. With each blob both of them.
fn odd_sizes() -> Vec<(Vec<u8>, u32, u32)> {
    let raw_row = |count: usize, most: u8, last: [u8; 3]| {
        let cells = [&[0, 255][..], &vec![most; count - 5], &last].concat();
        let (columns, after) = (count as u32, [&[0, 255, 1][..], &cells].concat());
        sealed_row(columns, columns, [0, 255], &[], &after)
    };
    let in_block = [5, 144, 0, 0, 0, 5, 23, 139, 144];
    vec![
        (raw_row(8, 255, [0, 93, 128]), 0x0000_3EBD, 0x0001_3EBD),
        (raw_row(48, 249, [71, 146, 255]), 0x0000_FE6E, 0x0001_FE6E),
        (raw_row(64, 198, [20, 184, 255]), 0x0001_FE64, 0x0002_FE64),
        (raw_row(560, 255, [202, 153, 255]), 0xDA63_0000, 0xDA62_0001),
        (raw_row(564, 255, [190, 153, 255]), 0x873D_0000, 0x873D_0001),
        (raw_row(8, 253, [67, 100, 0]), 0x0000_FFBF, 0x0001_FFBF),
        (raw_row(540, 241, [175, 80, 255]), 0xF32F_0000, 0xF32F_0001),
        (raw_row(660, 255, [158, 152, 255]), 0xFBF5_0000, 0xFBF5_0001),
        (raw_row(662, 255, [152, 152, 255]), 0xA465_0001, 0xA465_0000),
        (
            sealed_row(4, 4, [5, 144], &[], &in_block),
            0x0000_65E1,
            0x0001_65E1,
        ),
    ]
}

#[test]
fn odd_sizes_as_esri_has_them() {
    for (blob, esri, other) in odd_sizes() {
        assert_eq!(field(&blob), esri);
        is_read(&blob);
        is_refused(&with_field(&blob, other));
    }
}

/// Bytes without a pattern, the same in each run.
fn noise(count: usize, seed: u64) -> Vec<u8> {
    let mut state = seed;
    let mut next = || {
        state = state.wrapping_mul(6364136223846793005);
        state = state.wrapping_add(1442695040888963407);
        (state >> 56) as u8
    };
    (0..count).map(|_| next()).collect()
}

/// Every length up to two groups of words and some bytes; FF makes the sums as
/// great as they become.
#[test]
fn by_itself_of_every_length() {
    let longest = 1440;
    for bytes in [vec![0xFF; longest], noise(longest, 1), noise(longest, 2)] {
        for count in 0..=longest {
            let (part, end) = (&bytes[..count], &bytes[longest - count..]);
            assert_eq!(lerc2::checksum(part), sealed::checksum(part), "{count}");
            assert_eq!(lerc2::checksum(end), sealed::checksum(end), "{count}");
        }
    }
}

/// Bytes whose checksum is known, and which tell it from others that are nearly
/// it.
#[test]
fn by_itself_of_known_bytes() {
    let full = |count: usize, last: &[u8]| [&vec![0xFF; count][..], last].concat();
    let strings = [
        (vec![], 0xFFFF_FFFF),
        (b"ab".to_vec(), 0x6162_6162),
        (full(512, &[0x01, 0x00, 0xFF]), 0x0101_0000),
        (vec![0x00, 0x01, 0x80, 0x7E, 0xFF], 0x0000_7F80),
        (full(38, &[0x00, 0xD8, 0xFF, 0x3B, 0xFF]), 0x0000_FF14),
        (full(38, &[0x00, 0xD9, 0xFF, 0x3A, 0xFF]), 0x0001_FF14),
    ];
    let is_known = |bytes: &[u8], known: u32| {
        assert_eq!(sealed::checksum(bytes), known);
        assert_eq!(lerc2::checksum(bytes), known);
    };
    for (bytes, known) in &strings {
        is_known(bytes, *known);
    }
    for (blob, esri, _) in &odd_sizes() {
        is_known(&blob[FIELD.end..], *esri);
    }
}

/// Sizes about one and two groups of words.
#[test]
fn long_sums() {
    for summed in [717, 718, 719, 720, 1435, 1436, 1437, 1438] {
        let behind = vec![0xFF; summed - 56 - BODY.len()];
        let blob = sealed_row(3, 3, [10, 12], &[], &[&BODY[..], &behind].concat());
        is_read(&blob);
        is_refused(&changed(&blob, blob.len() - 1, 1));
    }
}

/// Its place is written as any other, and nothing else.
#[test]
fn records_stay() {
    let blob = with_field(&rules(), 0);
    let (mut header, mut place) = ([5; raw::HEADER], [7; 2]);
    assert_eq!(raw::read_header(&blob, &mut header, &mut place), 13);
    assert_eq!((header, place), ([5; raw::HEADER], [0, 7]));
    // A place and a record without room come first.
    assert_eq!(raw::read_header(&blob, &mut header, &mut []), 5);
    assert_eq!(raw::read_header(&blob, &mut header[1..], &mut place), 5);
}
