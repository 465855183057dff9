//! The checksum: the sums themselves, and refusal 13.

use crate::blob::{hex, sealed, Blob};
use crate::given::Given;
use crate::lent::{accepted, cells, refused, refused_after, Lent};
use crate::random::Random;
use second::{checksum, prepare_mask, read_header, read_ranges, Refusal};

const WRONG: Refusal = Refusal::of(13);

fn stored(bytes: &[u8]) -> u32 {
    u32::from_le_bytes(bytes[10..14].try_into().unwrap())
}

fn with_stored(bytes: &[u8], sum: u32) -> Vec<u8> {
    let mut bytes = bytes.to_vec();
    bytes[10..14].copy_from_slice(&sum.to_le_bytes());
    bytes
}

/// "Sum of the words modulo 65,535, zero written as 65,535", and the same of
/// the running sums: the words alone, without a look at how they are folded.
fn by_words(bytes: &[u8]) -> u32 {
    let (mut sum, mut running) = (0, 0);
    for word in bytes.chunks(2) {
        let low = word.get(1).copied().unwrap_or(0);
        sum = (sum + u32::from(word[0]) * 256 + u32::from(low)) % 65_535;
        running = (running + sum) % 65_535;
    }
    let written = |sum: u32| if sum == 0 { 65_535 } else { sum };
    written(running) << 16 | written(sum)
}

/// Four pixels without loss, from 5 to `max`.
fn made_by_esri(max: f64, body: &str) -> Vec<u8> {
    let blob = Blob {
        error: 0.5f64.to_bits(),
        min: 5f64.to_bits(),
        max: max.to_bits(),
        ..Blob::row(4, &hex(body))
    };
    blob.bytes()
}

#[test]
fn of_a_few_bytes() {
    let sums = [
        ("", 0xFFFF_FFFF),
        ("00", 0xFFFF_FFFF),
        ("0000", 0xFFFF_FFFF),
        ("01", 0x0100_0100),
        ("0102", 0x0102_0102),
        ("010203", 0x0504_0402),
        ("FFFF", 0xFFFF_FFFF),
        ("6162636465", 0x4FF0_29C7),
        ("616263646566", 0x5056_2A2D),
    ];
    for (bytes, sum) in sums {
        assert_eq!(checksum(&hex(bytes)), sum, "{bytes}");
    }
    // Around a group of 359 words.
    for length in [716, 718, 720] {
        assert_eq!(checksum(&vec![255; length]), u32::MAX, "{length}");
    }
    for length in [717, 719] {
        assert_eq!(checksum(&vec![255; length]), 0xFF00_FF00, "{length}");
    }
    let counted: Vec<u8> = (0..1024).map(|n| n as u8).collect();
    assert_eq!(checksum(&counted), 0x1516_00FF);
}

/// "A stored 0 is never right, so the blob gets a true field first."
#[test]
fn of_the_whole_blob() {
    let bytes = Blob::whole().bytes();
    assert_eq!(stored(&bytes), 0x386B_3DDA);
    assert_eq!(cells(&bytes), [10, 11, 12]);
    assert_eq!(refused(&with_stored(&bytes, 0)), 13);
}

/// "Esri's published code decides": blobs that its encoder makes, in which one
/// fold leaves the upper half above 65,535.
#[test]
fn of_odd_blobs_that_esri_makes() {
    let in_blocks = made_by_esri(144.0, "05 90 00 00 00 05 17 8B 90");
    let raw = made_by_esri(160.0, "05 A0 01 52 05 A0 8C");
    let known = [
        (in_blocks, 0x0000_65E1, [5, 23, 139, 144]),
        (raw, 0x0000_5153, [82, 5, 160, 140]),
    ];
    for (bytes, sum, pixels) in known {
        assert_eq!(stored(&bytes), sum);
        assert_eq!(cells(&bytes), pixels);
        let words = by_words(&bytes[14..]);
        assert_eq!(words, sum + 0x1_0000);
        assert_eq!(refused(&with_stored(&bytes, words)), 13);
    }
}

/// Words in front, words of 65,535, an odd last byte; what is stored, and what
/// the words alone would have.
const ODD: [(&str, usize, u8, u32, u32); 6] = [
    // The sum is 131,071 before the last fold and 65,536 behind it: its one bit
    // goes to the upper half, which is even or has it already.
    ("0100", 256, 0xFF, 0x0103_0000, 0x0102_0001),
    ("000100FF", 257, 0xFF, 0x0203_0000, 0x0203_0001),
    // The sum of the running sums: 131,071, 196,606, 196,607.
    ("5655", 1, 0xFD, 0x0000_5356, 0x0001_5356),
    ("0008", 30, 0xFF, 0x0000_FF08, 0x0001_FF08),
    ("0009", 55, 0xFE, 0x0001_FE09, 0x0002_FE09),
    // Both sums at once.
    ("FDFE0301", 257, 0xFF, 0x0001_0000, 0x0001_0001),
];

fn odd_bytes(front: &str, words: usize, last: u8) -> Vec<u8> {
    let mut bytes = hex(front);
    bytes.resize(bytes.len() + 2 * words, 255);
    bytes.push(last);
    bytes
}

#[test]
fn of_odd_sizes_on_which_words_and_code_differ() {
    for (front, words, last, sum, other) in ODD {
        let bytes = odd_bytes(front, words, last);
        assert_eq!(checksum(&bytes), sum, "{front}");
        assert_eq!(by_words(&bytes), other, "{front}");
        // A byte more, and they agree again.
        let even = [bytes, vec![7]].concat();
        assert_eq!(checksum(&even), by_words(&even), "{front}");
    }
}

/// Both sums as they are before the last fold.
fn before_last_fold(bytes: &[u8]) -> [u32; 2] {
    let folded = |sum: u32| sum % 65_536 + sum / 65_536;
    let [mut sum, mut running] = [65_535u32; 2];
    for (nth, word) in (1..).zip(bytes.chunks(2)) {
        let low = word.get(1).copied().unwrap_or(0);
        sum += u32::from(word[0]) * 256 + u32::from(low);
        running += sum;
        if word.len() == 2 && (nth % 359 == 0 || nth == bytes.len() / 2) {
            (sum, running) = (folded(sum), folded(running));
        }
    }
    [sum, running]
}

/// They differ in no other case, and 0 never comes up.
#[test]
fn words_and_code_agree_but_for_these() {
    let mut random = Random::new(14);
    let mut differ = 0;
    for _ in 0..40_000 {
        let length = match random.below(40) {
            0 => 700 + random.below(1600),
            _ => random.below(120),
        };
        let most = random.pick(&[2, 256]);
        let mut bytes: Vec<u8> = (0..length)
            .map(|_| (255 - random.below(most)) as u8)
            .collect();
        // Every last byte, so that the rare ones come up.
        for last in 0..=255 * u8::from(random.chance(4)) {
            if let Some(byte) = bytes.last_mut() {
                *byte = byte.wrapping_add(last);
            }
            let [sum, running] = before_last_fold(&bytes);
            let is_odd = bytes.len() % 2 == 1;
            let left = sum == 131_071 || matches!(running, 131_071 | 196_606 | 196_607);
            let differs = checksum(&bytes) != by_words(&bytes);
            assert_eq!(differs, is_odd && left, "{bytes:?}");
            assert_ne!(checksum(&bytes), 0);
            differ += usize::from(differs);
        }
    }
    assert!(differ > 3, "{differ}");
}

/// Such blobs by bytes between the body's end and the size, which are the last
/// to be summed.
#[test]
fn of_odd_blobs_with_bytes_behind_the_body() {
    let mut blob = Blob {
        max: 10f64.to_bits(),
        ..Blob::row(3, &[])
    };
    let mut found = 0;
    for number in 0..1 << 18 {
        // A word, and one of four odd bytes.
        let [_, last, high, low] = u32::to_be_bytes(number);
        blob.body = vec![high, low, 0xFC + last];
        let bytes = blob.bytes();
        if stored(&bytes) == by_words(&bytes[14..]) {
            continue;
        }
        found += 1;
        assert_eq!(cells(&bytes), [10; 3]);
        assert_eq!(refused(&with_stored(&bytes, by_words(&bytes[14..]))), 13);
    }
    assert!(found > 2, "{found}");
}

#[test]
fn every_other_field_is_refused() {
    let bytes = Blob::whole().bytes();
    let sum = stored(&bytes);
    for bit in 0..32 {
        assert_eq!(refused(&with_stored(&bytes, sum ^ 1 << bit)), 13);
    }
    let [low, high] = [sum & 0xFFFF, sum >> 16];
    let others = [
        0,
        u32::MAX,
        !sum,
        sum.swap_bytes(),
        low << 16 | high,
        low,
        high << 16,
        sum + 1,
        sum - 1,
        sum + 0x1_0000,
        // The same modulo 65,535 in either half.
        sum + 0xFFFF,
        sum.wrapping_sub(0xFFFF),
    ];
    for other in others {
        let bytes = with_stored(&bytes, other);
        assert_eq!(read_header(&bytes), Err(WRONG), "{other:x}");
        assert_eq!(refused(&bytes), 13, "{other:x}");
    }
}

/// "Bytes 14 up to the declared size": each of them counts.
#[test]
fn every_byte_is_summed() {
    let bytes = Blob::whole().bytes();
    for at in 14..79 {
        for bit in 0..8 {
            let mut changed = bytes.clone();
            changed[at] ^= 1 << bit;
            let number = refused(&changed);
            // What the fields are held to comes first.
            assert!(number == 13 || at < 70 && matches!(number, 1 | 3 | 4));
            assert!(at < 70 || number == 13);
            assert_ne!(Lent::of(1, 1, 3).read(&sealed(changed), false), Err(WRONG));
        }
    }
}

/// The same: those between the body's end and the size do, those behind the
/// size do not.
#[test]
fn bytes_behind_the_body() {
    let blob = Blob::row(3, &hex("0A 0C 00 03 0A EE EE EE"));
    let mut bytes = blob.bytes();
    assert_eq!(accepted(&bytes).2, 75);
    for at in 75..78 {
        let mut changed = bytes.clone();
        changed[at] = 0xEF;
        assert_eq!(refused(&changed), 13);
        assert_eq!(accepted(&sealed(changed)).2, 75);
    }
    for behind in [0, 1, 255] {
        bytes.push(behind);
        assert_eq!(cells(&bytes), [10; 3]);
    }
    // A field that is true of all of the slice, or of the body alone.
    for end in [75, bytes.len()] {
        let other = with_stored(&bytes, checksum(&bytes[14..end]));
        assert_eq!(refused(&other), 13);
    }
}

/// "After the header's own refusals", and after the slice is found too short.
#[test]
fn after_1_2_3_and_4() {
    let bytes = with_stored(&Blob::whole().bytes(), 0);
    assert_eq!(refused(&bytes), 13);
    for length in 0..79 {
        assert_eq!(read_header(&bytes[..length]), Err(Refusal::of(1)));
        assert_eq!(refused(&bytes[..length]), 1);
    }
    for (at, value, number) in [(0, 0, 2), (6, 5, 2), (38, 8, 3), (30, 17, 4), (34, 80, 1)] {
        let mut changed = bytes.clone();
        changed[at] = value;
        assert_eq!(read_header(&changed), Err(Refusal::of(number)));
        assert_eq!(refused(&changed), number);
    }
}

/// "And before room."
#[test]
fn before_5() {
    let bytes = Blob::whole().bytes();
    let wrong = with_stored(&bytes, 0);
    let mut none = Lent::of(0, 0, 0);
    assert_eq!(none.read(&bytes, false), Err(Refusal::of(5)));
    assert_eq!(none.read(&wrong, false), Err(WRONG));
}

/// And so before all that is read of mask and body.
#[test]
fn before_6_to_9() {
    let mask = Blob {
        valid: 2,
        ..Blob::row(3, &[])
    };
    let constant = Blob {
        min: 300f64.to_bits(),
        max: 300f64.to_bits(),
        ..Blob::row(3, &[])
    };
    let table = Blob {
        body: hex("0A 0C 00 01 01000000"),
        ..Blob::whole()
    };
    let blobs = [
        (mask, 6),
        (Blob::row(3, &hex("0C 0A 00")), 7),
        (Blob::row(3, &hex("0A 0C 02")), 8),
        (Blob::row(3, &hex("0A 0C")), 1),
        (constant, 9),
        (table, 8),
    ];
    for (blob, number) in blobs {
        let bytes = blob.bytes();
        match number {
            6 => assert_eq!(refused(&bytes), 6),
            _ => assert_eq!(refused_after(&bytes, &[255]), number),
        }
        assert_eq!(refused(&with_stored(&bytes, !stored(&bytes))), 13);
    }
}

/// 13 leaves every slice as it was: the spare too, though the mask is right.
#[test]
fn nothing_is_written() {
    let masked = Blob {
        valid: 2,
        mask: hex("01 00 A0 00 80"),
        ..Blob::row(3, &hex("0A 0C 00 03 0A"))
    };
    for blob in [masked, Blob::whole()] {
        let bytes = blob.bytes();
        let wrong = with_stored(&bytes, 1);
        for reuse in [false, true] {
            let mut lent = Lent::to_read(&bytes);
            let before = lent.clone();
            assert_eq!(lent.read(&wrong, reuse), Err(WRONG));
            assert_eq!(lent, before);
        }
    }
}

/// "Entries given a header by value do not test it again."
#[test]
fn headers_by_value_are_taken_with_any() {
    let (bytes, header) = (Blob::whole().bytes(), Blob::whole().header());
    for sum in [0, 1, !stored(&bytes)] {
        let wrong = with_stored(&bytes, sum);
        assert!(prepare_mask(&wrong, &header, false, &[0], &mut [0]).is_ok());
        assert_eq!(read_ranges(&wrong, &header), read_ranges(&bytes, &header));
        let mut given = Given::new();
        given.bytes = wrong;
        assert_eq!(given.walk(), Ok((1, 79)));
        assert_eq!(given.fill(0), Ok(3));
        assert_eq!(given.image, [10, 11, 12]);
    }
}
