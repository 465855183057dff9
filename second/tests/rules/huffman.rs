//! Byte images as Huffman codes: the table, the symbols, the prediction, and
//! each way to refuse them.

use crate::blob::{hex, sealed, Blob};
use crate::bodies::packed;
use crate::given::Given;
use crate::lent::{accepted, cells, refused_at, whole_and_steps, Lent, IMAGE, LIST};
use second::{BodyKind, Refusal};

/// The mode byte, behind the ranges of one depth and the sweep byte.
const MODE_AT: usize = 73;

/// Behind the mode byte: four integers, the lengths, codes and symbols.
#[derive(Clone)]
pub struct Coded {
    pub integers: [u32; 4],
    pub lengths: Vec<u8>,
    pub codes: Vec<u8>,
    pub symbols: Vec<u8>,
}

impl Coded {
    /// Codes 0, 10 and 11 of the symbols 10, 11 and 12, and a word behind what
    /// is coded.
    pub fn three(symbols: &str) -> Coded {
        Coded {
            integers: [4, 256, 10, 13],
            lengths: counts(&[1, 2, 2]),
            codes: words("0 10 11"),
            symbols: [words(symbols), vec![0; 4]].concat(),
        }
    }

    /// A code of eight bits for each byte, the byte itself.
    pub fn plain(symbols: &[u8]) -> Coded {
        let bits = |bytes: &[u8]| {
            let bits = bytes.iter().map(|byte| format!("{byte:08b}"));
            words(&bits.collect::<String>())
        };
        Coded {
            integers: [4, 256, 0, 256],
            lengths: counts(&[8; 256]),
            codes: bits(&Vec::from_iter(0..=255)),
            symbols: [bits(symbols), vec![0; 4]].concat(),
        }
    }

    pub fn bytes(&self) -> Vec<u8> {
        let integers = self.integers.map(u32::to_le_bytes).concat();
        let parts = [&integers, &self.lengths, &self.codes, &self.symbols];
        parts.map(Vec::as_slice).concat()
    }

    /// One row of u8 pixels, each symbol a value.
    fn row(&self, columns: u32) -> Blob {
        self.mode(2, columns)
    }

    fn mode(&self, mode: u8, columns: u32) -> Blob {
        Blob {
            error: 0.5f64.to_bits(),
            body: [vec![10, 12, 0, mode], self.bytes()].concat(),
            ..Blob::row(columns, &[])
        }
    }

    /// Three pixels, which must be refused.
    fn refused(&self) -> u32 {
        refused(&self.row(3))
    }
}

/// Lengths as packed counts of six bits, their number in two bytes.
pub fn counts(lengths: &[u64]) -> Vec<u8> {
    let number = (lengths.len() as u16).to_le_bytes();
    [vec![0x46], number.to_vec(), packed(lengths, 6)].concat()
}

/// Bits as whole words, the highest bit first; spaces are skipped.
pub fn words(bits: &str) -> Vec<u8> {
    let bits: Vec<char> = bits.chars().filter(|bit| !bit.is_whitespace()).collect();
    let word = |bits: &[char]| {
        let set = bits.iter().enumerate().filter(|&(_, &bit)| bit == '1');
        set.map(|(nth, _)| 1u32 << (31 - nth)).sum::<u32>()
    };
    let words = bits.chunks(32).map(|bits| word(bits).to_le_bytes());
    words.collect::<Vec<_>>().concat()
}

/// The number; the place is always the mode byte's, and nothing is written but
/// the mask.
fn refused(blob: &Blob) -> u32 {
    let bytes = blob.bytes();
    let mask = vec![255; blob.header().mask_length()];
    let refusal = refused_at(&bytes, &mask);
    assert_eq!(refusal.place, MODE_AT, "{refusal}");
    let lent = Lent::to_read(&bytes);
    assert_eq!(whole_and_steps(&bytes, false, &lent), Err(refusal));
    refusal.number
}

/// The cells, read in every way.
fn read(blob: &Blob) -> Vec<u64> {
    let bytes = blob.bytes();
    let lent = Lent::to_read(&bytes);
    let after = whole_and_steps(&bytes, false, &lent).unwrap();
    after.image[..blob.header().cells()].to_vec()
}

// ---- accepted

#[test]
fn bytes_written_out() {
    // Codes and symbols are 58000000, as words: 0 10 11, and 0 10 11 0 0.
    let body = "0A 0C 00 02 04000000 00010000 0A000000 0D000000 \
                82 03 29 00000058 00000058 EEEEEEEE";
    let blob = Blob {
        error: 0.5f64.to_bits(),
        ..Blob::row(5, &hex(body))
    };
    assert_eq!(read(&blob), [10, 11, 12, 10, 10]);
    let (_, blocks, end, lent) = accepted(&blob.bytes());
    assert_eq!((blocks, end), (0, 105));
    assert!(lent.list.iter().all(|&start| start == LIST));
    let same = Coded::three("0 10 11 0 0").row(5);
    assert_eq!(read(&same), [10, 11, 12, 10, 10]);
}

#[test]
fn staged_without_a_list() {
    let bytes = Coded::three("0 10 11").row(3).bytes();
    let mut lent = Lent::to_read(&bytes);
    let staged = lent.stage(&bytes, false).unwrap();
    assert_eq!((staged.body, staged.blocks), (BodyKind::Huffman, 0));
    assert_eq!(staged.end, bytes.len());
    assert!(lent.list.iter().all(|&start| start == LIST));
    // Each other kind of body is not what staging gave.
    for body in [BodyKind::Raw, BodyKind::Blocks, BodyKind::Constant] {
        let forged = second::Staged { body, ..staged };
        let answer = lent.publish(&bytes, false, Ok(forged));
        assert_eq!(answer, Err(Refusal::of(3)));
    }
    let published = lent.publish(&bytes, false, Ok(staged)).unwrap();
    assert_eq!((published.end, published.words), (bytes.len(), 3));
    assert_eq!(lent.image[..4], [10, 11, 12, IMAGE]);
}

#[test]
fn a_range_goes_round_at_the_size() {
    let row = |size, first, end| {
        let coded = Coded {
            integers: [2, size, first, end],
            ..Coded::three("0 10 11")
        };
        read(&coded.row(3))
    };
    assert_eq!(row(12, 10, 13), [10, 11, 0]);
    assert_eq!(row(11, 10, 13), [10, 0, 1]);
    assert_eq!(row(13, 10, 13), [10, 11, 12]);
    assert_eq!(row(256, 255, 258), [255, 0, 1]);
    assert_eq!(row(255, 254, 257), [254, 0, 1]);
    // As many symbols as the size has.
    assert_eq!(row(3, 0, 3), [0, 1, 2]);
    assert_eq!(row(3, 1, 4), [1, 2, 0]);
    assert_eq!(row(3, 2, 5), [2, 0, 1]);
}

#[test]
fn all_symbols_from_any_one_on() {
    for first in [0u32, 1, 100, 255] {
        let symbols: Vec<u8> = (0..=255).collect();
        let mut coded = Coded::plain(&symbols);
        coded.integers = [4, 256, first, first + 256];
        // The byte is the code of what stands so many places on.
        let expected: Vec<u64> = (0..256).map(|k| (k + u64::from(first)) % 256).collect();
        assert_eq!(read(&coded.row(256)), expected);
    }
}

#[test]
fn any_version_from_2_on() {
    for version in [2, 3, 5, 1 << 31, u32::MAX] {
        let mut coded = Coded::three("0 0 0");
        coded.integers[0] = version;
        assert_eq!(read(&coded.row(3)), [10; 3]);
    }
}

#[test]
fn a_single_code_of_any_length() {
    for length in 1..=32usize {
        let code = "10110".repeat(7)[..length].to_string();
        let symbols = code.repeat(3);
        let coded = Coded {
            integers: [4, 1, 0, 1],
            lengths: counts(&[length as u64]),
            codes: words(&code),
            symbols: [words(&symbols), vec![0; 4]].concat(),
        };
        let blob = coded.row(3);
        assert_eq!(read(&blob), [0; 3]);
        let end = 74 + 16 + 4 + 4 + (3 * length).div_ceil(32) * 4 + 4;
        assert_eq!(accepted(&blob.bytes()).2, end, "{length}");
    }
}

#[test]
fn codes_and_symbols_go_on_in_the_next_word() {
    let long = ["0", "1"].map(|bit| format!("{}{bit}", "1".repeat(31)));
    let coded = Coded {
        lengths: counts(&[1, 32, 32]),
        codes: words(&format!("0 {} {}", long[0], long[1])),
        symbols: [
            words(&format!("{} 0 {}", long[1], long[0])),
            hex("12345678"),
        ]
        .concat(),
        ..Coded::three("")
    };
    assert_eq!(read(&coded.row(3)), [12, 10, 11]);
}

#[test]
fn symbols_of_length_0_have_no_code() {
    let coded = Coded {
        integers: [4, 256, 5, 13],
        lengths: counts(&[0, 0, 0, 0, 0, 1, 2, 2]),
        ..Coded::three("0 10 11")
    };
    assert_eq!(read(&coded.row(3)), [10, 11, 12]);
    let coded = Coded {
        integers: [4, 100, 95, 105],
        lengths: counts(&[1, 0, 0, 2, 0, 0, 0, 2, 0, 0]),
        ..coded
    };
    assert_eq!(read(&coded.row(3)), [95, 98, 2]);
}

#[test]
fn lengths_in_every_form_of_counts() {
    // Plain counts of 2 and 31 bits, their number in 1, 2 and 4 bytes.
    let wide = |head: &str| [hex(head), packed(&[1, 2, 2], 31)].concat();
    let forms = [
        hex("82 03 29"),
        hex("42 0300 29"),
        hex("02 03000000 29"),
        wide("9F 03"),
        wide("5F 0300"),
        wide("1F 03000000"),
        // Tables of 0 1 2 and of 0 1 2 40, where 40 is not named.
        hex("A2 03 03 09 29"),
        hex("62 0300 03 09 29"),
        hex("22 03000000 03 09 29"),
        [hex("A6 03 04"), packed(&[1, 2, 40], 6), hex("29")].concat(),
    ];
    for lengths in forms {
        let coded = Coded {
            lengths,
            ..Coded::three("0 10 11")
        };
        assert_eq!(read(&coded.row(3)), [10, 11, 12]);
    }
}

#[test]
fn the_end_is_a_word_behind_the_symbols() {
    for pixels in [1, 31, 32, 33, 64, 65] {
        let bytes = Coded::three(&"0".repeat(pixels)).row(pixels as u32).bytes();
        let expected = 74 + 16 + 6 + 4 + (pixels.div_ceil(32) + 1) * 4;
        assert_eq!(bytes.len(), expected);
        assert_eq!(accepted(&bytes).2, expected);
    }
}

#[test]
fn what_is_not_looked_at() {
    let mut coded = Coded::three("0 10 11");
    let expected = read(&coded.row(3));
    // Bits behind the codes and the symbols, the last word, and more.
    coded.codes[0] = 0xFF;
    coded.symbols[0] = 0xFF;
    coded.symbols[4..].copy_from_slice(&hex("12345678"));
    let end = coded.row(3).bytes().len();
    coded.symbols.extend(hex("9ABC"));
    assert_eq!(read(&coded.row(3)), expected);
    assert_eq!(accepted(&coded.row(3).bytes()).2, end);
}

// ---- the image

#[test]
fn signed_symbols_are_128_above() {
    for mode in [1, 2] {
        let blob = |kind| Blob {
            kind,
            ..Coded::plain(&[0, 127, 128, 129, 255]).mode(mode, 5)
        };
        let sums = |start: u64, symbols: [u64; 5]| {
            let mut last = start;
            symbols.map(|symbol| {
                last = (last + symbol) % 256;
                last
            })
        };
        let (signed, unsigned) = match mode {
            1 => (
                sums(0, [128, 255, 0, 1, 127]),
                sums(0, [0, 127, 128, 129, 255]),
            ),
            _ => ([128, 255, 0, 1, 127], [0, 127, 128, 129, 255]),
        };
        assert_eq!(read(&blob(0)), signed, "mode {mode}");
        assert_eq!(read(&blob(1)), unsigned, "mode {mode}");
    }
}

/// Rows of pixels, of which '#' are valid.
fn masked(blob: Blob, rows: &[&str]) -> Blob {
    let pixels: Vec<char> = rows.concat().chars().collect();
    let bits = pixels.chunks(8).map(|chunk| {
        let bits = chunk.iter().enumerate();
        bits.map(|(bit, &pixel)| u8::from(pixel == '#') << (7 - bit))
            .sum()
    });
    let mask: Vec<u8> = bits.collect();
    let run = (mask.len() as i16).to_le_bytes().to_vec();
    Blob {
        rows: rows.len() as u32,
        columns: rows[0].len() as u32,
        valid: pixels.iter().filter(|&&pixel| pixel == '#').count() as u32,
        mask: [run, mask, hex("0080")].concat(),
        ..blob
    }
}

#[test]
fn left_then_above_then_the_last_one() {
    let rows = [
        ".##.", // 1, 1 + 2
        "#.##", // last: 3 + 4 = 7; above: 3 + 5 = 8; left: 8 + 6 = 14
        "##..", // above: 7 + 7 = 14; left: 14 + 8 = 22
        "..##", // above not valid: last 22 + 9 = 31; left: 31 + 10 = 41
        "#.#.", // above not valid: last 41 + 11 = 52; above: 31 + 12 = 43
    ];
    let blob = Coded::plain(&[1, 2, 4, 5, 6, 7, 8, 9, 10, 11, 12]).mode(1, 1);
    let blob = masked(blob, &rows);
    let none = IMAGE;
    let expected = [
        [none, 1, 3, none],
        [7, none, 8, 14],
        [14, 22, none, none],
        [none, none, 31, 41],
        [52, none, 43, none],
    ];
    assert_eq!(read(&blob), expected.concat());
    // Without prediction they are what they are.
    let blob = masked(
        Coded::plain(&[1, 2, 4, 5, 6, 7, 8, 9, 10, 11, 12]).mode(2, 1),
        &rows,
    );
    let values: Vec<u64> = read(&blob).into_iter().filter(|&v| v != none).collect();
    assert_eq!(values, [1, 2, 4, 5, 6, 7, 8, 9, 10, 11, 12]);
}

#[test]
fn the_first_column_has_no_left_pixel() {
    // The pixel before it in the blob is the row above's last one.
    let blob = masked(Coded::plain(&[1, 2, 3, 4]).mode(1, 1), &["##", "##"]);
    let blob = Blob {
        mask: Vec::new(),
        ..blob
    };
    assert_eq!(read(&blob), [1, 3, 4, 8]);
}

#[test]
fn sums_go_round_at_256() {
    let blob = Coded::plain(&[200, 100, 255, 2]).mode(1, 4);
    assert_eq!(read(&blob), [200, 44, 43, 45]);
}

#[test]
fn each_depth_begins_anew() {
    let blob = |mode| {
        let coded = Coded::plain(&[1, 2, 3, 4, 5, 6]);
        Blob {
            depth: 2,
            body: [vec![10, 10, 12, 12, 0, mode], coded.bytes()].concat(),
            ..coded.mode(mode, 3)
        }
    };
    // 1 3 6 and 4 9 15, pixel by pixel.
    assert_eq!(read(&blob(1)), [1, 4, 3, 9, 6, 15]);
    assert_eq!(read(&blob(2)), [1, 2, 3, 4, 5, 6]);
}

#[test]
fn old_cells_may_be_anything() {
    let blob = masked(Coded::plain(&[1, 2]).mode(1, 1), &["#..", "..#"]);
    let bytes = blob.bytes();
    let mut lent = Lent::to_read(&bytes);
    lent.image.fill(u64::MAX);
    assert!(lent.read(&bytes, false).is_ok());
    let old = u64::MAX;
    assert_eq!(lent.image[..6], [1, old, old, old, old, 3]);
}

#[test]
fn only_for_byte_kinds_with_error_one_half() {
    let blob = Coded::three("0 10 11").row(3);
    let other = Blob {
        error: 1f64.to_bits(),
        ..blob.clone()
    };
    // The mode byte is a flag byte then, of a block of zeros.
    assert_eq!(cells(&other.bytes()), [0; 3]);
    let empty = Blob { valid: 0, ..blob };
    assert_eq!(accepted(&empty.bytes()).2, 70);
}

#[test]
fn walk_and_fill() {
    for mode in [1, 2] {
        // The table need not even be there.
        for coded in [Coded::three("0 10 11").mode(mode, 3), {
            let body = vec![10, 12, 0, mode];
            Blob {
                body,
                ..Blob::whole()
            }
        }] {
            let mut given = Given::of(&coded);
            assert_eq!(given.walk_at(), Err(Refusal::at(10, MODE_AT)));
        }
        // A block that a list names is filled, whatever the mode byte says.
        let mut given = Given::new();
        given.bytes[MODE_AT] = mode;
        given.list[0] = 74;
        assert_eq!(given.fill_at(0), Ok(3));
        assert_eq!(given.image, [10, 11, 12]);
    }
}

#[test]
fn a_reused_mask() {
    let blob = Blob {
        valid: 2,
        ..Coded::three("0 11").row(3)
    };
    let bytes = blob.bytes();
    let mut lent = Lent::to_read(&bytes);
    lent.kept[0] = 0xA0;
    let after = whole_and_steps(&bytes, true, &lent).unwrap();
    assert_eq!(after.image[..3], [10, IMAGE, 12]);
    // A pixel that moved since staging changes no answer.
    let staged = lent.stage(&bytes, true);
    lent.kept[0] = 0x60;
    assert!(lent.publish(&bytes, true, staged).is_ok());
    assert_eq!(lent.image[..3], [IMAGE, 10, 12]);
}

// ---- refused

#[test]
fn cut_at_every_byte() {
    for mode in [1, 2] {
        let blob = Coded::three(&"0 10 11".repeat(9)).mode(mode, 27);
        let whole = blob.body.len();
        read(&blob);
        for length in 4..whole {
            let mut cut = blob.clone();
            cut.body.truncate(length);
            assert_eq!(refused(&cut), 1, "{length} of {whole}");
        }
    }
}

#[test]
fn integers_are_judged_one_by_one() {
    let wrong: [&[u32]; 14] = [
        &[0],
        &[1],
        &[2, 257],
        &[2, 1 << 31],
        &[2, u32::MAX],
        // None is below 0.
        &[2, 0, 0],
        &[2, 256, 256],
        &[2, 3, u32::MAX],
        &[2, 256, 7, 7],
        &[2, 256, 7, 6],
        &[2, 256, 7, 0],
        &[2, 256, 7, 264],
        &[2, 256, 0, 257],
        &[2, 3, 2, u32::MAX],
    ];
    for integers in wrong {
        let numbers = integers.iter().flat_map(|number| number.to_le_bytes());
        let body: Vec<u8> = [10, 12, 0, 2].into_iter().chain(numbers).collect();
        let blob = |body: &[u8]| Blob {
            body: body.to_vec(),
            ..Blob::whole()
        };
        // Even if nothing follows; and before that they are missing.
        assert_eq!(refused(&blob(&body)), 8, "{integers:?}");
        assert_eq!(refused(&blob(&body[..body.len() - 1])), 1, "{integers:?}");
        let more = [body, vec![0x55; 99]].concat();
        assert_eq!(refused(&blob(&more)), 8, "{integers:?}");
    }
    // A size of 0 is not wrong by itself.
    let size_0 = Coded {
        integers: [2, 0, 0, 0],
        ..Coded::three("")
    };
    let mut blob = size_0.row(3);
    blob.body.truncate(4 + 8);
    assert_eq!(refused(&blob), 1);
}

#[test]
fn lengths_are_judged_in_order() {
    let refused = |lengths: &[u8]| {
        let coded = Coded {
            lengths: lengths.to_vec(),
            codes: Vec::new(),
            symbols: Vec::new(),
            ..Coded::three("")
        };
        coded.refused()
    };
    // Wrong counts of any form, which are no counts at all.
    assert_eq!(refused(&hex("C2 03 29")), 8);
    assert_eq!(refused(&hex("42 0101")), 8);
    assert_eq!(refused(&hex("A0 03")), 8);
    assert_eq!(refused(&hex("A2 03 01")), 8);
    assert_eq!(refused(&hex("A2 03 03 09 2B")), 8);
    // Read to their end before their number is judged.
    assert_eq!(refused(&counts(&[1, 2])[..4]), 1);
    for lengths in [&[][..], &[1], &[1, 2], &[1, 2, 2, 0], &[33, 33]] {
        assert_eq!(refused(&counts(lengths)), 8, "{lengths:?}");
    }
    // Before the codes, which are not there.
    for lengths in [[1, 2, 33], [33, 0, 0], [0, 63, 0], [0, 0, 0]] {
        assert_eq!(refused(&counts(&lengths)), 8, "{lengths:?}");
    }
    assert_eq!(refused(&hex("80 03")), 8);
    assert_eq!(refused(&counts(&[1, 2, 2])), 1);
    // A length that is cut to 32 bits or to a byte would do.
    let wide = [hex("9F 03"), packed(&[257, 2, 2], 31)].concat();
    assert_eq!(refused(&wide), 8);
}

#[test]
fn the_codes_run_fits_before_it_is_judged() {
    let mut coded = Coded {
        lengths: counts(&[32, 32, 1]),
        codes: vec![0; 12],
        symbols: Vec::new(),
        ..Coded::three("")
    };
    // Two codes are the same, and a third begins them.
    assert_eq!(coded.refused(), 8);
    for _ in 0..12 {
        coded.codes.pop();
        assert_eq!(coded.refused(), 1);
    }
}

#[test]
fn no_code_may_begin_another() {
    // Both ways round, beside each other and far apart, and the same twice.
    let pairs = [
        ("0", "01"),
        ("10", "1"),
        ("0110", "0110"),
        ("1", "11111111111111111111111111111111"),
        (
            "10101010101010101010101010101010",
            "1010101010101010101010101010101",
        ),
        (
            "00000000000000000000000000000001",
            "00000000000000000000000000000001",
        ),
    ];
    for (one, other) in pairs {
        for between in [0, 1, 3, 100, 254] {
            let gap = vec![0; between];
            let lengths = [vec![one.len() as u64], gap, vec![other.len() as u64]].concat();
            let coded = Coded {
                integers: [4, 256, 200, 200 + lengths.len() as u32],
                lengths: counts(&lengths),
                codes: words(&format!("{one}{other}")),
                ..Coded::three("")
            };
            assert_eq!(coded.refused(), 8, "{one} and {other}");
        }
    }
}

#[test]
fn no_code_may_begin_another_with_right_ones_between() {
    let codes = ["110", "0", "10", "11"];
    for turned in [codes, [codes[3], codes[1], codes[2], codes[0]]] {
        let lengths: Vec<u64> = turned.iter().map(|code| code.len() as u64).collect();
        let coded = Coded {
            integers: [4, 256, 10, 14],
            lengths: counts(&lengths),
            codes: words(&turned.concat()),
            ..Coded::three("000")
        };
        assert_eq!(coded.refused(), 8, "{turned:?}");
    }
}

#[test]
fn unknown_codes() {
    let gaps = |symbols: &str| Coded {
        lengths: counts(&[1, 3, 32]),
        codes: words("0 101 11111111111111111111111111111111"),
        symbols: words(symbols),
        ..Coded::three("")
    };
    let ones = "1".repeat(32);
    let extra = "0".repeat(32);
    assert_eq!(
        read(&gaps(&format!("0 101 {ones} {extra}")).row(3)),
        [10, 11, 12]
    );
    // As soon as no code begins so, though nothing follows.
    assert_eq!(gaps("0 100").refused(), 8);
    assert_eq!(gaps("0 0 1110").refused(), 8);
    assert_eq!(gaps(&format!("{}0", &ones[..31])).refused(), 8);
    // The word of the next bit is missing before that.
    assert_eq!(gaps("").refused(), 1);
    assert_eq!(gaps(&format!("0 {}", &ones[..31])).refused(), 1);
    assert_eq!(gaps(&format!("0 {}", &ones[..30])).refused(), 8);
    // What comes first decides: an unknown code before the end that is missing.
    let mut cut = gaps(&format!("0 100 {extra}"));
    for _ in 0..4 {
        cut.symbols.pop();
        assert_eq!(cut.refused(), 8);
    }
    cut.symbols.pop();
    assert_eq!(cut.refused(), 1);
}

#[test]
fn an_unknown_code_of_the_last_pixel() {
    for mode in [1, 2] {
        let coded = Coded {
            integers: [4, 256, 10, 12],
            lengths: counts(&[2, 2]),
            codes: words("01 10"),
            symbols: [words(&format!("{}11", "01".repeat(40))), vec![0; 4]].concat(),
        };
        // Nothing is written, though forty cells are right.
        assert_eq!(refused(&coded.mode(mode, 41)), 8);
        assert_eq!(read(&coded.mode(mode, 40)).len(), 40);
    }
}

#[test]
fn the_place_is_the_mode_bytes_behind_a_mask() {
    let blob = masked(Coded::three("0 10").row(1), &["#.#"]);
    let mut bytes = blob.bytes();
    assert_eq!(cells(&bytes), [10, IMAGE, 11]);
    // The mask is five bytes; the version is made 1.
    bytes[79] = 1;
    let refusal = refused_at(&sealed(bytes), &[0xA0]);
    assert_eq!(refusal, Refusal::at(8, 78));
}
