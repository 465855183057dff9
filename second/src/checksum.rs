//! The checksum of a blob.

use crate::bytes::little;

/// Where the stored sum begins, and where the bytes begin that it sums.
const STORED: usize = 10;
const SUMMED: usize = 14;

/// So many words are added between two folds.
const GROUP: usize = 359;

/// Sum of the words, and sum of its running values. Both begin at 65,535,
/// which stands for zero.
struct Sums {
    words: u64,
    running: u64,
}

impl Sums {
    fn add(&mut self, word: u64) {
        self.words += word;
        self.running += self.words;
    }

    /// Keeps both modulo 65,535, though not always below 65,536.
    fn fold(&mut self) {
        for sum in [&mut self.words, &mut self.running] {
            *sum = *sum % 65_536 + *sum / 65_536;
        }
    }
}

/// Of the bytes as 16-bit words, first byte high, an odd last byte high over
/// zero. Low half: sum of the words modulo 65,535, zero written as 65,535. High
/// half: the same for the sum of the running sums.
///
/// Esri's code decides, and folds only once behind an odd last byte. A half may
/// be left above 65,535 then: the upper one loses what is too much, the lower
/// one has it or-ed into the upper.
pub fn checksum(bytes: &[u8]) -> u32 {
    let (words, odd) = bytes.split_at(bytes.len() / 2 * 2);
    let mut sums = Sums {
        words: 65_535,
        running: 65_535,
    };
    for group in words.chunks(2 * GROUP) {
        for word in group.chunks_exact(2) {
            sums.add(u64::from(word[0]) * 256 + u64::from(word[1]));
        }
        sums.fold();
    }
    for &byte in odd {
        sums.add(u64::from(byte) * 256);
    }
    sums.fold();
    (sums.running << 16 | sums.words) as u32
}

/// Whether a blob stores the checksum of its bytes from 14 on; `bytes` ends at
/// the declared size and has a whole header.
pub(crate) fn is_true(bytes: &[u8]) -> bool {
    little(&bytes[STORED..SUMMED]) == u64::from(checksum(&bytes[SUMMED..]))
}
