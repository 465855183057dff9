//! Steps of a block: offset + 2 * count * error, and no more than the maximum.
//! No function of the C interface computes one alone, so a blob of one block
//! is read.

use crate::checksum;
use crate::form::packed;
use crate::operands::{count, finite, overflowing};
use crate::random::Random;
use crate::sorts::{sum_outcome, INFINITY, SIGN};

/// Errors below it go to the machine: no count makes their product infinite.
pub const ERROR_END: u64 = 0x7DE0_0000_0000_0000;

/// The first error that a header may not have.
const TOO_LARGE: u64 = 0x7FE0_0000_0000_0000;

/// The finite number that no other is below.
const LEAST: u64 = SIGN | (INFINITY - 1);

pub const COUNTS: usize = 16;
const BITS: usize = 31;

/// The steps of one block.
#[derive(Clone, Debug)]
pub struct Steps {
    pub error: u64,
    pub offset: u64,
    pub maximum: u64,
    pub counts: [u32; COUNTS],
}

/// Names of the ways in which a step ends, by `ending`.
pub const ENDINGS: [&str; 4] = [
    "below the maximum",
    "equal to it",
    "clamped",
    "clamped, sum infinite",
];

impl Steps {
    pub fn at_random(random: &mut Random, small: bool) -> Steps {
        let mut steps = Steps {
            error: any_error(random, small),
            offset: finite(random),
            maximum: 0,
            counts: [0; COUNTS],
        };
        steps.counts.fill_with(|| count(random) >> (32 - BITS));
        steps.put_offset(random);
        if random.once_in(8) {
            steps.put_last(random, small);
        }
        steps.put_maximum(random);
        steps
    }

    /// A first sum of 2^1024 - 2^970, or not far from it.
    fn put_last(&mut self, random: &mut Random, small: bool) {
        let (offset, product) = overflowing(random);
        // A half of the product, for a count of 1.
        let error = product - (1 << 52);
        if small == (error < ERROR_END) {
            (self.offset, self.error, self.counts[0]) = (offset, error, 1);
        }
    }

    /// Often one from which a product is taken off, or beside which it is a
    /// half of the last digit.
    fn put_offset(&mut self, random: &mut Random) {
        let product = self.product(random.below(COUNTS)).min(INFINITY - 1);
        let above = product + ((random.between(0, 60) as u64) << 52);
        match random.below(4) {
            0 => self.offset = product ^ SIGN,
            1 if above < INFINITY => self.offset = above ^ random.word() & SIGN,
            2 => self.offset = random.pick(&[0, SIGN, 1, SIGN | 1]),
            _ => {}
        }
    }

    /// Often one of the sums, or one beside it.
    fn put_maximum(&mut self, random: &mut Random) {
        let sum = self.sum(random.below(COUNTS));
        let beside = random.pick(&[sum, sum, sum ^ SIGN, sum + 1, sum.wrapping_sub(1)]);
        self.maximum = match random.below(4) {
            0 | 1 if second::is_finite(beside) => beside,
            2 => finite(random),
            _ => INFINITY - 1,
        };
        // The minimum, which a maximum must not be.
        if self.maximum == LEAST {
            self.maximum = 0;
        }
    }

    fn product(&self, n: usize) -> u64 {
        second::exact::scaled(self.error, self.counts[n])
    }

    fn sum(&self, n: usize) -> u64 {
        second::exact::sum(self.offset, self.product(n))
    }

    /// By whole numbers of any length.
    pub fn exact(&self) -> Vec<u64> {
        let words = (0..COUNTS).map(|n| self.sum(n));
        let clamped = |sum| match second::less(sum, self.maximum) {
            true => sum,
            false => self.maximum,
        };
        words.map(clamped).collect()
    }

    /// A blob with these steps in its only block.
    pub fn blob(&self) -> Vec<u8> {
        let mut body = [LEAST, self.maximum].map(u64::to_le_bytes).concat();
        // In blocks; one with an offset of kind 7 and counts.
        body.extend([0, 1]);
        body.extend(self.offset.to_le_bytes());
        body.extend([2 << 6 | BITS as u8, COUNTS as u8]);
        body.extend(packed(&self.counts.map(u64::from), BITS));
        let mut blob = b"Lerc2 ".to_vec();
        let (n, size) = (COUNTS as u32, 70 + body.len() as u32);
        for field in [4, 0, 1, n, 1, n, 16, size, 7] {
            blob.extend(u32::to_le_bytes(field));
        }
        for number in [self.error, LEAST, self.maximum] {
            blob.extend(number.to_le_bytes());
        }
        blob.extend(u32::to_le_bytes(0));
        blob.extend(body);
        checksum::mend(&mut blob);
        blob
    }

    /// By the proved reader.
    pub fn proved(&self) -> Vec<u64> {
        let (mut kept, mut spare) = ([0; 2], [0; 2]);
        let (mut list, mut image) = ([0], [0; COUNTS]);
        let blob = self.blob();
        match lerc2::read(&blob, false, &mut kept, &mut spare, &mut list, &mut image) {
            Ok(_) => image.to_vec(),
            Err(_) => Vec::new(),
        }
    }

    /// How a step ends, and how its sum came about.
    pub fn ending(&self, n: usize) -> (usize, usize) {
        let sum = self.sum(n);
        let ending = match (sum & !SIGN == INFINITY, second::less(sum, self.maximum)) {
            (_, true) => 0,
            _ if second::same(sum, self.maximum) => 1,
            (false, false) => 2,
            (true, false) => 3,
        };
        (ending, sum_outcome(self.offset, self.product(n), sum))
    }
}

fn any_error(random: &mut Random, small: bool) -> u64 {
    if small {
        return (finite(random) & !SIGN).min(ERROR_END - 1);
    }
    let any = ERROR_END + random.word() % (TOO_LARGE - ERROR_END);
    random.pick(&[ERROR_END, any, any, any, TOO_LARGE - 1])
}
