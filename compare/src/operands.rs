//! Operands at random, of the sorts on which arithmetic is apt to go wrong.

use crate::random::Random;
use crate::sorts::{FRACTION, INFINITY, SIGN};

fn sign(random: &mut Random) -> u64 {
    random.word() & SIGN
}

fn fraction(random: &mut Random) -> u64 {
    random.word() & FRACTION
}

/// With the sign that it has, or the other one.
fn signed(random: &mut Random, word: u64) -> u64 {
    word ^ sign(random)
}

/// A finite number without a sign, of any sort.
fn magnitude(random: &mut Random) -> u64 {
    let any = fraction(random);
    match random.below(9) {
        0 => 0,
        1 => random.pick(&[any, any, 1, 2, FRACTION]),
        2 => (1 << 52) - 8 + random.word() % 16,
        3 => (random.between(1, 3) as u64) << 52 | any,
        4 => f64::to_bits((random.word() >> random.between(11, 63)) as f64),
        // Few digits, so that ties come up.
        5 => (random.between(0, 2046) as u64) << 52 | any >> 40 << 40,
        6 => random.pick(&[INFINITY - 1, INFINITY - 2, 2046 << 52, 2046 << 52 | any]),
        7 => (random.between(1000, 1060) as u64) << 52 | any,
        _ => random.word() % INFINITY,
    }
}

/// A finite number of either sign.
pub fn finite(random: &mut Random) -> u64 {
    let magnitude = magnitude(random);
    signed(random, magnitude)
}

/// Exponent field 2047 without a sign: infinity, or a pattern.
fn past_finite(random: &mut Random) -> u64 {
    let any = fraction(random);
    let patterns = [
        1,
        1 << 51,
        FRACTION,
        any,
        any >> 29 << 29,
        any & 0x1FFF_FFFF,
    ];
    match random.below(2) {
        0 => INFINITY,
        _ => INFINITY | random.pick(&patterns),
    }
}

/// An infinity or a pattern of either sign.
pub fn not_finite(random: &mut Random) -> u64 {
    let magnitude = past_finite(random);
    signed(random, magnitude)
}

/// Operands of a sum, in any order: both finite, or one of them not.
pub fn pair(random: &mut Random, both_finite: bool) -> (u64, u64) {
    let (a, b) = if both_finite {
        finite_pair(random)
    } else {
        pair_past_finite(random)
    };
    let a = signed(random, a);
    match random.below(2) {
        0 => (a, b),
        _ => (b, a),
    }
}

fn finite_pair(random: &mut Random) -> (u64, u64) {
    let a = magnitude(random);
    let b = match random.below(6) {
        0 => near_equal(random, a),
        1 | 2 => tied(random, a),
        3 => return overflowing(random),
        _ => magnitude(random),
    };
    (a, signed(random, b))
}

/// Some units beside a number, or one power of two beside it.
fn near_equal(random: &mut Random, a: u64) -> u64 {
    let by = random.word() % 17;
    let beside = match random.below(4) {
        0 => a,
        1 => (a ^ 1 << 52).saturating_sub(by),
        _ => (a + by).saturating_sub(8),
    };
    beside.min(INFINITY - 1)
}

/// A number up to 70 powers of two below another, whose digits below that
/// one's last are a half, or a unit beside it.
fn tied(random: &mut Random, a: u64) -> u64 {
    let field = (a >> 52).max(1);
    let gap = random.between(0, 70) as u64;
    let gap = random.pick(&[gap, gap, 1, 52, 53, 54]).min(field - 1);
    let any = fraction(random);
    let digits = match gap {
        0 => any,
        1..=52 => any >> gap << gap | 1 << (gap - 1) & FRACTION,
        _ => random.pick(&[0, 0, any]),
    };
    let word = (field - gap) << 52 | digits;
    let beside = random.pick(&[word, word, word + 1, word - 1]);
    beside.min(INFINITY - 1)
}

/// Two numbers whose sum is 2^1024 - 2^970, or not far from it.
pub fn overflowing(random: &mut Random) -> (u64, u64) {
    let any = fraction(random);
    let a = random.pick(&[INFINITY - 1, INFINITY - 2, 2046 << 52 | any]);
    // In units of 2^970, of which it has a whole number.
    let missing = 2 * ((1 << 53) - (a & FRACTION | 1 << 52)) - 1;
    let b = f64::to_bits(missing as f64) + (970 << 52);
    (a, random.pick(&[b, b, b + 1, b - 1, b + 8, b - 8]))
}

/// At least one operand has exponent field 2047.
fn pair_past_finite(random: &mut Random) -> (u64, u64) {
    let a = past_finite(random);
    let b = match random.below(8) {
        0 => past_finite(random),
        // Beside the other, in units or in powers of two.
        1 => (a + random.word() % 17 - 8).min(SIGN - 1),
        2 => (random.between(1970, 2047) as u64) << 52 | fraction(random),
        3 => tied(random, a),
        4 => INFINITY - 1 - random.word() % 3,
        _ => magnitude(random),
    };
    (a, signed(random, b))
}

/// Counts of every sort.
pub fn count(random: &mut Random) -> u32 {
    let any = (random.word() >> random.between(32, 63)) as u32;
    match random.below(8) {
        0 => random.pick(&[0, 1]),
        1 => random.between(2, 16) as u32,
        2 => 1 << random.below(32),
        3 => random.pick(&[u32::MAX, u32::MAX, u32::MAX - 1, 1 << 31]),
        4 | 5 => any | 1,
        _ => any,
    }
}

/// A finite number and a count.
pub fn factors(random: &mut Random) -> (u64, u32) {
    let q = count(random);
    let a = match random.below(5) {
        0 | 1 => tied_factor(random, q | 1),
        2 => last_factor(random, q),
        _ => magnitude(random),
    };
    let odd = random.once_in(2);
    (signed(random, a), if odd { q | 1 } else { q })
}

/// A number whose product with an odd count is a tie of 53 digits, or a unit
/// beside it.
fn tied_factor(random: &mut Random, odd: u32) -> u64 {
    let most = 32 - odd.leading_zeros();
    let cut = most - random.below(2) as u32;
    if cut == 0 {
        return magnitude(random);
    }
    // The inverse of an odd number, modulo 2^64: each round doubles its digits.
    let odd = u64::from(odd);
    let inverse = (0..6).fold(odd, |x, _| {
        x.wrapping_mul(2u64.wrapping_sub(odd.wrapping_mul(x)))
    });
    let half = 1u64 << (cut - 1);
    let rest = random.pick(&[half, half, half + 1, half.wrapping_sub(1)]);
    let low = rest.wrapping_mul(inverse) & ((1 << cut) - 1);
    let any = fraction(random) >> cut << cut;
    (random.between(1, 2046) as u64) << 52 | any | low
}

/// A number whose product is the last finite one, or not far from it.
fn last_factor(random: &mut Random, q: u32) -> u64 {
    let last = f64::to_bits(f64::MAX / (2.0 * f64::from(q.max(1))));
    last - 8 + random.word() % 17
}

/// Numbers around what a binary32 holds.
pub fn wide(random: &mut Random) -> u64 {
    let any = fraction(random);
    let beside = random.word() % 3;
    let magnitude = match random.below(6) {
        // Ties of 24 digits.
        0 => {
            let field = random.between(896, 1151) as u64;
            (field << 52 | any >> 29 << 29 | 1 << 28) - 1 + beside
        }
        1 => {
            // Ties below its least normal number, which has field 897.
            let field = random.between(872, 896) as u64;
            let cut = 29 + 897 - field;
            (field << 52 | any >> cut << cut | 1 << (cut - 1) & FRACTION) - 1 + beside
        }
        2 => 0x47EF_FFFF_F000_0000 - 1 + beside,
        3 => 0x380F_FFFF_F000_0000 - 1 + beside,
        4 => (random.between(870, 1160) as u64) << 52 | any >> 29 << 29,
        _ => return finite(random),
    };
    signed(random, magnitude)
}

/// Numbers at the ends of the integer kinds, and others.
pub fn to_store(random: &mut Random) -> u64 {
    let end = random.pick(&[0, 7, 8, 15, 16, 31, 32, 63]);
    let by = random.pick(&[-1.0, -0.999, -0.5, 0.0, 0.5, 0.999, 1.0]);
    let near = f64::to_bits(2f64.powi(end) + by);
    let near = random.pick(&[near, near, near + 1, near.max(1) - 1]);
    match random.below(4) {
        0 => not_finite(random),
        1 => wide(random),
        _ => signed(random, near),
    }
}
