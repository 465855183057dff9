//! Arithmetic on the bits of a binary64, and native words of each kind.
//!
//! Finite operands use the machine's own operations, each of which rounds
//! once. The sum of an infinity and a finite number is that infinity. Else an
//! operand with exponent field 2047 is counted as if it were finite with the
//! next exponent; no machine does that, so it has its own path.

use crate::refusal::{Refusal, DOES_NOT_FIT};

const SIGN: u64 = 1 << 63;
const INFINITY: u64 = 0x7FF0_0000_0000_0000;
const FRACTION: u64 = (1 << 52) - 1;

const INFINITY_32: u32 = 0x7F80_0000;
const FRACTION_32: u32 = (1 << 23) - 1;
/// Fraction bits that a binary64 has more than a binary32.
const MORE_BITS: u32 = 29;

const SIZES: [usize; 8] = [1, 1, 2, 2, 4, 4, 4, 8];

/// Least and greatest number of the integer kinds.
const LIMITS: [(i64, i64); 6] = [
    (i8::MIN as i64, i8::MAX as i64),
    (0, u8::MAX as i64),
    (i16::MIN as i64, i16::MAX as i64),
    (0, u16::MAX as i64),
    (i32::MIN as i64, i32::MAX as i64),
    (0, u32::MAX as i64),
];

/// Bytes of a word. A kind above 7 is taken as 7, here and below.
pub fn word_size(kind: u32) -> usize {
    SIZES[kind.min(7) as usize]
}

pub fn is_finite(v: u64) -> bool {
    v & INFINITY != INFINITY
}

/// Exponent field 2047 and no fraction.
fn is_infinite(v: u64) -> bool {
    v & !SIGN == INFINITY
}

/// Equal bits, or both zero.
pub fn same(a: u64, b: u64) -> bool {
    order(a) == order(b)
}

pub fn less(a: u64, b: u64) -> bool {
    order(a) < order(b)
}

/// A whole number in the order of the numbers; both zeros give 0.
fn order(v: u64) -> i64 {
    let magnitude = (v & !SIGN) as i64;
    if v & SIGN == 0 {
        magnitude
    } else {
        -magnitude
    }
}

pub fn sum(a: u64, b: u64) -> u64 {
    match (is_finite(a), is_finite(b)) {
        (true, true) => (f64::from_bits(a) + f64::from_bits(b)).to_bits(),
        (false, true) if is_infinite(a) => a,
        (true, false) if is_infinite(b) => b,
        _ => sum_past_finite(a, b),
    }
}

/// At least one operand has exponent field 2047, and each that has is counted
/// as if it were finite.
fn sum_past_finite(a: u64, b: u64) -> u64 {
    if (a ^ b) & SIGN == 0 {
        // At least 2^1024.
        return a & SIGN | INFINITY;
    }
    if a & !SIGN >= b & !SIGN {
        difference(a, b)
    } else {
        difference(b, a)
    }
}

/// `large` has exponent field 2047 and is not the lesser magnitude; the signs
/// differ.
fn difference(large: u64, small: u64) -> u64 {
    let (m, e) = parts(large);
    let (n, f) = parts(small);
    let gap = e - f;
    if gap > 70 {
        // Less than 2^954 is taken away, so 2^1024 - 2^970 is passed.
        return large & SIGN | INFINITY;
    }
    let left = (m << gap) - n;
    if left == 0 {
        return 0;
    }
    large & SIGN | nearest(left, f)
}

/// Whole number and power of two. Field 2047 is treated as any other.
fn parts(v: u64) -> (u128, i32) {
    let field = (v >> 52 & 2047) as i32;
    let fraction = u128::from(v & FRACTION);
    if field == 0 {
        (fraction, -1074)
    } else {
        (fraction | 1 << 52, field - 1075)
    }
}

/// The word nearest to m times 2^e, ties to even; m is not 0, and e is so
/// large that no result is subnormal.
fn nearest(m: u128, e: i32) -> u64 {
    let top = 127 - m.leading_zeros() as i32;
    let significand = if top <= 52 {
        (m << (52 - top)) as u64
    } else {
        shifted(m, top as u32 - 52)
    };
    // The significand's leading bit, and a carry, add to the exponent field.
    let word = ((top + e + 1022) as u64) << 52;
    (word + significand).min(INFINITY)
}

fn shifted(m: u128, cut: u32) -> u64 {
    let kept = (m >> cut) as u64;
    let rest = m & ((1 << cut) - 1);
    let half = 1 << (cut - 1);
    kept + u64::from(rest > half || rest == half && kept % 2 == 1)
}

/// Twice `q` times `a`.
pub fn scaled(a: u64, q: u32) -> u64 {
    if is_finite(a) {
        // Twice q is exact, so the product is the only rounding.
        return (f64::from_bits(a) * (2.0 * f64::from(q))).to_bits();
    }
    if q == 0 {
        a & SIGN
    } else {
        // At least 2^1025.
        a & SIGN | INFINITY
    }
}

/// To binary32.
pub fn narrow(v: u64) -> u32 {
    if is_finite(v) {
        return (f64::from_bits(v) as f32).to_bits();
    }
    // The fraction's upper bits stay; a machine could set another one.
    let sign = (v >> 32) as u32 & 1 << 31;
    sign | INFINITY_32 | ((v & FRACTION) >> MORE_BITS) as u32
}

/// The number that a word, taken modulo its kind, stands for.
pub fn number(word: u64, kind: u32) -> u64 {
    let value = match kind {
        0 => f64::from(word as u8 as i8),
        1 => f64::from(word as u8),
        2 => f64::from(word as u16 as i16),
        3 => f64::from(word as u16),
        4 => f64::from(word as u32 as i32),
        5 => f64::from(word as u32),
        6 => return widened(word as u32),
        _ => return word,
    };
    value.to_bits()
}

fn widened(word: u32) -> u64 {
    if word & INFINITY_32 != INFINITY_32 {
        return f64::from(f32::from_bits(word)).to_bits();
    }
    let sign = u64::from(word & 1 << 31) << 32;
    sign | INFINITY | u64::from(word & FRACTION_32) << MORE_BITS
}

/// The word that stores a number.
pub fn stored(v: u64, kind: u32) -> Result<u64, Refusal> {
    match kind {
        0..=5 => whole(v, kind),
        6 => Ok(u64::from(narrow(v))),
        _ => Ok(v),
    }
}

fn whole(v: u64, kind: u32) -> Result<u64, Refusal> {
    // Cuts toward zero, and stops at ends that no kind reaches.
    let value = f64::from_bits(v) as i64;
    let (least, greatest) = LIMITS[kind as usize];
    if !is_finite(v) || value < least || value > greatest {
        return Err(Refusal::of(DOES_NOT_FIT));
    }
    Ok(value as u64 & (u64::MAX >> (64 - 8 * word_size(kind))))
}
