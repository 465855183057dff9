//! What sort of number an operand is, and how a result came about.

pub const SIGN: u64 = 1 << 63;
pub const INFINITY: u64 = 2047 << 52;
pub const FRACTION: u64 = (1 << 52) - 1;

/// Names of the sorts of a binary64, by `sort`.
pub const SORTS: [&str; 8] = [
    "zero",
    "subnormal",
    "least normal",
    "whole",
    "other",
    "greatest",
    "infinite",
    "pattern",
];

/// Least normals have exponent field 1, the greatest 2046; a pattern has 2047
/// and a fraction.
pub fn sort(word: u64) -> usize {
    let magnitude = word & !SIGN;
    match magnitude >> 52 {
        0 if magnitude == 0 => 0,
        0 => 1,
        1 => 2,
        2046 => 5,
        2047 if magnitude == INFINITY => 6,
        2047 => 7,
        _ if is_whole(magnitude) => 3,
        _ => 4,
    }
}

/// From 1 to below 2^53, without a part behind the point.
fn is_whole(magnitude: u64) -> bool {
    let field = magnitude >> 52;
    (1023..1076).contains(&field) && magnitude << (field - 1023) & FRACTION == 0
}

/// Names of the sorts of a count, by `count_sort`.
pub const COUNTS: [&str; 7] = ["0", "1", "to 16", "2^k", "2^32-1", "odd", "even"];

pub fn count_sort(q: u32) -> usize {
    match q {
        0 | 1 => q as usize,
        u32::MAX => 4,
        2..=16 => 2,
        _ if q.is_power_of_two() => 3,
        _ if q % 2 == 1 => 5,
        _ => 6,
    }
}

/// Names of how far two exponents are apart, by `gap_sort`.
pub const GAPS: [&str; 8] = [
    "0", "1", "2 to 10", "11 to 52", "53", "54", "55 to 70", "above",
];

pub fn gap_sort(a: u64, b: u64) -> usize {
    match parts(a).1.abs_diff(parts(b).1) {
        0 => 0,
        1 => 1,
        2..=10 => 2,
        11..=52 => 3,
        53 => 4,
        54 => 5,
        55..=70 => 6,
        _ => 7,
    }
}

/// Names of the ways in which a result comes about.
pub const OUTCOMES: [&str; 8] = [
    "zero",
    "subnormal",
    "exact",
    "rounded",
    "near tie",
    "tie",
    "infinite",
    "infinite by a tie",
];

const ZERO: usize = 0;
const SUBNORMAL: usize = 1;
const EXACT: usize = 2;
const ROUNDED: usize = 3;
const NEAR_TIE: usize = 4;
const TIE: usize = 5;
const INFINITE: usize = 6;
const INFINITE_TIE: usize = 7;

/// Whole number and power of two, counted from 2^-1074. Field 2047 is treated
/// as any other.
fn parts(word: u64) -> (u128, u32) {
    let field = (word >> 52 & 2047) as u32;
    let fraction = u128::from(word & FRACTION);
    match field {
        0 => (fraction, 0),
        _ => (fraction | 1 << 52, field - 1),
    }
}

/// How a + b became a word.
pub fn sum_outcome(a: u64, b: u64, word: u64) -> usize {
    let (large, small) = if a & !SIGN < b & !SIGN {
        (b, a)
    } else {
        (a, b)
    };
    let ((m, e), (n, f)) = (parts(large), parts(small));
    if e - f > 70 {
        // The lesser one is far below a half of the last digit.
        let how = if n == 0 { EXACT } else { ROUNDED };
        return outcome(how, false, word);
    }
    let exact = match (a ^ b) & SIGN {
        0 => (m << (e - f)) + n,
        _ => (m << (e - f)) - n,
    };
    outcome_of(exact, f, word)
}

/// How 2 * q * a became a word.
pub fn product_outcome(a: u64, q: u32, word: u64) -> usize {
    let (m, e) = parts(a);
    outcome_of(m * u128::from(q), e + 1, word)
}

/// How a binary64 became a binary32.
pub fn narrow_outcome(v: u64, word: u32) -> usize {
    let (m, e) = parts(v);
    let digits = 128 - m.leading_zeros();
    // 24 digits are kept, and none below 2^-149, which is unit 925.
    let cut = digits.saturating_sub(24).max(925u32.saturating_sub(e));
    let how = if cut < 100 { rounding(m, cut) } else { ROUNDED };
    match word & 0x7FFF_FFFF {
        0 => ZERO,
        1..=0x007F_FFFF if how == EXACT => SUBNORMAL,
        0x7F80_0000.. if how == TIE && digits + e == 1074 + 128 => INFINITE_TIE,
        0x7F80_0000.. => INFINITE,
        _ => how,
    }
}

fn outcome_of(exact: u128, e: u32, word: u64) -> usize {
    let digits = 128 - exact.leading_zeros();
    let how = rounding(exact, digits.saturating_sub(53));
    outcome(how, digits + e == 1074 + 1024, word)
}

fn outcome(how: usize, in_last_power: bool, word: u64) -> usize {
    match word & !SIGN {
        0 => ZERO,
        1..=FRACTION => SUBNORMAL,
        INFINITY.. if how == TIE && in_last_power => INFINITE_TIE,
        INFINITY.. => INFINITE,
        _ => how,
    }
}

/// What is lost with the lowest digits.
fn rounding(exact: u128, cut: u32) -> usize {
    if cut == 0 {
        return EXACT;
    }
    let (rest, half) = (exact & ((1 << cut) - 1), 1 << (cut - 1));
    match rest {
        0 => EXACT,
        _ if rest == half => TIE,
        _ if rest.abs_diff(half) == 1 => NEAR_TIE,
        _ => ROUNDED,
    }
}
