//! The fast functions against the exact ones, and single cases.

use crate::random::Random;
use second::{exact, is_finite, less, narrow, number, same, scaled, stored, sum, Refusal};

const INFINITY: u64 = 0x7FF0_0000_0000_0000;
const SIGN: u64 = 1 << 63;
const TRIES: usize = 200_000;

/// Words of every sort: any bits, few bits, all exponents, their ends.
fn any_word(random: &mut Random) -> u64 {
    let sign = random.word() & SIGN;
    let field = match random.below(5) {
        0 => random.below(4),
        1 => 2044 + random.below(4),
        2 => 2047,
        _ => random.below(2048),
    };
    sign | (field as u64) << 52 | any_fraction(random)
}

fn any_fraction(random: &mut Random) -> u64 {
    let all = (1 << 52) - 1;
    let few = random.word() & random.word() & random.word() & all;
    match random.below(5) {
        0 => 0,
        1 => all - (random.word() & 7),
        2 => few,
        3 => few << 29 & all | few >> 23,
        _ => random.word() & all,
    }
}

/// A word whose exponent is near another's, so that bits meet.
fn near(random: &mut Random, word: u64) -> u64 {
    let field = (word >> 52 & 2047) as i64 + random.below(119) as i64 - 59;
    let field = field.clamp(0, 2047) as u64;
    random.word() & SIGN | field << 52 | any_fraction(random)
}

#[test]
fn sum_is_exact_sum_rounded() {
    let mut random = Random::new(1);
    for _ in 0..TRIES {
        let a = any_word(&mut random);
        let b = match random.below(6) {
            0 => any_word(&mut random),
            1 => a ^ SIGN,
            2 => a ^ SIGN ^ (random.word() & 3),
            _ => near(&mut random, a),
        };
        let expected = exact::sum(a, b);
        assert_eq!(sum(a, b), expected, "{a:016x} + {b:016x}");
        assert_eq!(sum(b, a), expected, "{b:016x} + {a:016x}");
    }
}

#[test]
fn sum_past_finite_is_exact_sum_rounded() {
    let mut random = Random::new(2);
    for _ in 0..TRIES {
        let a = random.word() & SIGN | INFINITY | any_fraction(&mut random);
        let b = near(&mut random, a) & !SIGN | !a & SIGN;
        assert_eq!(sum(a, b), exact::sum(a, b), "{a:016x} + {b:016x}");
        assert_eq!(sum(b, a), exact::sum(a, b), "{b:016x} + {a:016x}");
    }
}

#[test]
fn scaled_is_exact_product_rounded() {
    let mut random = Random::new(3);
    for _ in 0..TRIES {
        let a = any_word(&mut random);
        let q = match random.below(4) {
            0 => random.below(3) as u32,
            1 => u32::MAX - random.below(3) as u32,
            _ => random.word() as u32 >> random.below(32),
        };
        assert_eq!(scaled(a, q), exact::scaled(a, q), "{a:016x} times {q}");
    }
}

#[test]
fn narrow_is_exactly_rounded() {
    let mut random = Random::new(4);
    for _ in 0..TRIES {
        let a = any_word(&mut random);
        // Most random words lie far outside binary32.
        let field = 860 + random.below(300) as u64;
        let b = a & !INFINITY | field << 52;
        for word in [a, b].into_iter().filter(|&word| is_finite(word)) {
            assert_eq!(narrow(word), exact::narrow(word), "{word:016x}");
        }
    }
}

#[test]
fn sums_at_the_ends() {
    let max = f64::MAX.to_bits();
    let half_place = 2f64.powi(970).to_bits();
    assert_eq!(sum(max, half_place), INFINITY);
    assert_eq!(sum(max, half_place - 1), max);
    assert_eq!(sum(0, 0), 0);
    assert_eq!(sum(SIGN, SIGN), SIGN);
    assert_eq!(sum(0, SIGN), 0);
    assert_eq!(sum(1, 1), 2);
    assert_eq!(sum(1, SIGN | 2), SIGN | 1);
}

/// By both functions, in both orders.
fn sum_is(a: u64, b: u64, expected: u64) {
    for (x, y) in [(a, b), (b, a)] {
        assert_eq!(sum(x, y), expected, "{x:016x} + {y:016x}");
        assert_eq!(exact::sum(x, y), expected, "{x:016x} + {y:016x}, exactly");
    }
}

#[test]
fn infinity_and_a_finite_number_is_that_infinity() {
    let half_place = 2f64.powi(970).to_bits();
    let finite = [
        0,
        1,
        (1 << 52) - 1,
        1 << 52,
        1f64.to_bits(),
        half_place,
        half_place + 1,
        0x7FE8_0000_0000_0000,
        f64::MAX.to_bits(),
    ];
    for infinity in [INFINITY, SIGN | INFINITY] {
        for number in finite {
            sum_is(infinity, number, infinity);
            sum_is(infinity, SIGN | number, infinity);
        }
    }
}

#[test]
fn a_product_that_is_infinite_in_a_sum() {
    let offset = SIGN | 2f64.powi(1023).to_bits();
    let error = 2f64.powi(1000).to_bits();
    assert_eq!(scaled(error, 1 << 30), INFINITY);
    sum_is(offset, scaled(error, 1 << 30), INFINITY);
    sum_is(offset, exact::scaled(error, 1 << 30), INFINITY);
    // The greatest count whose product is finite, and the next one.
    let below = 2f64.powi(1023) - 2f64.powi(1001);
    sum_is(offset, scaled(error, (1 << 23) - 1), below.to_bits());
    sum_is(offset, scaled(error, 1 << 23), INFINITY);
}

#[test]
fn two_infinities_are_counted() {
    sum_is(INFINITY, INFINITY, INFINITY);
    sum_is(SIGN | INFINITY, SIGN | INFINITY, SIGN | INFINITY);
    // 2^1024 - 2^1024.
    sum_is(INFINITY, SIGN | INFINITY, 0);
}

#[test]
fn a_fraction_past_finite_is_counted() {
    // 2^1024 + 2^972, and the most: 2^1025 - 2^972.
    let (least, most) = (INFINITY | 1, !SIGN);
    let max = f64::MAX.to_bits();
    let place = 2f64.powi(972);
    let rows = [
        (least, SIGN | INFINITY, place.to_bits()),
        (most, SIGN | INFINITY, max - 1),
        (most, SIGN | least, max - 3),
        (most, SIGN | most, 0),
        (least, SIGN | max, (1.5 * place).to_bits()),
        // 2^1024 - 2^970 is the limit; just below it the largest number is
        // nearest.
        (least, SIGN | (1.25 * place).to_bits(), INFINITY),
        (least, SIGN | ((1.25 * place).to_bits() + 1), max),
    ];
    for (a, b, expected) in rows {
        sum_is(a, b, expected);
        let opposite = if expected == 0 { 0 } else { SIGN | expected };
        sum_is(a ^ SIGN, b ^ SIGN, opposite);
    }
    for pattern in [least, INFINITY | 5, most] {
        for number in [0, SIGN, 1, SIGN | 1, max, INFINITY, pattern] {
            sum_is(pattern, number, INFINITY);
            sum_is(pattern ^ SIGN, number ^ SIGN, SIGN | INFINITY);
        }
    }
}

#[test]
fn products_past_finite_are_counted() {
    assert_eq!(scaled(INFINITY + 5, 0), 0);
    assert_eq!(scaled(SIGN | INFINITY, 0), SIGN);
    assert_eq!(scaled(SIGN | (INFINITY + 5), 1), SIGN | INFINITY);
}

#[test]
fn products_at_the_ends() {
    assert_eq!(scaled(SIGN, 7), SIGN);
    assert_eq!(scaled(SIGN | 1, 0), SIGN);
    assert_eq!(scaled(1, 1), 2);
    // Doubling the error alone passes the largest number, the product by 0 not.
    assert_eq!(scaled(2f64.powi(1023).to_bits(), 0), 0);
    assert_eq!(scaled(2f64.powi(1023).to_bits(), 1), INFINITY);
    assert_eq!(
        scaled(f64::MAX.to_bits() - (1 << 52), 1),
        f64::MAX.to_bits()
    );
}

#[test]
fn narrow_at_the_ends() {
    let limit = (2f64.powi(128) - 2f64.powi(103)).to_bits();
    assert_eq!(narrow(limit), 0x7F80_0000);
    assert_eq!(narrow(limit - 1), 0x7F7F_FFFF);
    assert_eq!(narrow(SIGN | limit), 0xFF80_0000);
    assert_eq!(narrow(2f64.powi(-150).to_bits()), 0);
    assert_eq!(narrow(2f64.powi(-150).to_bits() + 1), 1);
    assert_eq!(narrow(SIGN | 1), 0x8000_0000);
    assert_eq!(narrow(INFINITY), 0x7F80_0000);
    assert_eq!(narrow(SIGN | INFINITY), 0xFF80_0000);
    // Only the fraction's upper bits stay, and none is set.
    assert_eq!(narrow(INFINITY | 1), 0x7F80_0000);
    assert_eq!(narrow(INFINITY | 1 << 29), 0x7F80_0001);
    assert_eq!(narrow(SIGN | INFINITY | 1 << 51), 0xFFC0_0000);
}

#[test]
fn words_stand_for_numbers() {
    let cases = [
        (0x80, 0, -128.0),
        (0xFF, 0, -1.0),
        (0xFF, 1, 255.0),
        (0x8000, 2, -32768.0),
        (0xFFFF, 3, 65535.0),
        (0x8000_0000, 4, -2147483648.0),
        (0xFFFF_FFFF, 5, 4294967295.0),
        (0x3FC0_0000, 6, 1.5),
        (0x8000_0001, 6, -(2f64.powi(-149))),
    ];
    for (word, kind, value) in cases {
        assert_eq!(number(word, kind), value.to_bits(), "{word:x} as {kind}");
        // The word is taken modulo its kind.
        assert_eq!(number(word | 7 << 32, kind), value.to_bits());
        assert_eq!(stored(value.to_bits(), kind), Ok(word));
    }
    assert_eq!(number(0, 0), 0);
    assert_eq!(number(SIGN | 77, 7), SIGN | 77);
    assert_eq!(number(0x1FF, 1), 255f64.to_bits());
    assert_eq!(number(0x1_8000, 2), (-32768f64).to_bits());
}

#[test]
fn wide_words_that_are_not_finite() {
    assert_eq!(number(0x7F80_0000, 6), INFINITY);
    assert_eq!(number(0xFF80_0000, 6), SIGN | INFINITY);
    assert_eq!(number(0x7F80_0001, 6), INFINITY | 1 << 29);
    assert_eq!(number(0xFFC0_0000, 6), SIGN | INFINITY | 1 << 51);
}

#[test]
fn every_small_word_comes_back() {
    for kind in 0..4 {
        let words = if kind < 2 { 256 } else { 65536 };
        for word in 0..words {
            assert_eq!(stored(number(word, kind), kind), Ok(word));
        }
    }
}

#[test]
fn every_sort_of_binary32_comes_back() {
    let mut random = Random::new(5);
    for _ in 0..TRIES {
        let word = random.word() & 0xFFFF_FFFF;
        assert_eq!(stored(number(word, 6), 6), Ok(word));
        assert_eq!(stored(number(word, 4), 4), Ok(word));
        assert_eq!(stored(number(word, 5), 5), Ok(word));
    }
}

/// A number by itself has no place.
const OUTSIDE: Result<u64, Refusal> = Err(Refusal::of(9));

/// Least and greatest number of the integer kinds.
const LIMITS: [(f64, f64); 6] = [
    (-128.0, 127.0),
    (0.0, 255.0),
    (-32768.0, 32767.0),
    (0.0, 65535.0),
    (-2147483648.0, 2147483647.0),
    (0.0, 4294967295.0),
];

#[test]
fn integers_end_where_the_kind_ends() {
    for (kind, (least, greatest)) in (0..).zip(LIMITS) {
        let fits = |value: f64| stored(value.to_bits(), kind).is_ok();
        assert!(fits(least) && fits(greatest));
        assert!(fits((least - 1.0).next_up()) && fits((greatest + 1.0).next_down()));
        assert_eq!(stored((least - 1.0).to_bits(), kind), OUTSIDE);
        assert_eq!(stored((greatest + 1.0).to_bits(), kind), OUTSIDE);
        for word in [
            INFINITY,
            SIGN | INFINITY,
            INFINITY | 1,
            SIGN | INFINITY | 1 << 51,
        ] {
            assert_eq!(stored(word, kind), OUTSIDE);
        }
        for value in [0.0f64, -0.0, 0.9, -0.9, 5e-324, -5e-324] {
            assert_eq!(stored(value.to_bits(), kind), Ok(0));
        }
    }
}

#[test]
fn integers_are_cut_by_their_bits() {
    let mut random = Random::new(6);
    for _ in 0..TRIES {
        let field = 1000 + random.below(80) as u64;
        let word = random.word() & SIGN | field << 52 | any_fraction(&mut random);
        let kind = random.below(6) as u32;
        assert_eq!(stored(word, kind), cut(word, kind), "{word:016x} as {kind}");
    }
}

/// Cut with whole numbers only.
fn cut(v: u64, kind: u32) -> Result<u64, Refusal> {
    let negative = v & SIGN != 0;
    let field = (v >> 52 & 2047) as i32;
    let significand = i128::from(v & ((1 << 52) - 1) | 1 << 52);
    let power = field - 1075;
    let magnitude = if power >= 0 {
        significand << power
    } else {
        significand >> (-power).min(127)
    };
    let value = if negative { -magnitude } else { magnitude };
    let bits = [8, 8, 16, 16, 32, 32][kind as usize];
    let (least, limit) = if matches!(kind, 0 | 2 | 4) {
        (-(1 << (bits - 1)), 1 << (bits - 1))
    } else {
        (0, 1i128 << bits)
    };
    if value < least || value >= limit {
        return OUTSIDE;
    }
    Ok((value & ((1 << bits) - 1)) as u64)
}

#[test]
fn comparing_treats_both_zeros_alike() {
    assert!(same(0, SIGN) && !less(0, SIGN) && !less(SIGN, 0));
    assert!(less(SIGN | 1, SIGN) && less(SIGN, 1));
    assert!(!same(1, SIGN | 1));
    let mut random = Random::new(7);
    for _ in 0..TRIES {
        let (a, b) = (any_word(&mut random), any_word(&mut random));
        if is_finite(a) && is_finite(b) {
            let (x, y) = (f64::from_bits(a), f64::from_bits(b));
            assert_eq!(less(a, b), x < y);
            assert_eq!(same(a, b), x == y);
        }
    }
}
