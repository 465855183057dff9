//! Sum, product and narrowing over whole numbers of any length.
//!
//! A number is a whole number of units of 2^-1074. This is slow, and is here
//! to compare the fast functions with: it follows the definitions to the
//! letter and uses no floating point at all.

use std::cmp::Ordering;

/// Magnitude in units, lowest limb first; the highest limb is not zero.
#[derive(Clone, Debug, PartialEq, Eq)]
struct Whole(Vec<u32>);

impl Whole {
    fn new(value: u64) -> Whole {
        Whole::trimmed(vec![value as u32, (value >> 32) as u32])
    }

    fn trimmed(mut limbs: Vec<u32>) -> Whole {
        while limbs.last() == Some(&0) {
            limbs.pop();
        }
        Whole(limbs)
    }

    fn limb(&self, n: usize) -> u32 {
        self.0.get(n).copied().unwrap_or(0)
    }

    fn bit(&self, n: usize) -> bool {
        self.limb(n / 32) >> (n % 32) & 1 == 1
    }

    fn bits(&self) -> usize {
        match self.0.last() {
            Some(top) => 32 * self.0.len() - top.leading_zeros() as usize,
            None => 0,
        }
    }

    fn compare(&self, other: &Whole) -> Ordering {
        let limbs = self.0.len().cmp(&other.0.len());
        limbs.then_with(|| self.0.iter().rev().cmp(other.0.iter().rev()))
    }

    fn plus(&self, other: &Whole) -> Whole {
        let mut limbs = Vec::new();
        let mut carry = 0;
        for n in 0..=self.0.len().max(other.0.len()) {
            let total = u64::from(self.limb(n)) + u64::from(other.limb(n)) + carry;
            limbs.push(total as u32);
            carry = total >> 32;
        }
        Whole::trimmed(limbs)
    }

    /// `other` is not greater.
    fn minus(&self, other: &Whole) -> Whole {
        let mut limbs = Vec::new();
        let mut borrow = 0;
        for n in 0..self.0.len() {
            let left = i64::from(self.limb(n)) - i64::from(other.limb(n)) - borrow;
            limbs.push(left as u32);
            borrow = i64::from(left < 0);
        }
        Whole::trimmed(limbs)
    }

    fn times(&self, factor: u32) -> Whole {
        let mut limbs = Vec::new();
        let mut carry = 0;
        for &limb in &self.0 {
            let product = u64::from(limb) * u64::from(factor) + carry;
            limbs.push(product as u32);
            carry = product >> 32;
        }
        limbs.push(carry as u32);
        Whole::trimmed(limbs)
    }

    fn shifted_up(&self, by: usize) -> Whole {
        let mut limbs = vec![0; by / 32];
        let mut carry = 0;
        for &limb in &self.0 {
            let wide = u64::from(limb) << (by % 32) | carry;
            limbs.push(wide as u32);
            carry = wide >> 32;
        }
        limbs.push(carry as u32);
        Whole::trimmed(limbs)
    }

    /// What is left above the lowest `by` bits, which must fit a u64.
    fn shifted_down(&self, by: usize) -> u64 {
        let bits = (by..self.bits()).rev();
        bits.fold(0, |value, n| value << 1 | u64::from(self.bit(n)))
    }

    /// Divided by 2^by, to the nearest whole number, ties to even.
    fn rounded(&self, by: usize) -> u64 {
        let down = self.shifted_down(by);
        let rest = self.minus(&Whole::new(down).shifted_up(by));
        match rest.shifted_up(1).compare(&Whole::new(1).shifted_up(by)) {
            Ordering::Less => down,
            Ordering::Equal => down + down % 2,
            Ordering::Greater => down + 1,
        }
    }
}

fn is_negative(v: u64) -> bool {
    v >> 63 == 1
}

/// Field 2047 is treated as any other.
fn units(v: u64) -> Whole {
    let field = (v >> 52 & 2047) as usize;
    let fraction = v & ((1 << 52) - 1);
    if field == 0 {
        Whole::new(fraction)
    } else {
        Whole::new(fraction | 1 << 52).shifted_up(field - 1)
    }
}

/// 2^top - 2^low, where both are powers of the number and not of the unit.
fn power_less_power(top: usize, low: usize) -> Whole {
    let one = Whole::new(1);
    one.shifted_up(top + 1074)
        .minus(&one.shifted_up(low + 1074))
}

/// The nearest binary64.
fn word(negative: bool, magnitude: &Whole) -> u64 {
    let sign = u64::from(negative) << 63;
    if magnitude.compare(&power_less_power(1024, 970)) != Ordering::Less {
        return sign | 2047 << 52;
    }
    // 53 bits are kept; the leading one adds to the exponent field.
    let cut = magnitude.bits().saturating_sub(53);
    let field = (cut as u64) << 52;
    sign | (field + magnitude.rounded(cut))
}

pub fn sum(a: u64, b: u64) -> u64 {
    let (x, y) = (units(a), units(b));
    // An infinity has just these units; finite numbers have fewer.
    let infinite = Whole::new(1).shifted_up(1024 + 1074);
    match (x.compare(&infinite), y.compare(&infinite)) {
        (Ordering::Equal, Ordering::Less) => return a,
        (Ordering::Less, Ordering::Equal) => return b,
        _ => {}
    }
    if is_negative(a) == is_negative(b) {
        return word(is_negative(a), &x.plus(&y));
    }
    match x.compare(&y) {
        Ordering::Less => word(is_negative(b), &y.minus(&x)),
        Ordering::Equal => 0,
        Ordering::Greater => word(is_negative(a), &x.minus(&y)),
    }
}

pub fn scaled(a: u64, q: u32) -> u64 {
    word(is_negative(a), &units(a).times(q).times(2))
}

/// The nearest binary32 of a finite number.
pub fn narrow(v: u64) -> u32 {
    let sign = u32::from(is_negative(v)) << 31;
    let magnitude = units(v);
    if magnitude.compare(&power_less_power(128, 103)) != Ordering::Less {
        return sign | 255 << 23;
    }
    // A binary32 has 24 bits and no part below 2^-149.
    let lowest = 1074 - 149;
    let cut = magnitude.bits().saturating_sub(24).max(lowest);
    let field = ((cut - lowest) as u32) << 23;
    sign | (field + magnitude.rounded(cut) as u32)
}
