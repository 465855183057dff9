//! What more than one test takes.

/// The sum in which an infinity beside a finite number counts as 2^1024.
pub fn sum_by_count(a: u64, b: u64) -> u64 {
    let (x, y) = (f64::from_bits(a), f64::from_bits(b));
    if !(x.is_infinite() && y.is_finite() || x.is_finite() && y.is_infinite()) {
        return second::sum(a, b);
    }
    // Halves are finite, and sums so large are rounded alike.
    let half = |v: f64| {
        if v.is_infinite() {
            2f64.powi(1023).copysign(v)
        } else {
            v / 2.0
        }
    };
    (2.0 * (half(x) + half(y))).to_bits()
}
