//! The operands of `compare arithmetic` are of every sort, and faults planted
//! in the arithmetic are found.

use compare::arithmetic::{compared, Report, Side, PROVED};
use compare::sorts::{COUNTS, GAPS, OUTCOMES, SORTS};
use compare::step::{Steps, ENDINGS};

const STEPS: [&str; 2] = [
    "sum of a step, error below 2^991",
    "sum of a step, error above",
];

fn run(side: &Side) -> Report {
    compared(side, 3, 20_000)
}

fn is_found(side: &Side, operation: &str) {
    let report = run(side);
    let operations: Vec<_> = report.differ.keys().copied().collect();
    assert_eq!(operations, [operation]);
    assert!(report.shown.iter().all(|line| line.starts_with(operation)));
}

#[test]
fn every_sort_comes_up() {
    let report = run(&PROVED);
    assert_eq!(report.disagreements(), 0, "{}", report.text());
    for sort in SORTS {
        for other in SORTS {
            assert!(report.pairs.of(sort, other) > 0, "{sort} and {other}");
        }
        for count in COUNTS {
            assert!(report.factors.of(sort, count) > 0, "{sort} and {count}");
        }
    }
    for gap in GAPS {
        for signs in ["alike", "opposite"] {
            assert!(report.gaps.of(signs, gap) > 9, "{signs}, {gap}");
        }
    }
    for outcome in OUTCOMES {
        let operations = ["sum, finite", "scaled, finite", "narrow, finite"];
        for operation in operations.into_iter().chain(STEPS) {
            let count = report.outcomes.of(operation, outcome);
            assert!(count > 2, "{operation}: {outcome}");
        }
    }
    for ending in ENDINGS {
        for error in ["below 2^991", "above"] {
            assert!(report.steps.of(error, ending) > 2, "{error}: {ending}");
        }
    }
}

fn machine_sum(a: u64, b: u64) -> u64 {
    (f64::from_bits(a) + f64::from_bits(b)).to_bits()
}

fn machine_scaled(a: u64, q: u32) -> u64 {
    (f64::from_bits(a) * (2.0 * f64::from(q))).to_bits()
}

/// The machine's sum where one operand is not finite.
#[test]
fn a_test_of_one_operand() {
    fn sum(a: u64, b: u64) -> u64 {
        match second::is_finite(a) {
            true => machine_sum(a, b),
            false => second::exact::sum(a, b),
        }
    }
    is_found(&Side { sum, ..PROVED }, "sum");
}

/// The machine's product of patterns, and of infinity and 0.
#[test]
fn a_product_without_a_test() {
    let scaled = machine_scaled;
    is_found(&Side { scaled, ..PROVED }, "scaled");
}

/// Small results become 0.
#[test]
fn flushed_sums() {
    fn sum(a: u64, b: u64) -> u64 {
        let word = second::exact::sum(a, b);
        match word << 1 >> 53 {
            0 => word & 1 << 63,
            _ => word,
        }
    }
    is_found(&Side { sum, ..PROVED }, "sum");
}

/// The odd word of two that are equally near.
#[test]
fn ties_to_odd() {
    fn scaled(a: u64, q: u32) -> u64 {
        let word = second::exact::scaled(a, q);
        let tie = compare::sorts::product_outcome(a, q, word) == 5;
        word ^ u64::from(tie)
    }
    is_found(&Side { scaled, ..PROVED }, "scaled");
}

fn stepped(steps: &Steps, step: fn(f64, f64, f64, f64) -> f64) -> Vec<u64> {
    let [offset, error, top] = [steps.offset, steps.error, steps.maximum].map(f64::from_bits);
    let counts = steps.counts.iter();
    counts
        .map(|&q| step(offset, error, 2.0 * f64::from(q), top).to_bits())
        .collect()
}

/// No rounding between product and sum.
#[test]
fn a_fused_step() {
    fn steps(steps: &Steps) -> Vec<u64> {
        stepped(steps, |offset, error, twice, top| {
            let v = error.mul_add(twice, offset);
            if v < top {
                v
            } else {
                top
            }
        })
    }
    is_found(&Side { steps, ..PROVED }, "step");
}

/// +0 where the maximum is -0.
#[test]
fn a_sum_kept_on_a_tie() {
    fn steps(steps: &Steps) -> Vec<u64> {
        stepped(steps, |offset, error, twice, top| {
            let v = offset + error * twice;
            if v <= top {
                v
            } else {
                top
            }
        })
    }
    is_found(&Side { steps, ..PROVED }, "step");
}

#[test]
fn a_thread_that_is_not_ready() {
    let ready = |mix: u64| mix & 1023 != 0;
    is_found(&Side { ready, ..PROVED }, "ready");
}
