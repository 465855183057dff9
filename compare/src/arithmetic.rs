//! The reader's arithmetic against whole numbers of any length
//! (`second::exact`), which use no float unit.

use crate::operands::{factors, finite, not_finite, pair, to_store, wide};
use crate::random::Random;
use crate::sorts::{
    count_sort, gap_sort, narrow_outcome, product_outcome, sort, sum_outcome, COUNTS, GAPS,
    OUTCOMES, SIGN, SORTS,
};
use crate::step::{self, Steps, ENDINGS};
use crate::table::grouped;
use lerc2::raw;
use second::Refusal;
use std::collections::BTreeMap;

/// What is compared with whole numbers.
pub struct Side {
    pub sum: fn(u64, u64) -> u64,
    pub scaled: fn(u64, u32) -> u64,
    pub narrow: fn(u64) -> u32,
    pub number: fn(u64, u32) -> u64,
    pub stored: fn(u64, u32) -> Result<u64, Refusal>,
    /// The cells of a block; none where it is refused.
    pub steps: fn(&Steps) -> Vec<u64>,
    pub ready: fn(u64) -> bool,
}

pub const PROVED: Side = Side {
    sum: raw::sum,
    scaled: raw::scaled,
    narrow: raw::narrow,
    number: raw::number,
    stored,
    steps: Steps::proved,
    ready: raw::float_ready,
};

fn stored(v: u64, kind: u32) -> Result<u64, Refusal> {
    let (mut said, mut place) = ([0; raw::STORED], [7; raw::PLACE]);
    match raw::stored(v, kind, &mut said, &mut place) {
        0 => Ok(said[0]),
        number => Err(Refusal::at(number, place[0] as usize)),
    }
}

/// Counts by names of rows and columns.
pub struct Grid {
    title: &'static str,
    rows: Vec<&'static str>,
    columns: &'static [&'static str],
    counts: Vec<Vec<u64>>,
}

impl Grid {
    fn new(title: &'static str, rows: &[&'static str], columns: &'static [&'static str]) -> Grid {
        Grid {
            title,
            rows: rows.to_vec(),
            columns,
            counts: vec![vec![0; columns.len()]; rows.len()],
        }
    }

    pub fn total(&self) -> u64 {
        self.counts.iter().flatten().sum()
    }

    /// The count of a row and a column, by their names.
    pub fn of(&self, row: &str, column: &str) -> u64 {
        let row = self.rows.iter().position(|&name| name == row);
        let column = self.columns.iter().position(|&name| name == column);
        self.counts[row.expect("a row")][column.expect("a column")]
    }

    /// In the form of the documents, without rows of zeros.
    fn text(&self) -> String {
        let bars = "---|".repeat(self.columns.len() + 1);
        let mut text = format!(
            "| {} | {} |\n|{bars}\n",
            self.title,
            self.columns.join(" | ")
        );
        for (name, counts) in self.rows.iter().zip(&self.counts) {
            if counts.iter().any(|&count| count > 0) {
                let counts: Vec<String> = counts.iter().map(|&count| grouped(count)).collect();
                text += &format!("| {name} | {} |\n", counts.join(" | "));
            }
        }
        text
    }
}

/// Operations on each side of the test whether their operands are finite.
const SIDES: [&str; 8] = [
    "sum, finite",
    "sum, not finite",
    "scaled, finite",
    "scaled, not finite",
    "narrow, finite",
    "narrow, not finite",
    "sum of a step, error below 2^991",
    "sum of a step, error above",
];

pub struct Report {
    /// Sums by the sorts of both operands.
    pub pairs: Grid,
    /// Sums of finite numbers by the distance of the exponents and the signs.
    pub gaps: Grid,
    /// Products by the sorts of number and count.
    pub factors: Grid,
    /// Results.
    pub outcomes: Grid,
    /// Steps by the error and the way they end.
    pub steps: Grid,
    /// Conversions to binary32, and of and to each kind.
    pub conversions: u64,
    /// Words that `ready` was asked with.
    pub mixes: u64,
    /// How many differ, by operation.
    pub differ: BTreeMap<&'static str, u64>,
    /// The first of those that differ.
    pub shown: Vec<String>,
}

/// So many are shown of each operation.
const SHOWN: u64 = 5;

impl Report {
    fn new() -> Report {
        Report {
            pairs: Grid::new("sums: first and second", &SORTS, &SORTS),
            gaps: Grid::new("finite sums: signs", &["alike", "opposite"], &GAPS),
            factors: Grid::new("products: number and count", &SORTS, &COUNTS),
            outcomes: Grid::new("results", &SIDES, &OUTCOMES),
            steps: Grid::new("steps: error", &["below 2^991", "above"], &ENDINGS),
            conversions: 0,
            mixes: 0,
            differ: BTreeMap::new(),
            shown: Vec::new(),
        }
    }

    pub fn disagreements(&self) -> u64 {
        self.differ.values().sum()
    }

    fn hold(&mut self, operation: &'static str, alike: bool, said: impl Fn() -> String) {
        if alike {
            return;
        }
        let differ = self.differ.entry(operation).or_default();
        *differ += 1;
        if *differ <= SHOWN {
            self.shown.push(format!("{operation} {}", said()));
        }
    }

    pub fn text(&self) -> String {
        let operands = [&self.pairs, &self.gaps, &self.factors];
        let results = [&self.steps, &self.outcomes];
        let grids = operands.iter().chain(&results);
        let mut text: String = grids.map(|grid| grid.text() + "\n").collect();
        for line in &self.shown {
            text += &format!("{line}\n");
        }
        for (operation, count) in &self.differ {
            text += &format!("{operation}: {} differ\n", grouped(*count));
        }
        text + &format!(
            "{} sums, {} products, {} steps, {} conversions, {} mixes: {} disagreements",
            grouped(self.pairs.total()),
            grouped(self.factors.total()),
            grouped(self.steps.total()),
            grouped(self.conversions),
            grouped(self.mixes),
            grouped(self.disagreements()),
        )
    }
}

/// Compares so many pairs of operands of each operation, on each side of the
/// test whether they are finite.
pub fn compared(side: &Side, seed: u64, pairs: u64) -> Report {
    let mut report = Report::new();
    for n in 0..pairs {
        let mut random = Random::of(seed, n);
        for finite in [true, false] {
            sum(side, &mut random, finite, &mut report);
            scaled(side, &mut random, finite, &mut report);
            narrow(side, &mut random, finite, &mut report);
            if n % step::COUNTS as u64 == 0 {
                steps(side, &mut random, finite, &mut report);
            }
        }
        conversions(side, &mut random, &mut report);
        let mix = random.word();
        report.hold("ready", (side.ready)(mix), || {
            format!("with {mix:#018x}: not")
        });
        report.mixes += 1;
    }
    report
}

/// The row of an operation in the table of results.
fn row(operation: usize, finite: bool) -> usize {
    2 * operation + usize::from(!finite)
}

fn sum(side: &Side, random: &mut Random, finite: bool, report: &mut Report) {
    let (a, b) = pair(random, finite);
    let (one, other) = ((side.sum)(a, b), second::exact::sum(a, b));
    report.pairs.counts[sort(a)][sort(b)] += 1;
    if finite {
        let opposite = usize::from((a ^ b) & SIGN != 0);
        report.gaps.counts[opposite][gap_sort(a, b)] += 1;
    }
    report.outcomes.counts[row(0, finite)][sum_outcome(a, b, other)] += 1;
    report.hold("sum", one == other, || {
        format!("{a:#018x} {b:#018x}: {one:#018x}, by whole numbers {other:#018x}")
    });
}

fn scaled(side: &Side, random: &mut Random, finite: bool, report: &mut Report) {
    let (number, q) = factors(random);
    let a = if finite { number } else { not_finite(random) };
    let (one, other) = ((side.scaled)(a, q), second::exact::scaled(a, q));
    report.factors.counts[sort(a)][count_sort(q)] += 1;
    report.outcomes.counts[row(1, finite)][product_outcome(a, q, other)] += 1;
    report.hold("scaled", one == other, || {
        format!("{a:#018x} {q}: {one:#018x}, by whole numbers {other:#018x}")
    });
}

fn narrow(side: &Side, random: &mut Random, finite: bool, report: &mut Report) {
    let v = if finite {
        wide(random)
    } else {
        not_finite(random)
    };
    // What is not finite keeps its upper digits, and is no whole number there.
    let other = match finite {
        true => second::exact::narrow(v),
        false => second::narrow(v),
    };
    let one = (side.narrow)(v);
    report.outcomes.counts[row(2, finite)][narrow_outcome(v, other)] += 1;
    report.conversions += 1;
    report.hold("narrow", one == other, || {
        format!("{v:#018x}: {one:#010x}, and not {other:#010x}")
    });
}

fn steps(side: &Side, random: &mut Random, small: bool, report: &mut Report) {
    let steps = Steps::at_random(random, small);
    let (one, other) = ((side.steps)(&steps), steps.exact());
    for n in 0..step::COUNTS {
        let (ending, outcome) = steps.ending(n);
        report.steps.counts[usize::from(!small)][ending] += 1;
        report.outcomes.counts[row(3, small)][outcome] += 1;
        let word = one.get(n).copied();
        report.hold("step", word == Some(other[n]), || {
            let Steps {
                error,
                offset,
                maximum,
                counts,
            } = &steps;
            let asked = format!("{offset:#018x} {error:#018x} {} {maximum:#018x}", counts[n]);
            let said = word.map_or("refused".into(), |word| format!("{word:#018x}"));
            format!("{asked}: {said}, by whole numbers {:#018x}", other[n])
        });
    }
}

/// Of and to each kind, against the plain reader: what it converts is exact
/// or cut, but for binary32.
fn conversions(side: &Side, random: &mut Random, report: &mut Report) {
    let kind = random.below(9) as u32;
    let word = match random.below(3) {
        0 => random.word(),
        1 => finite(random) >> 32,
        _ => not_finite(random) >> random.pick(&[0, 29]),
    };
    let (one, other) = ((side.number)(word, kind), second::number(word, kind));
    report.hold("number", one == other, || {
        format!("{word:#x} {kind}: {one:#018x}, and not {other:#018x}")
    });
    let v = to_store(random);
    let (one, other) = ((side.stored)(v, kind), second::stored(v, kind));
    report.hold("stored", one == other, || {
        format!("{v:#018x} {kind}: {one:x?}, and not {other:x?}")
    });
    report.conversions += 2;
}
