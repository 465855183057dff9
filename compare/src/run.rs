//! A run over many blobs.

use crate::case::{After, Case, Op};
use crate::paths::Paths;
use crate::places::Places;
use crate::plan;
use crate::publishes::Publishes;
use crate::random::Random;
use crate::shrink::shrunk;
use crate::table::{grouped, Bodies, Table};

/// One blob in so many is a large one.
const LARGE: u64 = 8192;

/// A run of so many calls must have taken every path and come upon every place
/// and every sort of publish.
pub const FULL_RUN: u64 = 500_000;

/// One call in so many at least publishes something else than was staged.
const DISTURBED: u64 = 3;

/// One side of the comparison.
pub type Side = fn(&Case) -> After;

pub struct Run {
    pub seed: u64,
    /// Number of the first blob.
    pub from: u64,
    pub calls: u64,
    /// Failures after which a run stops.
    pub failures: usize,
}

/// A call on which the sides differ, as it was and made smaller.
pub struct Failure {
    pub blob: u64,
    pub case: Case,
    pub small: Case,
    pub difference: String,
}

impl Failure {
    pub fn new(blob: u64, case: Case, proved: Side, plain: Side) -> Failure {
        let differs = |case: &Case| proved(case).difference(&plain(case));
        let small = shrunk(&case, &|case| differs(case).is_some());
        Failure {
            blob,
            difference: differs(&small).unwrap_or_default(),
            case,
            small,
        }
    }
}

pub struct Report {
    pub table: Table,
    pub bodies: Bodies,
    pub paths: Paths,
    pub places: Places,
    pub publishes: Publishes,
    pub blobs: u64,
    pub failures: Vec<Failure>,
}

impl Report {
    /// Whether the sides agreed, or a sentence that says what a full run left
    /// out.
    pub fn verdict(&self) -> Result<bool, String> {
        if !self.failures.is_empty() {
            return Ok(false);
        }
        if self.places.unexplained > 0 {
            let calls = grouped(self.places.unexplained);
            return Err(format!(
                "{calls} calls ended at places that their bytes do not explain"
            ));
        }
        let calls = self.table.total();
        let missing = [
            self.paths.missing(),
            self.places.missing(),
            self.publishes.missing(),
        ]
        .concat();
        if calls < FULL_RUN {
            return Ok(true);
        }
        if !missing.is_empty() {
            let (calls, names) = (grouped(calls), missing.join("; "));
            return Err(format!(
                "none of {calls} calls came upon this, so it was not compared: {names}"
            ));
        }
        let disturbed = self.publishes.disturbed();
        if disturbed < calls / DISTURBED {
            let (calls, disturbed) = (grouped(calls), grouped(disturbed));
            return Err(format!(
                "only {disturbed} of {calls} calls publish what was not staged or was \
                 disturbed since, less than one in {DISTURBED}"
            ));
        }
        Ok(true)
    }
}

impl Run {
    pub fn go(&self, proved: Side, plain: Side) -> Report {
        let mut report = Report {
            table: Table::default(),
            bodies: Bodies::default(),
            paths: Paths::default(),
            places: Places::default(),
            publishes: Publishes::default(),
            blobs: 0,
            failures: Vec::new(),
        };
        let mut cases = Vec::new();
        while report.table.total() < self.calls && report.failures.len() < self.failures {
            let blob = self.from + report.blobs;
            let mut random = Random::of(self.seed, blob);
            if blob % LARGE == LARGE - 1 {
                plan::large(&mut random, &mut cases);
            } else {
                plan::calls(&mut random, &mut cases);
            }
            for case in cases.drain(..) {
                let (one, other) = (proved(&case), plain(&case));
                report.table.count(case.op, one.answer);
                if case.op == Op::Read && one.answer == 0 {
                    report.bodies.count(&case.blob, &one.lent.said);
                }
                if one.difference(&other).is_some() {
                    report
                        .failures
                        .push(Failure::new(blob, case, proved, plain));
                    break;
                }
                report.paths.count(&case, &other);
                report.places.count(&case, &other);
                report.publishes.count(&case, &other);
            }
            cases.clear();
            report.blobs += 1;
        }
        report
    }
}
