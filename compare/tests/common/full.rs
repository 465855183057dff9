//! Reports of runs that came upon everything, but for what is left out.

use compare::case::{Case, Op};
use compare::paths::{Path, Paths, PATHS};
use compare::places::{Places, Site, SITES};
use compare::publishes::{Outcome, Publishes, Sort, PAIRS, SORTS, SPARES};
use compare::run::{Failure, Report};
use compare::table::{Bodies, Table};

pub fn full_report(calls: u64) -> Report {
    let mut table = Table::default();
    (0..calls).for_each(|_| table.count(Op::Read, 0));
    Report {
        table,
        bodies: Bodies::default(),
        paths: paths_but(None),
        places: places_but(None),
        publishes: publishes_but(calls, |_| false),
        blobs: 1,
        failures: Vec::new(),
    }
}

/// Every path is counted but one, of whole reads, of fills or of publishes.
pub fn paths_but(left_out: Option<(Path, Op)>) -> Paths {
    let mut paths = Paths::default();
    for (path, _) in PATHS {
        if left_out != Some((path, Op::Read)) {
            paths.reads.add(path);
        }
        if left_out != Some((path, Op::Fill)) && !path.is_body() {
            paths.fills.add(path);
        }
        if left_out != Some((path, Op::Publish)) {
            paths.publishes.add(path);
        }
    }
    paths
}

/// Every place is counted but one, of one operation.
pub fn places_but(left_out: Option<(Site, Op)>) -> Places {
    let mut places = Places::default();
    for (site, _, ops) in SITES {
        for &op in ops.iter().filter(|&&op| left_out != Some((site, op))) {
            places.add(site, op);
        }
    }
    places
}

/// Every sort of publish is counted but those with this name, and enough of them
/// for so many calls.
pub fn publishes_but(calls: u64, left_out: fn(&str) -> bool) -> Publishes {
    let mut publishes = Publishes::default();
    for (sort, name, outcomes) in SORTS {
        let counted = outcomes.iter().filter(|_| !left_out(name));
        counted.for_each(|&outcome| publishes.add(sort, outcome));
    }
    for (spare, name, outcomes) in SPARES {
        let counted = outcomes.iter().filter(|_| !left_out(name));
        counted.for_each(|&came| publishes.add_spare(spare, came));
    }
    for (pair, name) in PAIRS {
        if !left_out(name) {
            publishes.add_pair(pair);
        }
    }
    for _ in 0..calls / 3 {
        publishes.add(Sort::Blob, Outcome::NoRoom);
    }
    publishes
}

pub fn a_failure() -> Failure {
    let case = Case::new(Op::Sum);
    Failure {
        blob: 0,
        small: case.clone(),
        case,
        difference: String::new(),
    }
}
