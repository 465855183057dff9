//! A run over many packs.

use super::call::{first_of, After, Call, Op};
use super::plan;
use super::table::{Sort, Table};
use super::tiles::staged;
use crate::case::{After as CaseAfter, Case};
use crate::random::Random;
use crate::run::FULL_RUN;
use crate::table::grouped;
use second::Pack;

/// One pack in so many is a large one.
const LARGE: u64 = 4096;

/// One side of the comparison: packs, and the stage of one blob.
#[derive(Clone, Copy)]
pub struct Side<'a> {
    pub packs: &'a dyn Fn(&Call) -> After,
    pub stage: fn(&Case) -> CaseAfter,
}

pub struct Run {
    pub seed: u64,
    /// Number of the first pack.
    pub from: u64,
    pub calls: u64,
    /// Failures after which a run stops.
    pub failures: usize,
}

/// A call on which the sides differ.
pub struct Failure {
    pub pack: u64,
    pub call: Call,
    pub difference: String,
}

impl Failure {
    pub fn text(&self) -> String {
        let (op, sort) = (self.call.op.name(), self.call.sort.name());
        format!("{op}, {sort}, proved and plain: {}", self.difference)
    }
}

pub struct Report {
    pub table: Table,
    pub packs: u64,
    /// Packs that the plain side opens, and tiles of them that were staged:
    /// accepted, refused.
    pub opened: u64,
    pub staged: [u64; 2],
    pub failures: Vec<Failure>,
}

impl Report {
    /// Whether the sides agreed, or a sentence that says what a full run left
    /// out.
    pub fn verdict(&self) -> Result<bool, String> {
        if !self.failures.is_empty() {
            return Ok(false);
        }
        let unexpected = &self.table.unexpected;
        if let Some(first) = unexpected.first() {
            let calls = grouped(unexpected.len() as u64);
            return Err(format!(
                "{calls} calls had another answer than their sort deserves, the first: {first}"
            ));
        }
        if self.table.total() < FULL_RUN {
            return Ok(true);
        }
        let mut missing = self.table.missing();
        for (count, name) in self.staged.iter().zip(["accepted", "refused"]) {
            if *count == 0 {
                missing.push(format!("stage of a tile: {name}"));
            }
        }
        if !missing.is_empty() {
            let (calls, names) = (grouped(self.table.total()), missing.join("; "));
            return Err(format!(
                "none of {calls} calls came upon this, so it was not compared: {names}"
            ));
        }
        Ok(true)
    }

    pub fn text(&self) -> String {
        format!(
            "{}\n{} packs were opened and written again; of their tiles {} were staged, {} refused\n",
            self.table.text(),
            grouped(self.opened),
            grouped(self.staged[0]),
            grouped(self.staged[1])
        )
    }
}

impl Run {
    pub fn go(&self, proved: Side, plain: Side) -> Report {
        let mut both = Both {
            proved,
            plain,
            report: Report {
                table: Table::default(),
                packs: 0,
                opened: 0,
                staged: [0; 2],
                failures: Vec::new(),
            },
        };
        let mut calls = Vec::new();
        while both.report.table.total() < self.calls && both.report.failures.len() < self.failures {
            let pack = self.from + both.report.packs;
            let mut random = Random::of(self.seed, pack);
            if pack % LARGE == LARGE - 1 {
                plan::large(&mut random, &mut calls);
            } else {
                plan::calls(&mut random, &mut calls);
            }
            let failure = calls.drain(..).find_map(|call| both.compare(call).err());
            if let Some(differs) = failure {
                let (call, difference) = *differs;
                both.report.failures.push(Failure {
                    pack,
                    call,
                    difference,
                });
            }
            both.report.packs += 1;
        }
        // The shortest is the first to look at.
        both.report
            .failures
            .sort_by_key(|failure| failure.call.pack.len() + failure.call.bodies.len());
        both.report
    }
}

struct Both<'a> {
    proved: Side<'a>,
    plain: Side<'a>,
    report: Report,
}

/// A call on which the sides differ, and in what.
type Differs = Box<(Call, String)>;

impl Both<'_> {
    fn compare(&mut self, call: Call) -> Result<(), Differs> {
        let (call, _, plain) = self.called(call)?;
        if call.op == Op::Open && plain.answer == 0 {
            self.read_on(&call)?;
        }
        Ok(())
    }

    /// One call on both sides, which must leave the same.
    fn called(&mut self, call: Call) -> Result<(Call, After, After), Differs> {
        let (one, other) = ((self.proved.packs)(&call), (self.plain.packs)(&call));
        self.report.table.count(&call, &other);
        match one.difference(&other) {
            Some(difference) => differs(call, difference),
            None => Ok((call, one, other)),
        }
    }

    /// A pack that is opened: each tile is read and staged on both sides, and
    /// what was read is written again.
    fn read_on(&mut self, call: &Call) -> Result<(), Differs> {
        let Ok(pack) = Pack::open(&call.pack) else {
            return differs(call.clone(), "opened, and not by `Pack`".into());
        };
        self.report.opened += 1;
        for number in 0..pack.count() {
            let entry = Call::entry(Sort::Right, call.pack.clone(), pack.count(), number);
            let (entry, proved, plain) = self.called(entry)?;
            if plain.answer != 0 {
                return differs(entry, "an entry of an opened pack is refused".into());
            }
            let [start, length] = [4, 5].map(|at| proved.lent.record[at] as usize);
            // The sides agree, so that the body lies in the pack.
            let own = &call.pack[start..start + length];
            if let Some(difference) = first_of("body", own, pack.body(number)) {
                return differs(entry, difference);
            }
            let case = staged(own);
            let (one, other) = ((self.proved.stage)(&case), (self.plain.stage)(&case));
            if let Some(difference) = one.difference(&other) {
                return differs(entry, format!("stage of tile {number}: {difference}"));
            }
            self.report.staged[usize::from(other.answer != 0)] += 1;
        }
        let Some(again) = plan::again(&pack) else {
            return differs(call.clone(), "an entry of an opened pack is refused".into());
        };
        let (again, proved, _) = self.called(again)?;
        match first_of("pack", &proved.lent.pack, &call.pack) {
            Some(difference) => differs(again, format!("read and written, {difference}")),
            None => Ok(()),
        }
    }
}

fn differs<T>(call: Call, difference: String) -> Result<T, Differs> {
    Err(Box::new((call, difference)))
}
