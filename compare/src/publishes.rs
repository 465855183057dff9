//! How many publishes there were of each sort: what was done between staging and
//! publishing, and what came of it. A run that leaves one of them out has not
//! compared it.

use crate::case::{After, Case, Op};
use crate::sites::is_of_block;
use crate::table::grouped;
use second::Header;

/// How a publish was come to.
#[derive(Clone, Copy, Debug, PartialEq, Eq)]
pub enum Sort {
    AsStaged,
    Again,
    Filled,
    Forged,
    NoAnswer,
    Stale,
    Refused,
    Spare,
    List,
    LastStart,
    Unseen,
    Kept,
    KeptCount,
    Reuse,
    Blob,
    Short,
}

/// What came of it. A blob's own refusal is any that staging of the same inputs
/// gives, room apart.
#[derive(Clone, Copy, Debug, PartialEq, Eq)]
pub enum Outcome {
    Accepted,
    NotStaged,
    Own,
    NoRoom,
}

const OUTCOMES: [(Outcome, &str); 4] = [
    (Outcome::Accepted, "accepted"),
    (Outcome::NotStaged, "not staged (3)"),
    (Outcome::Own, "the blob's own"),
    (Outcome::NoRoom, "no room (5)"),
];

const WRONG: &[Outcome] = &[Outcome::NotStaged, Outcome::Own];
const ANY: &[Outcome] = &[Outcome::Accepted, Outcome::NotStaged, Outcome::Own];

/// All of them in order, with their names and what must have come of them.
pub const SORTS: [(Sort, &str, &[Outcome]); 16] = [
    (Sort::AsStaged, "as staged", &[Outcome::Accepted]),
    (Sort::Again, "published already", &[Outcome::Accepted]),
    (Sort::Filled, "blocks filled between", &[Outcome::Accepted]),
    (Sort::Forged, "a number of the answer changed", WRONG),
    (Sort::NoAnswer, "numbers that are no answer", WRONG),
    (Sort::Stale, "another blob's answer, spare or list", WRONG),
    (Sort::Refused, "a record that staging refused", WRONG),
    (Sort::Spare, "spare changed", ANY),
    (Sort::List, "list changed", WRONG),
    (Sort::LastStart, "last start changed", WRONG),
    (
        Sort::Unseen,
        "changed where nothing is looked at",
        &[Outcome::Accepted],
    ),
    (Sort::Kept, "kept mask changed, its count right", ANY),
    (
        Sort::KeptCount,
        "kept mask changed, its count wrong",
        &[Outcome::Own],
    ),
    (
        Sort::Reuse,
        "reuse turned",
        &[Outcome::Accepted, Outcome::Own],
    ),
    (Sort::Blob, "blob changed", ANY),
    (Sort::Short, "a slice too short", &[Outcome::NoRoom]),
];

/// Masks whose spare was changed.
#[derive(Clone, Copy, Debug, PartialEq, Eq)]
pub enum Spare {
    Runs,
    AllValid,
    NoneValid,
    Reused,
}

/// What came of a changed spare; a refused block comes before the spare.
#[derive(Clone, Copy, Debug, PartialEq, Eq)]
pub enum OfSpare {
    Accepted,
    NotStaged,
    Block,
    Other,
}

const OF_SPARE: [(OfSpare, &str); 4] = [
    (OfSpare::Accepted, "accepted"),
    (OfSpare::NotStaged, "not staged (3)"),
    (OfSpare::Block, "a block refused"),
    (OfSpare::Other, "other"),
];

pub const SPARES: [(Spare, &str, &[OfSpare]); 4] = [
    (
        Spare::Runs,
        "spare changed: runs",
        &[OfSpare::NotStaged, OfSpare::Block],
    ),
    (
        Spare::AllValid,
        "spare changed: all valid",
        &[OfSpare::NotStaged, OfSpare::Block],
    ),
    (
        Spare::NoneValid,
        "spare changed: none valid",
        &[OfSpare::NotStaged],
    ),
    (
        Spare::Reused,
        "spare changed: reused",
        &[OfSpare::Accepted, OfSpare::Block],
    ),
];

/// Stage and publish in one, against a whole read.
#[derive(Clone, Copy, Debug, PartialEq, Eq)]
pub enum Pair {
    Accepted,
    Filled,
    Refused,
}

pub const PAIRS: [(Pair, &str); 3] = [
    (Pair::Accepted, "accepted"),
    (Pair::Filled, "accepted, blocks filled between"),
    (Pair::Refused, "refused"),
];

#[derive(Clone, Default)]
pub struct Publishes {
    sorts: [[u64; OUTCOMES.len()]; SORTS.len()],
    spares: [[u64; OF_SPARE.len()]; SPARES.len()],
    pairs: [u64; PAIRS.len()],
}

impl Publishes {
    /// Counts a call that both sides answered alike, given what is left of it.
    pub fn count(&mut self, case: &Case, after: &After) {
        match (case.op, case.sort) {
            (Op::Both, _) => self.add_pair(pair(case, after)),
            (Op::Publish, Some(sort)) => {
                self.add(sort, outcome(case, after));
                if sort == Sort::Spare {
                    self.count_spare(case, after);
                }
            }
            _ => {}
        }
    }

    fn count_spare(&mut self, case: &Case, after: &After) {
        let Ok(header) = second::read_header(&case.blob) else {
            return;
        };
        let came = match outcome(case, after) {
            Outcome::Accepted => OfSpare::Accepted,
            Outcome::NotStaged => OfSpare::NotStaged,
            Outcome::Own if is_of_block(case, after) => OfSpare::Block,
            _ => OfSpare::Other,
        };
        self.add_spare(spare(&header), came);
    }

    pub fn add(&mut self, sort: Sort, outcome: Outcome) {
        self.sorts[sort as usize][outcome as usize] += 1;
    }

    pub fn add_spare(&mut self, spare: Spare, came: OfSpare) {
        self.spares[spare as usize][came as usize] += 1;
    }

    pub fn add_pair(&mut self, pair: Pair) {
        self.pairs[pair as usize] += 1;
    }

    pub fn of(&self, sort: Sort, outcome: Outcome) -> u64 {
        self.sorts[sort as usize][outcome as usize]
    }

    pub fn of_spare(&self, spare: Spare, came: OfSpare) -> u64 {
        self.spares[spare as usize][came as usize]
    }

    pub fn of_pair(&self, pair: Pair) -> u64 {
        self.pairs[pair as usize]
    }

    /// Publishes before which something was done.
    pub fn disturbed(&self) -> u64 {
        let rows = self.sorts.iter().skip(1);
        rows.flatten().sum()
    }

    /// What no call had.
    pub fn missing(&self) -> Vec<String> {
        let mut missing = Vec::new();
        for (sort, name, outcomes) in SORTS {
            for &outcome in outcomes {
                if self.of(sort, outcome) == 0 {
                    missing.push(format!("{name}: {}", OUTCOMES[outcome as usize].1));
                }
            }
        }
        for (spare, name, outcomes) in SPARES {
            for &came in outcomes {
                if self.of_spare(spare, came) == 0 {
                    missing.push(format!("{name}: {}", OF_SPARE[came as usize].1));
                }
            }
        }
        for (pair, name) in PAIRS {
            if self.of_pair(pair) == 0 {
                missing.push(format!("stage and publish in one: {name}"));
            }
        }
        missing
    }

    pub fn text(&self) -> String {
        let mut text = table("before a publish", &OUTCOMES.map(|outcome| outcome.1));
        for ((_, name, _), counts) in SORTS.into_iter().zip(&self.sorts) {
            text += &row(name, counts);
        }
        text += "\n";
        text += &table("mask", &OF_SPARE.map(|came| came.1));
        for ((_, name, _), counts) in SPARES.into_iter().zip(&self.spares) {
            text += &row(name, counts);
        }
        text += "\n";
        text += &table("stage and publish, against a whole read", &["calls"]);
        for ((_, name), &count) in PAIRS.into_iter().zip(&self.pairs) {
            text += &row(name, &[count]);
        }
        text
    }
}

fn table(first: &str, columns: &[&str]) -> String {
    let head = format!("| {first} | {} |\n", columns.join(" | "));
    head + &format!("|---|{}\n", "---|".repeat(columns.len()))
}

fn row(name: &str, counts: &[u64]) -> String {
    let mut text = format!("| {name} |");
    for &count in counts {
        let shown = match count {
            0 => "-".into(),
            _ => grouped(count),
        };
        text += &format!(" {shown} |");
    }
    text + "\n"
}

fn pair(case: &Case, after: &After) -> Pair {
    let has_blocks = || after.lent.said[lerc2::raw::HEADER] > 0;
    match after.answer {
        0 if case.numbers[0] > 0 && has_blocks() => Pair::Filled,
        0 => Pair::Accepted,
        _ => Pair::Refused,
    }
}

/// Staging says 3 of a header alone.
pub fn outcome(case: &Case, after: &After) -> Outcome {
    match after.answer {
        0 => Outcome::Accepted,
        3 if second::read_header(&case.blob).is_ok() => Outcome::NotStaged,
        5 => Outcome::NoRoom,
        _ => Outcome::Own,
    }
}

fn spare(header: &Header) -> Spare {
    match header.valid as usize {
        0 => Spare::NoneValid,
        valid if valid == header.pixels() => Spare::AllValid,
        _ if header.mask == 0 => Spare::Reused,
        _ => Spare::Runs,
    }
}
