//! How many calls ended at each sort of place, by operation. A run that leaves
//! one of them out has not compared it.

use crate::case::{After, Case, Op};
use crate::sites::sites;
use crate::table::grouped;

/// What is told apart: what is wrong where a place is.
#[derive(Clone, Copy, Debug, PartialEq, Eq)]
pub enum Site {
    FlagMissing,
    FlagFar,
    FlagLast,
    CheckBits,
    RawWords,
    OffsetCode,
    OffsetMissing,
    OffsetNotFinite,
    CountsMissing,
    CountsWrong,
    Value,
    Minimum,
    BothOfPair,
    Maximum,
    LesserMaximum,
    BeforeMinimum,
    RangesMissing,
    MaskRuns,
    MaskKept,
    MaskOfUniform,
    MaskMissing,
    SweepMissing,
    SweepFar,
    SweepWrong,
    SweepRaw,
    ModeMissing,
    ModeWrong,
    ModeCodes,
    IntegersMissing,
    TableVersion,
    TableSize,
    TableFirst,
    TableEnd,
    LengthsMissing,
    LengthsWrong,
    LengthsNumber,
    LengthTooLong,
    NoLength,
    CodesMissing,
    CodeBegins,
    SymbolUnknown,
    SymbolMissing,
    LastWordMissing,
    WordMissing,
    WordCut,
    RangesGiven,
    EmptyBody,
    ConstantBody,
    Constant,
    Under70,
    UnderSize,
    Key,
    Field,
    Ceiling,
    SumByWords,
    SumZero,
    SumBit,
    SumSwapped,
    SumOtherEnd,
    SumOther,
    SumNoRoom,
    Room,
    NoBlock,
    Number,
    ShortRecord,
    WideNumber,
    NotStaged,
    Accepted,
    AcceptedByFold,
    AcceptedUnsummed,
    NoPlace,
    OnePlace,
    MorePlaces,
}

const EVERY: &[Op] = &[
    Op::Header,
    Op::Mask,
    Op::Ranges,
    Op::Walk,
    Op::Fill,
    Op::Read,
    Op::Stage,
    Op::Publish,
    Op::Stored,
];
const WITH_HEADER: &[Op] = &Op::READING;
const OWN_HEADER: &[Op] = &[Op::Header, Op::Read, Op::Stage, Op::Publish];
const GIVEN_HEADER: &[Op] = &[Op::Mask, Op::Ranges, Op::Walk, Op::Fill];
const ROOM: &[Op] = &[
    Op::Mask,
    Op::Walk,
    Op::Fill,
    Op::Read,
    Op::Stage,
    Op::Publish,
];
const WHOLE: &[Op] = &[Op::Read, Op::Stage, Op::Publish];
const MASK: &[Op] = &[Op::Mask, Op::Read, Op::Stage, Op::Publish];
const RANGES: &[Op] = &[Op::Ranges, Op::Read, Op::Stage, Op::Publish];
const GIVEN: &[Op] = &[Op::Walk, Op::Fill];
const BODY: &[Op] = &[Op::Walk, Op::Read, Op::Stage, Op::Publish];
const BLOCK: &[Op] = &[Op::Walk, Op::Fill, Op::Read, Op::Stage, Op::Publish];

/// All of them in order, with their names and the operations that have them.
pub const SITES: [(Site, &str, &[Op]); 73] = [
    (Site::FlagMissing, "flag byte: missing (1)", BLOCK),
    (
        Site::FlagFar,
        "flag byte: missing, from 2^32 on (1)",
        &[Op::Fill],
    ),
    (
        Site::FlagLast,
        "flag byte: missing, at 2^64 - 1 (1)",
        &[Op::Fill],
    ),
    (Site::CheckBits, "flag byte: check bits (8)", BLOCK),
    (Site::RawWords, "flag byte: raw words missing (1)", BLOCK),
    (Site::OffsetCode, "flag byte: offset's code (8)", BLOCK),
    (Site::OffsetMissing, "flag byte: offset missing (1)", BLOCK),
    (
        Site::OffsetNotFinite,
        "flag byte: offset not finite (8)",
        BLOCK,
    ),
    (Site::CountsMissing, "flag byte: counts missing (1)", BLOCK),
    (Site::CountsWrong, "flag byte: counts wrong (8)", BLOCK),
    // Maxima that were read are of the image's kind, so no value passes it.
    (Site::Value, "flag byte: a value does not fit (9)", GIVEN),
    (Site::Minimum, "range: minimum not finite (7)", RANGES),
    (
        Site::BothOfPair,
        "range: minimum, the maximum not finite too (7)",
        RANGES,
    ),
    (Site::Maximum, "range: maximum not finite (7)", RANGES),
    (Site::LesserMaximum, "range: maximum less (7)", RANGES),
    (
        Site::BeforeMinimum,
        "range: maximum, a later minimum not finite (7)",
        RANGES,
    ),
    (
        Site::RangesMissing,
        "range: the first, they do not fit (1)",
        RANGES,
    ),
    (Site::MaskRuns, "66: runs of the mask (6)", MASK),
    (Site::MaskKept, "66: count of a reused mask (6)", MASK),
    (
        Site::MaskOfUniform,
        "66: mask bytes that must be 0 (6)",
        MASK,
    ),
    (Site::MaskMissing, "66: no mask, no reuse (6)", MASK),
    (Site::SweepMissing, "sweep byte: missing (1)", BODY),
    (
        Site::SweepFar,
        "sweep byte: missing, from 2^32 on (1)",
        &[Op::Walk],
    ),
    (Site::SweepWrong, "sweep byte: wrong (8)", BODY),
    (Site::SweepRaw, "sweep byte: raw (10)", &[Op::Walk]),
    (Site::ModeMissing, "mode byte: missing (1)", BODY),
    (Site::ModeWrong, "mode byte: wrong (8)", BODY),
    (Site::ModeCodes, "mode byte: 1 or 2 (10)", &[Op::Walk]),
    (
        Site::IntegersMissing,
        "mode byte: integers of the table missing (1)",
        WHOLE,
    ),
    (Site::TableVersion, "mode byte: version (8)", WHOLE),
    (Site::TableSize, "mode byte: size (8)", WHOLE),
    (Site::TableFirst, "mode byte: first symbol (8)", WHOLE),
    (Site::TableEnd, "mode byte: end of the symbols (8)", WHOLE),
    (
        Site::LengthsMissing,
        "mode byte: lengths missing (1)",
        WHOLE,
    ),
    (
        Site::LengthsWrong,
        "mode byte: lengths are no counts (8)",
        WHOLE,
    ),
    (
        Site::LengthsNumber,
        "mode byte: number of lengths (8)",
        WHOLE,
    ),
    (
        Site::LengthTooLong,
        "mode byte: a length above 32 (8)",
        WHOLE,
    ),
    (Site::NoLength, "mode byte: all lengths 0 (8)", WHOLE),
    (Site::CodesMissing, "mode byte: codes missing (1)", WHOLE),
    (
        Site::CodeBegins,
        "mode byte: a code begins another (8)",
        WHOLE,
    ),
    (Site::SymbolUnknown, "mode byte: unknown code (8)", WHOLE),
    (
        Site::SymbolMissing,
        "mode byte: a symbol's word missing (1)",
        WHOLE,
    ),
    (
        Site::LastWordMissing,
        "mode byte: the last word missing (1)",
        WHOLE,
    ),
    (
        Site::WordMissing,
        "raw word: nothing of it is there (1)",
        WHOLE,
    ),
    (Site::WordCut, "raw word: some of it is there (1)", WHOLE),
    (Site::RangesGiven, "0: ranges by value (7)", GIVEN),
    (Site::EmptyBody, "0: empty body (10)", &[Op::Walk]),
    (Site::ConstantBody, "0: constant body (10)", &[Op::Walk]),
    (Site::Constant, "0: a constant does not fit (9)", WHOLE),
    (Site::Under70, "0: under 70 bytes (1)", OWN_HEADER),
    (Site::UnderSize, "0: under the size (1)", WITH_HEADER),
    (Site::Key, "0: key or version (2)", OWN_HEADER),
    (Site::Field, "0: a field (3)", WITH_HEADER),
    (Site::Ceiling, "0: a ceiling (4)", WITH_HEADER),
    (
        Site::SumByWords,
        "0: checksum by the words, not by the code (13)",
        OWN_HEADER,
    ),
    (Site::SumZero, "0: checksum of 0 (13)", OWN_HEADER),
    (Site::SumBit, "0: checksum, one bit (13)", OWN_HEADER),
    (
        Site::SumSwapped,
        "0: checksum, bytes or halves swapped (13)",
        OWN_HEADER,
    ),
    (
        Site::SumOtherEnd,
        "0: checksum of more or fewer bytes (13)",
        OWN_HEADER,
    ),
    (Site::SumOther, "0: checksum, any other (13)", OWN_HEADER),
    (
        Site::SumNoRoom,
        "0: checksum, and a slice is too short (13)",
        WHOLE,
    ),
    (Site::Room, "0: a slice is too short (5)", ROOM),
    (Site::NoBlock, "0: block number (11)", &[Op::Fill]),
    (Site::Number, "0: a number does not fit (9)", &[Op::Stored]),
    (Site::ShortRecord, "0: a record is too short (5)", EVERY),
    (
        Site::WideNumber,
        "0: a number of a record (3)",
        GIVEN_HEADER,
    ),
    (
        Site::NotStaged,
        "0: an answer, mask or list that was not staged (3)",
        &[Op::Publish],
    ),
    (Site::Accepted, "0: accepted", EVERY),
    (
        Site::AcceptedByFold,
        "0: accepted, checksum by the code, not by the words",
        OWN_HEADER,
    ),
    (
        Site::AcceptedUnsummed,
        "0: accepted, checksum wrong",
        GIVEN_HEADER,
    ),
    (Site::NoPlace, "none: no room for a place (5)", EVERY),
    (Site::OnePlace, "room for one place", EVERY),
    (Site::MorePlaces, "room for more", EVERY),
];

/// Counts by site and operation.
#[derive(Clone)]
pub struct Places {
    counts: [[u64; Op::ALL.len()]; SITES.len()],
    /// Places of which the blob does not say why.
    pub unexplained: u64,
}

impl Default for Places {
    fn default() -> Places {
        Places {
            counts: [[0; Op::ALL.len()]; SITES.len()],
            unexplained: 0,
        }
    }
}

impl Places {
    /// Counts a call that both sides answered alike, given what is left of it.
    pub fn count(&mut self, case: &Case, after: &After) {
        // What two calls came upon is counted by each of them.
        if !case.op.can_refuse() || case.op == Op::Both {
            return;
        }
        match case.place.len() {
            0 => {}
            1 => self.add(Site::OnePlace, case.op),
            _ => self.add(Site::MorePlaces, case.op),
        }
        let sites = sites(case, after);
        self.unexplained += u64::from(sites.is_empty());
        sites.into_iter().for_each(|site| self.add(site, case.op));
    }

    pub fn add(&mut self, site: Site, op: Op) {
        self.counts[site as usize][op as usize] += 1;
    }

    pub fn of(&self, site: Site, op: Op) -> u64 {
        self.counts[site as usize][op as usize]
    }

    /// What no call had of those that can have it.
    pub fn missing(&self) -> Vec<String> {
        let mut missing = Vec::new();
        for (site, name, ops) in SITES {
            for &op in ops {
                if self.of(site, op) == 0 {
                    missing.push(format!("{name} ({})", op.name()));
                }
            }
        }
        missing
    }

    pub fn text(&self) -> String {
        let names = EVERY.iter().map(|op| format!(" `{}` |", op.name()));
        let mut text = format!("| place |{}\n", names.collect::<String>());
        text += &format!("|---|{}\n", "---|".repeat(EVERY.len()));
        for (site, name, ops) in SITES {
            text += &format!("| {name} |");
            for &op in EVERY {
                let shown = match self.of(site, op) {
                    0 if !ops.contains(&op) => "-".into(),
                    count => grouped(count),
                };
                text += &format!(" {shown} |");
            }
            text += "\n";
        }
        if self.unexplained > 0 {
            text += &format!("\nNot explained: {} calls\n", grouped(self.unexplained));
        }
        text
    }
}
