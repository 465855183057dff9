//! Calls made by hand end at the places that they should and are counted there,
//! a run comes upon every place, and one that does not is told.

#[path = "common/full.rs"]
mod full;

use compare::case::{Case, Op};
use compare::checksum::{by_words, mend, put_odd, truth};
use compare::form::{Fields, Form};
use compare::places::{Places, Site, SITES};
use compare::random::Random;
use compare::run::{Report, Run, FULL_RUN};
use compare::sides::{plain, ranges_record, record};
use full::{a_failure, full_report, places_but};
use lerc2::raw;
use second::Ranges;
use std::process::Command;

/// A row of three pixels with one depth, all of them valid, from 10 to 12 with
/// error 1, unless said otherwise.
#[derive(Clone)]
struct Image {
    kind: u32,
    depth: u32,
    columns: u32,
    valid: u32,
    error: f64,
    max: f64,
    section: Vec<u8>,
    /// Ranges and body.
    after: Vec<u8>,
}

fn row(after: &[u8]) -> Image {
    Image {
        kind: 1,
        depth: 1,
        columns: 3,
        valid: 3,
        error: 1.0,
        max: 12.0,
        section: Vec::new(),
        after: after.to_vec(),
    }
}

/// Its only block begins at 73.
fn block(bytes: &[u8]) -> Image {
    row(&[&[10, 12, 0], bytes].concat())
}

impl Image {
    fn blob(&self) -> Vec<u8> {
        self.form().bytes()
    }

    fn form(&self) -> Form {
        Form {
            fields: Fields {
                rows: 1,
                columns: self.columns,
                depth: self.depth,
                valid: self.valid,
                side: 8,
                kind: self.kind,
                error: self.error.to_bits(),
                min: 10f64.to_bits(),
                max: self.max.to_bits(),
            },
            section: self.section.clone(),
            after: self.after.clone(),
            gap: Vec::new(),
            // Behind the size: nothing may take it for its own.
            slack: vec![0; 20],
            mask: Vec::new(),
            starts: Vec::new(),
            cells: Vec::new(),
        }
    }

    /// A call with room for everything, and with the ranges of the blob if they
    /// are right.
    fn call(&self, op: Op) -> Case {
        let mut case = Case::new(op);
        case.blob = self.blob();
        let header = second::read_header(&case.blob).unwrap();
        case.header = record(&header).to_vec();
        let ranges = second::read_ranges(&case.blob, &header).unwrap_or(Ranges {
            place: 72,
            constant: false,
            min: [0; 64],
            max: [0; 64],
        });
        case.ranges = ranges_record(&ranges).to_vec();
        case.mask = vec![255; header.mask_length()];
        case.kept = case.mask.clone();
        case.spare = case.mask.clone();
        case.list = vec![73; header.blocks()];
        case.image = vec![7; header.cells()];
        case.said = vec![7; raw::READ];
        case.staged = vec![7; raw::STAGED];
        if op == Op::Publish {
            // What staging left, if it accepts.
            let stage = Case {
                op: Op::Stage,
                ..case
            };
            case = Case {
                op,
                ..plain(&stage).lent
            };
            case.place = vec![7];
        }
        case
    }
}

/// Those that read a whole blob.
const WHOLE: [Op; 3] = [Op::Read, Op::Stage, Op::Publish];

/// Those, and others.
fn with_whole(others: &[Op]) -> Vec<Op> {
    [&WHOLE, others].concat()
}

/// What a call is for, the call, and its number and place.
type Known = (Site, Case, u32, u64);

fn held(known: Vec<Known>) {
    for (site, case, number, place) in known {
        let after = plain(&case);
        let said = (after.answer, after.place());
        assert_eq!(said, (number, Some(place)), "{site:?}");
        let mut places = Places::default();
        places.count(&case, &after);
        assert_eq!(places.of(site, case.op), 1, "{site:?}");
        assert_eq!(places.unexplained, 0, "{site:?}");
    }
}

#[test]
fn inside_a_block() {
    use Site::*;
    let float = |after: &[u8]| {
        let ranges = [10f32, 12.0].map(f32::to_le_bytes).concat();
        let kind = 6;
        Image {
            kind,
            ..row(&[&ranges[..], &[0], after].concat())
        }
    };
    let not_finite = float(&[3, 0, 0, 0xC0, 0x7F]);
    let images = [
        (FlagMissing, block(&[]), 1, 73),
        (CheckBits, block(&[7, 10]), 8, 73),
        (RawWords, block(&[0, 10, 11]), 1, 73),
        (OffsetCode, block(&[0x43, 10]), 8, 73),
        (OffsetMissing, block(&[3]), 1, 73),
        (OffsetNotFinite, not_finite, 8, 79),
        (CountsMissing, block(&[1, 10]), 1, 73),
        (CountsMissing, block(&[1, 10, 0x82, 3]), 1, 73),
        (CountsWrong, block(&[1, 10, 0xC2, 3]), 8, 73),
        (CountsWrong, block(&[1, 10, 0x82, 2, 0x24]), 8, 73),
    ];
    for (site, image, number, place) in images {
        for op in with_whole(&[Op::Walk, Op::Fill]) {
            let mut case = image.call(op);
            case.list.fill(place as usize);
            held(vec![(site, case, number, place)]);
        }
    }
}

/// A later block, and values that only maxima by value let pass.
#[test]
fn inside_another_block() {
    let columns = 9;
    let second = |bytes: &[u8]| Image {
        columns,
        valid: columns,
        ..block(&[&[3, 10], bytes].concat())
    };
    let mut value = block(&[1, 254, 0x82, 3, 0x3F]).call(Op::Walk);
    value.ranges[2 + 64] = 300f64.to_bits();
    held(vec![
        (Site::FlagMissing, second(&[]).call(Op::Read), 1, 75),
        (Site::CheckBits, second(&[3, 9]).call(Op::Walk), 8, 75),
        (Site::OffsetMissing, second(&[7]).call(Op::Read), 1, 75),
        (Site::Value, value.clone(), 9, 73),
        (
            Site::Value,
            Case {
                op: Op::Fill,
                ..value
            },
            9,
            73,
        ),
    ]);
}

#[test]
fn a_listed_start_far_out() {
    let fill = |start: usize| {
        let mut case = block(&[3, 10]).call(Op::Fill);
        case.list.fill(start);
        case
    };
    let cases = [
        (Site::FlagMissing, 75),
        (Site::FlagMissing, u64::from(u32::MAX)),
        (Site::FlagFar, 1 << 32),
        (Site::FlagFar, 1 << 32 | 73),
        (Site::FlagFar, u64::MAX - 1),
        (Site::FlagLast, u64::MAX),
    ];
    held(Vec::from_iter(
        cases.map(|(site, place)| (site, fill(place as usize), 1, place)),
    ));
}

/// Two depths of f32: minima at 70 and 74, maxima at 78 and 82.
fn two_depths(words: [f32; 4]) -> Image {
    let mut after = words.map(f32::to_le_bytes).concat();
    after.extend([0, 2, 2]);
    let (kind, depth) = (6, 2);
    Image {
        kind,
        depth,
        ..row(&after)
    }
}

#[test]
fn numbers_of_the_ranges() {
    use Site::*;
    let nan = f32::NAN;
    let wrong = [
        (Minimum, [nan, 1.0, 2.0, 2.0], 70),
        (Minimum, [1.0, nan, 2.0, 2.0], 74),
        (BothOfPair, [1.0, nan, 2.0, nan], 74),
        (Maximum, [1.0, 1.0, nan, 2.0], 78),
        (Maximum, [1.0, 1.0, 2.0, nan], 82),
        (LesserMaximum, [3.0, 1.0, 2.0, 2.0], 78),
        (LesserMaximum, [1.0, 3.0, 2.0, 2.0], 82),
        (LesserMaximum, [3.0, nan, 2.0, 2.0], 78),
        (BeforeMinimum, [3.0, nan, 2.0, 2.0], 78),
        (BeforeMinimum, [1.0, nan, nan, 2.0], 78),
    ];
    for (site, words, place) in wrong {
        for op in with_whole(&[Op::Ranges]) {
            held(vec![(site, two_depths(words).call(op), 7, place)]);
        }
    }
}

#[test]
fn ranges_cut_or_by_value() {
    use Site::*;
    for op in with_whole(&[Op::Ranges]) {
        for there in [0, 1, 15] {
            let mut image = two_depths([f32::NAN; 4]);
            image.after.truncate(there);
            held(vec![(RangesMissing, image.call(op), 1, 70)]);
        }
    }
    let mut given = block(&[3, 10]).call(Op::Walk);
    given.ranges[2] = f64::NAN.to_bits();
    held(vec![
        (RangesGiven, given.clone(), 7, 0),
        (
            RangesGiven,
            Case {
                op: Op::Fill,
                ..given
            },
            7,
            0,
        ),
    ]);
}

#[test]
fn masks() {
    let masked = |valid, section: &[u8], reuse| {
        let call = |&op: &Op| {
            let mut image = row(&[]);
            (image.valid, image.section) = (valid, section.to_vec());
            let mut case = image.call(op);
            case.reuse = reuse;
            case
        };
        Vec::from_iter(with_whole(&[Op::Mask]).iter().map(call))
    };
    let cases = [
        (Site::MaskRuns, masked(2, &[0, 0], true)),
        (Site::MaskRuns, masked(2, &[1, 0, 0xE0, 0, 0x80], false)),
        (Site::MaskKept, masked(2, &[], true)),
        (
            Site::MaskOfUniform,
            masked(3, &[1, 0, 0xE0, 0, 0x80], false),
        ),
        (Site::MaskMissing, masked(2, &[], false)),
    ];
    for (site, cases) in cases {
        let known = cases.into_iter().map(|case| (site, case, 6, 66));
        held(known.collect());
    }
}

#[test]
fn sweep_and_mode() {
    use Site::*;
    let with_mode = |after: &[u8]| Image {
        error: 0.5,
        ..row(after)
    };
    for op in with_whole(&[Op::Walk]) {
        held(vec![
            (SweepMissing, row(&[10, 12]).call(op), 1, 72),
            (SweepWrong, row(&[10, 12, 2]).call(op), 8, 72),
            (ModeMissing, with_mode(&[10, 12, 0]).call(op), 1, 73),
            (ModeWrong, with_mode(&[10, 12, 0, 3]).call(op), 8, 73),
            // Behind it is a block.
            (FlagMissing, with_mode(&[10, 12, 0, 0]).call(op), 1, 74),
        ]);
    }
    for mode in [1, 2] {
        let codes = with_mode(&[10, 12, 0, mode]).call(Op::Walk);
        held(vec![(ModeCodes, codes, 10, 73)]);
    }
    let raw = row(&[10, 12, 1]).call(Op::Walk);
    held(vec![(SweepRaw, raw.clone(), 10, 72)]);
    let body_at = |place: u64| {
        let mut case = raw.clone();
        case.ranges[0] = place;
        case
    };
    held(vec![
        (SweepMissing, body_at(73), 1, 73),
        (SweepFar, body_at(1 << 32 | 72), 1, 1 << 32 | 72),
        (SweepFar, body_at(u64::MAX), 1, u64::MAX),
        (SweepWrong, body_at(0), 8, 0),
    ]);
}

/// Three symbols in codes 0, 10 and 11; integers, lengths, codes and symbols may
/// be others.
fn in_codes(integers: &[u32], lengths: &[u8], codes: &[u32], symbols: &[u32]) -> Image {
    let words = |words: &[u32]| Vec::from_iter(words.iter().flat_map(|w| w.to_le_bytes()));
    let behind = [
        words(integers),
        lengths.to_vec(),
        words(codes),
        words(symbols),
    ];
    let after = [vec![10, 12, 0, 2], behind.concat()].concat();
    Image {
        error: 0.5,
        ..row(&after)
    }
}

const TABLE: [u32; 4] = [4, 256, 10, 13];
const LENGTHS: [u8; 3] = [0x82, 3, 0x29];
const WORD: u32 = 0x5800_0000;

fn whole_codes() -> Image {
    in_codes(&TABLE, &LENGTHS, &[WORD], &[WORD, 0])
}

fn wrong_tables() -> Vec<(Site, Image, u32)> {
    use Site::*;
    let integers = |integers: &[u32]| in_codes(integers, &[], &[], &[]);
    let counts = |lengths: &[u8]| in_codes(&TABLE, lengths, &[], &[]);
    vec![
        (IntegersMissing, integers(&[]), 1),
        (IntegersMissing, integers(&[4, 256, 10]), 1),
        (TableVersion, integers(&[1]), 8),
        (TableSize, integers(&[2, 257]), 8),
        (TableFirst, integers(&[u32::MAX, 0, 0]), 8),
        (TableFirst, integers(&[2, 256, 256]), 8),
        (TableEnd, integers(&[2, 256, 10, 10]), 8),
        (TableEnd, integers(&[2, 256, 10, 267]), 8),
        (LengthsMissing, integers(&[2, 256, 10, 266]), 1),
        (LengthsMissing, counts(&LENGTHS[..2]), 1),
        (LengthsWrong, counts(&[0xC2, 3, 0x29]), 8),
        (LengthsNumber, counts(&[0x82, 2, 0x29]), 8),
        (LengthTooLong, counts(&[0x88, 3, 1, 33, 2]), 8),
        (NoLength, counts(&[0x80, 3]), 8),
        (CodesMissing, counts(&LENGTHS), 1),
    ]
}

fn wrong_codes() -> Vec<(Site, Image, u32)> {
    use Site::*;
    let of = |codes: u32, symbols: &[u32]| in_codes(&TABLE, &LENGTHS, &[codes], symbols);
    let cut = |by: usize| {
        let mut image = whole_codes();
        image.after.truncate(image.after.len() - by);
        image
    };
    // The code 10 alone is known, and 0 begins none.
    let one = |symbols: u32| in_codes(&[4, 1, 0, 1], &[0x82, 1, 2], &[1 << 31], &[symbols]);
    vec![
        (CodeBegins, of(0, &[]), 8),
        (CodeBegins, of(0x7800_0000, &[]), 8),
        (SymbolMissing, of(WORD, &[]), 1),
        (SymbolMissing, cut(5), 1),
        (SymbolUnknown, one(0), 8),
        (SymbolUnknown, one(0xA000_0000), 8),
        (SymbolUnknown, one(0xB800_0000), 8),
        (LastWordMissing, cut(4), 1),
        (LastWordMissing, cut(1), 1),
    ]
}

#[test]
fn codes() {
    for op in WHOLE {
        held(vec![(Site::Accepted, whole_codes().call(op), 0, 0)]);
        for (site, image, number) in [wrong_tables(), wrong_codes()].concat() {
            held(vec![(site, image.call(op), number, 73)]);
        }
    }
}

#[test]
fn other_bodies() {
    use Site::*;
    let mut empty = block(&[3, 10]).call(Op::Walk);
    empty.header[3] = 0;
    let mut constant = block(&[3, 10]).call(Op::Walk);
    constant.ranges[1] = 1;
    held(vec![
        (EmptyBody, empty, 10, 0),
        (ConstantBody, constant, 10, 0),
    ]);
    let too_large = |op| {
        let mut image = block(&[3, 10]);
        image.max = 10.0;
        let mut case = image.call(op);
        for at in [50, 58] {
            case.blob[at..at + 8].copy_from_slice(&300f64.to_le_bytes());
        }
        mend(&mut case.blob);
        case
    };
    // Words of four bytes at 79, 83 and 87.
    let raw = |there: usize, op| {
        let mut after = [10u32, 12].map(u32::to_le_bytes).concat();
        after.push(1);
        after.extend(vec![7; there]);
        let kind = 5;
        Image {
            kind,
            ..row(&after)
        }
        .call(op)
    };
    for op in WHOLE {
        held(vec![
            (Constant, too_large(op), 9, 0),
            (WordMissing, raw(0, op), 1, 79),
            (WordCut, raw(1, op), 1, 79),
            (WordCut, raw(3, op), 1, 79),
            (WordMissing, raw(4, op), 1, 83),
            (WordCut, raw(11, op), 1, 87),
        ]);
    }
}

/// A change of a call for which there is room for everything.
type Change = fn(&mut Case);

#[test]
fn no_place() {
    use Site::*;
    let changes: [(Site, Op, Change, u32); 29] = [
        (Under70, Op::Header, |case| case.blob.truncate(69), 1),
        (UnderSize, Op::Header, |case| case.blob.truncate(74), 1),
        (UnderSize, Op::Fill, |case| case.blob.truncate(74), 1),
        (Key, Op::Read, |case| case.blob[0] = 0, 2),
        (Field, Op::Read, |case| case.blob[30] = 0, 3),
        (Field, Op::Walk, |case| case.header[4] = 0, 3),
        (WideNumber, Op::Walk, |case| case.header[4] = 1 << 32, 3),
        (WideNumber, Op::Fill, |case| case.ranges[1] = 2, 3),
        (Ceiling, Op::Mask, |case| case.header[4] = 17, 4),
        (Room, Op::Read, |case| case.list.clear(), 5),
        (ShortRecord, Op::Ranges, |case| case.ranges.truncate(129), 5),
        (NoBlock, Op::Fill, |case| case.numbers[0] = 1, 11),
        (Accepted, Op::Read, |_| (), 0),
        (Accepted, Op::Stage, |_| (), 0),
        (Accepted, Op::Publish, |_| (), 0),
        (Under70, Op::Publish, |case| case.blob.truncate(69), 1),
        (UnderSize, Op::Stage, |case| case.blob.truncate(74), 1),
        (Field, Op::Publish, |case| case.blob[30] = 0, 3),
        (Room, Op::Stage, |case| case.image.clear(), 5),
        (Room, Op::Publish, |case| case.list.clear(), 5),
        (ShortRecord, Op::Stage, |case| case.staged.truncate(15), 5),
        (ShortRecord, Op::Publish, |case| case.staged.truncate(15), 5),
        (ShortRecord, Op::Publish, |case| case.said.truncate(1), 5),
        (NotStaged, Op::Publish, |case| case.staged[12] += 1, 3),
        (NotStaged, Op::Publish, |case| case.staged[0] |= 1 << 32, 3),
        (NotStaged, Op::Publish, |case| case.staged[13] = 5, 3),
        (NotStaged, Op::Publish, |case| case.spare[0] ^= 1, 3),
        (NotStaged, Op::Publish, |case| case.list[0] += 1, 3),
        (Accepted, Op::Publish, |case| case.kept[0] = 0, 0),
    ];
    for (site, op, change, number) in changes {
        let mut case = block(&[3, 10]).call(op);
        change(&mut case);
        held(vec![(site, case, number, 0)]);
    }
    let mut stored = Case::arithmetic(Op::Stored, 300f64.to_bits(), 1);
    held(vec![(ShortRecord, stored.clone(), 5, 0)]);
    stored.said = vec![7];
    held(vec![(Number, stored.clone(), 9, 0)]);
    stored.numbers[1] = 7;
    held(vec![(Accepted, stored, 0, 0)]);
}

/// A wrong checksum, by what is stored in its place.
#[test]
fn wrong_checksums() {
    use Site::*;
    let blob = block(&[3, 10]).blob();
    let (sum, sum_of) = (truth(&blob).unwrap(), |end| {
        second::checksum(&blob[14..end])
    });
    let wrong = [
        (SumZero, 0),
        (SumBit, sum ^ 1),
        (SumBit, sum ^ 1 << 31),
        (SumSwapped, sum.swap_bytes()),
        (SumSwapped, sum.rotate_left(16)),
        (SumOtherEnd, sum_of(blob.len())),
        (SumOtherEnd, sum_of(74)),
        (SumOther, !sum),
        (SumOther, sum ^ 3),
    ];
    for (site, stored) in wrong {
        for op in with_whole(&[Op::Header]) {
            held(vec![(site, stored_in(&blob, stored, op), 13, 0)]);
        }
        // Before room, and not at all where the header is by value.
        for op in WHOLE {
            let mut short = stored_in(&blob, stored, op);
            short.image.clear();
            held(vec![(SumNoRoom, short, 13, 0)]);
        }
        for op in [Op::Mask, Op::Ranges, Op::Walk, Op::Fill] {
            let case = stored_in(&blob, stored, op);
            held(vec![(AcceptedUnsummed, case, 0, 0)]);
        }
    }
}

fn stored_in(blob: &[u8], stored: u32, op: Op) -> Case {
    let mut case = block(&[3, 10]).call(op);
    case.blob = blob.to_vec();
    case.blob[10..14].copy_from_slice(&stored.to_le_bytes());
    case
}

/// Odd sizes on which words and code differ: the code's sum is taken, and not
/// the words'.
#[test]
fn checksums_that_the_words_do_not_give() {
    let mut random = Random::new(9);
    for _ in 0..20 {
        let mut form = block(&[3, 10]).form();
        put_odd(&mut random, &mut form);
        let blob = form.bytes();
        let words = by_words(&blob[14..form.size()]);
        // A publish has the answer of another size.
        for op in [Op::Header, Op::Read, Op::Stage] {
            let sum = truth(&blob).unwrap();
            let taken = stored_in(&blob, sum, op);
            held(vec![(Site::AcceptedByFold, taken, 0, 0)]);
            let wrong = stored_in(&blob, words, op);
            held(vec![(Site::SumByWords, wrong, 13, 0)]);
        }
    }
}

/// Without room for a place nothing is written, whatever the call is; behind
/// the place nothing is.
#[test]
fn room_for_the_place() {
    for op in Op::READING {
        let mut case = block(&[3, 10]).call(op);
        case.place = vec![9, 8, 7];
        let after = plain(&case);
        assert_eq!((after.answer, after.lent.place), (0, vec![0, 8, 7]));
        case.place.clear();
        let after = plain(&case);
        assert_eq!(after.answer, 5);
        assert_eq!(after.lent, case);
        let mut places = Places::default();
        places.count(&case, &after);
        assert_eq!(places.of(Site::NoPlace, op), 1);
    }
}

/// A place that the bytes do not explain is told, however short the run.
#[test]
fn a_place_that_nothing_explains() {
    let case = block(&[7, 10]).call(Op::Read);
    let mut after = plain(&case);
    for place in [0, 66, 70, 72, 74, 75, u64::MAX] {
        let mut report = full_report(1);
        report.places.count(&case, &after);
        assert_eq!(report.verdict(), Ok(true));
        after.lent.place[0] = place;
        report.places.count(&case, &after);
        assert!(report.verdict().is_err(), "{place}");
        after.lent.place[0] = 73;
    }
}

#[test]
fn a_full_run_that_leaves_a_place_out_is_told() {
    for (site, name, ops) in SITES {
        for &op in ops {
            let without = |calls| Report {
                places: places_but(Some((site, op))),
                ..full_report(calls)
            };
            let mut report = without(FULL_RUN);
            let said = report.verdict().unwrap_err();
            assert!(
                said.ends_with(&format!(": {name} ({})", op.name())),
                "{said}"
            );
            report.failures.push(a_failure());
            assert_eq!(report.verdict(), Ok(false));
            assert_eq!(without(FULL_RUN - 1).verdict(), Ok(true));
        }
    }
}

#[test]
fn a_run_comes_upon_every_place() {
    let run = Run {
        seed: 2,
        from: 0,
        calls: FULL_RUN,
        failures: 1,
    };
    let places = run.go(plain, plain).places;
    assert_eq!(places.unexplained, 0);
    for (site, name, ops) in SITES {
        for op in Op::ALL {
            let count = places.of(site, op);
            // No other operation has it.
            assert_eq!(count > 0, ops.contains(&op), "{name}, {}", op.name());
            assert!(count == 0 || count >= 10, "{name}, {}: {count}", op.name());
        }
    }
}

/// The program prints the table.
#[test]
fn the_program_shows_the_places() {
    let run = Command::new(env!("CARGO_BIN_EXE_compare"))
        .args(["run", "--seed", "1", "--calls", "500000"])
        .output()
        .unwrap();
    assert!(run.status.success());
    let text = String::from_utf8(run.stdout).unwrap();
    for (_, name, _) in SITES {
        let row = format!("\n| {name} | ");
        assert_eq!(text.matches(&row).count(), 1, "{name}");
    }
}
