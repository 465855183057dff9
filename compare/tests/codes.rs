//! Faults that a reader of Huffman codes may have, planted in one side, are
//! found.

use compare::case::{After, Case, Op};
use compare::codes::{mode_at, wrong, Table};
use compare::places::Site;
use compare::run::{Run, Side};
use compare::sides::plain;
use second::{is_valid, Header};

/// What the first call says on which the sides differ, and its operation.
fn found(other: Side) -> (Op, String) {
    let run = Run {
        seed: 3,
        from: 0,
        calls: 400_000,
        failures: 1,
    };
    let report = run.go(plain, other);
    let failure = report.failures.first().expect("a planted fault");
    (failure.small.op, failure.difference.clone())
}

/// A call on a blob in codes, whose header and mask are right.
struct Coded<'a> {
    bytes: &'a [u8],
    header: Header,
    mode: usize,
}

impl Coded<'_> {
    fn of(case: &Case) -> Option<Coded<'_>> {
        let header = second::read_header(&case.blob).ok()?;
        let ranges = second::read_ranges(&case.blob, &header).ok()?;
        let bytes = &case.blob[..header.size as usize];
        let mode = mode_at(bytes, &header, ranges.place)?;
        let is_read = !ranges.constant && header.valid > 0;
        is_read.then_some(Coded {
            bytes,
            header,
            mode,
        })
    }

    fn wrong(&self) -> Option<Site> {
        let symbols = self.header.valid as usize * self.header.depth as usize;
        let wrong = wrong(self.bytes, self.mode, symbols);
        wrong.err().map(|(site, _)| site)
    }

    fn table(&self) -> Table {
        Table::new(self.bytes, self.mode).expect("a table")
    }

    /// Places of the symbols in the table, in the order of the blob.
    fn symbols(&self) -> Vec<usize> {
        let table = self.table();
        let cells = self.header.valid as usize * self.header.depth as usize;
        let mut taken = 0;
        let next = |_| {
            let code = table.symbol(self.bytes, taken).expect("a symbol");
            taken += code.length;
            let found = table.codes.iter().position(|other| *other == code);
            found.expect("a code")
        };
        (0..cells).map(next).collect()
    }
}

/// How a reader with a fault comes to its cells.
#[derive(Clone, Copy, Default)]
struct How {
    modulo_256: bool,
    no_modulo: bool,
    keeps_128: bool,
    above_first: bool,
    forgets_at_holes: bool,
    left_of_the_row_above: bool,
    goes_on_in_depth: bool,
    pixel_by_pixel: bool,
    depth_by_depth: bool,
    byte_above_of_depth_0: bool,
}

impl How {
    /// Writes the cells of an accepted read again.
    fn put(self, coded: &Coded, mask: &[u8], image: &mut [u64]) {
        let (table, header) = (coded.table(), &coded.header);
        let (pixels, depth) = (header.pixels(), header.depth as usize);
        let differences = coded.bytes[coded.mode] == 1;
        let by_depth = match differences {
            true => !self.pixel_by_pixel,
            false => self.depth_by_depth,
        };
        let cell = |n: usize| match by_depth {
            true => n % pixels * depth + n / pixels,
            false => n,
        };
        let cells = (0..pixels * depth).map(cell);
        let valid = cells.filter(|cell| is_valid(mask, cell / depth));
        let mut last = 0;
        for (cell, at) in valid.zip(coded.symbols()) {
            let symbol = match self {
                _ if self.no_modulo => (table.first + at).min(table.size - 1),
                _ if self.modulo_256 => (table.first + at) % 256,
                _ => (table.first + at) % table.size,
            };
            let signed = header.kind == 0 && !self.keeps_128;
            let mut value = symbol as u64 + if signed { 128 } else { 0 };
            if differences {
                value += self.predicted(header, mask, image, cell, last);
            }
            image[cell] = value % 256;
            last = image[cell];
        }
    }

    fn predicted(self, h: &Header, mask: &[u8], image: &[u64], cell: usize, last: u64) -> u64 {
        let (columns, depth) = (h.columns as usize, h.depth as usize);
        let (pixel, d) = (cell / depth, cell % depth);
        let in_row = pixel % columns > 0 || self.left_of_the_row_above && pixel > 0;
        let left = in_row && is_valid(mask, pixel - 1);
        let above = pixel >= columns && is_valid(mask, pixel - columns);
        let is_first = !(0..pixel).any(|pixel| is_valid(mask, pixel));
        let above_at = match self.byte_above_of_depth_0 {
            true => 0,
            false => d,
        };
        match (left, above) {
            (true, false) => last,
            (true, true) if !self.above_first => last,
            (_, true) => image[(pixel - columns) * depth + above_at],
            _ if is_first && !self.goes_on_in_depth || self.forgets_at_holes => 0,
            _ => last,
        }
    }
}

fn cells_otherwise(case: &Case, how: How) -> After {
    let mut after = plain(case);
    let coded = Coded::of(case).filter(|_| case.op == Op::Read && after.answer == 0);
    if let Some(coded) = coded {
        let mask = after.lent.kept.clone();
        how.put(&coded, &mask, &mut after.lent.image);
    }
    after
}

/// Without a fault it comes to the same cells.
#[test]
fn without_a_fault() {
    let run = Run {
        seed: 4,
        from: 0,
        calls: 100_000,
        failures: 1,
    };
    let other = |case: &Case| cells_otherwise(case, How::default());
    assert!(run.go(plain, other).failures.is_empty());
}

macro_rules! cells_are_found {
    ($($fault:ident),* $(,)?) => {$(
        #[test]
        fn $fault() {
            let other = |case: &Case| {
                let how = How { $fault: true, ..How::default() };
                cells_otherwise(case, how)
            };
            let (op, difference) = found(other);
            assert_eq!(op, Op::Read);
            assert!(difference.starts_with("image["), "{difference}");
        }
    )*};
}

cells_are_found!(
    modulo_256,
    no_modulo,
    keeps_128,
    above_first,
    forgets_at_holes,
    left_of_the_row_above,
    goes_on_in_depth,
    pixel_by_pixel,
    depth_by_depth,
    byte_above_of_depth_0,
);

/// Another answer where a body in codes is wrong in some way.
fn answered(case: &Case, wrong: Site, answer: u32, is_so: impl Fn(&Coded) -> bool) -> After {
    let mut after = plain(case);
    if case.op != Op::Read || !matches!(after.answer, 1 | 8) || after.lent.place.is_empty() {
        return after;
    }
    let coded = Coded::of(case).filter(|coded| coded.mode as u64 == after.lent.place[0]);
    if coded.is_some_and(|coded| coded.wrong() == Some(wrong) && is_so(&coded)) {
        after.answer = answer;
    }
    after
}

#[test]
fn an_unknown_code_that_is_1() {
    let other: Side = |case| answered(case, Site::SymbolUnknown, 1, |_| true);
    assert_eq!(found(other), (Op::Read, "answer 8 and 1".into()));
}

#[test]
fn a_missing_word_that_is_8() {
    let other: Side = |case| answered(case, Site::SymbolMissing, 8, |_| true);
    assert_eq!(found(other), (Op::Read, "answer 1 and 8".into()));
}

/// Codes that are compared with the next one, or with those before or behind.
#[test]
fn codes_that_are_not_compared_with_all() {
    fn beside(coded: &Coded) -> bool {
        let clashes = coded.table().clashes();
        clashes.iter().all(|(a, b)| a.abs_diff(*b) > 1)
    }
    fn before(coded: &Coded) -> bool {
        coded.table().clashes().iter().all(|(a, b)| a < b)
    }
    fn behind(coded: &Coded) -> bool {
        coded.table().clashes().iter().all(|(a, b)| a > b)
    }
    let others: [Side; 3] = [
        |case| answered(case, Site::CodeBegins, 0, beside),
        |case| answered(case, Site::CodeBegins, 0, before),
        |case| answered(case, Site::CodeBegins, 0, behind),
    ];
    for other in others {
        assert_eq!(found(other), (Op::Read, "answer 8 and 0".into()));
    }
}

#[test]
fn an_end_without_the_last_word() {
    fn other(case: &Case) -> After {
        let mut after = plain(case);
        if case.op == Op::Read && after.answer == 0 && Coded::of(case).is_some() {
            after.lent.said[12] -= 4;
        }
        after
    }
    assert!(found(other).1.starts_with("said[12]"));
    let other: Side = |case| answered(case, Site::LastWordMissing, 0, |_| true);
    assert_eq!(found(other), (Op::Read, "answer 1 and 0".into()));
}

#[test]
fn a_version_that_is_signed() {
    fn other(case: &Case) -> After {
        let mut after = plain(case);
        let coded = Coded::of(case).filter(|_| case.op == Op::Stage && after.answer == 0);
        if coded.is_some_and(|coded| coded.bytes[coded.mode + 4] >= 128) {
            after.answer = 8;
        }
        after
    }
    assert_eq!(found(other), (Op::Stage, "answer 0 and 8".into()));
}

#[test]
fn cells_written_before_the_last_symbol_is_checked() {
    fn other(case: &Case) -> After {
        let mut after = plain(case);
        let is_8 = matches!(case.op, Op::Read | Op::Publish) && after.answer == 8;
        let coded = Coded::of(case).filter(|_| is_8);
        let is_late = coded.is_some_and(|coded| coded.wrong() == Some(Site::SymbolUnknown));
        if let (true, Some(cell)) = (is_late, after.lent.image.first_mut()) {
            *cell ^= 1;
        }
        after
    }
    assert!(found(other).1.starts_with("image[0]"));
}

#[test]
fn a_place_behind_the_mode_byte() {
    fn other(case: &Case) -> After {
        let mut after = plain(case);
        let is_own = case.op == Op::Publish && matches!(after.answer, 1 | 8);
        let coded = Coded::of(case).filter(|_| is_own);
        if let (Some(coded), [place, ..]) = (coded, &mut after.lent.place[..]) {
            *place += u64::from(*place == coded.mode as u64);
        }
        after
    }
    let (op, difference) = found(other);
    assert_eq!(op, Op::Publish);
    assert!(difference.contains(", place "), "{difference}");
}

#[test]
fn a_walk_that_looks_at_the_table() {
    fn other(case: &Case) -> After {
        let mut after = plain(case);
        let coded = Coded::of(case).filter(|_| case.op == Op::Walk && after.answer == 10);
        if coded.is_some_and(|coded| Table::new(coded.bytes, coded.mode).is_err()) {
            after.answer = 8;
        }
        after
    }
    assert_eq!(found(other), (Op::Walk, "answer 10 and 8".into()));
}

/// A body that is staged as raw words, and one whose answer may say so.
#[test]
fn codes_staged_as_another_body() {
    fn staged(case: &Case) -> After {
        let mut after = plain(case);
        if case.op == Op::Stage && after.answer == 0 && after.lent.staged[13] == 4 {
            after.lent.staged[13] = 2;
        }
        after
    }
    assert_eq!(found(staged).1, "staged[13]: 0x4 and 0x2");
    fn taken(case: &Case) -> After {
        let is_raw = case.op == Op::Publish && case.staged.get(13) == Some(&2);
        if !is_raw || Coded::of(case).is_none() {
            return plain(case);
        }
        let mut right = case.clone();
        right.staged[13] = 4;
        let mut after = plain(&right);
        after.lent.staged.clone_from(&case.staged);
        after
    }
    assert_eq!(found(taken), (Op::Publish, "answer 3 and 0".into()));
}
