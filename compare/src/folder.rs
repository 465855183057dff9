//! Blobs out of a folder: every operation on each, with slices that are just
//! long enough, and each block filled once; then the same blobs damaged.

use crate::case::{After, Case, Op};
use crate::checksum;
use crate::damage;
use crate::paths::Paths;
use crate::places::Places;
use crate::publishes::{Publishes, Sort};
use crate::random::Random;
use crate::run::Side;
use crate::sides::{ranges_record, record};
use crate::table::Table;
use lerc2::raw;
use second::Header;
use std::fs;
use std::io;
use std::path::{Path, PathBuf};

/// Copies of a blob that are damaged elsewhere than in the checksum.
const DAMAGED: usize = 8;

/// The files called NAME.lerc2, by name.
pub fn files(folder: &Path) -> io::Result<Vec<PathBuf>> {
    let mut files = Vec::new();
    for entry in fs::read_dir(folder)? {
        let path = entry?.path();
        if path.extension().is_some_and(|end| end == "lerc2") {
            files.push(path);
        }
    }
    files.sort();
    Ok(files)
}

/// What the calls came upon.
#[derive(Clone, Default)]
pub struct Counts {
    pub table: Table,
    pub paths: Paths,
    pub places: Places,
    pub publishes: Publishes,
}

/// The first call on which the sides differ.
type Differs = Box<Case>;

/// Both sides, and what their calls came upon.
pub struct Both<'a> {
    pub proved: Side,
    pub plain: Side,
    pub counts: &'a mut Counts,
}

impl Both<'_> {
    fn call(&mut self, case: &Case) -> Result<After, Differs> {
        let (after, other) = ((self.proved)(case), (self.plain)(case));
        self.counts.table.count(case.op, after.answer);
        if after != other {
            return Err(Box::new(case.clone()));
        }
        self.counts.paths.count(case, &other);
        self.counts.places.count(case, &other);
        self.counts.publishes.count(case, &other);
        Ok(after)
    }

    /// The blob as it is, with each wrong checksum, and damaged elsewhere.
    pub fn compare(&mut self, blob: &[u8]) -> Result<(), Differs> {
        self.whole(blob)?;
        if checksum::wrong(blob).is_some() {
            self.whole(&checksum::mended(blob))?;
        }
        let copies = checksum::damaged(blob);
        if let Some(copy) = copies.first() {
            self.whole(copy)?;
        }
        for copy in copies.iter().skip(1) {
            self.reads(copy)?;
        }
        let mut random = Random::new(u64::from(second::checksum(blob)));
        for nth in 0..DAMAGED {
            let mut copy = blob.to_vec();
            damage::blob(&mut random, &mut copy);
            if nth > 0 {
                checksum::mend(&mut copy);
            }
            self.reads(&copy)?;
        }
        Ok(())
    }

    /// Every operation.
    fn whole(&mut self, blob: &[u8]) -> Result<(), Differs> {
        self.reads(blob)?;
        // A header by value is taken with any checksum.
        match second::read_header(&checksum::mended(blob)) {
            Ok(header) => self.by_value(blob, &header),
            Err(_) => Ok(()),
        }
    }

    /// Header, whole reads, and stage and publish; without room, and if the
    /// header is right with just enough and with each slice one short.
    fn reads(&mut self, blob: &[u8]) -> Result<(), Differs> {
        let mut case = Case::new(Op::Header);
        case.blob = blob.to_vec();
        case.header = vec![7; raw::HEADER];
        self.call(&case)?;
        case.header.clear();
        case.said = vec![7; raw::READ];
        case.staged = vec![7; raw::STAGED];
        self.whole_calls(&case)?;
        let Ok(header) = second::read_header(blob) else {
            return Ok(());
        };
        lend(&mut case, &header);
        case.op = Op::Read;
        for reuse in [true, false] {
            case.reuse = reuse;
            self.call(&case)?;
            self.both(&case)?;
            self.publishes(&case)?;
        }
        for short in 0..4 {
            let mut case = case.clone();
            match short {
                0 => drop(case.kept.pop()),
                1 => drop(case.spare.pop()),
                2 => drop(case.list.pop()),
                _ => drop(case.image.pop()),
            }
            self.whole_calls(&case)?;
        }
        Ok(())
    }

    /// A whole read, and each of the two that it is made of, by itself.
    fn whole_calls(&mut self, case: &Case) -> Result<(), Differs> {
        for op in [Op::Read, Op::Stage, Op::Publish] {
            let mut case = case.clone();
            case.op = op;
            self.call(&case)?;
        }
        Ok(())
    }

    /// Stage and publish from the state of a whole read, with no block filled
    /// between and with two.
    fn both(&mut self, read: &Case) -> Result<(), Differs> {
        for fills in [0, 2] {
            let mut case = read.clone();
            case.op = Op::Both;
            case.numbers[0] = fills;
            self.call(&case)?;
        }
        Ok(())
    }

    /// What staging leaves is published twice, then with the spare, the last
    /// start and the answer changed.
    fn publishes(&mut self, read: &Case) -> Result<(), Differs> {
        let mut case = read.clone();
        case.op = Op::Stage;
        let staged = self.call(&case)?;
        case = staged.lent;
        case.op = Op::Publish;
        if staged.answer != 0 {
            return self.sorted(Sort::Refused, case).map(|_| ());
        }
        let published = self.sorted(Sort::AsStaged, case.clone())?.lent;
        let (kept, image) = (published.kept, published.image);
        let again = Case {
            kept,
            image,
            ..case.clone()
        };
        self.sorted(Sort::Again, again)?;
        let mut spare = case.clone();
        spare.spare.iter_mut().take(1).for_each(|byte| *byte ^= 1);
        self.sorted(Sort::Spare, spare)?;
        if let Some(last) = (case.staged[raw::HEADER] as usize).checked_sub(1) {
            let mut list = case.clone();
            list.list[last] += 1;
            self.sorted(Sort::LastStart, list)?;
        }
        case.staged[raw::STAGED - 1] += 1;
        self.sorted(Sort::Forged, case)?;
        Ok(())
    }

    fn sorted(&mut self, sort: Sort, case: Case) -> Result<After, Differs> {
        let sort = Some(sort);
        self.call(&Case { sort, ..case })
    }

    /// What is given a header by value: mask, ranges, walk and fill.
    fn by_value(&mut self, blob: &[u8], header: &Header) -> Result<(), Differs> {
        let mut case = Case::new(Op::Mask);
        case.blob = blob.to_vec();
        case.header = record(header).to_vec();
        case.said = vec![7; raw::READ];
        lend(&mut case, header);
        case.mask = case.kept.clone();
        for reuse in [true, false] {
            case.reuse = reuse;
            let after = self.call(&case)?;
            if after.answer == 0 && after.lent.said[0] == 2 {
                case.mask = after.lent.spare;
            }
        }
        case.op = Op::Ranges;
        case.ranges = vec![7; raw::RANGES];
        self.call(&case)?;
        let Ok(ranges) = second::read_ranges(blob, header) else {
            return Ok(());
        };
        case.op = Op::Walk;
        case.ranges = ranges_record(&ranges).to_vec();
        let walked = self.call(&case)?;
        if walked.answer == 0 {
            case.list = walked.lent.list;
            self.fills(case, header)?;
        }
        Ok(())
    }

    fn fills(&mut self, mut case: Case, header: &Header) -> Result<(), Differs> {
        case.op = Op::Fill;
        // A large image is filled in samples: each call compares all of it.
        let step = 1 + header.cells() * header.blocks() / (1 << 26);
        let blocks = header.blocks();
        for n in (0..=blocks).step_by(step) {
            // A scrambled order, and one number past the last.
            let number = if n < blocks {
                n * 7919 % blocks
            } else {
                blocks
            };
            case.numbers[0] = number as u64;
            let after = self.call(&case)?;
            case.image = after.lent.image;
        }
        Ok(())
    }
}

/// Slices that are just long enough.
fn lend(case: &mut Case, header: &Header) {
    case.kept = vec![0x0F; header.mask_length()];
    case.spare = vec![0xF0; header.mask_length()];
    case.list = vec![7; header.blocks()];
    case.image = (0..header.cells() as u64).map(|n| n << 32 | 7).collect();
}
