//! What is wrong at the place of a refusal, told from the call's own bytes.

use crate::case::{After, Case, Op};
use crate::checksum::{self, Wrong};
use crate::codes;
use crate::counted::{offset_at, pixels};
use crate::form::OFFSET_KINDS;
use crate::places::Site;
use crate::sides::{header_of, ranges_of};
use lerc2::raw;
use second::{is_finite, less, packed_counts, word_size, Header, MOST_COUNTS};

/// No blob is so long, and no number of 32 bits holds it.
const FAR: usize = 1 << 32;

/// What a call came upon; nothing if its bytes do not say why it ended there.
pub fn sites(case: &Case, after: &After) -> Vec<Site> {
    let Some(place) = after.place() else {
        return vec![Site::NoPlace];
    };
    if let Some(site) = before_body(case, after.answer) {
        let sites = [Some(site), also(case, after.answer)];
        return sites.into_iter().flatten().filter(|_| place == 0).collect();
    }
    let Some((header, bytes)) = held(case) else {
        return Vec::new();
    };
    let refused = Refused {
        case,
        mask: mask_bytes(case, after, &header),
        number: after.answer,
        place: place as usize,
        header,
        bytes,
    };
    refused.sites()
}

/// Whether it was a block that was refused.
pub fn is_of_block(case: &Case, after: &After) -> bool {
    let last = Site::Value as usize;
    sites(case, after).iter().any(|&site| site as usize <= last)
}

/// What is told of records, header and slices alone, or of no blob at all.
fn before_body(case: &Case, number: u32) -> Option<Site> {
    let own = case.op.reads_header();
    match number {
        0 => Some(Site::Accepted),
        1 if own && case.blob.len() < 70 => Some(Site::Under70),
        1 if held(case).is_none() => Some(Site::UnderSize),
        2 => Some(Site::Key),
        3 if !own && has_wide_number(case) => Some(Site::WideNumber),
        3 if case.op == Op::Publish && held(case).is_some() => Some(Site::NotStaged),
        3 => Some(Site::Field),
        4 => Some(Site::Ceiling),
        5 if has_short_record(case) => Some(Site::ShortRecord),
        5 => Some(Site::Room),
        9 if case.op == Op::Stored => Some(Site::Number),
        11 => Some(Site::NoBlock),
        13 if own => checksum::wrong(&case.blob).map(of_sum),
        _ => None,
    }
}

fn of_sum(wrong: Wrong) -> Site {
    match wrong {
        Wrong::ByWords => Site::SumByWords,
        Wrong::Zero => Site::SumZero,
        Wrong::OneBit => Site::SumBit,
        Wrong::Swapped => Site::SumSwapped,
        Wrong::OtherEnd => Site::SumOtherEnd,
        Wrong::Other => Site::SumOther,
    }
}

/// What else the checksum makes of such a call.
fn also(case: &Case, number: u32) -> Option<Site> {
    let (own, given) = (case.op.reads_header(), case.op.is_given_header());
    let whole = own && case.op != Op::Header;
    let by_fold = || checksum::truth(&case.blob) != checksum::words_of(&case.blob);
    match number {
        0 if own && by_fold() => Some(Site::AcceptedByFold),
        0 if given && checksum::wrong(&case.blob).is_some() => Some(Site::AcceptedUnsummed),
        13 if whole && has_short_slice(case) => Some(Site::SumNoRoom),
        _ => None,
    }
}

/// Of a blob whose header is right, but for the checksum.
fn has_short_slice(case: &Case) -> bool {
    let header = second::read_header(&checksum::mended(&case.blob));
    header.is_ok_and(|header| {
        let masks = case.kept.len().min(case.spare.len());
        masks < header.mask_length()
            || case.list.len() < header.blocks()
            || case.image.len() < header.cells()
    })
}

/// The header in use, and the bytes up to its size if they are there.
fn held(case: &Case) -> Option<(Header, &[u8])> {
    let header = match case.op.reads_header() {
        true => second::read_header(&case.blob),
        false => header_of(&case.header),
    };
    let header = header.ok()?;
    Some((header, case.blob.get(..header.size as usize)?))
}

fn has_short_record(case: &Case) -> bool {
    let said = match case.op {
        Op::Mask => raw::MASK,
        Op::Walk => raw::WALK,
        Op::Fill => raw::FILL,
        Op::Read => raw::READ,
        Op::Publish => raw::PUBLISH,
        Op::Stored => raw::STORED,
        _ => 0,
    };
    let header = case.op == Op::Header || case.op.is_given_header();
    let staged = matches!(case.op, Op::Stage | Op::Publish);
    let ranges = matches!(case.op, Op::Ranges | Op::Walk | Op::Fill);
    case.said.len() < said
        || header && case.header.len() < raw::HEADER
        || staged && case.staged.len() < raw::STAGED
        || ranges && case.ranges.len() < raw::RANGES
}

fn has_wide_number(case: &Case) -> bool {
    let ranges = matches!(case.op, Op::Walk | Op::Fill);
    header_of(&case.header).is_err() || ranges && ranges_of(&case.ranges).is_err()
}

/// The mask in force, if there is one. A publish is lent a spare that need not
/// hold it, and does not write it there.
fn mask_bytes(case: &Case, after: &After, header: &Header) -> Vec<u8> {
    let mut spare = after.lent.spare.clone();
    match case.op {
        Op::Walk | Op::Fill => return case.mask.clone(),
        Op::Publish => {
            let (blob, kept) = (&case.blob, &case.kept);
            // Refused is a mask that no block is judged by.
            let _ = second::prepare_mask(blob, header, case.reuse, kept, &mut spare);
        }
        _ => {}
    }
    let valid = header.valid as usize;
    let uniform = valid == 0 || valid == header.pixels();
    match header.mask == 0 && !uniform {
        true => case.kept.clone(),
        false => spare,
    }
}

/// A call that is refused for what stands behind the header.
struct Refused<'a> {
    case: &'a Case,
    /// The one in force.
    mask: Vec<u8>,
    number: u32,
    place: usize,
    header: Header,
    /// Up to the size.
    bytes: &'a [u8],
}

impl Refused<'_> {
    fn sites(&self) -> Vec<Site> {
        let site = match (self.number, self.case.op) {
            (7, Op::Walk | Op::Fill) => self.at_0(Site::RangesGiven),
            (1, Op::Ranges) => self.ranges_missing(),
            (_, Op::Walk) => self.walk(),
            (_, Op::Fill) => self.fill(),
            (6, Op::Mask) => self.section(),
            (7, Op::Ranges) => return self.range(),
            (6, Op::Read | Op::Stage | Op::Publish) => self.section(),
            (7, Op::Read | Op::Stage | Op::Publish) => return self.range(),
            (_, Op::Read | Op::Stage | Op::Publish) => self.body(),
            _ => None,
        };
        Vec::from_iter(site)
    }

    fn at_0(&self, site: Site) -> Option<Site> {
        (self.place == 0).then_some(site)
    }

    fn section(&self) -> Option<Site> {
        let valid = self.header.valid as usize;
        let site = if valid == 0 || valid == self.header.pixels() {
            Site::MaskOfUniform
        } else if self.header.mask > 0 {
            Site::MaskRuns
        } else if self.case.reuse {
            Site::MaskKept
        } else {
            Site::MaskMissing
        };
        (self.place == 66).then_some(site)
    }

    // ---- ranges

    fn after_mask(&self) -> usize {
        70 + self.header.mask as usize
    }

    fn ranges_missing(&self) -> Option<Site> {
        let numbers = 2 * self.header.depth as usize;
        let end = self.after_mask() + numbers * word_size(self.header.kind);
        let cut = end > self.bytes.len() && self.place == self.after_mask();
        cut.then_some(Site::RangesMissing)
    }

    /// Minimum or maximum of a depth as they stand in the blob.
    fn range_number(&self, maximum: bool, depth: usize) -> u64 {
        let size = word_size(self.header.kind);
        let nth = depth + usize::from(maximum) * self.header.depth as usize;
        let at = self.after_mask() + nth * size;
        let mut word = [0; 8];
        word[..size].copy_from_slice(&self.bytes[at..at + size]);
        second::number(u64::from_le_bytes(word), self.header.kind)
    }

    /// The number that begins at the place, and whether a minimum behind it in
    /// depth but before it in the blob is wrong too.
    fn range(&self) -> Vec<Site> {
        let (size, depths) = (word_size(self.header.kind), self.header.depth as usize);
        let Some(behind) = self.place.checked_sub(self.after_mask()) else {
            return Vec::new();
        };
        let (nth, depth) = (behind / size, behind / size % depths);
        if behind % size != 0 || nth >= 2 * depths || (0..depth).any(|d| !self.is_pair(d)) {
            return Vec::new();
        }
        let is_maximum = nth >= depths;
        let [min, max] = [false, true].map(|maximum| self.range_number(maximum, depth));
        let site = match (is_maximum, is_finite(min), is_finite(max)) {
            (false, false, true) => Site::Minimum,
            (false, false, false) => Site::BothOfPair,
            (true, true, false) => Site::Maximum,
            (true, true, true) if less(max, min) => Site::LesserMaximum,
            _ => return Vec::new(),
        };
        let mut later = (depth + 1..depths).map(|depth| self.range_number(false, depth));
        let also = is_maximum && later.any(|min| !is_finite(min));
        let also = also.then_some(Site::BeforeMinimum);
        [Some(site), also].into_iter().flatten().collect()
    }

    fn is_pair(&self, depth: usize) -> bool {
        let [min, max] = [false, true].map(|maximum| self.range_number(maximum, depth));
        is_finite(min) && is_finite(max) && !less(max, min)
    }

    // ---- the body

    fn body(&self) -> Option<Site> {
        match second::read_ranges(self.bytes, &self.header) {
            Err(_) => self.ranges_missing(),
            Ok(ranges) if ranges.constant => self.at_0(Site::Constant),
            Ok(ranges) => self.after_ranges(ranges.place),
        }
    }

    fn walk(&self) -> Option<Site> {
        let ranges = ranges_of(&self.case.ranges).ok()?;
        match self.number {
            10 if self.header.valid == 0 => self.at_0(Site::EmptyBody),
            10 if ranges.constant => self.at_0(Site::ConstantBody),
            _ => self.after_ranges(ranges.place),
        }
    }

    /// Of a body whose sweep byte should be at `at`.
    fn after_ranges(&self, at: usize) -> Option<Site> {
        if self.place == at {
            return self.sweep();
        }
        let has_mode = self.header.kind < 2 && self.header.error == 0.5f64.to_bits();
        match self.bytes.get(at)? {
            0 if has_mode && self.place == at + 1 => self.mode(),
            0 => self.block_from(at + 1 + usize::from(has_mode)),
            1 => self.raw_word(at + 1),
            _ => None,
        }
    }

    fn sweep(&self) -> Option<Site> {
        match (self.number, self.bytes.get(self.place)) {
            (1, None) if self.place >= FAR => Some(Site::SweepFar),
            (1, None) => Some(Site::SweepMissing),
            (8, Some(2..)) => Some(Site::SweepWrong),
            (10, Some(1)) => Some(Site::SweepRaw),
            _ => None,
        }
    }

    fn mode(&self) -> Option<Site> {
        match (self.number, self.bytes.get(self.place)) {
            (1, None) => Some(Site::ModeMissing),
            (8, Some(3..)) => Some(Site::ModeWrong),
            (10, Some(1 | 2)) if self.case.op == Op::Walk => Some(Site::ModeCodes),
            (1 | 8, Some(1 | 2)) if self.case.op != Op::Walk => self.codes(),
            _ => None,
        }
    }

    /// Of a Huffman body, whose symbols are as many as its valid cells.
    fn codes(&self) -> Option<Site> {
        let symbols = self.header.valid as usize * self.header.depth as usize;
        let (site, number) = codes::wrong(self.bytes, self.place, symbols).err()?;
        (number == self.number).then_some(site)
    }

    /// Of words from `first` on, all of which are whole before the place.
    fn raw_word(&self, first: usize) -> Option<Site> {
        let size = word_size(self.header.kind);
        let words = self.header.valid as usize * self.header.depth as usize;
        let behind = self.place.checked_sub(first)?;
        if self.number != 1 || behind % size != 0 || behind / size >= words {
            return None;
        }
        let there = self.bytes.len().checked_sub(self.place)?;
        match there {
            0 => Some(Site::WordMissing),
            _ if there < size => Some(Site::WordCut),
            _ => None,
        }
    }

    // ---- blocks

    fn fill(&self) -> Option<Site> {
        let block = self.case.numbers[0] as usize;
        let listed = self.case.list[block] == self.place;
        let tile = block / self.header.depth as usize;
        listed.then_some(())?;
        self.block(tile)
    }

    /// Blocks are stepped over from `at` on, until one begins at the place.
    fn block_from(&self, mut at: usize) -> Option<Site> {
        let depths = self.header.depth as usize;
        for block in 0..self.header.blocks() {
            let tile = block / depths;
            if at == self.place {
                return self.block(tile);
            }
            at = self.end_of(at, tile)?;
        }
        None
    }

    fn valid_of(&self, tile: usize) -> usize {
        pixels(&self.header, &self.mask, tile).len()
    }

    /// Where the block at `at` ends, if it is right.
    fn end_of(&self, at: usize, tile: usize) -> Option<usize> {
        let flag = self.bytes.get(at)?;
        let end = match flag % 4 {
            0 => at + 1 + self.valid_of(tile) * word_size(self.header.kind),
            2 => at + 1,
            3 => self.offset(at)?.1,
            _ => {
                let (_, counts) = self.offset(at)?;
                packed_counts(self.bytes, counts, &mut [0; MOST_COUNTS])
                    .ok()?
                    .1
            }
        };
        Some(end)
    }

    /// The offset of the block at `at` and its end, if it has a kind and is
    /// there.
    fn offset(&self, at: usize) -> Option<(u64, usize)> {
        let code = usize::from(self.bytes[at] / 64);
        let kind = OFFSET_KINDS[self.header.kind as usize][code];
        if kind > 7 || at + 1 + word_size(kind) > self.bytes.len() {
            return None;
        }
        Some(offset_at(self.bytes, at, self.header.kind))
    }

    /// Of the block whose flag byte is, or should be, at the place.
    fn block(&self, tile: usize) -> Option<Site> {
        let Some(&flag) = self.bytes.get(self.place) else {
            let missing = match self.place {
                usize::MAX => Site::FlagLast,
                FAR.. => Site::FlagFar,
                _ => Site::FlagMissing,
            };
            return (self.number == 1).then_some(missing);
        };
        let (columns, side) = (self.header.columns, self.header.side);
        let x = tile % columns.div_ceil(side) as usize * side as usize;
        let checks = usize::from(flag / 4 % 16) == x / 8 % 16;
        match flag % 4 {
            _ if !checks => (self.number == 8).then_some(Site::CheckBits),
            0 => self.raw_words(tile),
            1 | 3 => self.with_offset(tile),
            _ => None,
        }
    }

    fn raw_words(&self, tile: usize) -> Option<Site> {
        let end = self.end_of(self.place, tile)?;
        (self.number == 1 && end > self.bytes.len()).then_some(Site::RawWords)
    }

    fn with_offset(&self, tile: usize) -> Option<Site> {
        let code = usize::from(self.bytes[self.place] / 64);
        let has_kind = OFFSET_KINDS[self.header.kind as usize][code] <= 7;
        match (self.offset(self.place), self.number) {
            (None, 8) if !has_kind => Some(Site::OffsetCode),
            (None, 1) if has_kind => Some(Site::OffsetMissing),
            (Some((offset, _)), 8) if !is_finite(offset) => Some(Site::OffsetNotFinite),
            (Some((_, counts)), _) if self.bytes[self.place] % 4 == 1 => self.counts(counts, tile),
            _ => None,
        }
    }

    /// Of counts that begin at `at`.
    fn counts(&self, at: usize, tile: usize) -> Option<Site> {
        let read = packed_counts(self.bytes, at, &mut [0; MOST_COUNTS]);
        let refused = read.map_or_else(u32::from, |(n, _)| match n == self.valid_of(tile) {
            true => 9,
            false => 8,
        });
        match (refused == self.number, self.number) {
            (true, 1) => Some(Site::CountsMissing),
            (true, 8) => Some(Site::CountsWrong),
            (true, 9) => Some(Site::Value),
            _ => None,
        }
    }
}
