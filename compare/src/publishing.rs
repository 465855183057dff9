//! Publishes made out of one blob: of what staging gave, and with everything
//! changed that can be between the two.

use crate::case::{After, Case, Op};
use crate::checksum;
use crate::damage;
use crate::form::any_form;
use crate::plan::{call, marks, Blob};
use crate::publishes::Sort;
use crate::random::Random;
use crate::sides::{plain, record};
use lerc2::raw;
use second::refusal::WRONG_FIELD;
use second::{is_valid, Header};

/// Publishes of a blob before which something is done, if it is accepted and if
/// it is not.
const DISTURBED: [usize; 2] = [22, 8];

/// Moves of a pixel that are tried until one changes what staging gives.
const MOVES: usize = 12;

/// How often each is tried; not every blob has room for each.
const TRIED: [Sort; 24] = [
    Sort::Again,
    Sort::Filled,
    Sort::Forged,
    Sort::Forged,
    Sort::NoAnswer,
    Sort::Stale,
    Sort::Stale,
    Sort::Refused,
    Sort::Spare,
    Sort::Spare,
    Sort::Spare,
    Sort::List,
    Sort::LastStart,
    Sort::Unseen,
    Sort::Kept,
    Sort::Kept,
    Sort::Kept,
    Sort::KeptCount,
    Sort::KeptCount,
    Sort::Reuse,
    Sort::Blob,
    Sort::Blob,
    Sort::Blob,
    Sort::Short,
];

/// Staging, then publishing of what it left, then of what was disturbed.
pub fn publishes(random: &mut Random, blob: &Blob, out: &mut Vec<Case>) {
    let Some(stage) = call(random, blob, Op::Stage) else {
        return;
    };
    let after = plain(&stage);
    let left = publish(random, &after);
    out.extend([stage, left.clone()]);
    let base = match after.answer {
        0 => left,
        _ => claimed(left, blob),
    };
    let mut maker = Maker {
        random,
        base: &base,
        accepted: after.answer == 0,
    };
    let wanted = DISTURBED[usize::from(!maker.accepted)];
    let tries = (0..4 * wanted).filter_map(|_| maker.any());
    out.extend(tries.take(wanted));
}

/// What a staging left, handed over as it is.
fn publish(random: &mut Random, after: &After) -> Case {
    let sort = match after.answer {
        0 => Sort::AsStaged,
        _ => Sort::Refused,
    };
    Case {
        op: Op::Publish,
        said: marks(random, raw::PUBLISH),
        place: marks(random, raw::PLACE),
        sort: Some(sort),
        ..after.lent.clone()
    }
}

/// As if a blob in blocks or in codes had been accepted, with the mask and the
/// starts that it was made with.
fn claimed(left: Case, blob: &Blob) -> Case {
    let h = &blob.header;
    let mut case = left;
    let (blocks, body) = match blob.mode_at() {
        Some(_) => (0, 4),
        None => (h.blocks() as u64, 3),
    };
    let numbers = [
        &record(h)[..],
        &[blocks, h.size.into(), body, 2, h.mask_length() as u64],
    ]
    .concat();
    for (to, number) in case.staged.iter_mut().zip(numbers) {
        *to = number;
    }
    for (to, &byte) in case.spare.iter_mut().zip(&blob.mask) {
        *to = byte;
    }
    for (to, &start) in case.list.iter_mut().zip(&blob.starts) {
        *to = start;
    }
    case
}

/// Makes one publish of each sort out of what was staged, or would have been.
struct Maker<'a> {
    random: &'a mut Random,
    base: &'a Case,
    accepted: bool,
}

impl Maker<'_> {
    fn any(&mut self) -> Option<Case> {
        // Few blobs reuse a mask, and few masks can be changed so that a block
        // begins elsewhere.
        let sort = match self.is_reused() && self.random.once_in(4) {
            true => Sort::Kept,
            false => self.random.pick(&TRIED),
        };
        let case = self.made(sort)?;
        let sort = Some(sort);
        Some(Case { sort, ..case })
    }

    /// None if the blob has no room for it.
    fn made(&mut self, sort: Sort) -> Option<Case> {
        if self.base.staged.len() < raw::STAGED {
            return None;
        }
        let mut case = self.base.clone();
        match sort {
            Sort::AsStaged => return None,
            Sort::Again => self.again(&mut case)?,
            Sort::Filled => self.filled(&mut case)?,
            Sort::Forged => self.forge(&mut case.staged),
            Sort::NoAnswer => self.put_no_answer(&mut case.staged),
            Sort::Stale => self.put_stale(&mut case)?,
            Sort::Refused => case.staged = marks(self.random, raw::STAGED),
            Sort::Spare => self.change_spare(&mut case)?,
            Sort::List => self.change_list(&mut case, false)?,
            Sort::LastStart => self.change_list(&mut case, true)?,
            Sort::Unseen => self.change_unseen(&mut case)?,
            Sort::Kept => self.move_pixel(&mut case)?,
            Sort::KeptCount => self.turn_pixel(&mut case)?,
            Sort::Reuse => case.reuse = !case.reuse,
            Sort::Blob => self.change_blob(&mut case.blob),
            Sort::Short => self.shorten(&mut case)?,
        }
        let is_wrong = matches!(
            sort,
            Sort::Forged
                | Sort::NoAnswer
                | Sort::Stale
                | Sort::Refused
                | Sort::Spare
                | Sort::List
                | Sort::LastStart
        );
        // What the blob itself earns comes first.
        if is_wrong && self.random.once_in(3) {
            self.spoil(&mut case);
        }
        Some(case)
    }

    fn blocks(&self) -> usize {
        self.base.staged[11] as usize
    }

    fn end(&self) -> usize {
        self.base.staged[12] as usize
    }

    fn is_in_blocks(&self) -> bool {
        self.base.staged[13] == 3 && self.base.list.len() >= self.blocks()
    }

    fn is_in_codes(&self) -> bool {
        self.base.staged[13] == 4
    }

    fn is_reused(&self) -> bool {
        self.accepted && self.base.staged[14] == 1
    }

    fn mask_length(&self) -> usize {
        self.base.staged[15] as usize
    }

    // ---- between the two

    fn again(&mut self, case: &mut Case) -> Option<()> {
        let after = plain(self.base);
        (case.kept, case.image) = (after.lent.kept, after.lent.image);
        (after.answer == 0).then_some(())
    }

    /// Some blocks, or all of them, in any order.
    fn filled(&mut self, case: &mut Case) -> Option<()> {
        let is_right = self.accepted && self.is_in_blocks();
        is_right.then_some(())?;
        let header = second::read_header(&case.blob).ok()?;
        let ranges = second::read_ranges(&case.blob, &header).ok()?;
        let blocks = self.blocks();
        let mask = match self.is_reused() {
            true => &case.kept,
            false => &case.spare,
        };
        let all = self.random.once_in(3);
        let fills = match all {
            true => blocks,
            false => self.random.between(1, blocks.min(8)),
        };
        for n in 0..fills {
            let number = match all {
                true => n * 7919 % blocks,
                false => self.random.below(blocks),
            };
            let (blob, list, image) = (&case.blob, &case.list, &mut case.image);
            second::fill(blob, &header, &ranges, mask, list, number, image).ok()?;
        }
        Some(())
    }

    // ---- answers

    /// One number, to another that its field holds.
    fn forge(&mut self, staged: &mut [u64]) {
        let at = self.random.below(raw::STAGED);
        let there = staged[at];
        let by = self.random.pick(&[1, 2, u64::MAX, u64::MAX - 1]);
        let beside = there.wrapping_add(by);
        staged[at] = match at {
            7..=9 => there ^ 1 << self.random.below(64),
            11 | 12 | 15 if self.random.once_in(3) => {
                let far = [0, u64::MAX, there | 1 << 32, there ^ 1 << 63];
                self.random.pick(&far)
            }
            11 | 12 | 15 => beside,
            13 => (there + 1 + self.random.below(4) as u64) % 5,
            14 => 3 - there,
            _ => beside & u64::from(u32::MAX),
        };
        if staged[at] == there {
            staged[at] ^= 1;
        }
    }

    /// A number that its field cannot hold, often with the lower digits of the
    /// true one, or one that is no body or no mask.
    fn put_no_answer(&mut self, staged: &mut [u64]) {
        let at = self
            .random
            .pick(&[0, 1, 2, 3, 4, 5, 6, 10, 13, 13, 13, 14, 14, 14]);
        let there = staged[at];
        let far = [there | 1 << 32, there | 1 << 63, u64::MAX, 1 << 32];
        staged[at] = match (at, self.random.below(3)) {
            (13, 0) => self.random.pick(&[5, 6, 256]),
            (14, 0) => self.random.pick(&[0, 3, 4, 257]),
            _ => self.random.pick(&far),
        };
    }

    /// The answer of another blob, its spare and list, or all of these.
    fn put_stale(&mut self, case: &mut Case) -> Option<()> {
        let form = any_form(self.random, false);
        let blob = Blob::new(&form, form.bytes());
        let after = plain(&call(self.random, &blob, Op::Stage)?);
        if after.answer != 0 {
            return None;
        }
        let (other, which) = (after.lent, self.random.below(3));
        if which != 0 {
            case.staged = other.staged;
        }
        if which != 1 {
            let (spare, list) = (case.spare.len(), case.list.len());
            case.spare = other.spare;
            case.list = other.list;
            case.spare.resize(case.spare.len().max(spare), 0x5A);
            case.list.resize(case.list.len().max(list), 70);
        }
        // Blobs without blocks may leave the same.
        (plain(case).answer != 0).then_some(())
    }

    // ---- spare, list, kept mask

    fn change_spare(&mut self, case: &mut Case) -> Option<()> {
        let length = self.mask_length().min(case.spare.len());
        let mask = case.spare.get_mut(..length).filter(|m| !m.is_empty())?;
        let last = mask.len() - 1;
        let any = self.random.below(length);
        let at = self.random.pick(&[0, last, any]);
        match self.random.below(6) {
            // Only some of it, all of it, or as much of the kept one.
            0 => mask.fill(!mask[at]),
            1 => mask.iter_mut().for_each(|byte| *byte = !*byte),
            2 if case.kept.len() >= length && *mask != case.kept[..length] => {
                mask.copy_from_slice(&case.kept[..length]);
            }
            // Often behind the last pixel.
            3 => mask[last] ^= 1,
            _ => mask[at] ^= 1 << self.random.below(8),
        }
        Some(())
    }

    /// An entry of a list that is looked at.
    fn change_list(&mut self, case: &mut Case, last: bool) -> Option<()> {
        let blocks = self.blocks();
        (self.is_in_blocks() && blocks > 0).then_some(())?;
        let at = match last {
            true => blocks - 1,
            false => self.random.below(blocks),
        };
        let there = case.list[at];
        let size = case.blob.len();
        case.list[at] = match self.random.below(3) {
            0 => there.wrapping_add(self.random.pick(&[1, usize::MAX, 1 << 32])),
            _ => damage::start(self.random, size, &self.base.list[..blocks]),
        };
        if case.list[at] == there {
            case.list[at] ^= 1;
        }
        Some(())
    }

    /// Past the mask and the count, in the list of a body without blocks, in the
    /// spare beside a reused mask, in the kept mask beside a new one.
    fn change_unseen(&mut self, case: &mut Case) -> Option<()> {
        self.accepted.then_some(())?;
        let (length, blocks) = (self.mask_length(), self.blocks());
        case.spare.resize(case.spare.len().max(length + 1), 7);
        case.list.resize(case.list.len().max(blocks + 1), 7);
        case.kept.resize(case.kept.len().max(length + 1), 7);
        case.spare[length] ^= self.random.byte();
        case.list[blocks] ^= self.random.below(1 << 20);
        case.kept[length] ^= self.random.byte();
        if self.is_reused() {
            case.spare.fill_with(|| self.random.byte());
        } else {
            case.kept.fill_with(|| self.random.byte());
        }
        if blocks == 0 {
            case.list.fill_with(|| self.random.below(1 << 20));
        }
        Some(())
    }

    /// Another valid pixel in place of one, or bits behind the last one.
    fn move_pixel(&mut self, case: &mut Case) -> Option<()> {
        self.is_reused().then_some(())?;
        let header = second::read_header(&case.blob).ok()?;
        let pixels = header.pixels();
        if pixels % 8 != 0 && self.random.once_in(4) {
            case.kept[pixels / 8] ^= 1;
            return Some(());
        }
        let moves = self.random.pick(&[1, MOVES]);
        for _ in 0..moves {
            case.kept.clone_from(&self.base.kept);
            let from = match self.random.once_in(2) {
                true => self.last_tile(&header),
                false => self.random.below(pixels),
            };
            let to = self.random.below(pixels);
            let from = pixel(&header, &case.kept, from, true);
            let to = pixel(&header, &case.kept, to, false);
            for pixel in [from, to] {
                case.kept[pixel / 8] ^= 128 >> (pixel % 8);
            }
            if plain(case).answer == WRONG_FIELD {
                break;
            }
        }
        Some(())
    }

    fn turn_pixel(&mut self, case: &mut Case) -> Option<()> {
        self.is_reused().then_some(())?;
        let header = second::read_header(&case.blob).ok()?;
        let pixel = self.random.below(header.pixels());
        case.kept[pixel / 8] ^= 128 >> (pixel % 8);
        Some(())
    }

    /// A pixel of the last tile: where its block has fewer words, none of the
    /// others begins elsewhere.
    fn last_tile(&mut self, header: &Header) -> usize {
        let (rows, columns) = (header.rows as usize, header.columns as usize);
        let side = header.side as usize;
        let last = |length: usize| (length - 1) / side * side;
        let row = self.random.between(last(rows), rows - 1);
        row * columns + self.random.between(last(columns), columns - 1)
    }

    // ---- the blob, and room

    fn change_blob(&mut self, blob: &mut Vec<u8>) {
        damage::blob(self.random, blob);
        if !self.random.once_in(8) {
            checksum::mend(blob);
        }
    }

    /// A blob that most probably is refused, and often by one of its blocks.
    fn spoil(&mut self, case: &mut Case) {
        let blocks = self.blocks();
        let end = self.end().min(case.blob.len());
        let starts = self.base.list.get(..blocks).unwrap_or(&[]);
        let start = match starts {
            [] if self.is_in_codes() => self.piece_of_codes(end),
            [] => end.saturating_sub(1),
            _ => self.random.pick(starts),
        };
        match self.random.below(4) {
            0 | 1 if start < case.blob.len() => {
                // The check bits, or any.
                let bit = self.random.pick(&[2, 3, 4, 5, 0, 1]);
                case.blob[start] ^= 1 << bit;
                checksum::mend(&mut case.blob);
            }
            2 if end > start && start > 70 => {
                let size = self.random.between(start, end - 1) as u32;
                case.blob[34..38].copy_from_slice(&size.to_le_bytes());
                checksum::mend(&mut case.blob);
            }
            _ => self.change_blob(&mut case.blob),
        }
    }

    /// In the integers of a table, or anywhere behind them.
    fn piece_of_codes(&mut self, end: usize) -> usize {
        let header = second::read_header(&self.base.blob).ok();
        let ranges = header.and_then(|h| second::read_ranges(&self.base.blob, &h).ok());
        let table = ranges.map_or(70, |ranges| ranges.place + 2);
        let last = end.saturating_sub(1).max(table);
        match self.random.below(3) {
            0 => table + self.random.below(16),
            _ => self.random.between(table, last),
        }
    }

    /// One slice that is one short, or empty.
    fn shorten(&mut self, case: &mut Case) -> Option<()> {
        let header = second::read_header(&case.blob).ok()?;
        let short = |needed: usize, empty: bool| match empty {
            true => 0,
            false => needed - 1,
        };
        let empty = self.random.once_in(4);
        let mask = short(header.mask_length(), empty);
        match self.random.below(7) {
            0 => case.kept.truncate(mask),
            1 => case.spare.truncate(mask),
            2 => case.list.truncate(short(header.blocks(), empty)),
            3 => case.image.truncate(short(header.cells(), empty)),
            4 => case.staged.truncate(short(raw::STAGED, empty)),
            5 => case.said.truncate(short(raw::PUBLISH, empty)),
            _ => case.place.clear(),
        }
        Some(())
    }
}

/// The next one that is valid, or that is not; a reused mask has both.
fn pixel(header: &Header, mask: &[u8], first: usize, valid: bool) -> usize {
    let mut all = (first..header.pixels()).chain(0..first);
    all.find(|&pixel| is_valid(mask, pixel) == valid)
        .unwrap_or(first)
}
