//! Slices to lend, with a mark in every place, so that it shows what a reader
//! wrote.

use second::{fill, prepare_mask, publish, read, read_header, read_ranges, stage, walk};
use second::{is_valid, Header, Mask, PublishAnswer, Refusal, StageAnswer};

pub const KEPT: u8 = 0x5A;
pub const SPARE: u8 = 0xC3;
pub const LIST: usize = 777_777;
pub const IMAGE: u64 = 0xDEAD_BEEF_0BAD_CAFE;
/// Places that no reader may touch.
const BEHIND: usize = 3;

#[derive(Clone, Debug, PartialEq, Eq)]
pub struct Lent {
    pub kept: Vec<u8>,
    pub spare: Vec<u8>,
    pub list: Vec<usize>,
    pub image: Vec<u64>,
}

impl Lent {
    pub fn of(mask: usize, blocks: usize, cells: usize) -> Lent {
        Lent {
            kept: vec![KEPT; mask],
            spare: vec![SPARE; mask],
            list: vec![LIST; blocks],
            image: vec![IMAGE; cells],
        }
    }

    /// A little more than the header needs.
    pub fn behind(header: &Header) -> Lent {
        Lent::of(
            header.mask_length() + BEHIND,
            header.blocks() + BEHIND,
            header.cells() + BEHIND,
        )
    }

    /// Enough for the blob, or for any small one if its header is refused.
    pub fn to_read(bytes: &[u8]) -> Lent {
        match read_header(bytes) {
            Ok(header) => Lent::behind(&header),
            Err(_) => Lent::of(8, 8, 8),
        }
    }

    /// As [`Lent::read`], by the number alone.
    pub fn read_number(&mut self, bytes: &[u8], reuse: bool) -> Result<(), u32> {
        self.read(bytes, reuse).map(|_| ()).map_err(u32::from)
    }

    pub fn read(&mut self, bytes: &[u8], reuse: bool) -> Result<(Header, usize, usize), Refusal> {
        read(
            bytes,
            reuse,
            &mut self.kept,
            &mut self.spare,
            &mut self.list,
            &mut self.image,
        )
    }

    pub fn stage(&mut self, bytes: &[u8], reuse: bool) -> StageAnswer {
        let (kept, spare) = (&self.kept, &mut self.spare);
        let before = self.list.clone();
        let answer = stage(bytes, reuse, kept, spare, &mut self.list, &self.image);
        let blocks = answer.map_or(0, |staged| staged.blocks);
        assert_eq!(self.list[blocks..], before[blocks..], "{answer:?}");
        answer
    }

    /// A refusal must change nothing.
    pub fn publish(&mut self, bytes: &[u8], reuse: bool, staged: StageAnswer) -> PublishAnswer {
        let before = self.clone();
        let (kept, spare) = (&mut self.kept, &self.spare);
        let answer = publish(
            bytes,
            reuse,
            staged,
            kept,
            spare,
            &self.list,
            &mut self.image,
        );
        assert!(answer.is_ok() || *self == before, "{answer:?}");
        answer
    }
}

/// Reads a blob that must be accepted, and gives what the slices hold then.
pub fn accepted(bytes: &[u8]) -> (Header, usize, usize, Lent) {
    let mut lent = Lent::to_read(bytes);
    let (header, blocks, end) = lent.read(bytes, false).expect("a blob within the rules");
    (header, blocks, end, lent)
}

/// The cells of a blob that must be accepted; invalid ones are `IMAGE`.
pub fn cells(bytes: &[u8]) -> Vec<u64> {
    let (header, _, _, lent) = accepted(bytes);
    lent.image[..header.cells()].to_vec()
}

/// The number of a blob that must be refused before its mask is accepted.
/// Nothing of a header has a place, and every 6 has the same one.
pub fn refused(bytes: &[u8]) -> u32 {
    let Refusal { number, place } = refused_with(bytes, None);
    assert_eq!(place, if number == 6 { 66 } else { 0 }, "refused {number}");
    number
}

/// The number of a blob that must be refused once its mask is accepted.
pub fn refused_after(bytes: &[u8], mask: &[u8]) -> u32 {
    refused_at(bytes, mask).number
}

/// Number and place of a blob that must be refused once its mask is accepted.
pub fn refused_at(bytes: &[u8], mask: &[u8]) -> Refusal {
    refused_with(bytes, Some(mask))
}

fn refused_with(bytes: &[u8], mask: Option<&[u8]>) -> Refusal {
    let mut lent = Lent::to_read(bytes);
    let mut expected = lent.clone();
    if let Some(mask) = mask {
        expected.spare[..mask.len()].copy_from_slice(mask);
    }
    let refusal = lent.read(bytes, false).expect_err("a refusal");
    assert_eq!(lent, expected, "{refusal}, and slices changed");
    refusal
}

/// Reads a blob as a whole, in two operations and in steps, and compares all
/// that they give.
pub fn whole_and_steps(bytes: &[u8], reuse: bool, lent: &Lent) -> Result<Lent, Refusal> {
    let mut whole = lent.clone();
    let answer = whole.read(bytes, reuse);
    check_two(bytes, reuse, lent, answer, &whole);
    let mut steps = lent.clone();
    let stepwise = read_in_steps(bytes, reuse, &mut steps);
    match stepwise {
        Steps::Done(header, blocks, end) => {
            assert_eq!(answer, Ok((header, blocks, end)));
            assert_eq!(whole, steps);
        }
        Steps::NotBlocks => match answer {
            Ok((header, blocks, end)) => {
                assert!(blocks == 0 && end <= header.size as usize);
                check_untouched(&header, lent, &whole);
            }
            Err(_) => assert_eq!(whole, steps),
        },
        Steps::Refused(refusal) => {
            assert_eq!(answer, Err(refusal));
            assert_eq!(whole, steps);
        }
    }
    answer.map(|_| whole)
}

/// Stage, then publish, against what a whole read gave.
pub fn check_two(
    bytes: &[u8],
    reuse: bool,
    lent: &Lent,
    answer: Result<(Header, usize, usize), Refusal>,
    whole: &Lent,
) {
    let mut two = lent.clone();
    let staged = two.stage(bytes, reuse);
    assert_eq!(two.image, lent.image);
    assert_eq!(two.kept, lent.kept);
    assert_eq!(staged.map(|s| (s.header, s.blocks, s.end)), answer);
    let published = two.publish(bytes, reuse, staged);
    assert_eq!(two, *whole);
    let words = |header: Header| header.valid as usize * header.depth as usize;
    let expected = answer.map(|(header, _, end)| (end, words(header)));
    assert_eq!(published.map(|p| (p.end, p.words)), expected);
    // Again, and nothing more changes.
    assert_eq!(two.publish(bytes, reuse, staged), published);
    assert_eq!(two, *whole);
}

/// Only valid cells are written, and no list.
fn check_untouched(header: &Header, before: &Lent, after: &Lent) {
    assert_eq!(before.list, after.list);
    for (cell, (old, new)) in before.image.iter().zip(&after.image).enumerate() {
        let pixel = cell / header.depth as usize;
        let written = cell < header.cells() && is_valid(&after.kept, pixel);
        assert!(written || old == new);
    }
}

enum Steps {
    Done(Header, usize, usize),
    NotBlocks,
    Refused(Refusal),
}

fn read_in_steps(bytes: &[u8], reuse: bool, lent: &mut Lent) -> Steps {
    match blocks_in_steps(bytes, reuse, lent) {
        Ok((header, blocks, end)) => Steps::Done(header, blocks, end),
        Err(refusal) if refusal.number == 10 => Steps::NotBlocks,
        Err(refusal) => Steps::Refused(refusal),
    }
}

fn blocks_in_steps(
    bytes: &[u8],
    reuse: bool,
    lent: &mut Lent,
) -> Result<(Header, usize, usize), Refusal> {
    let header = read_header(bytes)?;
    let place = prepare_mask(bytes, &header, reuse, &lent.kept, &mut lent.spare)?;
    let mask = match place {
        Mask::Kept(length) => lent.kept[..length].to_vec(),
        Mask::Spare(length) => lent.spare[..length].to_vec(),
    };
    if header.valid == 0 {
        lent.kept[..mask.len()].copy_from_slice(&mask);
        return Ok((header, 0, 70));
    }
    let ranges = read_ranges(bytes, &header)?;
    let (blocks, end) = walk(bytes, &header, &ranges, &mask, &mut lent.list)?;
    let mut written = 0;
    // Any order must do.
    for number in (0..blocks).rev() {
        let list = &lent.list;
        written += fill(
            bytes,
            &header,
            &ranges,
            &mask,
            list,
            number,
            &mut lent.image,
        )?;
    }
    assert_eq!(blocks, header.blocks());
    assert_eq!(written, header.valid as usize * header.depth as usize);
    lent.kept[..mask.len()].copy_from_slice(&mask);
    Ok((header, blocks, end))
}
