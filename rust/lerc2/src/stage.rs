//! The whole read as two operations: all of the checking, then all of the
//! writing.

use crate::header::Header;
use crate::mask::Mask;
use crate::raw;
use crate::refusal::Refusal;

/// What a body is.
#[derive(Clone, Copy, Debug, PartialEq, Eq, Hash)]
pub enum BodyKind {
    /// No pixel is valid.
    Empty = 0,
    /// One value for each depth.
    Constant = 1,
    /// Words, one behind the other.
    Raw = 2,
    /// In blocks.
    Blocks = 3,
    /// A Huffman image of bytes.
    Huffman = 4,
}

impl BodyKind {
    /// All of them, in the order of their numbers.
    pub const ALL: [BodyKind; 5] = [
        BodyKind::Empty,
        BodyKind::Constant,
        BodyKind::Raw,
        BodyKind::Blocks,
        BodyKind::Huffman,
    ];
}

/// Which slice holds the mask in force, and how many of its bytes are that.
#[derive(Clone, Copy, Debug, PartialEq, Eq, Hash)]
pub enum StagedMask {
    /// The kept mask is reused.
    Kept(usize),
    /// A new mask, in the spare.
    Spare(usize),
}

/// What staging found: all that [`publish`] is told of it, besides the spare
/// and the list. It borrows nothing, and can be kept or sent to another thread.
///
/// One that is put together by hand is [refused](crate::Why::WrongField), unless
/// it is the one that staging gives. Two are equal if each number is, bit for
/// bit, and so it is judged there: 0.0 and -0.0 are not.
#[derive(Clone, Copy, Debug)]
pub struct Staged {
    /// The header.
    pub header: Header,
    /// What the body is.
    pub body: BodyKind,
    /// How many blocks there are; 0 for a body that is not in blocks.
    pub blocks: usize,
    /// Where the body ends.
    pub end: usize,
    /// The mask in force.
    pub mask: StagedMask,
}

impl Staged {
    /// The mask in force, out of the slices that were lent: for fills between
    /// staging and publishing. None where the slice is shorter than the mask.
    pub fn mask_in<'a>(&self, kept: &'a [u8], spare: &'a [u8]) -> Option<Mask<'a>> {
        match self.mask {
            StagedMask::Kept(length) => kept.get(..length).map(Mask::Kept),
            StagedMask::Spare(length) => spare.get(..length).map(Mask::Spare),
        }
    }

    fn record(&self) -> [u64; raw::STAGED] {
        let (which, length) = match self.mask {
            StagedMask::Kept(length) => (1, length),
            StagedMask::Spare(length) => (2, length),
        };
        let behind = [
            self.blocks as u64,
            self.end as u64,
            self.body as u64,
            which,
            length as u64,
        ];
        let mut record = [0; raw::STAGED];
        record[..raw::HEADER].copy_from_slice(&self.header.record());
        record[raw::HEADER..].copy_from_slice(&behind);
        record
    }

    /// Out of a record that the reader wrote.
    fn from_record(record: &[u64; raw::STAGED]) -> Staged {
        let number = |n: usize| record[raw::HEADER + n] as usize;
        Staged {
            header: Header::from_record(record),
            blocks: number(0),
            end: number(1),
            // At most 4.
            body: BodyKind::ALL[number(2)],
            mask: match number(3) {
                1 => StagedMask::Kept(number(4)),
                _ => StagedMask::Spare(number(4)),
            },
        }
    }
}

impl PartialEq for Staged {
    fn eq(&self, other: &Staged) -> bool {
        self.record() == other.record()
    }
}

impl Eq for Staged {}

/// What publishing did.
#[derive(Clone, Copy, Debug, PartialEq, Eq, Hash)]
pub struct Published {
    /// Where the body ends.
    pub end: usize,
    /// How many words were written: valid pixels times depth.
    pub words: usize,
}

/// Does all of the checking of a whole read, and refuses what
/// [`read`](crate::read) refuses. The image is lent for its room alone; it and
/// the kept mask may be read by others meanwhile, as a shared borrow says.
///
/// Accepted: a new mask is in the spare, which is as it was where the kept one
/// is reused; the starts of the blocks are in the list, which is as it was for
/// a body without blocks.
///
/// Refused: the list is as it was, and so is the spare, except that a new mask
/// is left in it where the mask section was accepted.
pub fn stage(
    blob: &[u8],
    reuse: bool,
    kept: &[u8],
    spare: &mut [u8],
    list: &mut [usize],
    image: &[u64],
) -> Result<Staged, Refusal> {
    let mut staged = [0; raw::STAGED];
    Refusal::judge(|place| raw::stage(blob, reuse, kept, spare, list, image, &mut staged, place))?;
    Ok(Staged::from_record(&staged))
}

/// Does all of the writing: the image's valid cells, then the kept mask. It is
/// lent what [`stage`] left. Everything is checked again before anything is
/// written, by the mask that the blob gives, whatever the spare holds.
///
/// It refuses, in this order, what staging refuses of these inputs, with its
/// place; then [3](crate::Why::WrongField), at 0, if the answer is not the one
/// that staging gives for them, or the spare does not begin with the new mask,
/// or the list with the starts of the blocks. What lies past these is not
/// looked at, nor is the spare under reuse, or the list of a body without
/// blocks. A kept mask that changed meanwhile, with its count still right, is
/// published by, if answer and starts are the same.
///
/// Accepted: image, kept mask and end are those of a whole read. Once more is
/// accepted too, and changes nothing more; so it is after fills.
///
/// Refused: every slice is as it was.
///
/// ```
/// # let blob = [
/// #     &b"Lerc2 "[..], &4u32.to_le_bytes(), &0x386B3DDAu32.to_le_bytes(),
/// #     &1u32.to_le_bytes(), &3u32.to_le_bytes(), &1u32.to_le_bytes(),
/// #     &3u32.to_le_bytes(), &8u32.to_le_bytes(),
/// #     &79u32.to_le_bytes(), &1u32.to_le_bytes(),
/// #     &0.5f64.to_le_bytes(), &10f64.to_le_bytes(), &12f64.to_le_bytes(),
/// #     &0u32.to_le_bytes(),
/// #     &[0x0A, 0x0C, 0, 0, 1, 0x0A, 0x82, 3, 0x24],
/// # ]
/// # .concat();
/// use lerc2::{publish, stage, BodyKind};
///
/// let (mut kept, mut image) = ([0; 1], [7; 3]);
/// let (mut spare, mut list) = ([0; 1], [0; 1]);
/// let staged = stage(&blob, false, &kept, &mut spare, &mut list, &image)?;
/// assert_eq!((staged.body, staged.blocks, staged.end), (BodyKind::Blocks, 1, 79));
/// assert_eq!(image, [7; 3]); // Still what it was.
///
/// let published = publish(&blob, false, &staged, &mut kept, &spare, &list, &mut image)?;
/// assert_eq!((published.end, published.words), (79, 3));
/// assert_eq!(image, [10, 11, 12]);
/// # Ok::<(), lerc2::Refusal>(())
/// ```
pub fn publish(
    blob: &[u8],
    reuse: bool,
    staged: &Staged,
    kept: &mut [u8],
    spare: &[u8],
    list: &[usize],
    image: &mut [u64],
) -> Result<Published, Refusal> {
    let mut said = [0; raw::PUBLISH];
    let staged = staged.record();
    Refusal::judge(|place| {
        raw::publish(
            blob, reuse, &staged, kept, spare, list, image, &mut said, place,
        )
    })?;
    let [end, words] = said.map(|number| number as usize);
    Ok(Published { end, words })
}
