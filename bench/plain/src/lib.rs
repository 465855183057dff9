//! A reader of one Lerc2 version 4 blob as one writes it for speed without
//! tricks: the machine's doubles, each value found once, blocks staged in a
//! `Vec` until all of them are accepted.
//!
//! What is done once for an image (header, mask, ranges) is that of `second`;
//! what is done for each cell is here. Answers, refusal numbers and what is
//! left of every lent slice are those of `second`, too; places are not told.

mod block;
mod body;
mod bytes;
mod given;
mod huffman;
mod linear;
mod packed;
mod tile;

pub use body::{fill, read, walk};
pub use second::{prepare_mask, read_header, read_ranges, Header, Mask, Ranges};

/// The number of a refusal.
pub type Refusal = u32;
