//! A reader of Lerc2 version 4 blobs, alone or many in one pack, whose every
//! function is proved to meet its contract, called through its C interface.
//!
//! [`read`] reads a whole blob: it is [`stage`], which checks all of it, and
//! [`publish`], which writes it, one after the other. Who looks at the image
//! while a blob comes in calls these two, the second under a lock, and finds the
//! old image or the new, never a part of each.
//! The steps can be called one by one as well: [`read_header`],
//! [`prepare_mask`], [`read_ranges`], [`walk`], [`fill`].
//! Every function takes any bytes and any slices. How long the slices must be,
//! a header tells: [`Header::mask_length`], [`Header::blocks`],
//! [`Header::cells`]; longer is fine.
//!
//! A [`Pack`] is a field of tiles in one file, each of them a blob:
//! [`Pack::open`] judges it as a whole, and its tiles are read as any other
//! blobs. [`pack_tiles`] and [`write_pack`] make one.
//!
//! A [`Refusal`] has a number and a place in the blob, "refused 8 at 74"; it
//! leaves every lent slice as it was, except that [`read`] and [`stage`] leave
//! an accepted new mask in the spare.
//!
//! Cells are words: the sample's own bits, zero-extended. The word of pixel
//! `p` at depth `d` stands at `p * depth + d`; [`Kind::number`] gives its
//! number. Cells of pixels that are not valid are not written.
//!
//! The checksum is tested where a header is read from the bytes, by
//! [`read_header`], [`read`], [`stage`] and [`publish`], and not by the other
//! steps; [`checksum`] computes it.
//!
//! A thread that has changed its float unit must not read: [`float_ready`].
//!
//! ```
//! let blob = [
//!     &b"Lerc2 "[..], &4u32.to_le_bytes(), &0x386B3DDAu32.to_le_bytes(), // key, version, checksum
//!     &1u32.to_le_bytes(), &3u32.to_le_bytes(), &1u32.to_le_bytes(), // rows, columns, depth
//!     &3u32.to_le_bytes(), &8u32.to_le_bytes(), // valid, side
//!     &79u32.to_le_bytes(), &1u32.to_le_bytes(), // size, kind
//!     &0.5f64.to_le_bytes(), &10f64.to_le_bytes(), &12f64.to_le_bytes(), // error, min, max
//!     &0u32.to_le_bytes(), // mask bytes
//!     &[0x0A, 0x0C, 0, 0, 1, 0x0A, 0x82, 3, 0x24], // ranges, body
//! ]
//! .concat();
//! let header = lerc2::read_header(&blob)?;
//! let mut kept = vec![0; header.mask_length()];
//! let mut spare = kept.clone();
//! let mut list = vec![0; header.blocks()];
//! let mut image = vec![0; header.cells()];
//! let whole = lerc2::read(&blob, false, &mut kept, &mut spare, &mut list, &mut image)?;
//! assert_eq!(image, [10, 11, 12]);
//! assert_eq!((whole.blocks, whole.end), (1, 79));
//! # Ok::<(), lerc2::Refusal>(())
//! ```

#![deny(unsafe_code, missing_docs)]

mod arithmetic;
mod header;
mod mask;
mod pack;
mod ranges;
mod refusal;
mod stage;
mod steps;

// The only place with `unsafe` in it.
#[allow(unsafe_code)]
pub mod raw;

pub use arithmetic::{float_ready, narrow, scaled, sum};
pub use header::{checksum, read_header, Header, Kind};
pub use mask::{is_valid, prepare_mask, Mask};
pub use pack::{pack_length, pack_tiles, write_pack, Entry, Pack, Tile, Tiles, MOST_TILES};
pub use ranges::{read_ranges, Ranges, MOST_DEPTH};
pub use refusal::{Refusal, Why};
pub use stage::{publish, stage, BodyKind, Published, Staged, StagedMask};
pub use steps::{fill, read, walk, Walked, Whole};
