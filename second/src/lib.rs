//! A reader of one Lerc2 version 4 blob, and of packs of them, written from the
//! rules alone.
//!
//! The steps can be called one by one ([`read_header`], [`prepare_mask`],
//! [`read_ranges`], [`walk`], [`fill`]), as two ([`stage`], [`publish`]) or all
//! at once ([`read`]). Numbers are handed around as the bits of a binary64;
//! cells are native words, which are the sample's own bits, zero-extended.
//!
//! The blobs of a field come in one [`Pack`], which [`write_pack`] writes.
//!
//! A refusal is a number and the place of what is at fault, and leaves every
//! lent slice as it was, except that an accepted new mask stays in the spare;
//! that of [`publish`] leaves the spare as well.

mod block;
mod body;
mod bytes;
mod checksum;
pub mod exact;
mod header;
mod huffman;
mod mask;
mod numbers;
mod pack;
mod packed;
mod ranges;
pub mod refusal;
mod stage;
mod text;
mod tile;

pub use body::{fill, read, walk};
pub use checksum::checksum;
pub use header::{read_header, Header};
pub use mask::{is_valid, prepare_mask, Mask};
pub use numbers::{is_finite, less, narrow, number, same, scaled, stored, sum, word_size};
pub use pack::{open_pack, pack_body, pack_entry, write_pack, Entry, Pack, MOST_TILES};
pub use packed::{packed_counts, MOST_COUNTS};
pub use ranges::{read_ranges, Ranges, MOST_DEPTH};
pub use refusal::Refusal;
pub use stage::{publish, stage, BodyKind, PublishAnswer, Published, StageAnswer, Staged};
pub use text::{program_text, MOST_BYTES, MOST_CELLS};
