//! The entries of the C interface as they are, with slices in place of
//! pointers and lengths.
//!
//! Those that can refuse return 0 or the number of a refusal, and are lent a
//! slice for its place, the last one. Without room for a number it is refused 5
//! before anything else, and nothing is written. Else the first number of it is
//! written in every outcome: the place of the refusal, or 0. The rest stays.
//!
//! Records are slices of 64-bit numbers: a header 11, ranges 130, a staged
//! answer 16, an entry of a pack 6, what a function says 1, 2 or 13. A record
//! that is too short is refused 5, then a number that its field cannot hold 3,
//! both before anything else but the place, and both at place 0; a staged answer
//! with such a number is one that staging did not give, which [`publish`] refuses
//! 3 after all else. After a refusal the records are as they were.
//!
//! All `unsafe` of this crate is here. Each call hands over the pointer and
//! the length of a slice that lives through it; slices that are written do not
//! overlap others, since Rust lends them only so.

/// Numbers of a header's record: rows, columns, depth, valid, side, size,
/// kind, the bits of error, min and max, mask bytes.
pub const HEADER: usize = 11;
/// Numbers of the ranges' record: the body's place, the constant mark (0 or
/// 1), the bits of 64 minima and of 64 maxima.
pub const RANGES: usize = 130;
/// Numbers that [`prepare_mask`] says: 1 for the kept mask or 2 for the spare,
/// and the mask's length.
pub const MASK: usize = 2;
/// Numbers that [`walk`] says: how many blocks, and where the last one ends.
pub const WALK: usize = 2;
/// Numbers that [`fill`] says: how many words were written.
pub const FILL: usize = 1;
/// Numbers that [`stored`] says: the word.
pub const STORED: usize = 1;
/// Numbers that [`read`] says: the header's, how many blocks, the body's end.
pub const READ: usize = 13;
/// Numbers of a staged answer: the header's, how many blocks, the body's end,
/// the body (0 empty, 1 constant, 2 raw, 3 blocks, 4 Huffman), 1 for the kept
/// mask or 2 for the spare, and the mask's length.
pub const STAGED: usize = 16;
/// Numbers that [`publish`] says: the body's end, and how many words were
/// written.
pub const PUBLISH: usize = 2;
/// Numbers that [`pack_open`] says: how many tiles.
pub const PACK_OPEN: usize = 1;
/// Numbers of a pack's entry: row, column, kind, depth, where the blob begins,
/// its length.
pub const PACK_ENTRY: usize = 6;
/// Numbers that [`pack_write`] says: the pack's length.
pub const PACK_WRITE: usize = 1;
/// Numbers of a place.
pub const PLACE: usize = 1;

mod c {
    extern "C" {
        pub fn lerc2_read_header(
            blob: *const u8,
            n: usize,
            header: *mut u64,
            m: usize,
            place: *mut u64,
            place_n: usize,
        ) -> u32;
        pub fn lerc2_prepare_mask(
            blob: *const u8,
            n: usize,
            header: *const u64,
            m: usize,
            reuse: bool,
            kept: *const u8,
            kept_n: usize,
            spare: *mut u8,
            spare_n: usize,
            said: *mut u64,
            said_n: usize,
            place: *mut u64,
            place_n: usize,
        ) -> u32;
        pub fn lerc2_read_ranges(
            blob: *const u8,
            n: usize,
            header: *const u64,
            m: usize,
            ranges: *mut u64,
            ranges_n: usize,
            place: *mut u64,
            place_n: usize,
        ) -> u32;
        pub fn lerc2_walk(
            blob: *const u8,
            n: usize,
            header: *const u64,
            m: usize,
            ranges: *const u64,
            ranges_n: usize,
            mask: *const u8,
            mask_n: usize,
            list: *mut usize,
            list_n: usize,
            said: *mut u64,
            said_n: usize,
            place: *mut u64,
            place_n: usize,
        ) -> u32;
        pub fn lerc2_fill(
            blob: *const u8,
            n: usize,
            header: *const u64,
            m: usize,
            ranges: *const u64,
            ranges_n: usize,
            mask: *const u8,
            mask_n: usize,
            list: *const usize,
            list_n: usize,
            number: usize,
            image: *mut u64,
            image_n: usize,
            said: *mut u64,
            said_n: usize,
            place: *mut u64,
            place_n: usize,
        ) -> u32;
        pub fn lerc2_read(
            blob: *const u8,
            n: usize,
            reuse: bool,
            kept: *mut u8,
            kept_n: usize,
            spare: *mut u8,
            spare_n: usize,
            list: *mut usize,
            list_n: usize,
            image: *mut u64,
            image_n: usize,
            said: *mut u64,
            said_n: usize,
            place: *mut u64,
            place_n: usize,
        ) -> u32;
        pub fn lerc2_stage(
            blob: *const u8,
            n: usize,
            reuse: bool,
            kept: *const u8,
            kept_n: usize,
            spare: *mut u8,
            spare_n: usize,
            list: *mut usize,
            list_n: usize,
            image: *const u64,
            image_n: usize,
            staged: *mut u64,
            staged_n: usize,
            place: *mut u64,
            place_n: usize,
        ) -> u32;
        pub fn lerc2_publish(
            blob: *const u8,
            n: usize,
            reuse: bool,
            staged: *const u64,
            staged_n: usize,
            kept: *mut u8,
            kept_n: usize,
            spare: *const u8,
            spare_n: usize,
            list: *const usize,
            list_n: usize,
            image: *mut u64,
            image_n: usize,
            said: *mut u64,
            said_n: usize,
            place: *mut u64,
            place_n: usize,
        ) -> u32;
        pub fn lerc2_pack_open(
            pack: *const u8,
            n: usize,
            said: *mut u64,
            said_n: usize,
            place: *mut u64,
            place_n: usize,
        ) -> u32;
        pub fn lerc2_pack_entry(
            pack: *const u8,
            n: usize,
            tiles: usize,
            number: usize,
            entry: *mut u64,
            entry_n: usize,
            place: *mut u64,
            place_n: usize,
        ) -> u32;
        pub fn lerc2_pack_write(
            rows: *const u16,
            rows_n: usize,
            columns: *const u16,
            columns_n: usize,
            lengths: *const usize,
            lengths_n: usize,
            bodies: *const u8,
            bodies_n: usize,
            pack: *mut u8,
            pack_n: usize,
            said: *mut u64,
            said_n: usize,
            place: *mut u64,
            place_n: usize,
        ) -> u32;
        pub fn lerc2_float_ready(mix: u64) -> bool;
        pub fn lerc2_sum(a: u64, b: u64) -> u64;
        pub fn lerc2_scaled(a: u64, q: u32) -> u64;
        pub fn lerc2_narrow(v: u64) -> u32;
        pub fn lerc2_number(word: u64, kind: u32) -> u64;
        pub fn lerc2_checksum(bytes: *const u8, n: usize) -> u32;
        pub fn lerc2_stored(
            v: u64,
            kind: u32,
            said: *mut u64,
            said_n: usize,
            place: *mut u64,
            place_n: usize,
        ) -> u32;
    }
}

/// The header of a blob into its record.
pub fn read_header(blob: &[u8], header: &mut [u64], place: &mut [u64]) -> u32 {
    unsafe {
        c::lerc2_read_header(
            blob.as_ptr(),
            blob.len(),
            header.as_mut_ptr(),
            header.len(),
            place.as_mut_ptr(),
            place.len(),
        )
    }
}

/// The mask in force, written to the spare unless the kept mask is reused.
pub fn prepare_mask(
    blob: &[u8],
    header: &[u64],
    reuse: bool,
    kept: &[u8],
    spare: &mut [u8],
    said: &mut [u64],
    place: &mut [u64],
) -> u32 {
    unsafe {
        c::lerc2_prepare_mask(
            blob.as_ptr(),
            blob.len(),
            header.as_ptr(),
            header.len(),
            reuse,
            kept.as_ptr(),
            kept.len(),
            spare.as_mut_ptr(),
            spare.len(),
            said.as_mut_ptr(),
            said.len(),
            place.as_mut_ptr(),
            place.len(),
        )
    }
}

/// The ranges of each depth into their record.
pub fn read_ranges(blob: &[u8], header: &[u64], ranges: &mut [u64], place: &mut [u64]) -> u32 {
    unsafe {
        c::lerc2_read_ranges(
            blob.as_ptr(),
            blob.len(),
            header.as_ptr(),
            header.len(),
            ranges.as_mut_ptr(),
            ranges.len(),
            place.as_mut_ptr(),
            place.len(),
        )
    }
}

/// Checks every block, then writes the list of their starts.
pub fn walk(
    blob: &[u8],
    header: &[u64],
    ranges: &[u64],
    mask: &[u8],
    list: &mut [usize],
    said: &mut [u64],
    place: &mut [u64],
) -> u32 {
    unsafe {
        c::lerc2_walk(
            blob.as_ptr(),
            blob.len(),
            header.as_ptr(),
            header.len(),
            ranges.as_ptr(),
            ranges.len(),
            mask.as_ptr(),
            mask.len(),
            list.as_mut_ptr(),
            list.len(),
            said.as_mut_ptr(),
            said.len(),
            place.as_mut_ptr(),
            place.len(),
        )
    }
}

/// Writes the valid cells of one block.
#[allow(clippy::too_many_arguments)]
pub fn fill(
    blob: &[u8],
    header: &[u64],
    ranges: &[u64],
    mask: &[u8],
    list: &[usize],
    number: usize,
    image: &mut [u64],
    said: &mut [u64],
    place: &mut [u64],
) -> u32 {
    unsafe {
        c::lerc2_fill(
            blob.as_ptr(),
            blob.len(),
            header.as_ptr(),
            header.len(),
            ranges.as_ptr(),
            ranges.len(),
            mask.as_ptr(),
            mask.len(),
            list.as_ptr(),
            list.len(),
            number,
            image.as_mut_ptr(),
            image.len(),
            said.as_mut_ptr(),
            said.len(),
            place.as_mut_ptr(),
            place.len(),
        )
    }
}

/// Reads a whole blob.
#[allow(clippy::too_many_arguments)]
pub fn read(
    blob: &[u8],
    reuse: bool,
    kept: &mut [u8],
    spare: &mut [u8],
    list: &mut [usize],
    image: &mut [u64],
    said: &mut [u64],
    place: &mut [u64],
) -> u32 {
    unsafe {
        c::lerc2_read(
            blob.as_ptr(),
            blob.len(),
            reuse,
            kept.as_mut_ptr(),
            kept.len(),
            spare.as_mut_ptr(),
            spare.len(),
            list.as_mut_ptr(),
            list.len(),
            image.as_mut_ptr(),
            image.len(),
            said.as_mut_ptr(),
            said.len(),
            place.as_mut_ptr(),
            place.len(),
        )
    }
}

/// Does all the checking of a whole read: a new mask into the spare, block starts
/// into the list, the answer into its record. The image is lent for its room.
#[allow(clippy::too_many_arguments)]
pub fn stage(
    blob: &[u8],
    reuse: bool,
    kept: &[u8],
    spare: &mut [u8],
    list: &mut [usize],
    image: &[u64],
    staged: &mut [u64],
    place: &mut [u64],
) -> u32 {
    unsafe {
        c::lerc2_stage(
            blob.as_ptr(),
            blob.len(),
            reuse,
            kept.as_ptr(),
            kept.len(),
            spare.as_mut_ptr(),
            spare.len(),
            list.as_mut_ptr(),
            list.len(),
            image.as_ptr(),
            image.len(),
            staged.as_mut_ptr(),
            staged.len(),
            place.as_mut_ptr(),
            place.len(),
        )
    }
}

/// Writes the cells, then the mask, of a blob whose staging gave this answer,
/// spare and list.
#[allow(clippy::too_many_arguments)]
pub fn publish(
    blob: &[u8],
    reuse: bool,
    staged: &[u64],
    kept: &mut [u8],
    spare: &[u8],
    list: &[usize],
    image: &mut [u64],
    said: &mut [u64],
    place: &mut [u64],
) -> u32 {
    unsafe {
        c::lerc2_publish(
            blob.as_ptr(),
            blob.len(),
            reuse,
            staged.as_ptr(),
            staged.len(),
            kept.as_mut_ptr(),
            kept.len(),
            spare.as_ptr(),
            spare.len(),
            list.as_ptr(),
            list.len(),
            image.as_mut_ptr(),
            image.len(),
            said.as_mut_ptr(),
            said.len(),
            place.as_mut_ptr(),
            place.len(),
        )
    }
}

/// Whether these bytes are a pack, and of how many tiles.
pub fn pack_open(pack: &[u8], said: &mut [u64], place: &mut [u64]) -> u32 {
    unsafe {
        c::lerc2_pack_open(
            pack.as_ptr(),
            pack.len(),
            said.as_mut_ptr(),
            said.len(),
            place.as_mut_ptr(),
            place.len(),
        )
    }
}

/// The entry of this number, of a pack of so many tiles, into its record. Any
/// bytes and any count are answered, with what the entry's bytes say.
pub fn pack_entry(
    pack: &[u8],
    tiles: usize,
    number: usize,
    entry: &mut [u64],
    place: &mut [u64],
) -> u32 {
    unsafe {
        c::lerc2_pack_entry(
            pack.as_ptr(),
            pack.len(),
            tiles,
            number,
            entry.as_mut_ptr(),
            entry.len(),
            place.as_mut_ptr(),
            place.len(),
        )
    }
}

/// Writes a pack: one row, column and length for each tile, and the blobs end
/// to end.
pub fn pack_write(
    rows: &[u16],
    columns: &[u16],
    lengths: &[usize],
    bodies: &[u8],
    pack: &mut [u8],
    said: &mut [u64],
    place: &mut [u64],
) -> u32 {
    unsafe {
        c::lerc2_pack_write(
            rows.as_ptr(),
            rows.len(),
            columns.as_ptr(),
            columns.len(),
            lengths.as_ptr(),
            lengths.len(),
            bodies.as_ptr(),
            bodies.len(),
            pack.as_mut_ptr(),
            pack.len(),
            said.as_mut_ptr(),
            said.len(),
            place.as_mut_ptr(),
            place.len(),
        )
    }
}

/// Whether the calling thread's float unit rounds as the reader needs. `mix`
/// is 0; another word tries other operands, which may tell less.
pub fn float_ready(mix: u64) -> bool {
    unsafe { c::lerc2_float_ready(mix) }
}

/// The sum of two binary64 numbers, as bits.
pub fn sum(a: u64, b: u64) -> u64 {
    unsafe { c::lerc2_sum(a, b) }
}

/// Twice `q` times a binary64 number, as bits.
pub fn scaled(a: u64, q: u32) -> u64 {
    unsafe { c::lerc2_scaled(a, q) }
}

/// The bits of a binary64 number as those of a binary32.
pub fn narrow(v: u64) -> u32 {
    unsafe { c::lerc2_narrow(v) }
}

/// The checksum of these bytes.
pub fn checksum(bytes: &[u8]) -> u32 {
    unsafe { c::lerc2_checksum(bytes.as_ptr(), bytes.len()) }
}

/// The number that a word of the kind stands for, as the bits of a binary64.
pub fn number(word: u64, kind: u32) -> u64 {
    unsafe { c::lerc2_number(word, kind) }
}

/// A binary64 number, as bits, as a stored word of the kind. The place is
/// always 0.
pub fn stored(v: u64, kind: u32, said: &mut [u64], place: &mut [u64]) -> u32 {
    unsafe {
        c::lerc2_stored(
            v,
            kind,
            said.as_mut_ptr(),
            said.len(),
            place.as_mut_ptr(),
            place.len(),
        )
    }
}
