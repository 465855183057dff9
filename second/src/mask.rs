//! Which pixels are valid.

use crate::bytes::little;
use crate::header::{held, Header, HEADER_BYTES};
use crate::refusal::{Refusal, NO_ROOM, WRONG_MASK};

/// Where the mask in force lies, and its length in bytes.
#[derive(Clone, Copy, Debug, PartialEq, Eq)]
pub enum Mask {
    Kept(usize),
    Spare(usize),
}

const END_OF_RUNS: i16 = i16::MIN;

/// Whatever is wrong with the section or with a reused mask, the place is that
/// of the header's number of mask bytes.
const WRONG: Refusal = Refusal::at(WRONG_MASK, 66);

/// The mask must reach the pixel's byte.
pub fn is_valid(mask: &[u8], pixel: usize) -> bool {
    mask[pixel / 8] & (128 >> (pixel % 8)) != 0
}

pub fn prepare_mask(
    blob: &[u8],
    header: &Header,
    reuse: bool,
    kept: &[u8],
    spare: &mut [u8],
) -> Result<Mask, Refusal> {
    let bytes = held(blob, header)?;
    let length = header.mask_length();
    if kept.len() < length || spare.len() < length {
        return Err(Refusal::of(NO_ROOM));
    }
    mask_in_force(bytes, header, reuse, kept, spare)
}

/// As [`prepare_mask`], once the header is held to the rules and both masks
/// have room.
pub(crate) fn mask_in_force(
    bytes: &[u8],
    header: &Header,
    reuse: bool,
    kept: &[u8],
    spare: &mut [u8],
) -> Result<Mask, Refusal> {
    let length = header.mask_length();
    let section = &bytes[HEADER_BYTES..header.after_mask()];
    if header.valid == 0 || header.valid as usize == header.pixels() {
        if !section.is_empty() {
            return Err(WRONG);
        }
        spare[..length].fill(if header.valid == 0 { 0 } else { 255 });
        return Ok(Mask::Spare(length));
    }
    if section.is_empty() && reuse {
        check_count(kept, header)?;
        return Ok(Mask::Kept(length));
    }
    // The spare is written only when nothing can be refused any more.
    let mask = unpack_runs(section, length)?;
    check_count(&mask, header)?;
    spare[..length].copy_from_slice(&mask);
    Ok(Mask::Spare(length))
}

fn unpack_runs(section: &[u8], length: usize) -> Result<Vec<u8>, Refusal> {
    let mut mask = Vec::new();
    let mut rest = section;
    loop {
        let run = little(take(&mut rest, 2)?) as i16;
        let bytes = usize::from(run.unsigned_abs());
        if run == END_OF_RUNS {
            break;
        } else if run > 0 {
            mask.extend_from_slice(take(&mut rest, bytes)?);
        } else if run < 0 {
            let repeated = take(&mut rest, 1)?[0];
            mask.resize(mask.len() + bytes, repeated);
        } else {
            return Err(WRONG);
        }
        // Judged at each run, so that a long section costs no memory.
        if mask.len() > length {
            return Err(WRONG);
        }
    }
    if !rest.is_empty() || mask.len() != length {
        return Err(WRONG);
    }
    Ok(mask)
}

fn take<'a>(rest: &mut &'a [u8], length: usize) -> Result<&'a [u8], Refusal> {
    let (taken, after) = rest.split_at_checked(length).ok_or(WRONG)?;
    *rest = after;
    Ok(taken)
}

fn check_count(mask: &[u8], header: &Header) -> Result<(), Refusal> {
    if count_valid(mask, header.pixels()) != header.valid {
        return Err(WRONG);
    }
    Ok(())
}

/// Bits after the last pixel are not counted.
fn count_valid(mask: &[u8], pixels: usize) -> u32 {
    let (whole, rest) = (pixels / 8, pixels % 8);
    let mut count = mask[..whole].iter().map(|byte| byte.count_ones()).sum();
    if rest > 0 {
        count += (mask[whole] >> (8 - rest)).count_ones();
    }
    count
}
