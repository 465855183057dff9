//! Which pixels are valid.

use crate::header::Header;
use crate::raw;
use crate::refusal::Refusal;

/// The mask in force: a part of the kept mask, or of the spare.
#[derive(Clone, Copy, Debug, PartialEq, Eq)]
pub enum Mask<'a> {
    /// The kept mask is reused; the spare is as it was.
    Kept(&'a [u8]),
    /// A new mask, in the spare.
    Spare(&'a [u8]),
}

impl<'a> Mask<'a> {
    /// Its bytes.
    pub fn bytes(self) -> &'a [u8] {
        match self {
            Mask::Kept(bytes) | Mask::Spare(bytes) => bytes,
        }
    }
}

/// Whether a pixel is valid; a mask that does not reach it says no.
pub fn is_valid(mask: &[u8], pixel: usize) -> bool {
    let byte = mask.get(pixel / 8).copied().unwrap_or(0);
    byte & (128 >> (pixel % 8)) != 0
}

/// Prepares the mask of a blob. With `reuse`, a blob that has no mask of its
/// own takes the kept one. Both masks need room.
pub fn prepare_mask<'a>(
    blob: &[u8],
    header: &Header,
    reuse: bool,
    kept: &'a [u8],
    spare: &'a mut [u8],
) -> Result<Mask<'a>, Refusal> {
    let mut said = [0; raw::MASK];
    let header = header.record();
    Refusal::judge(|place| raw::prepare_mask(blob, &header, reuse, kept, spare, &mut said, place))?;
    let [which, length] = said.map(|number| number as usize);
    Ok(match which {
        1 => Mask::Kept(&kept[..length]),
        _ => Mask::Spare(&spare[..length]),
    })
}
