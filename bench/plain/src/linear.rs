//! Words as they are stored, and bodies without blocks.

use crate::block::stored;
use crate::bytes::part;
use crate::tile::valid_runs;
use crate::Refusal;
use second::{word_size, Header, Ranges};

/// Words of a kind, as many as there is room for; gives where they end.
pub(crate) fn read_words(
    bytes: &[u8],
    at: usize,
    kind: u32,
    words: &mut [u64],
) -> Result<usize, Refusal> {
    let run = part(bytes, at, words.len() * word_size(kind))?;
    put_words(run, kind, words);
    Ok(at + run.len())
}

fn put_words(run: &[u8], kind: u32, words: &mut [u64]) {
    match word_size(kind) {
        1 => put(run, words, |b: [u8; 1]| b[0].into()),
        2 => put(run, words, |b| u16::from_le_bytes(b).into()),
        4 => put(run, words, |b| u32::from_le_bytes(b).into()),
        _ => put(run, words, u64::from_le_bytes),
    }
}

fn put<const N: usize>(run: &[u8], words: &mut [u64], word: impl Fn([u8; N]) -> u64) {
    let (chunks, _) = run.as_chunks();
    for (to, &bytes) in words.iter_mut().zip(chunks) {
        *to = word(bytes);
    }
}

/// Writes a raw body, all of which must be there first.
pub(crate) fn write_raw(
    bytes: &[u8],
    at: usize,
    header: &Header,
    mask: &[u8],
    image: &mut [u64],
) -> Result<usize, Refusal> {
    let depths = header.depth as usize;
    let pixel_bytes = depths * word_size(header.kind);
    let mut rest = part(bytes, at, header.valid as usize * pixel_bytes)?;
    let end = at + rest.len();
    for pixels in valid_runs(mask, header.pixels()) {
        let (run, after) = rest.split_at(pixels.len() * pixel_bytes);
        let cells = &mut image[pixels.start * depths..pixels.end * depths];
        put_words(run, header.kind, cells);
        rest = after;
    }
    Ok(end)
}

/// Writes the minimum of each depth.
pub(crate) fn write_constant(
    header: &Header,
    ranges: &Ranges,
    mask: &[u8],
    image: &mut [u64],
) -> Result<(), Refusal> {
    let depths = header.depth as usize;
    let minima = ranges.min[..depths].iter();
    let words = minima
        .map(|&min| stored(f64::from_bits(min), header.kind))
        .collect::<Result<Vec<u64>, Refusal>>()?;
    for pixels in valid_runs(mask, header.pixels()) {
        let cells = &mut image[pixels.start * depths..pixels.end * depths];
        if let [word] = words[..] {
            cells.fill(word);
        } else {
            let pixels = cells.chunks_exact_mut(depths);
            pixels.for_each(|cells| cells.copy_from_slice(&words));
        }
    }
    Ok(())
}
