//! Which pixels of a made image are valid, and the mask section that says so.

use compare::random::Random;

#[derive(Clone, Copy, Debug, PartialEq, Eq)]
pub enum Valid {
    All,
    /// All but a lake, with scattered pixels along its shore, and what lies
    /// past a ragged edge on the right.
    Holes,
}

/// As Esri's encoder: fewer like bytes are copied.
const ALIKE: usize = 5;
/// Bytes of the longest run.
const MOST: usize = i16::MAX as usize;

/// By pixel.
pub fn pixels(valid: Valid, rows: usize, columns: usize) -> Vec<bool> {
    if valid == Valid::All {
        return vec![true; rows * columns];
    }
    let mut random = Random::new(2);
    let mut pixels = Vec::with_capacity(rows * columns);
    for row in 0..rows {
        let edge = columns - columns / 8 - random.below(columns / 16 + 1);
        let down = row as f64 / rows as f64;
        for column in 0..columns {
            let across = column as f64 / columns as f64;
            pixels.push(column < edge && is_dry(&mut random, across, down));
        }
    }
    pixels
}

fn is_dry(random: &mut Random, across: f64, down: f64) -> bool {
    let from_middle = ((across - 0.4) / 0.24).powi(2) + ((down - 0.5) / 0.3).powi(2);
    if from_middle < 0.75 {
        return false;
    }
    // A byte or a tile of the shore is neither full nor empty.
    from_middle >= 1.0 || random.once_in(2)
}

/// One bit for each pixel, the highest first.
pub fn mask(pixels: &[bool]) -> Vec<u8> {
    let mut mask = vec![0u8; pixels.len().div_ceil(8)];
    for (pixel, &valid) in pixels.iter().enumerate() {
        mask[pixel / 8] |= u8::from(valid) << (7 - pixel % 8);
    }
    mask
}

/// The runs of a mask, and their end mark.
pub fn section(mask: &[u8]) -> Vec<u8> {
    let mut section = Vec::new();
    let mut rest = mask;
    while !rest.is_empty() {
        let repeated = alike(rest, MOST);
        let taken = if repeated >= ALIKE {
            section.extend((-(repeated as i16)).to_le_bytes());
            section.push(rest[0]);
            repeated
        } else {
            let copied = unlike(rest);
            section.extend((copied as i16).to_le_bytes());
            section.extend_from_slice(&rest[..copied]);
            copied
        };
        rest = &rest[taken..];
    }
    section.extend(i16::MIN.to_le_bytes());
    section
}

/// How many bytes at the front are the same, of the first `most`.
fn alike(bytes: &[u8], most: usize) -> usize {
    let front = bytes.iter().take(most);
    front.take_while(|&&byte| byte == bytes[0]).count()
}

/// How many bytes to copy before like ones begin.
fn unlike(bytes: &[u8]) -> usize {
    let most = bytes.len().min(MOST);
    let begins = |&at: &usize| alike(&bytes[at..], ALIKE) == ALIKE;
    (1..most).find(begins).unwrap_or(most)
}

#[cfg(test)]
mod tests {
    use super::{mask, pixels, section, Valid};

    #[test]
    fn every_sort_of_byte() {
        for (rows, columns) in [(256, 256), (250, 250), (1024, 4096)] {
            let mask = mask(&pixels(Valid::Holes, rows, columns));
            let share = |sort: fn(u8) -> bool| {
                let count = mask.iter().filter(|&&byte| sort(byte)).count();
                100 * count / mask.len()
            };
            assert!((55..65).contains(&share(|byte| byte == 255)));
            assert!((25..35).contains(&share(|byte| byte == 0)));
            assert!((5..15).contains(&share(|byte| byte != 0 && byte != 255)));
        }
    }

    #[test]
    fn highest_bit_first() {
        let mut pixels = [false; 10];
        (pixels[0], pixels[9]) = (true, true);
        assert_eq!(mask(&pixels), [128, 64]);
    }

    #[test]
    fn four_like_bytes_are_copied_and_five_are_not() {
        let bytes = [[7, 7, 7, 7].as_slice(), &[9; 5], &[1, 2]].concat();
        let runs = [
            [4, 0, 7, 7, 7, 7].as_slice(),
            &[251, 255, 9],
            &[2, 0, 1, 2],
            &[0, 128],
        ];
        assert_eq!(section(&bytes), runs.concat());
        let runs = [[1, 128, 3].as_slice(), &[1, 0, 3], &[0, 128]];
        assert_eq!(section(&[3; 32768]), runs.concat());
    }
}
