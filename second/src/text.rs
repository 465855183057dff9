//! The program's text.

use std::fmt::Write;

use crate::body::read;
use crate::header::Header;
use crate::mask::is_valid;
use crate::refusal::{Refusal, CEILING};

/// The longest input and the largest image that the program takes.
pub const MOST_BYTES: usize = 16_384;
pub const MOST_CELLS: usize = 4_096;

/// What the program writes for an input.
pub fn program_text(blob: &[u8]) -> String {
    image_text(blob).unwrap_or_else(|refusal| format!("{refusal}\n"))
}

fn image_text(blob: &[u8]) -> Result<String, Refusal> {
    if blob.len() > MOST_BYTES {
        return Err(Refusal::of(CEILING));
    }
    // There are no more pixels than cells, and no more blocks either.
    let mut kept = [0; MOST_CELLS / 8];
    let mut spare = [0; MOST_CELLS / 8];
    let mut list = vec![0; MOST_CELLS];
    let mut image = vec![0; MOST_CELLS];
    let (header, blocks, end) = read(blob, false, &mut kept, &mut spare, &mut list, &mut image)?;

    let mut text = head_line(&header);
    text += &format!("blocks {blocks}\n");
    for (cell, word) in image[..header.cells()].iter().enumerate() {
        if is_valid(&kept, cell / header.depth as usize) {
            let _ = writeln!(text, "cell {cell} {word}");
        } else {
            let _ = writeln!(text, "cell {cell} -");
        }
    }
    text += &format!("end {end}\n");
    Ok(text)
}

fn head_line(header: &Header) -> String {
    format!(
        "width {} height {} depth {} kind {} valid {}\n",
        header.columns, header.rows, header.depth, header.kind, header.valid
    )
}
