//! A pack of tiles as one picture: the field with its tiles in their rows and
//! columns, the range of its values, and what is missing or wrong.
//!
//!     cargo run --example field -- --scale 3 < field.pack > field.png

mod canvas;
mod font;
mod mosaic;
mod png;

use mosaic::{draw, Failed};
use std::env;
use std::io::{self, Read, Write};
use std::process::ExitCode;

const USAGE: &str = "\
field: draws a pack of Lerc2 version 4 tiles as one PNG

  field < field.pack > field.png    the tiles of the pack in their rows and columns
    --depth D                       the depth that is drawn, 0 to 63; 0 where it is not said
    --scale N                       each pixel N times as wide and high, 1 to 64; 1 where it is not said
  field --help                      this text

A row of tiles is as high as the highest of them, a column as wide as the widest; beside them stand their numbers.
Rows and columns without a tile are left out, with a wider gap in their place. Values go from the least valid one of the field, dark, to the greatest,
light; the strip below has both. Grey checks are pixels that are not valid (or not finite, or of a tile that is not so
deep). A tile that is refused is crossed out in red, with 'N at P', where there is room: why, as a number, and where to
look in its blob; standard error says it too, 'tile ROW COLUMN: refused N at P'. A tile that is missing is blank.
At most 67,108,864 pixels are drawn.

Exit status: 0 every tile was accepted, 1 the pack or a tile was refused (of a refused pack there is no picture), 2 not
run, 3 the output was lost.
";

/// Statuses, in the order of the sentence above.
const ACCEPTED: u8 = 0;
const REFUSED: u8 = 1;
const NOT_RUN: u8 = 2;
const LOST: u8 = 3;

const MOST_DEPTH: usize = 63;
const MOST_SCALE: usize = 64;

/// What the caller asks for.
enum Asked {
    Help,
    Picture { depth: u32, scale: usize },
}

/// A word and the number behind it, each at most once.
fn asked(words: &[String]) -> Result<Asked, String> {
    if let [word] = words {
        if word == "--help" || word == "-h" {
            return Ok(Asked::Help);
        }
    }
    let (mut depth, mut scale) = (None, None);
    for pair in words.chunks(2) {
        let (option, range) = match pair[0].as_str() {
            "--depth" => (&mut depth, 0..=MOST_DEPTH),
            "--scale" => (&mut scale, 1..=MOST_SCALE),
            word => return Err(format!("unknown word {word}; field --help names them")),
        };
        let number = pair.get(1).and_then(|text| text.parse().ok());
        match number.filter(|number| range.contains(number)) {
            Some(number) if option.is_none() => *option = Some(number),
            Some(_) => return Err(format!("{} stands there twice", pair[0])),
            None => {
                let (least, most) = (range.start(), range.end());
                return Err(format!("{} needs a number, {least} to {most}", pair[0]));
            }
        }
    }
    Ok(Asked::Picture {
        depth: depth.unwrap_or(0) as u32,
        scale: scale.unwrap_or(1),
    })
}

/// The PNG, and the status where it is not lost. Of a refused pack it is empty.
fn picture(depth: u32, scale: usize) -> Result<(Vec<u8>, u8), String> {
    if !lerc2::float_ready() {
        return Err("the float unit rounds otherwise or flushes small numbers".into());
    }
    let mut bytes = Vec::new();
    io::stdin()
        .read_to_end(&mut bytes)
        .map_err(|error| format!("standard input cannot be read: {error}"))?;
    match draw(&bytes, depth, scale) {
        Ok(picture) => {
            for (row, column, refusal) in &picture.refused {
                eprintln!("field: tile {row} {column}: {refusal}");
            }
            let status = if picture.refused.is_empty() {
                ACCEPTED
            } else {
                REFUSED
            };
            Ok((picture.png, status))
        }
        Err(Failed::Refused(refusal)) => {
            eprintln!("field: {refusal}: {}", refusal.where_to_look());
            Ok((Vec::new(), REFUSED))
        }
        Err(Failed::TooLarge(pixels)) => Err(format!(
            "the picture would have {pixels} pixels, which is too many"
        )),
    }
}

fn answer() -> Result<(Vec<u8>, u8), String> {
    let words: Result<Vec<String>, _> = env::args_os().skip(1).map(|w| w.into_string()).collect();
    let words = words.map_err(|word| format!("unknown word {word:?}"))?;
    match asked(&words)? {
        Asked::Help => Ok((USAGE.into(), ACCEPTED)),
        Asked::Picture { depth, scale } => picture(depth, scale),
    }
}

fn written(bytes: &[u8]) -> io::Result<()> {
    let mut out = io::stdout().lock();
    out.write_all(bytes)?;
    out.flush()
}

fn main() -> ExitCode {
    let (bytes, status) = match answer() {
        Ok(answer) => answer,
        Err(why) => {
            eprintln!("field: {why}");
            return NOT_RUN.into();
        }
    };
    if let Err(error) = written(&bytes) {
        eprintln!("field: the output could not be written: {error}");
        return LOST.into();
    }
    status.into()
}
