//! A pack of tiles from standard input: it is opened, each tile is staged, and
//! published where it was accepted. Writes a table of the field, the same as
//! `examples/pack.c` writes.
//!
//!     cargo run --example pack < field.pack

use lerc2::{publish, read_header, stage, Header, Pack, Refusal, Tile};
use std::env;
use std::fmt::Write as _;
use std::io::{self, Read, Write as _};
use std::process::ExitCode;

const USAGE: &str = "\
pack: reads a pack of Lerc2 version 4 tiles

  pack < field.pack    opens the pack, stages each tile and publishes those that are accepted, and writes a table
  pack --help          this text

The table has a line of names, then a line for each tile:
  row, column    where the tile stands in the field
  kind           what a sample is: i8, u8, i16, u16, i32, u32, f32 or f64
  size           rows x columns x depth of the tile, in cells
  answer         'accepted', or 'refused N at P': why, as a number, and where to look, from the first byte of the
                 tile's blob
The last line counts: 'T tiles, A accepted, R refused'.
A pack that is refused gives the one line 'refused 12 at 0'. The README has a table of numbers and places.

Exit status: 0 every tile was accepted, 1 the pack or a tile was refused, 2 not run, 3 the output was lost.
";

/// Statuses, in the order of the sentence above.
const ACCEPTED: u8 = 0;
const REFUSED: u8 = 1;
const NOT_RUN: u8 = 2;
const LOST: u8 = 3;

/// A tile that others look at under a lock.
struct Terrain {
    mask: Vec<u8>,
    image: Vec<u64>,
}

impl Terrain {
    fn with_room_for(header: &Header) -> Terrain {
        Terrain {
            mask: vec![0; header.mask_length()],
            image: vec![0; header.cells()],
        }
    }

    /// All of the checking, then all of the writing: between the two a unit takes
    /// the lock. A refusal leaves the terrain as it was.
    fn take(&mut self, blob: &[u8], header: &Header) -> Result<(), Refusal> {
        let (mut spare, mut list) = (vec![0; header.mask_length()], vec![0; header.blocks()]);
        let (kept, image) = (&mut self.mask, &mut self.image);
        let staged = stage(blob, false, kept, &mut spare, &mut list, image)?;
        publish(blob, false, &staged, kept, &spare, &list, image)?;
        Ok(())
    }
}

/// The line of a tile, and whether it was accepted. A unit has a mask and an
/// image for each tile; here each is let go again.
fn told(tile: &Tile) -> Result<(String, bool), Refusal> {
    let header = read_header(tile.blob)?;
    let taken = Terrain::with_room_for(&header).take(tile.blob, &header);
    let size = format!("{}x{}x{}", header.rows, header.columns, header.depth);
    let answer = match &taken {
        Ok(()) => "accepted".into(),
        Err(refusal) => refusal.to_string(),
    };
    let line = format!(
        "{:5} {:6} {:4} {size:14} {answer}",
        tile.row, tile.column, tile.kind
    );
    Ok((line, taken.is_ok()))
}

/// The table, and how many tiles of it were refused.
fn table(bytes: &[u8]) -> Result<(String, usize), Refusal> {
    let pack = Pack::open(bytes)?;
    let mut text = format!(
        "{:>5} {:>6} {:4} {:14} {}\n",
        "row", "column", "kind", "size", "answer"
    );
    let mut accepted = 0;
    for tile in &pack {
        let (line, is_accepted) = told(&tile)?;
        text += &line;
        text.push('\n');
        accepted += usize::from(is_accepted);
    }
    let (tiles, refused) = (pack.len(), pack.len() - accepted);
    writeln!(
        text,
        "{tiles} tiles, {accepted} accepted, {refused} refused"
    )
    .expect("a string has room");
    Ok((text, refused))
}

/// What is to be written, and the status where that is not lost.
fn answer() -> Result<(String, u8), String> {
    match &env::args_os().skip(1).collect::<Vec<_>>()[..] {
        [] => {}
        [word] if word == "--help" || word == "-h" => return Ok((USAGE.into(), ACCEPTED)),
        _ => {
            return Err("no word is known but --help; \
                        the pack comes from standard input: pack < field.pack"
                .into())
        }
    }
    if !lerc2::float_ready() {
        return Err("the float unit rounds otherwise or flushes small numbers".into());
    }
    let mut bytes = Vec::new();
    io::stdin()
        .read_to_end(&mut bytes)
        .map_err(|error| format!("standard input cannot be read: {error}"))?;
    Ok(match table(&bytes) {
        Ok((text, 0)) => (text, ACCEPTED),
        Ok((text, _)) => (text, REFUSED),
        Err(refusal) => (format!("{refusal}\n"), REFUSED),
    })
}

/// Not by `print!`, which fails where the output is lost.
fn written(text: &str) -> io::Result<()> {
    let mut out = io::stdout().lock();
    out.write_all(text.as_bytes())?;
    out.flush()
}

fn main() -> ExitCode {
    let (text, status) = match answer() {
        Ok(answer) => answer,
        Err(why) => {
            eprintln!("pack: {why}");
            return NOT_RUN.into();
        }
    };
    if let Err(error) = written(&text) {
        eprintln!("pack: the output could not be written: {error}");
        return LOST.into();
    }
    status.into()
}
