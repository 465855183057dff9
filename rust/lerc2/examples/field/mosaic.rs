//! A field of tiles as a picture: each tile where its row and its column stand, and
//! a legend under them.

use crate::canvas::{checks, crossed, shade, text_width, Area, Canvas, PAPER};
use crate::font;
use lerc2::{is_valid, publish, read_header, stage, Header, Pack, Refusal, Tile};
use std::collections::BTreeMap;

/// The most pixels of a picture.
const MOST_PIXELS: usize = 1 << 26;

/// Pixels around the picture, between tiles, between those that are no neighbours,
/// between tiles and their numbers, and of a letter's dot.
const MARGIN: usize = 12;
const GAP: usize = 2;
const BREAK: usize = 16;
const BESIDE: usize = 6;
const DOT: usize = 2;
const TEXT: usize = font::HEIGHT * DOT;

/// The bar of the legend, and the boxes beside its words.
const BAR_HEIGHT: usize = 18;
const BAR_MOST: usize = 480;
const BOX: usize = 18;
const BETWEEN: usize = 28;
const MARKS: [&str; 2] = ["not valid", "refused"];

/// The side of a check.
const CHECK: usize = 4;

/// One tile: the numbers of the depth that is drawn, row by row, those that are
/// not valid as NaN; or why it has none.
struct Sheet {
    row: u16,
    column: u16,
    header: Header,
    numbers: Result<Vec<f64>, Refusal>,
}

impl Sheet {
    fn of(tile: &Tile, depth: u32) -> Result<Sheet, Refusal> {
        let header = read_header(tile.blob)?;
        Ok(Sheet {
            row: tile.row,
            column: tile.column,
            header,
            numbers: numbers(tile.blob, &header, depth),
        })
    }
}

/// The image of a blob at one depth; a blob that is not so deep has no number.
fn numbers(blob: &[u8], header: &Header, depth: u32) -> Result<Vec<f64>, Refusal> {
    let (mut kept, mut image) = (vec![0; header.mask_length()], vec![0; header.cells()]);
    let (mut spare, mut list) = (kept.clone(), vec![0; header.blocks()]);
    let staged = stage(blob, false, &kept, &mut spare, &mut list, &image)?;
    publish(blob, false, &staged, &mut kept, &spare, &list, &mut image)?;
    let number = |pixel: usize| {
        if depth < header.depth && is_valid(&kept, pixel) {
            let cell = pixel * header.depth as usize + depth as usize;
            header.kind.number(image[cell])
        } else {
            f64::NAN
        }
    };
    Ok((0..header.pixels()).map(number).collect())
}

/// The least and the greatest number of a field. Infinities are not counted.
#[derive(Clone, Copy)]
struct Span {
    least: f64,
    greatest: f64,
}

impl Span {
    /// None where no number is valid.
    fn of(sheets: &[Sheet]) -> Option<Span> {
        let drawn = sheets
            .iter()
            .filter_map(|sheet| sheet.numbers.as_ref().ok());
        let finite = drawn.flatten().filter(|number| number.is_finite());
        finite.fold(None, |span: Option<Span>, &number| {
            let (least, greatest) = span.map_or((number, number), |s| (s.least, s.greatest));
            Some(Span {
                least: least.min(number),
                greatest: greatest.max(number),
            })
        })
    }

    /// Halves, since the whole difference may not be finite.
    fn part(&self, number: f64) -> f64 {
        let whole = self.greatest / 2.0 - self.least / 2.0;
        if whole > 0.0 {
            (number / 2.0 - self.least / 2.0) / whole
        } else {
            0.5
        }
    }
}

/// A row of tiles, or a column: where it begins in the picture, and how many pixels
/// it has.
#[derive(Default)]
struct Strip {
    at: usize,
    length: usize,
}

/// The rows of the field, or its columns: those that have a tile, by their numbers.
struct Strips(BTreeMap<u16, Strip>);

impl Strips {
    /// Each as long as the longest tile in it; the first begins at `start`.
    fn new(tiles: impl Iterator<Item = (u16, usize)>, start: usize) -> Strips {
        let mut strips: BTreeMap<u16, Strip> = BTreeMap::new();
        for (number, length) in tiles {
            let strip = strips.entry(number).or_default();
            strip.length = strip.length.max(length);
        }
        let (mut at, mut next) = (start, None);
        for (&number, strip) in &mut strips {
            // Behind the one before: where some are left out, farther.
            at += match next {
                None => 0,
                Some(next) if next == u32::from(number) => GAP,
                Some(_) => BREAK,
            };
            strip.at = at;
            at += strip.length;
            next = Some(u32::from(number) + 1);
        }
        Strips(strips)
    }

    /// Where the last one ends; `start` where there is none.
    fn end(&self, start: usize) -> usize {
        let last = self.0.values().next_back();
        last.map_or(start, |strip| strip.at + strip.length)
    }
}

/// A picture that is not drawn.
pub enum Failed {
    /// The pack, which makes all of it wrong.
    Refused(Refusal),
    TooLarge(usize),
}

impl From<Refusal> for Failed {
    fn from(refusal: Refusal) -> Failed {
        Failed::Refused(refusal)
    }
}

/// A picture, and the tiles that are crossed out in it: row, column, why.
pub struct Picture {
    pub png: Vec<u8>,
    pub refused: Vec<(u16, u16, Refusal)>,
}

struct Layout {
    rows: Strips,
    columns: Strips,
    scale: usize,
    width: usize,
    height: usize,
    /// Where the legend begins.
    left: usize,
    below: usize,
}

impl Layout {
    /// From the headers alone, before anything is decoded.
    fn of(pack: &Pack, scale: usize) -> Result<Layout, Failed> {
        let mut headers = Vec::new();
        for tile in pack {
            headers.push((tile.row, tile.column, read_header(tile.blob)?));
        }
        let widest = headers.iter().map(|(row, _, _)| row.to_string().len());
        let labels = text_width(&"0".repeat(widest.max().unwrap_or(0)), DOT);
        let (left, top) = (MARGIN + labels + BESIDE, MARGIN + TEXT + BESIDE);
        let heights = headers
            .iter()
            .map(|(row, _, h)| (*row, h.rows as usize * scale));
        let widths = headers
            .iter()
            .map(|(_, column, h)| (*column, h.columns as usize * scale));
        let (rows, columns) = (Strips::new(heights, top), Strips::new(widths, left));
        let (right, below) = (columns.end(left), rows.end(top) + MARGIN);
        let legend = BAR_HEIGHT + BESIDE + TEXT + MARGIN + BOX + MARGIN;
        let (width, height) = (right.max(left + marks_width()) + MARGIN, below + legend);
        if width.saturating_mul(height) > MOST_PIXELS {
            return Err(Failed::TooLarge(width.saturating_mul(height)));
        }
        Ok(Layout {
            rows,
            columns,
            scale,
            width,
            height,
            left,
            below,
        })
    }

    fn area(&self, sheet: &Sheet) -> Area {
        Area {
            x: self.columns.0[&sheet.column].at,
            y: self.rows.0[&sheet.row].at,
            width: sheet.header.columns as usize * self.scale,
            height: sheet.header.rows as usize * self.scale,
        }
    }
}

/// Draws one depth of a pack, each pixel so many times as wide and high.
pub fn draw(bytes: &[u8], depth: u32, scale: usize) -> Result<Picture, Failed> {
    let pack = Pack::open(bytes)?;
    let layout = Layout::of(&pack, scale)?;
    let mut sheets = Vec::new();
    for tile in &pack {
        sheets.push(Sheet::of(&tile, depth)?);
    }
    let span = Span::of(&sheets);
    let mut canvas = Canvas::new(layout.width, layout.height);
    write_labels(&mut canvas, &layout);
    for sheet in &sheets {
        draw_sheet(&mut canvas, &layout, sheet, span);
    }
    draw_legend(&mut canvas, &layout, span);
    let refused = sheets.iter().filter_map(|sheet| {
        let refusal = sheet.numbers.as_ref().err()?;
        Some((sheet.row, sheet.column, *refusal))
    });
    Ok(Picture {
        png: canvas.png(),
        refused: refused.collect(),
    })
}

/// The number of each row and of each column, where it begins; one that would run
/// into the next is left out.
fn write_labels(canvas: &mut Canvas, layout: &Layout) {
    for (row, strip) in &layout.rows.0 {
        let text = row.to_string();
        let x = layout.left - BESIDE - text_width(&text, DOT);
        if TEXT <= strip.length + GAP {
            canvas.write(&text, x, strip.at, DOT);
        }
    }
    for (column, strip) in &layout.columns.0 {
        let text = column.to_string();
        if text_width(&text, DOT) <= strip.length {
            canvas.write(&text, strip.at, MARGIN, DOT);
        }
    }
}

fn draw_sheet(canvas: &mut Canvas, layout: &Layout, sheet: &Sheet, span: Option<Span>) {
    let (area, scale) = (layout.area(sheet), layout.scale);
    let numbers = match &sheet.numbers {
        Ok(numbers) => numbers,
        Err(refusal) => return cross_out(canvas, area, *refusal),
    };
    let columns = sheet.header.columns as usize;
    canvas.paint(area, |x, y| {
        let number = numbers[y / scale * columns + x / scale];
        match span {
            Some(span) if number.is_finite() => shade(span.part(number)),
            _ => checks(x, y, CHECK),
        }
    });
}

/// With number and place in the middle, where there is room.
fn cross_out(canvas: &mut Canvas, area: Area, refusal: Refusal) {
    canvas.paint(area, |x, y| crossed(x, y, area, 2));
    let text = format!("{} at {}", refusal.number(), refusal.place);
    let (width, height) = (text_width(&text, DOT) + 2 * BESIDE, TEXT + 2 * BESIDE);
    if width + MARGIN < area.width && height + MARGIN < area.height {
        let (x, y) = (
            area.x + (area.width - width) / 2,
            area.y + (area.height - height) / 2,
        );
        let middle = Area {
            x,
            y,
            width,
            height,
        };
        canvas.paint(middle, |_, _| PAPER);
        canvas.write(&text, x + BESIDE, y + BESIDE, DOT);
    }
}

/// Both ends of a range with as many digits behind the point, six in all at most.
fn in_digits(span: Span) -> (String, String) {
    let size = span.least.abs().max(span.greatest.abs());
    let told = |number: f64| {
        if size != 0.0 && !(1e-3..1e7).contains(&size) {
            return format!("{number:.3e}");
        }
        let behind = 6usize.saturating_sub(format!("{size:.0}").len());
        let text = format!("{number:.behind$}");
        let short = match text.contains('.') {
            true => text.trim_end_matches('0').trim_end_matches('.'),
            false => &text,
        };
        // A small number below 0 has a sign still.
        if short == "-0" { "0" } else { short }.to_string()
    };
    (told(span.least), told(span.greatest))
}

/// The ramp with both ends of the range, then what the marks mean.
fn draw_legend(canvas: &mut Canvas, layout: &Layout, span: Option<Span>) {
    let (x, y) = (layout.left, layout.below);
    let width = (layout.width - MARGIN - x).min(BAR_MOST);
    if let Some(span) = span {
        let bar = Area {
            x,
            y,
            width,
            height: BAR_HEIGHT,
        };
        let along = |x: usize| x as f64 / (width - 1) as f64;
        let is_one = span.least == span.greatest;
        canvas.paint(bar, |x, _| shade(if is_one { 0.5 } else { along(x) }));
        let (least, greatest) = in_digits(span);
        let right = x + width - text_width(&greatest, DOT);
        canvas.write(&least, x, y + BAR_HEIGHT + BESIDE, DOT);
        canvas.write(&greatest, right, y + BAR_HEIGHT + BESIDE, DOT);
    }
    draw_marks(canvas, x, y + BAR_HEIGHT + BESIDE + TEXT + MARGIN);
}

/// A box, a gap and its words.
fn mark_width(words: &str) -> usize {
    BOX + BESIDE + text_width(words, DOT)
}

fn marks_width() -> usize {
    let words: usize = MARKS.iter().map(|words| mark_width(words)).sum();
    words + BETWEEN * (MARKS.len() - 1)
}

fn draw_marks(canvas: &mut Canvas, x: usize, y: usize) {
    let mut x = x;
    for (n, words) in MARKS.iter().enumerate() {
        let area = Area {
            x,
            y,
            width: BOX,
            height: BOX,
        };
        match n {
            0 => canvas.paint(area, |x, y| checks(x, y, CHECK)),
            _ => canvas.paint(area, |x, y| crossed(x, y, area, 1)),
        }
        canvas.write(words, x + BOX + BESIDE, y + (BOX - TEXT) / 2, DOT);
        x += mark_width(words) + BETWEEN;
    }
}
