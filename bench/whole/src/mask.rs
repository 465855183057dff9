//! What valid pixels cost, by instructions: a mask prepared by runs and by
//! reuse, and walks and reads of images with and without holes.

use crate::images::Image;
use crate::make::{Body, Sort};
use crate::task::{Reader, Task, Way};
use crate::{instructions_by, scratch, shown, How};
use std::error::Error;
use std::fs;

struct Row {
    way: Way,
    name: String,
    pixels: usize,
    /// By reader.
    counts: Vec<Option<f64>>,
}

pub fn measure() -> Result<(), Box<dyn Error>> {
    let how = How {
        rounds: None,
        counts: true,
        emulator: None,
        scratch: scratch(),
    };
    fs::create_dir_all(&how.scratch)?;
    let rows = rows(&how);
    fs::remove_dir_all(&how.scratch)?;
    print!("{}", table(&rows?));
    Ok(())
}

fn rows(how: &How) -> Result<Vec<Row>, Box<dyn Error>> {
    let lines = images();
    // No instruction is counted where two readers differ.
    for (image, ways) in &lines {
        for &way in ways {
            compare_readers(image, way)?;
        }
    }
    let mut rows = Vec::new();
    for (image, ways) in &lines {
        for &way in ways {
            eprintln!("{} {}", image.name, way.name());
            rows.push(row(image, way, how)?);
        }
    }
    Ok(rows)
}

/// With the ways to count them.
fn images() -> Vec<(Image, [Way; 2])> {
    let image = |name: &str, sort: Sort, rows: usize, columns: usize| {
        Image::made(format!("{columns}x{rows} {name}"), &sort, rows, columns)
    };
    let mask = Sort::plain(1, 0.5, Body::Constant).with_holes();
    let full = Sort::plain(3, 0.5, Body::Blocks);
    let holes = full.with_holes();
    let two = Sort { depth: 2, ..holes };
    let (masks, bodies) = ([Way::Runs, Way::Reuse], [Way::Walk, Way::Read]);
    vec![
        (image("u8, holes", mask, 1024, 4096), masks),
        (image("u16, all valid", full, 256, 256), bodies),
        (image("u16, holes", holes, 256, 256), bodies),
        (image("u16, holes, 2 depths", two, 256, 256), bodies),
        (image("u16, all valid", full, 250, 250), bodies),
        (image("u16, holes", holes, 250, 250), bodies),
    ]
}

/// Whether all that they write is the same.
fn compare_readers(image: &Image, way: Way) -> Result<(), String> {
    let done = |reader: Reader| -> Result<Task, String> {
        let task = Task::prepared(&image.blob, way).and_then(|mut task| {
            task.go(way, reader)?;
            Ok(task)
        });
        task.map_err(|number| format!("{}, {}: refused {number}", image.name, way.name()))
    };
    let (proved, plain) = (done(Reader::Proved)?, done(Reader::Plain)?);
    if proved.written() != plain.written() {
        return Err(format!(
            "{}, {}: the readers differ",
            image.name,
            way.name()
        ));
    }
    #[cfg(feature = "esri")]
    if Reader::Esri.has(way) {
        image.compare_with_esri()?;
    }
    Ok(())
}

fn row(image: &Image, way: Way, how: &How) -> Result<Row, Box<dyn Error>> {
    let readers = Reader::ALL.iter();
    let taking: Vec<Option<Reader>> = readers
        .map(|&reader| reader.has(way).then_some(reader))
        .collect();
    let header = second::read_header(&image.blob).expect("it was accepted");
    Ok(Row {
        way,
        name: image.name.clone(),
        pixels: header.pixels(),
        counts: instructions_by(&taking, &image.blob, way, how)?,
    })
}

/// All instructions of a call, and those for each pixel, valid or not.
fn table(rows: &[Row]) -> String {
    let mut text = String::from("| what | image, columns x rows |");
    for reader in Reader::ALL {
        let name = reader.name();
        text += &format!(" {name} instr | {name} a pixel |");
    }
    text += "\n|---|---|";
    text += &"---|---|".repeat(Reader::ALL.len());
    text += "\n";
    for row in rows {
        text += &format!("| {} | {} |", row.way.name(), row.name);
        for count in &row.counts {
            let all = count.map_or("-".into(), |count| format!("{count:.0}"));
            let a_pixel = shown(count.map(|count| count / row.pixels as f64));
            text += &format!(" {all} | {a_pixel} |");
        }
        text += "\n";
    }
    text
}

#[cfg(test)]
mod tests {
    use super::{compare_readers, images, table, Row};
    use crate::task::{Reader, Way};

    #[test]
    fn the_readers_agree_on_every_image() {
        for (image, ways) in images() {
            for way in ways {
                assert_eq!(compare_readers(&image, way), Ok(()));
            }
        }
    }

    #[test]
    fn a_row_has_every_reader() {
        let mut counts = vec![None; Reader::ALL.len()];
        counts[0] = Some(1000.0);
        let row = Row {
            way: Way::Walk,
            name: "an image".into(),
            pixels: 64,
            counts,
        };
        let text = table(&[row]);
        let columns: Vec<usize> = text.lines().map(|line| line.matches('|').count()).collect();
        assert_eq!(columns, [3 + 2 * Reader::ALL.len(); 3]);
        assert!(text.contains("| walk | an image | 1000 | 15.62 | - | - |"));
    }
}
