//! Blobs from elsewhere, with the cells that are expected of them.

use std::collections::HashMap;
use std::fs;
use std::io::{stderr, Write};
use std::path::{Path, PathBuf};

use crate::inflate;
use crate::lent::{whole_and_steps, Lent, IMAGE};
use second::{is_valid, program_text, read_header, word_size, Refusal, MOST_BYTES, MOST_CELLS};

/// The folder, or nothing and a message that the test harness does not hide.
fn folder(name: &str) -> Option<PathBuf> {
    let Some(vectors) = std::env::var_os("LERC2_VECTORS") else {
        let _ = writeln!(stderr(), "skipped {name}: LERC2_VECTORS is not set");
        return None;
    };
    // A wrong path must not look like success.
    assert!(Path::new(&vectors).is_dir(), "LERC2_VECTORS is no folder");
    let folder = Path::new(&vectors).join(name);
    if !folder.is_dir() {
        let _ = writeln!(stderr(), "skipped {name}: no such folder");
        return None;
    }
    Some(folder)
}

fn blobs(folder: &Path) -> Vec<PathBuf> {
    let entries = fs::read_dir(folder).unwrap();
    let mut files: Vec<PathBuf> = entries
        .map(|entry| entry.unwrap().path())
        .filter(|path| path.extension().is_some_and(|end| end == "lerc2"))
        .collect();
    files.sort();
    files
}

/// An expected answer; invalid cells are zero there.
struct Expected {
    kind: u32,
    rows: u32,
    columns: u32,
    depth: u32,
    valid: u32,
    blocks: usize,
    end: usize,
    mask: Vec<u8>,
    words: Vec<u64>,
}

fn expected(blob: &Path) -> Expected {
    let plain = blob.with_extension("expect");
    let bytes = if plain.exists() {
        fs::read(plain).unwrap()
    } else {
        inflate::unpack(&fs::read(blob.with_extension("expect.z")).unwrap())
    };
    assert_eq!(bytes[..8], *b"LERCX1\0\0");
    let little = |bytes: &[u8]| {
        bytes
            .iter()
            .rev()
            .fold(0, |word, &b| word << 8 | u64::from(b))
    };
    let field = |n: usize| little(&bytes[8 + 4 * n..12 + 4 * n]) as u32;
    let [version, kind, rows, columns, depth, valid] = [0, 1, 2, 3, 4, 5].map(field);
    assert_eq!(version, 4);
    let pixels = (rows * columns) as usize;
    let (mask, rest) = bytes[48..].split_at(pixels.div_ceil(8));
    let words = rest.chunks_exact(word_size(kind)).map(little);
    Expected {
        kind,
        rows,
        columns,
        depth,
        valid,
        blocks: field(6) as usize,
        end: field(7) as usize,
        mask: mask.to_vec(),
        words: words.take(pixels * depth as usize).collect(),
    }
}

impl Expected {
    fn word(&self, cell: usize) -> Option<u64> {
        let valid = is_valid(&self.mask, cell / self.depth as usize);
        valid.then(|| self.words[cell])
    }

    fn text(&self) -> String {
        let mut text = format!(
            "width {} height {} depth {} kind {} valid {}\nblocks {}\n",
            self.columns, self.rows, self.depth, self.kind, self.valid, self.blocks
        );
        for cell in 0..self.words.len() {
            text += &match self.word(cell) {
                Some(word) => format!("cell {cell} {word}\n"),
                None => format!("cell {cell} -\n"),
            };
        }
        text + &format!("end {}\n", self.end)
    }
}

/// Reads a blob in both ways and compares every byte lent with the expected
/// answer. Gives the kept mask afterwards.
fn compare(path: &Path, reuse: bool, kept: Option<&[u8]>) -> Vec<u8> {
    let bytes = fs::read(path).unwrap();
    let expected = expected(path);
    let mut lent = Lent::to_read(&bytes);
    if let Some(kept) = kept {
        lent.kept.copy_from_slice(kept);
    }
    let header = read_header(&bytes).unwrap();
    let found = [
        header.kind,
        header.rows,
        header.columns,
        header.depth,
        header.valid,
    ];
    let wanted = [
        expected.kind,
        expected.rows,
        expected.columns,
        expected.depth,
        expected.valid,
    ];
    assert_eq!(found, wanted, "{path:?}");

    let (_, blocks, end) = lent.clone().read(&bytes, reuse).unwrap();
    assert_eq!((blocks, end), (expected.blocks, expected.end), "{path:?}");
    let after = whole_and_steps(&bytes, reuse, &lent).unwrap();
    for pixel in 0..header.pixels() {
        assert_eq!(
            is_valid(&after.kept, pixel),
            is_valid(&expected.mask, pixel)
        );
    }
    for cell in 0..header.cells() {
        let wanted = expected.word(cell).unwrap_or(IMAGE);
        assert_eq!(after.image[cell], wanted, "{path:?}, cell {cell}");
    }
    assert_eq!(after.image[header.cells()..], lent.image[header.cells()..]);
    assert_eq!(after.list[blocks..], lent.list[blocks..]);
    if !reuse && bytes.len() <= MOST_BYTES && header.cells() <= MOST_CELLS {
        assert_eq!(program_text(&bytes), expected.text(), "{path:?}");
    }
    after.kept
}

fn compare_folder(name: &str) {
    let Some(folder) = folder(name) else { return };
    let files = blobs(&folder);
    for path in &files {
        compare(path, false, None);
    }
    assert!(!files.is_empty());
    let _ = writeln!(stderr(), "{name}: {} blobs with all cells", files.len());
}

#[test]
fn v4() {
    compare_folder("v4");
}

#[test]
fn v4_crafted() {
    compare_folder("v4-crafted");
}

#[test]
fn v4_published() {
    compare_folder("v4-published");
}

#[test]
fn v4_large() {
    compare_folder("v4-large");
}

#[test]
fn v4_huffman() {
    compare_folder("v4-huffman");
}

/// Bands in order, each with the kept mask of the one before.
#[test]
fn v4_bands() {
    let Some(folder) = folder("v4-bands") else {
        return;
    };
    let files = blobs(&folder);
    let mut kept: Option<Vec<u8>> = None;
    let mut reused = 0;
    for path in &files {
        let first = path.to_string_lossy().ends_with(".b0.lerc2");
        if first {
            kept = None;
        }
        let header = read_header(&fs::read(path).unwrap()).unwrap();
        let uniform = header.valid == 0 || header.valid == header.rows * header.columns;
        reused += usize::from(header.mask == 0 && !uniform);
        kept = Some(compare(path, !first, kept.as_deref()));
    }
    assert!(reused > 0);
    let _ = writeln!(
        stderr(),
        "v4-bands: {} blobs, {reused} masks reused",
        files.len()
    );
}

/// Blobs of which only the number of the refusal is known.
fn refuse_folder(name: &str, number: u32) {
    let Some(folder) = folder(name) else { return };
    for path in blobs(&folder) {
        refuse(&path, number);
    }
}

fn refuse(path: &Path, number: u32) {
    let bytes = fs::read(path).unwrap();
    let lent = Lent::to_read(&bytes);
    let answer = whole_and_steps(&bytes, false, &lent);
    let refusal = answer.expect_err("a refusal");
    assert_eq!(refusal, Refusal::of(number), "{path:?}");
}

#[test]
fn depths_above_the_ceiling() {
    refuse_folder("v4-depth256", 4);
}

#[test]
fn another_version() {
    refuse_folder("v5", 2);
}

/// One small blob for each question; a table holds the answers. Those of later
/// additions to the rules are replaced here.
#[test]
fn probes() {
    let Some(folder) = folder("probes") else {
        return;
    };
    let table = fs::read_to_string(folder.join("table.txt")).unwrap();
    let answers = answers(&table);
    let files = blobs(&folder);
    for path in &files {
        let name = path.file_stem().unwrap().to_string_lossy().to_string();
        let answer = if name.starts_with("v5-") || name.starts_with("made-v5-") {
            "refused 2"
        } else if name == "made-checksum" {
            "82 5 160 140"
        } else if name == "checksum-wrong" {
            "refused 13"
        } else {
            answers[name.as_str()]
        };
        // An infinite product is above every maximum.
        let answer = answer.replace("7fd0000000000000", "7fe8000000000000");
        let bytes = fs::read(path).unwrap();
        assert_eq!(found(&bytes), without_reason(&answer), "{name}");
    }
    let _ = writeln!(stderr(), "probes: {} blobs", files.len());
}

/// The answer by the rules is the line after a name and its remark.
fn answers(table: &str) -> HashMap<&str, &str> {
    let mut answers = HashMap::new();
    for entry in table.split("\n\n") {
        let Some((name, _)) = entry.trim_start().split_once(" [") else {
            continue;
        };
        let answer = entry
            .lines()
            .find_map(|line| line.strip_prefix("  document: "));
        answers.insert(name, answer.unwrap());
    }
    answers
}

fn without_reason(answer: &str) -> String {
    if answer.starts_with("refused ") {
        return answer.split(' ').take(2).collect::<Vec<_>>().join(" ");
    }
    answer.to_string()
}

/// Pixels as in the table: equal neighbours together, long words in
/// hexadecimal.
fn found(bytes: &[u8]) -> String {
    let lent = Lent::to_read(bytes);
    let after = match whole_and_steps(bytes, false, &lent) {
        Ok(after) => after,
        Err(refusal) => return format!("refused {}", refusal.number),
    };
    let header = read_header(bytes).unwrap();
    let mut pixels: Vec<(String, usize)> = Vec::new();
    for pixel in 0..header.pixels() {
        let cells = &after.image[pixel * header.depth as usize..][..header.depth as usize];
        let text = if !is_valid(&after.kept, pixel) {
            "-".to_string()
        } else if word_size(header.kind) >= 4 {
            join(cells.iter().map(|word| format!("{word:x}")), "/")
        } else {
            join(cells.iter().map(u64::to_string), "/")
        };
        match pixels.last_mut() {
            Some((last, times)) if *last == text => *times += 1,
            _ => pixels.push((text, 1)),
        }
    }
    let pixels = pixels.into_iter().map(|(text, times)| match times {
        1 => text,
        _ => format!("{text}x{times}"),
    });
    join(pixels, " ")
}

fn join(parts: impl Iterator<Item = String>, between: &str) -> String {
    parts.collect::<Vec<String>>().join(between)
}
