//! The images that are measured.

use crate::make::{self, Body, Sort};
use crate::words::Words;
use std::error::Error;
use std::fs;
use std::path::Path;

pub struct Image {
    pub name: String,
    pub blob: Vec<u8>,
    /// One of a row of sizes.
    pub sized: bool,
}

impl Image {
    pub fn made(name: String, sort: &Sort, rows: usize, columns: usize) -> Image {
        Image {
            name,
            blob: make::blob(sort, rows, columns),
            sized: false,
        }
    }

    /// Whether Esri's library reads the same cells as the proved reader.
    #[cfg(feature = "esri")]
    pub fn compare_with_esri(&self) -> Result<(), String> {
        let mut tally = compare::esri::Tally::default();
        tally.count(&self.name, &self.blob);
        match tally.differ.first() {
            Some(words) => Err(format!("Esri's library differs: {words}")),
            None => Ok(()),
        }
    }
}

/// Those of the folder, and those that are made. Esri's library must read the
/// latter alike; of others it may read some differently (docs/DIFFERENCES.md).
pub fn of(words: &Words) -> Result<Vec<Image>, Box<dyn Error>> {
    let asked = |image: &Image| words.only.is_none_or(|word| image.name.contains(word));
    let mut images = match words.folder {
        Some(folder) => of_folder(folder)?,
        None => Vec::new(),
    };
    images.retain(asked);
    for image in if words.floats { floats() } else { made() } {
        if asked(&image) {
            #[cfg(feature = "esri")]
            image.compare_with_esri()?;
            images.push(image);
        }
    }
    if images.is_empty() {
        let word = words.only.unwrap_or_default();
        return Err(format!("no image has {word} in its name").into());
    }
    Ok(images)
}

fn of_folder(folder: &str) -> Result<Vec<Image>, Box<dyn Error>> {
    let files =
        compare::folder::files(Path::new(folder)).map_err(|error| format!("{folder}: {error}"))?;
    if files.is_empty() {
        return Err(format!("{folder}: there is no NAME.lerc2").into());
    }
    let mut images = Vec::new();
    for file in files {
        let name = file.file_stem().unwrap_or_default();
        images.push(Image {
            name: name.to_string_lossy().into_owned(),
            blob: fs::read(&file)?,
            sized: false,
        });
    }
    Ok(images)
}

fn made() -> Vec<Image> {
    let sort = Sort::plain;
    let mut images = Vec::new();
    let mut add = |name: &str, sort: Sort, side: usize, sized: bool| {
        let image = Image::made(format!("{name} {side}x{side}"), &sort, side, side);
        images.push(Image { sized, ..image });
    };
    add("i8", sort(0, 0.5, Body::Blocks), 512, false);
    add("u8", sort(1, 0.5, Body::Blocks), 512, false);
    add("i32", sort(4, 1.0, Body::Blocks), 512, false);
    for side in [64, 128, 256, 512, 1024, 2048] {
        add("u16", sort(3, 0.5, Body::Blocks), side, true);
    }
    for side in [64, 128, 256, 512, 1024, 2048] {
        add("f32", sort(6, 0.01, Body::Blocks), side, true);
    }
    add("f64", sort(7, 0.001, Body::Blocks), 512, false);
    add("raw u8", sort(1, 0.5, Body::Raw), 512, false);
    add("raw u16", sort(3, 0.5, Body::Raw), 512, false);
    add("raw f32", sort(6, 0.01, Body::Raw), 512, false);
    add("raw f64", sort(7, 0.01, Body::Raw), 512, false);
    add("constant u8", sort(1, 0.5, Body::Constant), 512, false);
    add("constant f32", sort(6, 0.01, Body::Constant), 512, false);
    let masked = sort(3, 0.5, Body::Blocks).with_holes();
    add("masked u16", masked, 256, false);
    images
}

/// Blocks of both float kinds, with and without holes, by error and size.
fn floats() -> Vec<Image> {
    let mut images = Vec::new();
    for (name, kind) in [("f32", 6), ("f64", 7)] {
        for error in [0.1, 0.001, 1e-6] {
            let full = Sort::plain(kind, error, Body::Blocks);
            for (masked, sort) in [("", full), ("masked ", full.with_holes())] {
                for side in [64, 256, 512, 1024] {
                    let name = format!("{masked}{name} error {error} {side}x{side}");
                    images.push(Image::made(name, &sort, side, side));
                }
            }
        }
    }
    images
}

#[cfg(test)]
mod tests {
    use super::floats;
    #[cfg(feature = "esri")]
    use super::Image;
    use second::{read, read_header, word_size};

    /// Flag bytes of an image's blocks.
    fn flags(blob: &[u8]) -> Vec<u8> {
        let header = read_header(blob).unwrap();
        let length = header.mask_length();
        let (mut kept, mut spare) = (vec![0; length], vec![0; length]);
        let (mut list, mut image) = (vec![0; header.blocks()], vec![0; header.cells()]);
        read(blob, false, &mut kept, &mut spare, &mut list, &mut image).unwrap();
        list.iter().map(|&start| blob[start]).collect()
    }

    #[test]
    fn floats_are_packed() {
        let images = floats();
        assert_eq!(images.len(), 2 * 3 * 2 * 4);
        for image in images
            .iter()
            .filter(|image| image.name.ends_with(" 256x256"))
        {
            let header = read_header(&image.blob).unwrap();
            assert!(image.blob.len() < 80 + header.cells() * word_size(header.kind));
            let masked = image.name.starts_with("masked");
            assert_eq!((header.valid as usize) < header.pixels(), masked);
            for flag in flags(&image.blob) {
                // Counts; along a shore there may be one valid pixel, or none.
                assert!(flag % 4 == 1 || masked && flag % 4 > 1, "{}", image.name);
            }
        }
    }

    #[cfg(feature = "esri")]
    #[test]
    fn floats_are_those_of_esri() {
        let small = |image: &Image| image.blob.len() < 1 << 18;
        for image in floats().into_iter().filter(small) {
            assert_eq!(image.compare_with_esri(), Ok(()));
        }
    }
}
