//! Random blobs with known cells, and random changes to them.

use crate::blob::{header_bytes, sealed, Blob};
use crate::bodies::packed;
use crate::huffman::{counts, words, Coded};
use crate::lent::{whole_and_steps, Lent, IMAGE, LIST};
use crate::random::Random;
use crate::refusals::OFFSET_KINDS;
use second::{exact, is_finite, less, number, read_header, stored, word_size, Refusal};

/// A blob put together block by block, and what must come of it.
struct Made {
    blob: Blob,
    pixels: Vec<bool>,
    image: Vec<u64>,
    list: Vec<usize>,
}

#[test]
fn random_blobs_give_their_cells() {
    let mut random = Random::new(11);
    let mut blocks = 0;
    for _ in 0..2_000 {
        let made = made(&mut random);
        let bytes = made.blob.bytes();
        let lent = Lent::to_read(&bytes);
        let after = whole_and_steps(&bytes, false, &lent).unwrap();
        assert_eq!(after.image[..made.image.len()], made.image);
        assert_eq!(after.list[..made.list.len()], made.list);
        assert!(after.list[made.list.len()..]
            .iter()
            .all(|&start| start == LIST));
        let end = lent.clone().read(&bytes, false).unwrap().2;
        assert_eq!(end, bytes.len());
        blocks += made.list.len();
    }
    assert!(blocks > 10_000);
}

#[test]
fn random_changes_do_no_harm() {
    let mut random = Random::new(12);
    let (mut accepted, mut refused) = (0, [0; 14]);
    for _ in 0..2_000 {
        let bytes = made(&mut random).blob.bytes();
        for _ in 0..20 {
            let mut changed = changed(&mut random, &bytes);
            // Few are left with the checksum of what they were.
            if !random.chance(8) {
                changed = sealed(changed);
            }
            let cells = read_header(&changed).map_or(0, |header| header.cells());
            if cells > 50_000 {
                continue;
            }
            let lent = Lent::to_read(&changed);
            match whole_and_steps(&changed, random.chance(2), &lent) {
                Ok(_) => accepted += 1,
                Err(refusal) => {
                    check_place(&changed, refusal);
                    refused[refusal.number as usize] += 1;
                }
            }
        }
    }
    assert!(accepted > 1_000);
    for number in [1, 2, 3, 4, 6, 7, 8, 13] {
        assert!(refused[number] > 10, "number {number}: {refused:?}");
    }
    // Room is never short here, fill is given only numbers in the list, and a
    // whole read takes a body of any sort.
    assert_eq!([0, 5, 10, 11].map(|number| refused[number]), [0; 4]);
}

#[test]
fn random_forgeries_are_refused() {
    let mut random = Random::new(14);
    let mut bodies = [0; 5];
    for _ in 0..2_000 {
        let bytes = made(&mut random).blob.bytes();
        let mut lent = Lent::to_read(&bytes);
        let answer = lent.stage(&bytes, false);
        let staged = answer.unwrap();
        bodies[staged.body as usize] += 1;
        for _ in 0..5 {
            let (mut lent, mut forged) = (lent.clone(), staged);
            match random.below(6) {
                0 if staged.blocks > 0 => lent.list[random.below(staged.blocks)] ^= 1,
                1 => forged.end ^= 1 << random.below(64),
                2 => forged.blocks ^= 1 << random.below(64),
                3 => forged.header.min ^= 1 << random.below(64),
                4 => forged.header.valid ^= 1 << random.below(32),
                _ => lent.spare[random.below(staged.header.mask_length())] ^= 1 << random.below(8),
            }
            assert_eq!(lent.publish(&bytes, false, Ok(forged)), Err(Refusal::of(3)));
        }
        assert!(lent.publish(&bytes, false, answer).is_ok());
    }
    assert!(bodies.iter().all(|&count| count > 10), "{bodies:?}");
}

/// What every place of a whole read is held to, wherever it comes from.
fn check_place(bytes: &[u8], refusal: Refusal) {
    let Refusal { number, place } = refusal;
    match number {
        2..=5 | 9 | 13 => assert_eq!(place, 0, "{refusal}"),
        6 => assert_eq!(place, 66, "{refusal}"),
        1 if place == 0 => assert!(read_header(bytes).is_err(), "{refusal}"),
        _ => {
            let header = read_header(bytes).expect("a body that is refused");
            let first = 70 + header.mask as usize;
            // A missing byte may stand just behind the last one.
            let last = header.size as usize - usize::from(number != 1);
            assert!((first..=last).contains(&place), "{refusal}");
        }
    }
}

fn changed(random: &mut Random, bytes: &[u8]) -> Vec<u8> {
    let mut changed = bytes.to_vec();
    for _ in 0..=random.below(3) {
        // Few changes to the header, which refuses most of them, and many to
        // what decides the body.
        let (from, to) = match random.below(6) {
            0 => (0, 70),
            1..=3 => (66, 100),
            _ => (70, usize::MAX),
        };
        let to = to.min(changed.len());
        let from = from.min(to - 1);
        let at = from + random.below(to - from);
        changed[at] = match random.below(4) {
            0 => changed[at] ^ 1 << random.below(8),
            1 => changed[at].wrapping_add(1),
            2 => random.pick(&[0, 1, 2, 3, 255]),
            _ => random.word() as u8,
        };
    }
    if random.chance(4) {
        // Cut the slice and the size alike, so that the body is what is short.
        let size = 70 + random.below(changed.len() - 69);
        changed.truncate(size);
        changed[34..38].copy_from_slice(&(size as u32).to_le_bytes());
    }
    changed
}

fn made(random: &mut Random) -> Made {
    let (rows, columns) = random.pick(&[(1, 7), (9, 9), (3, 200), (17, 33), (40, 5), (1, 1)]);
    let (rows, columns) = (1 + random.below(rows), 1 + random.below(columns));
    let depth = 1 + random.below(4);
    let kind = random.below(8) as u32;
    let pixels = any_pixels(random, rows * columns);
    let valid = pixels.iter().filter(|&&pixel| pixel).count();
    let ranges = any_ranges(random, kind, depth);
    let mut made = Made {
        blob: Blob {
            rows: rows as u32,
            columns: columns as u32,
            depth: depth as u32,
            valid: valid as u32,
            side: 1 + random.below(16) as u32,
            size: None,
            kind,
            error: any_error(random, kind),
            // The header's pair need not be that of the ranges.
            min: (-1f64).to_bits(),
            max: 1f64.to_bits(),
            mask: any_runs(random, &pixels),
            body: Vec::new(),
        },
        image: vec![IMAGE; pixels.len() * depth],
        pixels,
        list: Vec::new(),
    };
    if valid > 0 {
        made.put_body(random, &ranges);
    }
    made
}

fn any_pixels(random: &mut Random, count: usize) -> Vec<bool> {
    match random.below(4) {
        0 => vec![true; count],
        1 => (0..count).map(|_| random.chance(2)).collect(),
        2 => (0..count).map(|pixel| pixel / 20 % 2 == 0).collect(),
        _ => (0..count).map(|_| !random.chance(20)).collect(),
    }
}

/// The mask section: runs of both sorts, cut anywhere.
fn any_runs(random: &mut Random, pixels: &[bool]) -> Vec<u8> {
    if pixels.iter().all(|&pixel| pixel == pixels[0]) {
        return Vec::new();
    }
    let mask: Vec<u8> = pixels
        .chunks(8)
        .map(|chunk| {
            let bits = chunk.iter().enumerate();
            bits.map(|(bit, &pixel)| u8::from(pixel) << (7 - bit)).sum()
        })
        .collect();
    let mut runs = Vec::new();
    let mut rest = &mask[..];
    while !rest.is_empty() {
        let equal = rest.iter().take_while(|&&byte| byte == rest[0]).count();
        let repeated = random.chance(2);
        let limit = if repeated { equal } else { rest.len() };
        let length = 1 + random.below(limit);
        let (run, after) = rest.split_at(length);
        if repeated {
            runs.extend((-(length as i16)).to_le_bytes());
            runs.push(run[0]);
        } else {
            runs.extend((length as i16).to_le_bytes());
            runs.extend(run);
        }
        rest = after;
    }
    runs.extend(i16::MIN.to_le_bytes());
    runs
}

fn any_error(random: &mut Random, kind: u32) -> u64 {
    if kind < 2 && random.chance(2) {
        // There is a mode byte.
        return 0.5f64.to_bits();
    }
    let small = random.below(1000) as f64 / 64.0;
    match random.below(4) {
        0 => random
            .pick(&[0.0f64, 0.5, 1.0, 0.3, 5e-324, 8e307])
            .to_bits(),
        1 => random.word() % 0x7FE0_0000_0000_0000,
        _ => small.to_bits(),
    }
}

/// A code for each of some symbols, as bits; none where there are no bits. A
/// tree is split at random, and some of its ends stay without a symbol.
fn any_codes(random: &mut Random) -> Vec<String> {
    let wanted = 1 + random.below(60);
    let mut ends = vec![String::new()];
    while ends.len() < wanted || ends.len() < 2 {
        // The last one again and again makes long codes.
        let any = random.below(ends.len());
        let at = random.pick(&[any, ends.len() - 1]);
        if ends[at].len() < 32 {
            let end = ends.swap_remove(at);
            ends.extend(["0", "1"].map(|bit| format!("{end}{bit}")));
        }
    }
    let kept = 1 + random.below(ends.len());
    ends.truncate(kept);
    for _ in 0..random.below(9) {
        ends.insert(random.below(ends.len() + 1), String::new());
    }
    ends
}

fn any_finite_word(random: &mut Random, kind: u32) -> u64 {
    let mask = u64::MAX >> (64 - 8 * word_size(kind));
    loop {
        let word = match random.below(3) {
            0 => stored(f64::to_bits(random.below(100) as f64), kind).unwrap(),
            _ => random.word() & mask,
        };
        if is_finite(number(word, kind)) {
            return word;
        }
    }
}

/// Words of each depth's minimum and maximum.
fn any_ranges(random: &mut Random, kind: u32, depth: usize) -> Vec<(u64, u64)> {
    (0..depth)
        .map(|_| {
            let a = any_finite_word(random, kind);
            let b = if random.chance(8) {
                a
            } else {
                any_finite_word(random, kind)
            };
            if less(number(b, kind), number(a, kind)) {
                (b, a)
            } else {
                (a, b)
            }
        })
        .collect()
}

impl Made {
    fn put_word(&mut self, word: u64, kind: u32) {
        let size = word_size(kind);
        self.blob.body.extend(&word.to_le_bytes()[..size]);
    }

    fn put_body(&mut self, random: &mut Random, ranges: &[(u64, u64)]) {
        let kind = self.blob.kind;
        if random.chance(20) {
            // Constant by the header.
            self.blob.max = self.blob.min;
            if let Ok(word) = stored(self.blob.min, kind) {
                return self.set_all(&vec![word; ranges.len()]);
            }
            self.blob.max = 1f64.to_bits();
        }
        for &(min, _) in ranges {
            self.put_word(min, kind);
        }
        for &(_, max) in ranges {
            self.put_word(max, kind);
        }
        let pair_same = |&(min, max): &(u64, u64)| number(min, kind) == number(max, kind);
        if ranges.iter().all(pair_same) {
            let minima: Vec<u64> = ranges.iter().map(|&(min, _)| min).collect();
            return self.set_all(&minima);
        }
        if random.chance(10) {
            self.blob.body.push(1);
            return self.put_raw(random);
        }
        self.blob.body.push(0);
        if kind < 2 && self.blob.error == 0.5f64.to_bits() {
            if random.chance(2) {
                return self.put_huffman(random);
            }
            self.blob.body.push(0);
        }
        self.put_blocks(random, ranges);
    }

    /// Symbols at random, and the cells that they stand for.
    fn put_huffman(&mut self, random: &mut Random) {
        let mode = 1 + random.below(2);
        let codes = any_codes(random);
        let size = codes.len() + random.below(257 - codes.len());
        let first = random.below(size);
        let coded: Vec<usize> = (0..codes.len())
            .filter(|&nth| !codes[nth].is_empty())
            .collect();
        let mut bits = String::new();
        for cell in self.order(mode == 1) {
            let nth = random.pick(&coded);
            bits += &codes[nth];
            let symbol = (first + nth) % size;
            let base = if self.blob.kind == 0 { 128 } else { 0 };
            let predicted = if mode == 1 { self.predicted(cell) } else { 0 };
            self.image[cell] = (symbol as u64 + base + predicted) % 256;
        }
        let lengths: Vec<u64> = codes.iter().map(|code| code.len() as u64).collect();
        let coded = Coded {
            integers: [2, size, first, first + codes.len()].map(|n| n as u32),
            lengths: counts(&lengths),
            codes: words(&codes.concat()),
            symbols: [words(&bits), vec![7; 4]].concat(),
        };
        self.blob.body.push(mode as u8);
        self.blob.body.extend(coded.bytes());
    }

    /// The valid cells, depth by depth or pixel by pixel.
    fn order(&self, by_depth: bool) -> Vec<usize> {
        let depths = self.blob.depth as usize;
        let mut cells: Vec<usize> = (0..self.image.len())
            .filter(|cell| self.pixels[cell / depths])
            .collect();
        if by_depth {
            cells.sort_by_key(|cell| (cell % depths, cell / depths));
        }
        cells
    }

    /// What is told of a cell by those before it, looked for one by one.
    fn predicted(&self, cell: usize) -> u64 {
        let (columns, depths) = (self.blob.columns as usize, self.blob.depth as usize);
        let pixel = cell / depths;
        let left = (pixel % columns > 0).then(|| pixel - 1);
        let above = pixel.checked_sub(columns);
        let mut nearest = left.into_iter().chain(above).chain((0..pixel).rev());
        let known = nearest.find(|&pixel| self.pixels[pixel]);
        known.map_or(0, |pixel| self.image[pixel * depths + cell % depths])
    }

    fn set_all(&mut self, words: &[u64]) {
        for (pixel, cells) in self.image.chunks_exact_mut(words.len()).enumerate() {
            if self.pixels[pixel] {
                cells.copy_from_slice(words);
            }
        }
    }

    fn put_raw(&mut self, random: &mut Random) {
        let depth = self.blob.depth as usize;
        for cell in 0..self.image.len() {
            if self.pixels[cell / depth] {
                self.put_raw_cell(random, cell);
            }
        }
    }

    fn put_raw_cell(&mut self, random: &mut Random, cell: usize) {
        // Any bits at all, infinities and the like included.
        let word = random.word() >> (64 - 8 * word_size(self.blob.kind));
        self.image[cell] = word;
        self.put_word(word, self.blob.kind);
    }

    fn put_blocks(&mut self, random: &mut Random, ranges: &[(u64, u64)]) {
        let side = self.blob.side as usize;
        let (rows, columns) = (self.blob.rows as usize, self.blob.columns as usize);
        for y in (0..rows).step_by(side) {
            for x in (0..columns).step_by(side) {
                for (depth, &(_, max)) in ranges.iter().enumerate() {
                    let cells = self.tile_cells(x, y, depth);
                    self.put_block(random, x, &cells, max);
                }
            }
        }
    }

    fn tile_cells(&self, x: usize, y: usize, depth: usize) -> Vec<usize> {
        let (columns, depths) = (self.blob.columns as usize, self.blob.depth as usize);
        let side = self.blob.side as usize;
        (0..self.pixels.len())
            .filter(|pixel| (y..y + side).contains(&(pixel / columns)))
            .filter(|pixel| (x..x + side).contains(&(pixel % columns)))
            .filter(|&pixel| self.pixels[pixel])
            .map(|pixel| pixel * depths + depth)
            .collect()
    }

    fn put_block(&mut self, random: &mut Random, x: usize, cells: &[usize], max: u64) {
        let kind = self.blob.kind;
        self.list
            .push(70 + self.blob.mask.len() + self.blob.body.len());
        let check = (x / 8 % 16 * 4) as u8;
        let any_code = random.below(4);
        match random.below(5) {
            0 => {
                self.blob.body.push(any_code as u8 * 64 + check);
                for &cell in cells {
                    self.put_raw_cell(random, cell);
                }
            }
            1 => {
                self.blob.body.push(any_code as u8 * 64 + check + 2);
                for &cell in cells {
                    self.image[cell] = 0;
                }
            }
            2 => {
                let offset = self.put_offset(random, check + 3);
                for &cell in cells {
                    self.image[cell] = stored(offset, kind).unwrap();
                }
            }
            _ => {
                let offset = self.put_offset(random, check + 1);
                let counts = self.put_counts(random, cells.len());
                for (&cell, count) in cells.iter().zip(counts) {
                    let product = exact::scaled(self.blob.error, count as u32);
                    let value = exact::sum(offset, product);
                    let max = number(max, kind);
                    let value = if less(value, max) { value } else { max };
                    self.image[cell] = stored(value, kind).unwrap();
                }
            }
        }
    }

    /// Flag and offset; gives the offset as a number.
    fn put_offset(&mut self, random: &mut Random, flag: u8) -> u64 {
        let kinds = OFFSET_KINDS[self.blob.kind as usize];
        let codes: Vec<usize> = (0..4).filter(|&code| kinds[code] < 8).collect();
        let code = random.pick(&codes);
        let word = any_finite_word(random, kinds[code]);
        self.blob.body.push(code as u8 * 64 + flag);
        self.put_word(word, kinds[code]);
        number(word, kinds[code])
    }

    fn put_counts(&mut self, random: &mut Random, n: usize) -> Vec<u64> {
        let bits = random.below(32);
        let width = random.pick(&[4, 2, if n < 256 { 1 } else { 2 }]);
        let code = [0, 128, 64, 0, 0][width];
        let table = bits > 0 && random.chance(2);
        self.blob
            .body
            .push(code + if table { 32 } else { 0 } + bits as u8);
        self.blob.body.extend(&n.to_le_bytes()[..width]);
        let values = |random: &mut Random, n: usize, bits: usize| -> Vec<u64> {
            (0..n).map(|_| random.word() & ((1 << bits) - 1)).collect()
        };
        if !table {
            let counts = values(random, n, bits);
            self.blob.body.extend(packed(&counts, bits));
            return counts;
        }
        let entries = 2 + random.below(254);
        let mut entry_values = values(random, entries - 1, bits);
        let index_bits = (1..9).find(|&width| 1 << width >= entries).unwrap();
        let indices: Vec<u64> = (0..n).map(|_| random.below(entries) as u64).collect();
        self.blob.body.push(entries as u8);
        self.blob.body.extend(packed(&entry_values, bits));
        self.blob.body.extend(packed(&indices, index_bits));
        entry_values.insert(0, 0);
        indices
            .iter()
            .map(|&index| entry_values[index as usize])
            .collect()
    }
}

#[test]
fn random_headers_are_judged_alike_by_value_and_in_a_blob() {
    let mut random = Random::new(13);
    for _ in 0..20_000 {
        let mut header = Blob::whole().header();
        for _ in 0..=random.below(3) {
            let small = random.pick(&[0, 1, 2, 7, 8, 16, 17, 64, 65, 70, 79, 80, 4096, 4097]);
            let narrow = if random.chance(3) {
                random.word() as u32
            } else {
                small
            };
            let wide = random.word();
            match random.below(11) {
                0 => header.rows = narrow,
                1 => header.columns = narrow,
                2 => header.depth = narrow,
                3 => header.valid = narrow,
                4 => header.side = narrow,
                5 => header.size = narrow,
                6 => header.kind = narrow,
                7 => header.error = wide,
                8 => header.min = wide,
                9 => header.max = wide,
                _ => header.mask = narrow,
            }
        }
        let mut bytes = header_bytes(&header);
        bytes.resize(90, 0);
        let bytes = sealed(bytes);
        let by_value = second::prepare_mask(&bytes, &header, false, &[], &mut []);
        match read_header(&bytes) {
            Ok(read) => assert_eq!((read, by_value), (header, Err(Refusal::of(5)))),
            Err(refusal) => assert_eq!(by_value, Err(refusal)),
        }
    }
}
