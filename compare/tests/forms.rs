//! The generator makes every form, and what it makes without a fault is read.

mod common;

use common::sum_by_count;
use compare::case::Op;
use compare::checksum::{by_words, put_odd, truth, wrong, Wrong};
use compare::counted::{counted, Counted};
use compare::form::{any_form, form, Body, Fault, Form, Wanted, OFFSET_KINDS};
use compare::huffman::{Broken, BROKEN};
use compare::plan;
use compare::random::Random;
use std::collections::{HashMap, HashSet};

#[test]
fn every_form_comes_up() {
    let mut random = Random::new(7);
    let mut flags = HashSet::new();
    let mut packs = HashSet::new();
    let mut entries = HashSet::new();
    let mut sides = HashSet::new();
    let (mut depths, mut numbers) = (HashSet::new(), HashSet::new());
    for _ in 0..20_000 {
        let mut wanted = Wanted::any(&mut random, false);
        wanted.fault = Fault::None;
        let form = form(&mut random, wanted);
        let bytes = form.bytes();
        let header = second::read_header(&bytes).unwrap();
        let length = header.mask_length();
        let answer = second::read(
            &bytes,
            false,
            &mut vec![0; length],
            &mut vec![0; length],
            &mut vec![0; header.blocks()],
            &mut vec![0; header.cells()],
        );
        match answer {
            Ok((_, _, end)) => assert!(end <= form.size() - form.gap.len()),
            // A constant of the header need not fit its kind.
            Err(refusal) => {
                assert_eq!(refusal.number, 9, "{refusal}: {wanted:?}");
                assert_eq!(wanted.body, Body::ConstantByHeader);
            }
        }
        sides.insert(wanted.side);
        depths.insert(wanted.depth);
        for &start in &form.starts {
            let (low, code) = (bytes[start] % 4, bytes[start] / 64);
            flags.insert((wanted.kind, low, code));
            if low == 1 {
                let offset = OFFSET_KINDS[wanted.kind as usize][usize::from(code)];
                let at = start + 1 + second::word_size(offset);
                let (head, width) = (bytes[at], 4 >> (bytes[at] / 64));
                packs.insert(head);
                numbers.insert(bytes[at + 1]);
                if head & 32 != 0 {
                    entries.insert(bytes[at + 1 + width]);
                }
            }
        }
    }
    assert_eq!(sides.len(), 16);
    assert!(depths.len() == 64 && depths.contains(&64));
    // Raw and zero words have four codes each, the others those of the table.
    let codes: usize = OFFSET_KINDS
        .iter()
        .map(|row| row.iter().filter(|&&kind| kind < 9).count())
        .sum();
    assert_eq!(flags.len(), 8 * 4 * 2 + 2 * codes);
    // Three widths of the number; 32 widths of a value, with a table 31.
    assert_eq!(packs.len(), 3 * (32 + 31));
    assert_eq!(entries.len(), 254);
    assert!(numbers.len() > 150, "{}", numbers.len());
}

/// The counted cells of a blob whose product is infinite, once it is seen that
/// each is the maximum; none if the blob is refused.
fn infinite(bytes: &[u8]) -> Vec<Counted> {
    let Ok(header) = second::read_header(bytes) else {
        return Vec::new();
    };
    let (mut kept, mut spare) = (vec![0; header.mask_length()], vec![0; header.mask_length()]);
    let (mut list, mut image) = (vec![0; header.blocks()], vec![0; header.cells()]);
    let read = second::read(bytes, false, &mut kept, &mut spare, &mut list, &mut image);
    let Ok((_, blocks, _)) = read else {
        return Vec::new();
    };
    let mut cells = counted(bytes, &kept, &list[..blocks]);
    cells.retain(Counted::is_infinite);
    for cell in &cells {
        assert_eq!(image[cell.cell], cell.word(cell.maximum, header.kind));
    }
    cells
}

/// Blobs with infinite products, and among them those in which an infinity that
/// counts as 2^1024 would show.
#[test]
fn infinite_products_come_up() {
    let mut random = Random::new(8);
    let mut kinds = [0; 8];
    let mut signs = [0; 2];
    let mut shown = 0;
    for _ in 0..20_000 {
        let form = any_form(&mut random, false);
        let cells = infinite(&form.bytes());
        if cells.is_empty() {
            continue;
        }
        kinds[form.fields.kind as usize] += 1;
        signs[(cells[0].offset >> 63) as usize] += 1;
        let shows =
            |cell: &Counted| second::less(sum_by_count(cell.offset, cell.product), cell.maximum);
        shown += usize::from(cells.iter().any(shows));
    }
    assert!(kinds.iter().all(|&blobs| blobs > 10), "{kinds:?}");
    assert!(kinds[7] > 500 && shown > 100, "{kinds:?}, {shown}");
    assert!(signs.iter().all(|&blobs| blobs > 200), "{signs:?}");
}

/// What a sum tells apart.
fn sort(word: u64) -> (bool, usize) {
    let ends = [
        0,
        (1 << 52) - 1,
        // 2^970.
        0x7C90_0000_0000_0000,
        0x7FEF_FFFF_FFFF_FFFE,
        0x7FEF_FFFF_FFFF_FFFF,
        0x7FF0_0000_0000_0000,
        u64::MAX >> 1,
    ];
    let magnitude = word & !(1 << 63);
    let sort = ends.iter().position(|&end| magnitude <= end);
    (word >> 63 == 1, sort.unwrap())
}

#[test]
fn every_pairing_of_a_sum_comes_up() {
    let mut pairings = HashMap::new();
    let mut cases = Vec::new();
    for blob in 0..20_000 {
        plan::calls(&mut Random::of(1, blob), &mut cases);
        for case in cases.drain(..).filter(|case| case.op == Op::Sum) {
            *pairings.entry(case.numbers.map(sort)).or_insert(0) += 1;
        }
    }
    // Both signs of seven sorts, in both orders.
    assert_eq!(pairings.len(), 14 * 14);
    let (pairing, least) = pairings.iter().min_by_key(|entry| entry.1).unwrap();
    assert!(*least > 3, "{pairing:?}: {least}");
}

/// Raw bodies whose size ends at every byte of a word, for words of every size.
#[test]
fn raw_bodies_cut_at_every_byte_come_up() {
    let mut there = HashMap::new();
    let mut cases = Vec::new();
    for blob in 0..20_000 {
        plan::calls(&mut Random::of(1, blob), &mut cases);
        for case in cases.drain(..).filter(|case| case.op == Op::Read) {
            if let Some(cut) = cut_word(&case.blob) {
                *there.entry(cut).or_insert(0) += 1;
            }
        }
    }
    // Of 1, 2, 4 and 8 bytes.
    assert_eq!(there.len(), 15);
    let (cut, least) = there.iter().min_by_key(|entry| entry.1).unwrap();
    assert!(*least > 20, "{cut:?}: {least}");
}

/// The size of a word that a raw body ends in or before, and how much of it is
/// there.
fn cut_word(blob: &[u8]) -> Option<(usize, usize)> {
    let header = second::read_header(blob).ok()?;
    let ranges = second::read_ranges(blob, &header).ok()?;
    let bytes = &blob[..header.size as usize];
    if ranges.constant || bytes.get(ranges.place) != Some(&1) {
        return None;
    }
    let (size, words) = (
        second::word_size(header.kind),
        header.valid as usize * header.depth as usize,
    );
    let there = bytes.len() - ranges.place - 1;
    (there < words * size).then_some((size, there % size))
}

/// Both sums of an odd number of bytes, before the last fold.
fn before_last_fold(bytes: &[u8]) -> [u64; 2] {
    let (words, last) = bytes.split_at(bytes.len() - 1);
    let [mut sum, mut running] = [65_535; 2];
    for group in words.chunks(2 * 359) {
        for word in group.chunks(2) {
            sum += u64::from(word[0]) * 256 + u64::from(word[1]);
            running += sum;
        }
        [sum, running] = [sum, running].map(|sum| sum % 65_536 + sum / 65_536);
    }
    sum += u64::from(last[0]) * 256;
    [sum, running + sum]
}

/// Of the odd sizes on which words and code differ, every case comes up.
#[test]
fn every_odd_checksum_comes_up() {
    let mut random = Random::new(10);
    let mut found = HashMap::new();
    for _ in 0..400 {
        let mut wanted = Wanted::any(&mut random, false);
        (wanted.rows, wanted.columns, wanted.depth) = (3, 5, 1);
        let mut form = form(&mut random, wanted);
        put_odd(&mut random, &mut form);
        let blob = form.bytes();
        let summed = &blob[14..form.size()];
        assert_ne!(truth(&blob), Some(by_words(summed)));
        let [sum, running] = before_last_fold(summed);
        let case = if sum == 131_071 { sum } else { 2 * running };
        *found.entry(case).or_insert(0) += 1;
    }
    let cases = [131_071, 2 * 131_071, 2 * 196_606, 2 * 196_607];
    assert_eq!(found.len(), cases.len(), "{found:?}");
    assert!(cases.iter().all(|case| found[case] > 10), "{found:?}");
}

/// Blobs that are damaged come with their checksum mended and not, and true
/// blobs with every sort of wrong one.
#[test]
fn every_wrong_checksum_comes_up() {
    let mut random = Random::new(11);
    let mut sorts: HashMap<String, usize> = HashMap::new();
    let mut cases = Vec::new();
    for blob in 0..20_000 {
        plan::calls(&mut Random::of(random.word(), blob), &mut cases);
        let headers = cases.drain(..).filter(|case| case.op == Op::Header);
        for case in headers.take(1) {
            let sort = wrong(&case.blob);
            *sorts.entry(format!("{sort:?}")).or_insert(0) += 1;
        }
    }
    let sorts_of = |sort: Option<Wrong>| sorts[&format!("{sort:?}")];
    for sort in [
        Wrong::ByWords,
        Wrong::Zero,
        Wrong::OneBit,
        Wrong::Swapped,
        Wrong::OtherEnd,
        Wrong::Other,
    ] {
        assert!(sorts_of(Some(sort)) > 20, "{sorts:?}");
    }
    assert!(sorts_of(None) > 16_000, "{sorts:?}");
}

/// The cells that a blob is read to, if it is accepted; 7 where nothing is
/// written.
fn cells_of(bytes: &[u8]) -> Result<Vec<u64>, second::Refusal> {
    let header = second::read_header(bytes)?;
    let (mut kept, mut spare) = (vec![0; header.mask_length()], vec![0; header.mask_length()]);
    let (mut list, mut image) = (vec![0; header.blocks()], vec![7; header.cells()]);
    second::read(bytes, false, &mut kept, &mut spare, &mut list, &mut image)?;
    for (cell, word) in image.iter_mut().enumerate() {
        if !second::is_valid(&kept, cell / header.depth as usize) {
            // It must not have been written.
            assert_eq!(std::mem::take(word), 7);
        }
    }
    Ok(image)
}

fn in_codes(random: &mut Random, fault: Fault) -> (Wanted, Form) {
    let base = Wanted {
        kind: random.below(2) as u32,
        ..Wanted::any(random, false)
    };
    let wanted = Wanted {
        fault,
        ..base.in_codes(random)
    };
    (wanted, form(random, wanted))
}

/// What is made of codes without a fault is read to the cells that were meant.
#[test]
fn codes_are_read_to_their_cells() {
    let mut random = Random::new(12);
    let (mut modes, mut cells) = ([0; 3], 0);
    for _ in 0..20_000 {
        let (wanted, form) = in_codes(&mut random, Fault::None);
        let found = cells_of(&form.bytes()).unwrap_or_else(|refusal| {
            panic!("{refusal}: {wanted:?}");
        });
        // An image without a valid pixel, or of one value, has no codes.
        if form.cells.is_empty() || form.fields.valid == 0 {
            continue;
        }
        assert_eq!(found, form.cells, "{wanted:?}");
        let mode = 2 * wanted.depth + 1;
        modes[usize::from(form.after[mode])] += 1;
        cells += found.len();
    }
    assert!(modes[1] > 8_000 && modes[2] > 8_000, "{modes:?}");
    assert!(cells > 1_000_000, "{cells}");
}

/// Where the mode byte of a form of bytes is, if it is looked at.
fn mode_of(form: &Form) -> Option<usize> {
    let is_read = !form.cells.is_empty() && form.fields.valid > 0;
    is_read.then(|| 70 + form.section.len() + 2 * form.fields.depth as usize + 1)
}

/// Codes with one thing wrong are refused for it, at the mode byte.
#[test]
fn broken_codes_are_refused() {
    let mut random = Random::new(13);
    for broken in BROKEN {
        let number = match broken {
            Broken::Cut(_) => 1,
            _ => 8,
        };
        let mut found = 0;
        for _ in 0..500 {
            let (wanted, form) = in_codes(&mut random, Fault::Codes(broken));
            let Some(place) = mode_of(&form) else {
                continue;
            };
            let refusal = second::Refusal { number, place };
            assert_eq!(cells_of(&form.bytes()), Err(refusal), "{wanted:?}");
            found += 1;
        }
        assert!(found > 300, "{broken:?}: {found}");
    }
}

/// What the tables of codes were.
#[derive(Default)]
struct Tables {
    sizes: HashSet<u32>,
    firsts: HashSet<u32>,
    /// Whether all symbols of the size are there, and whether it goes round.
    ranges: HashSet<(bool, bool)>,
    heads: HashSet<u8>,
    longest: HashSet<u32>,
    /// Lengths of codes that are alone.
    singles: HashSet<u32>,
}

impl Tables {
    fn add(&mut self, bytes: &[u8], mode: usize) {
        let integer = |nth: usize| {
            let at = mode + 1 + 4 * nth;
            u32::from_le_bytes(bytes[at..at + 4].try_into().unwrap())
        };
        let (size, first, end) = (integer(1), integer(2), integer(3));
        self.sizes.insert(size);
        self.firsts.insert(first);
        self.ranges.insert((end - first == size, end > size));
        self.heads.insert(bytes[mode + 17]);
        let mut lengths = [0; second::MOST_COUNTS];
        let (n, _) = second::packed_counts(bytes, mode + 17, &mut lengths).unwrap();
        let coded = lengths[..n].iter().filter(|&&length| length > 0);
        let longest = *coded.clone().max().unwrap();
        self.longest.insert(longest);
        if coded.count() == 1 {
            self.singles.insert(longest);
        }
    }
}

#[test]
fn every_form_of_codes_comes_up() {
    let mut random = Random::new(14);
    let mut tables = Tables::default();
    for _ in 0..20_000 {
        let (_, form) = in_codes(&mut random, Fault::None);
        if let Some(mode) = mode_of(&form) {
            tables.add(&form.bytes(), mode);
        }
    }
    assert_eq!((tables.sizes.len(), tables.firsts.len()), (256, 256));
    assert_eq!(tables.ranges.len(), 4);
    assert_eq!((tables.longest.len(), tables.singles.len()), (32, 32));
    // Three widths of the number; one bit is the least that a length has.
    assert_eq!(tables.heads.len(), 3 * (31 + 31));
}

/// About one in five forms of bytes, and more than half of them right.
#[test]
fn codes_come_up_often_enough() {
    let mut random = Random::new(15);
    let (mut of_bytes, mut in_codes, mut accepted) = (0, 0, 0);
    for _ in 0..20_000 {
        let form = any_form(&mut random, false);
        of_bytes += usize::from(form.fields.kind < 2);
        if mode_of(&form).is_some() {
            in_codes += 1;
            accepted += usize::from(cells_of(&form.bytes()).is_ok());
        }
    }
    let share = 100 * in_codes / of_bytes;
    assert!((17..=23).contains(&share), "{share} in 100");
    assert!(2 * accepted > in_codes, "{accepted} of {in_codes}");
}

/// An image of as many cells as there may be, below the ceiling of the size.
#[test]
fn the_largest_images_in_codes() {
    let mut random = Random::new(16);
    for (rows, columns, depth) in [(2048, 2048, 1), (256, 256, 64)] {
        let wanted = Wanted {
            rows,
            columns,
            depth,
            kind: 0,
            body: Body::Huffman,
            fault: Fault::None,
            ..Wanted::any(&mut random, false)
        };
        let form = form(&mut random, wanted);
        assert!(form.size() <= 16_777_216);
        if mode_of(&form).is_some() {
            assert_eq!(cells_of(&form.bytes()).as_ref(), Ok(&form.cells));
        }
    }
}
