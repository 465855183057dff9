//! Calls made out of one form: every operation, with slices of lengths around
//! what the rules ask for.

use crate::case::{each_part, Case, Element, Op, Part, Visit};
use crate::checksum;
use crate::codes;
use crate::damage;
use crate::form::{any_form, form, Body, Fault, Form, Wanted};
use crate::publishing::publishes;
use crate::random::Random;
use crate::sides::{plain, ranges_record, record};
use lerc2::raw;
use second::{Header, Ranges};

/// Images above this many cells are made on purpose only.
const USUAL_CELLS: usize = 20_000;

/// What is known of a blob before it is called with.
pub(crate) struct Blob {
    pub bytes: Vec<u8>,
    pub header: Header,
    pub ranges: [u64; raw::RANGES],
    pub mask: Vec<u8>,
    pub starts: Vec<usize>,
}

impl Blob {
    pub fn new(form: &Form, bytes: Vec<u8>) -> Blob {
        let f = &form.fields;
        let header = Header {
            rows: f.rows,
            columns: f.columns,
            depth: f.depth,
            valid: f.valid,
            side: f.side,
            size: form.size() as u32,
            kind: f.kind,
            error: f.error,
            min: f.min,
            max: f.max,
            mask: form.section.len() as u32,
        };
        let ranges = second::read_ranges(&bytes, &header).unwrap_or(Ranges {
            place: 70 + form.section.len(),
            constant: false,
            min: [f.min; 64],
            max: [f.max; 64],
        });
        Blob {
            bytes,
            header,
            ranges: ranges_record(&ranges),
            mask: form.mask.clone(),
            starts: form.starts.clone(),
        }
    }

    /// The mode byte's place, if the body is in Huffman codes.
    pub fn mode_at(&self) -> Option<usize> {
        let [place, constant, ..] = self.ranges;
        let mode = codes::mode_at(&self.bytes, &self.header, place as usize);
        mode.filter(|_| constant == 0)
    }
}

/// The calls of one blob of a run.
pub fn calls(random: &mut Random, out: &mut Vec<Case>) {
    let mut form = any_form(random, false);
    let is_odd = random.once_in(64) && form.size() < 4_000;
    if is_odd {
        checksum::put_odd(random, &mut form);
    }
    let mut bytes = form.bytes();
    let whole = Blob::new(&form, bytes.clone());
    if random.once_in(3) {
        damage::blob(random, &mut bytes);
        // Most of them get past the checksum, to what is damaged.
        if !random.once_in(8) {
            checksum::mend(&mut bytes);
        }
    }
    if random.once_in(if is_odd { 3 } else { 12 }) {
        checksum::damage(random, &mut bytes);
    }
    let blob = Blob { bytes, ..whole };
    let ops = [
        Op::Header,
        Op::Mask,
        Op::Ranges,
        Op::Walk,
        Op::Walk,
        Op::Fill,
        Op::Fill,
        Op::Fill,
        Op::Read,
        Op::Read,
        Op::Stage,
    ];
    for op in ops {
        if let Some(case) = call(random, &blob, op) {
            out.push(case);
        }
    }
    staged_calls(random, &form, &blob, out);
    for _ in 0..4 {
        out.push(arithmetic(random));
    }
    if random.once_in(400) && blob.bytes.len() < 400 {
        cuts(random, &blob, out);
    }
    if random.once_in(100) {
        rooms(random, &blob, out);
    }
    if random.once_in(16) && is_raw(&blob) || random.once_in(6) && blob.mode_at().is_some() {
        body_cuts(random, &blob, out);
    }
}

/// Stage and publish, in one and by themselves; of some images whose mask is in
/// the blob as if it were kept.
fn staged_calls(random: &mut Random, form: &Form, blob: &Blob, out: &mut Vec<Case>) {
    both(random, blob, out);
    if random.once_in(3) && !form.section.is_empty() {
        let form = without_section(form);
        publishes(random, &Blob::new(&form, form.bytes()), out);
    } else {
        publishes(random, blob, out);
    }
}

/// Stage and publish in one, and a whole read from the same state.
fn both(random: &mut Random, blob: &Blob, out: &mut Vec<Case>) {
    let Some(read) = call(random, blob, Op::Read) else {
        return;
    };
    let op = Op::Both;
    let fills = random.pick(&[0, 0, 1, 5, u64::MAX]);
    let numbers = [fills, 0];
    out.push(Case {
        op,
        numbers,
        ..read.clone()
    });
    out.push(read);
}

/// The same image for those who keep its mask.
fn without_section(form: &Form) -> Form {
    let mut form = form.clone();
    let length = form.section.len();
    form.section.clear();
    form.starts.iter_mut().for_each(|start| *start -= length);
    form
}

/// A call with lengths and contents at random.
pub(crate) fn call(random: &mut Random, blob: &Blob, op: Op) -> Option<Case> {
    let mut case = Case::new(op);
    case.place = marks(random, raw::PLACE);
    case.blob = blob.bytes.clone();
    case.reuse = random.once_in(2);
    let mut header = record(&blob.header).to_vec();
    if op.is_given_header() {
        if random.once_in(5) {
            damage::header(random, &mut header);
        }
        if random.once_in(40) {
            damage::header(random, &mut header);
        }
        case.header = resized(random, &header, raw::HEADER);
    }
    // The room that the header in use asks for; the blob's own may be damaged.
    let asks = match op {
        Op::Read | Op::Stage => second::read_header(&case.blob).unwrap_or(blob.header),
        _ => as_header(&header),
    };
    let (cells, blocks, masks) = (asks.cells(), asks.blocks(), asks.mask_length());
    if cells.max(masks) > USUAL_CELLS {
        // Much room is never asked for here but by headers that are refused,
        // or by a header by value that the blob does not fit; see `large`.
        // A depth of 0 leaves no cells, and any number of pixels.
        return (op == Op::Header).then_some(case);
    }
    let size = blob.header.size as usize;
    match op {
        Op::Header => case.header = marks(random, raw::HEADER),
        Op::Mask => {
            case.kept = mask(random, blob, masks);
            case.spare = bytes(random, masks);
            case.said = marks(random, raw::MASK);
        }
        Op::Ranges => case.ranges = marks(random, raw::RANGES),
        Op::Walk | Op::Fill => {
            let mut ranges = blob.ranges.to_vec();
            if random.once_in(4) {
                damage::ranges(random, &mut ranges, size, blob.header.depth as usize);
            }
            case.ranges = resized(random, &ranges, raw::RANGES);
            case.mask = mask(random, blob, masks);
            let numbers = if op == Op::Walk { raw::WALK } else { raw::FILL };
            case.said = marks(random, numbers);
            case.list = list(random, blocks);
            if op == Op::Fill {
                put_starts(random, blob, &mut case);
                case.numbers[0] = block_number(random, blocks);
                case.image = marks(random, cells);
            }
        }
        Op::Read | Op::Stage => {
            case.kept = mask(random, blob, masks);
            case.spare = bytes(random, masks);
            case.list = list(random, blocks);
            case.image = marks(random, cells);
            match op {
                Op::Read => case.said = marks(random, raw::READ),
                _ => case.staged = marks(random, raw::STAGED),
            }
        }
        _ => {}
    }
    Some(case)
}

/// Numbers cut to what fields hold; only lengths are made of them.
fn as_header(record: &[u64]) -> Header {
    Header {
        rows: record[0] as u32,
        columns: record[1] as u32,
        depth: record[2] as u32,
        valid: record[3] as u32,
        side: record[4] as u32,
        size: record[5] as u32,
        kind: record[6] as u32,
        error: record[7],
        min: record[8],
        max: record[9],
        mask: record[10] as u32,
    }
}

/// A length at or around what is needed.
fn around(random: &mut Random, needed: usize) -> usize {
    match random.below(128) {
        0 => needed.saturating_sub(1),
        1 => 0,
        2 => random.below(needed + 1),
        3..=18 => needed + 1,
        19..=28 => needed + random.between(2, 9),
        _ => needed,
    }
}

fn resized(random: &mut Random, record: &[u64], needed: usize) -> Vec<u64> {
    let length = around(random, needed);
    let mut resized = record.to_vec();
    resized.resize_with(length, || random.word());
    resized
}

fn bytes(random: &mut Random, needed: usize) -> Vec<u8> {
    let length = around(random, needed);
    random.bytes(length)
}

pub(crate) fn marks(random: &mut Random, needed: usize) -> Vec<u64> {
    let length = around(random, needed);
    let mark = random.word();
    (0..length as u64).map(|n| mark.wrapping_add(n)).collect()
}

fn list(random: &mut Random, needed: usize) -> Vec<usize> {
    let length = around(random, needed);
    let mark = random.word() as usize;
    (0..length).map(|n| mark.wrapping_add(n)).collect()
}

/// Mostly the blob's own mask.
fn mask(random: &mut Random, blob: &Blob, needed: usize) -> Vec<u8> {
    let mut mask = bytes(random, needed);
    if random.below(8) > 0 {
        for (to, &byte) in mask.iter_mut().zip(&blob.mask) {
            *to = byte;
        }
        if !mask.is_empty() && random.once_in(10) {
            let at = random.below(mask.len());
            mask[at] ^= 1 << random.below(8);
        }
    }
    mask
}

fn put_starts(random: &mut Random, blob: &Blob, case: &mut Case) {
    for (to, &start) in case.list.iter_mut().zip(&blob.starts) {
        *to = start;
    }
    if random.once_in(5) {
        for to in &mut case.list {
            *to = damage::start(random, blob.header.size as usize, &blob.starts);
        }
    }
}

fn block_number(random: &mut Random, blocks: usize) -> u64 {
    let number = match random.below(24) {
        0 => random.pick(&[blocks, blocks + 1, usize::MAX, 1 << 63, 1 << 32]),
        1 => blocks.saturating_sub(1),
        _ => random.below(blocks.max(1)),
    };
    number as u64
}

/// The blob cut at every length, with room for everything.
fn cuts(random: &mut Random, blob: &Blob, out: &mut Vec<Case>) {
    let op = random.pick(&Op::READING);
    let with_size = random.once_in(2);
    let with_checksum = !random.once_in(4);
    for length in 0..blob.bytes.len() {
        let mut case = exact(random, blob, op);
        case.blob.truncate(length);
        if with_size {
            // The declared size goes with it, so that something else is short.
            let size = (length as u32).to_le_bytes();
            for (to, byte) in case.blob.iter_mut().skip(34).zip(size) {
                *to = byte;
            }
            if case.header.len() > 5 {
                case.header[5] = length as u64;
            }
        }
        if with_size && with_checksum {
            checksum::mend(&mut case.blob);
        }
        out.push(case);
    }
}

fn is_raw(blob: &Blob) -> bool {
    let [place, constant, ..] = blob.ranges;
    constant == 0 && blob.bytes.get(place as usize) == Some(&1)
}

/// Whole reads of a raw body or of one in codes whose declared size ends at every
/// byte, in a large one at some in a row, and as many stagings or publishes.
fn body_cuts(random: &mut Random, blob: &Blob, out: &mut Vec<Case>) {
    const MOST: usize = 48;
    let size = blob.bytes.len().min(blob.header.size as usize);
    let mut sizes = blob.ranges[0] as usize..size;
    if sizes.len() > MOST {
        sizes.start += random.below(sizes.len() - MOST);
        sizes.end = sizes.start + MOST;
    }
    let other = random.pick(&[Op::Stage, Op::Publish]);
    for (size, op) in sizes.flat_map(|size| [(size, Op::Read), (size, other)]) {
        let mut case = exact(random, blob, op);
        case.blob[34..38].copy_from_slice(&(size as u32).to_le_bytes());
        checksum::mend(&mut case.blob);
        out.push(case);
    }
}

/// Every slice in turn one short, exact, one long and empty.
fn rooms(random: &mut Random, blob: &Blob, out: &mut Vec<Case>) {
    for op in Op::READING {
        let case = exact(random, blob, op);
        for change in [shorter, longer, empty] {
            each_part(&mut Resized {
                case: &case,
                change,
                out,
            });
        }
    }
}

fn shorter(length: usize) -> usize {
    length.saturating_sub(1)
}

fn longer(length: usize) -> usize {
    length + 1
}

fn empty(_length: usize) -> usize {
    0
}

/// Each slice that is lent, in turn, with another length.
struct Resized<'a> {
    case: &'a Case,
    change: fn(usize) -> usize,
    out: &'a mut Vec<Case>,
}

impl Visit for Resized<'_> {
    fn part<T: Element>(&mut self, part: Part<T>) {
        let mut case = self.case.clone();
        let slice = part(&mut case);
        if !slice.is_empty() {
            slice.resize((self.change)(slice.len()), T::from(7));
            self.out.push(case);
        }
    }
}

/// A call with slices that are just long enough.
fn exact(random: &mut Random, blob: &Blob, op: Op) -> Case {
    let h = &blob.header;
    let mut case = Case::new(op);
    case.blob = blob.bytes.clone();
    let numbers = |n: usize| (0..n as u64).map(|n| n ^ 0x5555_5555).collect::<Vec<u64>>();
    case.place = numbers(raw::PLACE);
    let starts = |n: usize| {
        let mut starts = blob.starts.clone();
        starts.resize(n, 70);
        starts
    };
    case.header = match op {
        Op::Header => numbers(raw::HEADER),
        _ if op.is_given_header() => record(h).to_vec(),
        _ => Vec::new(),
    };
    match op {
        Op::Mask | Op::Read | Op::Stage => {
            case.reuse = random.once_in(2);
            case.kept = blob.mask.clone();
            case.spare = vec![0x5A; h.mask_length()];
            match op {
                Op::Mask => case.said = numbers(raw::MASK),
                Op::Read => case.said = numbers(raw::READ),
                _ => case.staged = numbers(raw::STAGED),
            }
        }
        Op::Ranges => case.ranges = numbers(raw::RANGES),
        Op::Walk | Op::Fill => {
            case.ranges = blob.ranges.to_vec();
            case.mask = blob.mask.clone();
            let said = if op == Op::Walk { raw::WALK } else { raw::FILL };
            case.said = numbers(said);
        }
        _ => {}
    }
    match op {
        Op::Walk => case.list = vec![7; h.blocks()],
        Op::Fill => {
            case.list = starts(h.blocks());
            case.numbers[0] = random.below(h.blocks()) as u64;
            case.image = numbers(h.cells());
        }
        Op::Read | Op::Stage => {
            case.list = vec![7; h.blocks()];
            case.image = numbers(h.cells());
        }
        Op::Publish => {
            let staged = plain(&exact(random, blob, Op::Stage)).lent;
            let said = numbers(raw::PUBLISH);
            return Case { op, said, ..staged };
        }
        _ => {}
    }
    case
}

/// Sums, products and conversions. Kinds above 7 are taken as 7 on both sides.
fn arithmetic(random: &mut Random) -> Case {
    let op = random.pick(&[Op::Sum, Op::Scaled, Op::Narrow, Op::Number, Op::Stored]);
    if op == Op::Sum && random.once_in(3) {
        return Case::arithmetic(op, any_sort(random), any_sort(random));
    }
    let a = any_number(random);
    let b = match op {
        Op::Sum => near(random, a),
        Op::Scaled => match random.below(4) {
            0 => random.pick(&[0, 1, 2, 3, (1 << 31) - 1, 1 << 31, u32::MAX.into()]),
            1 => random.word() >> 32,
            _ => random.word() >> (33 + random.below(31)),
        },
        _ if random.once_in(30) => random.pick(&[8, 9, 255, u32::MAX.into()]),
        _ => random.below(8) as u64,
    };
    let a = match op {
        Op::Stored if random.below(3) > 0 => whole_edge(random),
        _ => a,
    };
    let mut case = Case::arithmetic(op, a, b);
    if op == Op::Stored {
        case.said = marks(random, raw::STORED);
        case.place = marks(random, raw::PLACE);
    }
    case
}

fn any_number(random: &mut Random) -> u64 {
    match random.below(5) {
        0 => random.pick(&damage::NUMBERS),
        1 => random.word(),
        2 => f64::to_bits(random.below(1 << 20) as f64 / 64.0 - 4096.0),
        3 => {
            // Few bits set, so that ties come up.
            let bits = 1u64 << random.below(64) | 1 << random.below(64);
            bits ^ random.word() & 0xFFF0_0000_0000_0000
        }
        _ => {
            // Around the exponents of binary32.
            let exponent = random.between(1023 - 160, 1023 + 140) as u64;
            let fraction = random.word() & ((1 << 52) - 1);
            let cut = random.pick(&[0u64, 28, 29, 30, 40, 52]);
            random.word() & 1 << 63 | exponent << 52 | fraction >> cut << cut
        }
    }
}

/// Often of an exponent not far from another number's.
fn near(random: &mut Random, a: u64) -> u64 {
    if random.once_in(2) {
        return any_number(random);
    }
    let exponent = (a >> 52 & 2047) as i64 + random.between(0, 120) as i64 - 60;
    let exponent = exponent.clamp(0, 2047) as u64;
    let fraction = match random.below(3) {
        0 => 0,
        1 => a,
        _ => random.word(),
    };
    random.word() & 1 << 63 | exponent << 52 | fraction & ((1 << 52) - 1)
}

/// Numbers of either sign that sums tell apart: infinite ones, exponent fields
/// of 2047 with a fraction, and finite ones from 0 to the largest.
fn any_sort(random: &mut Random) -> u64 {
    let any = random.word() >> 12;
    let other = any_number(random) & !(1 << 63);
    let magnitude = match random.below(4) {
        0 => 0x7FF0_0000_0000_0000,
        1 => random.pick(&[
            0x7FF0_0000_0000_0001,
            0x7FF8_0000_0000_0000,
            0x7FFF_FFFF_FFFF_FFFF,
            0x7FF0_0000_0000_0000 | any,
        ]),
        2 => random.pick(&[
            0x7FEF_FFFF_FFFF_FFFF,
            0x7FEF_FFFF_FFFF_FFFF,
            0x7FE0_0000_0000_0000 | any,
            // 2^970, half the last place of the largest one.
            0x7C90_0000_0000_0000,
            0x7C90_0000_0000_0001,
        ]),
        _ => random.pick(&[0, 0, 1, (1 << 52) - 1, other]),
    };
    random.word() & 1 << 63 | magnitude
}

/// Numbers at the ends of the integer kinds.
fn whole_edge(random: &mut Random) -> u64 {
    let ends = [
        0.0,
        127.0,
        128.0,
        255.0,
        256.0,
        32767.0,
        32768.0,
        65535.0,
        65536.0,
        2147483647.0,
        2147483648.0,
        4294967295.0,
        4294967296.0,
        9223372036854775808.0,
    ];
    let end = random.pick(&ends) * random.pick(&[1.0, -1.0]);
    let by = random.pick(&[0.0, 0.5, -0.5, 0.999, -0.999, 1.0, -1.0]);
    let bits = f64::to_bits(end + by);
    if random.once_in(4) {
        bits.wrapping_add(random.pick(&[1, u64::MAX]))
    } else {
        bits
    }
}

/// Calls on images at and past the ceilings, and on masks with the longest
/// runs. They take much memory, so a run has few of them.
pub fn large(random: &mut Random, out: &mut Vec<Case>) {
    let shapes = [
        (2048, 2048, 1),
        (2048, 2049, 1),
        (4096, 1024, 1),
        (1024, 4096, 1),
        (256, 256, 64),
        (256, 257, 64),
        (4096, 17, 60),
        (1024, 1024, 1),
    ];
    let (rows, columns, depth) = random.pick(&shapes);
    let kind = random.below(8) as u32;
    let wanted = Wanted {
        rows,
        columns,
        depth,
        side: random.pick(&[8, 16]),
        kind,
        body: large_body(random, kind),
        fault: Fault::None,
        esri: false,
        huge: false,
    };
    let form = form(random, wanted);
    let blob = Blob::new(&form, form.bytes());
    // All but the header alone.
    for &op in &Op::READING[1..] {
        out.push(exact(random, &blob, op));
    }
    out.push(Case {
        op: Op::Both,
        ..exact(random, &blob, Op::Read)
    });
}

fn large_body(random: &mut Random, kind: u32) -> Body {
    match random.below(3) {
        0 => Body::ConstantByHeader,
        1 => Body::Raw,
        _ if kind < 2 && random.once_in(2) => Body::Huffman,
        _ => Body::Blocks,
    }
}
