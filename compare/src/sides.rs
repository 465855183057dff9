//! The same call on both sides.

use crate::case::{After, Case, Op};
use crate::lent::Lent;
use lerc2::raw;
use second::refusal::{NO_ROOM, WRONG_FIELD};
use second::{BodyKind, Header, Mask, Ranges, Refusal, StageAnswer, Staged, MOST_DEPTH};

/// The slices of a call, marked on both sides.
struct Slices {
    blob: Lent<u8>,
    header: Lent<u64>,
    ranges: Lent<u64>,
    mask: Lent<u8>,
    kept: Lent<u8>,
    spare: Lent<u8>,
    list: Lent<usize>,
    image: Lent<u64>,
    staged: Lent<u64>,
    said: Lent<u64>,
    place: Lent<u64>,
}

fn called(case: &Case, call: impl Fn(&Case, &mut Slices) -> (u32, u64)) -> After {
    let mut slices = Slices {
        blob: Lent::new(&case.blob),
        header: Lent::new(&case.header),
        ranges: Lent::new(&case.ranges),
        mask: Lent::new(&case.mask),
        kept: Lent::new(&case.kept),
        spare: Lent::new(&case.spare),
        list: Lent::new(&case.list),
        image: Lent::new(&case.image),
        staged: Lent::new(&case.staged),
        said: Lent::new(&case.said),
        place: Lent::new(&case.place),
    };
    let (answer, word) = call(case, &mut slices);
    let mut outside = false;
    let lent = Case {
        op: case.op,
        blob: slices.blob.back(&mut outside),
        header: slices.header.back(&mut outside),
        ranges: slices.ranges.back(&mut outside),
        mask: slices.mask.back(&mut outside),
        kept: slices.kept.back(&mut outside),
        spare: slices.spare.back(&mut outside),
        list: slices.list.back(&mut outside),
        image: slices.image.back(&mut outside),
        staged: slices.staged.back(&mut outside),
        said: slices.said.back(&mut outside),
        place: slices.place.back(&mut outside),
        reuse: case.reuse,
        numbers: case.numbers,
        sort: case.sort,
    };
    After {
        answer,
        word,
        outside,
        lent,
    }
}

/// The proved reader.
pub fn proved(case: &Case) -> After {
    called(case, |case, s| {
        let (blob, header, ranges) = (s.blob.slice(), s.header.slice(), s.ranges.slice());
        let (mask, kept, spare) = (s.mask.slice(), s.kept.slice(), s.spare.slice());
        let (list, image, said) = (s.list.slice(), s.image.slice(), s.said.slice());
        let (staged, place) = (s.staged.slice(), s.place.slice());
        let (reuse, [a, b]) = (case.reuse, case.numbers);
        let number = a as usize;
        let answer = match case.op {
            Op::Header => raw::read_header(blob, header, place),
            Op::Mask => raw::prepare_mask(blob, header, reuse, kept, spare, said, place),
            Op::Ranges => raw::read_ranges(blob, header, ranges, place),
            Op::Walk => raw::walk(blob, header, ranges, mask, list, said, place),
            Op::Fill => raw::fill(blob, header, ranges, mask, list, number, image, said, place),
            Op::Read => raw::read(blob, reuse, kept, spare, list, image, said, place),
            Op::Stage => raw::stage(blob, reuse, kept, spare, list, image, staged, place),
            Op::Publish => raw::publish(blob, reuse, staged, kept, spare, list, image, said, place),
            Op::Both => return proved_both(case, s),
            Op::Stored => raw::stored(a, b as u32, said, place),
            Op::Sum => return (0, raw::sum(a, b)),
            Op::Scaled => return (0, raw::scaled(a, b as u32)),
            Op::Narrow => return (0, raw::narrow(a).into()),
            Op::Number => return (0, raw::number(a, b as u32)),
        };
        (answer, 0)
    })
}

/// Stage, some fills if there are blocks, publish. Said is what a whole read
/// says; the word is the number of words written.
fn proved_both(case: &Case, s: &mut Slices) -> (u32, u64) {
    let (blob, reuse) = (s.blob.slice(), case.reuse);
    let (kept, spare, list) = (s.kept.slice(), s.spare.slice(), s.list.slice());
    let (image, said, place) = (s.image.slice(), s.said.slice(), s.place.slice());
    if said.len() < raw::READ {
        place.iter_mut().take(1).for_each(|place| *place = 0);
        return (NO_ROOM, 0);
    }
    let mut staged = [7; raw::STAGED];
    let answer = raw::stage(blob, reuse, kept, spare, list, image, &mut staged, place);
    if answer != 0 {
        return (answer, 0);
    }
    let mask = if staged[14] == 1 { &*kept } else { &*spare };
    let filled = proved_fills(case, blob, &staged, mask, list, image, place);
    if filled != 0 {
        return (filled, 0);
    }
    let mut words = [0; raw::PUBLISH];
    let answer = raw::publish(
        blob, reuse, &staged, kept, spare, list, image, &mut words, place,
    );
    if answer == 0 {
        said[..raw::READ].copy_from_slice(&staged[..raw::READ]);
        said[raw::READ - 1] = words[0];
    }
    (answer, words[1])
}

/// As many blocks as the call says, of those that there are.
fn proved_fills(
    case: &Case,
    blob: &[u8],
    staged: &[u64],
    mask: &[u8],
    list: &[usize],
    image: &mut [u64],
    place: &mut [u64],
) -> u32 {
    let (header, blocks) = (&staged[..raw::HEADER], staged[raw::HEADER]);
    let mut ranges = [0; raw::RANGES];
    for n in 0..case.numbers[0].min(blocks) {
        let number = (n * 7919 % blocks) as usize;
        let said = &mut [0];
        let answer = match raw::read_ranges(blob, header, &mut ranges, place) {
            0 => raw::fill(
                blob, header, &ranges, mask, list, number, image, said, place,
            ),
            refused => refused,
        };
        if answer != 0 {
            return answer;
        }
    }
    0
}

/// The plain reader, lent the same records.
pub fn plain(case: &Case) -> After {
    called(case, |case, slices| {
        let [a, b] = case.numbers;
        let answer = match case.op {
            Op::Header => placed(slices, plain_header),
            Op::Mask => placed(slices, |slices| plain_mask(case, slices)),
            Op::Ranges => placed(slices, plain_ranges),
            Op::Walk => placed(slices, plain_walk),
            Op::Fill => placed(slices, |slices| plain_fill(case, slices)),
            Op::Read => placed(slices, |slices| plain_read(case, slices)),
            Op::Stage => placed(slices, |slices| plain_stage(case, slices)),
            Op::Publish => placed(slices, |slices| plain_publish(case, slices)),
            Op::Both => {
                let answer = placed(slices, |slices| plain_read(case, slices));
                let words = match answer {
                    0 => slices.said.slice()[2] * slices.said.slice()[3],
                    _ => 0,
                };
                return (answer, words);
            }
            Op::Stored => placed(slices, |slices| plain_stored(case, slices)),
            Op::Sum => return (0, second::sum(a, b)),
            Op::Scaled => return (0, second::scaled(a, b as u32)),
            Op::Narrow => return (0, second::narrow(a).into()),
            Op::Number => return (0, second::number(a, b as u32)),
        };
        (answer, 0)
    })
}

/// The number of a call, once its place is written. Without room for a place it
/// is 5, before anything else, and nothing is written.
fn placed(slices: &mut Slices, call: impl Fn(&mut Slices) -> Result<(), Refusal>) -> u32 {
    if slices.place.slice().is_empty() {
        return NO_ROOM;
    }
    let accepted = Refusal::of(0);
    let refusal = call(slices).err().unwrap_or(accepted);
    slices.place.slice()[0] = refusal.place as u64;
    refusal.number
}

fn plain_header(s: &mut Slices) -> Result<(), Refusal> {
    room(s.header.slice(), raw::HEADER)?;
    let header = second::read_header(s.blob.slice())?;
    s.header.slice()[..raw::HEADER].copy_from_slice(&record(&header));
    Ok(())
}

fn plain_mask(case: &Case, s: &mut Slices) -> Result<(), Refusal> {
    room(s.header.slice(), raw::HEADER)?;
    room(s.said.slice(), raw::MASK)?;
    let header = header_of(s.header.slice())?;
    let said = second::prepare_mask(
        s.blob.slice(),
        &header,
        case.reuse,
        s.kept.slice(),
        s.spare.slice(),
    )?;
    let (which, length) = match said {
        second::Mask::Kept(length) => (1, length),
        second::Mask::Spare(length) => (2, length),
    };
    s.said.slice()[..raw::MASK].copy_from_slice(&[which, length as u64]);
    Ok(())
}

fn plain_ranges(s: &mut Slices) -> Result<(), Refusal> {
    room(s.header.slice(), raw::HEADER)?;
    room(s.ranges.slice(), raw::RANGES)?;
    let header = header_of(s.header.slice())?;
    let ranges = second::read_ranges(s.blob.slice(), &header)?;
    s.ranges.slice()[..raw::RANGES].copy_from_slice(&ranges_record(&ranges));
    Ok(())
}

fn plain_walk(s: &mut Slices) -> Result<(), Refusal> {
    room(s.header.slice(), raw::HEADER)?;
    room(s.ranges.slice(), raw::RANGES)?;
    room(s.said.slice(), raw::WALK)?;
    let header = header_of(s.header.slice())?;
    let ranges = ranges_of(s.ranges.slice())?;
    let (blocks, end) = second::walk(
        s.blob.slice(),
        &header,
        &ranges,
        s.mask.slice(),
        s.list.slice(),
    )?;
    s.said.slice()[..raw::WALK].copy_from_slice(&[blocks as u64, end as u64]);
    Ok(())
}

fn plain_fill(case: &Case, s: &mut Slices) -> Result<(), Refusal> {
    room(s.header.slice(), raw::HEADER)?;
    room(s.ranges.slice(), raw::RANGES)?;
    room(s.said.slice(), raw::FILL)?;
    let header = header_of(s.header.slice())?;
    let ranges = ranges_of(s.ranges.slice())?;
    let words = second::fill(
        s.blob.slice(),
        &header,
        &ranges,
        s.mask.slice(),
        s.list.slice(),
        case.numbers[0] as usize,
        s.image.slice(),
    )?;
    s.said.slice()[0] = words as u64;
    Ok(())
}

fn plain_read(case: &Case, s: &mut Slices) -> Result<(), Refusal> {
    room(s.said.slice(), raw::READ)?;
    let (header, blocks, end) = second::read(
        s.blob.slice(),
        case.reuse,
        s.kept.slice(),
        s.spare.slice(),
        s.list.slice(),
        s.image.slice(),
    )?;
    let said = s.said.slice();
    said[..raw::HEADER].copy_from_slice(&record(&header));
    said[raw::HEADER..raw::READ].copy_from_slice(&[blocks as u64, end as u64]);
    Ok(())
}

fn plain_stage(case: &Case, s: &mut Slices) -> Result<(), Refusal> {
    room(s.staged.slice(), raw::STAGED)?;
    let staged = second::stage(
        s.blob.slice(),
        case.reuse,
        s.kept.slice(),
        s.spare.slice(),
        s.list.slice(),
        s.image.slice(),
    )?;
    s.staged.slice()[..raw::STAGED].copy_from_slice(&staged_record(&staged));
    Ok(())
}

fn plain_publish(case: &Case, s: &mut Slices) -> Result<(), Refusal> {
    room(s.staged.slice(), raw::STAGED)?;
    room(s.said.slice(), raw::PUBLISH)?;
    let published = second::publish(
        s.blob.slice(),
        case.reuse,
        staged_of(s.staged.slice()),
        s.kept.slice(),
        s.spare.slice(),
        s.list.slice(),
        s.image.slice(),
    )?;
    let said = [published.end as u64, published.words as u64];
    s.said.slice()[..raw::PUBLISH].copy_from_slice(&said);
    Ok(())
}

fn plain_stored(case: &Case, s: &mut Slices) -> Result<(), Refusal> {
    room(s.said.slice(), raw::STORED)?;
    let [v, kind] = case.numbers;
    s.said.slice()[0] = second::stored(v, kind as u32)?;
    Ok(())
}

/// A record that is too short is 5, before anything else but the place.
fn room(record: &[u64], numbers: usize) -> Result<(), Refusal> {
    if record.len() < numbers {
        return Err(Refusal::of(NO_ROOM));
    }
    Ok(())
}

/// A number that its field cannot hold is 3.
pub(crate) fn header_of(record: &[u64]) -> Result<Header, Refusal> {
    let field = |n: usize| u32::try_from(record[n]).map_err(|_| Refusal::of(WRONG_FIELD));
    Ok(Header {
        rows: field(0)?,
        columns: field(1)?,
        depth: field(2)?,
        valid: field(3)?,
        side: field(4)?,
        size: field(5)?,
        kind: field(6)?,
        error: record[7],
        min: record[8],
        max: record[9],
        mask: field(10)?,
    })
}

/// A constant mark other than 0 and 1 is 3.
pub(crate) fn ranges_of(record: &[u64]) -> Result<Ranges, Refusal> {
    if record[1] > 1 {
        return Err(Refusal::of(WRONG_FIELD));
    }
    let numbers = |from: usize| std::array::from_fn(|n| record[from + n]);
    Ok(Ranges {
        place: record[0] as usize,
        constant: record[1] == 1,
        min: numbers(2),
        max: numbers(2 + MOST_DEPTH),
    })
}

/// Bodies by their numbers in a staged answer.
const BODIES: [BodyKind; 5] = [
    BodyKind::Empty,
    BodyKind::Constant,
    BodyKind::Raw,
    BodyKind::Blocks,
    BodyKind::Huffman,
];

/// Numbers that are no answer are as good as a refused one: staging did not
/// give it.
pub(crate) fn staged_of(record: &[u64]) -> StageAnswer {
    let none = Refusal::of(WRONG_FIELD);
    let length = record[15] as usize;
    Ok(Staged {
        header: header_of(record)?,
        blocks: record[11] as usize,
        end: record[12] as usize,
        body: *BODIES.get(record[13] as usize).ok_or(none)?,
        mask: match record[14] {
            1 => Mask::Kept(length),
            2 => Mask::Spare(length),
            _ => return Err(none),
        },
    })
}

pub(crate) fn staged_record(staged: &Staged) -> [u64; raw::STAGED] {
    let (mask, length) = match staged.mask {
        Mask::Kept(length) => (1, length),
        Mask::Spare(length) => (2, length),
    };
    let body = BODIES.iter().position(|&body| body == staged.body);
    let mut numbers = [0; raw::STAGED];
    numbers[..raw::HEADER].copy_from_slice(&record(&staged.header));
    numbers[11] = staged.blocks as u64;
    numbers[12] = staged.end as u64;
    numbers[13] = body.expect("one of the five") as u64;
    numbers[14] = mask;
    numbers[15] = length as u64;
    numbers
}

pub fn record(header: &Header) -> [u64; raw::HEADER] {
    [
        header.rows.into(),
        header.columns.into(),
        header.depth.into(),
        header.valid.into(),
        header.side.into(),
        header.size.into(),
        header.kind.into(),
        header.error,
        header.min,
        header.max,
        header.mask.into(),
    ]
}

pub fn ranges_record(ranges: &Ranges) -> [u64; raw::RANGES] {
    let mut record = [0; raw::RANGES];
    record[0] = ranges.place as u64;
    record[1] = ranges.constant.into();
    record[2..2 + MOST_DEPTH].copy_from_slice(&ranges.min);
    record[2 + MOST_DEPTH..].copy_from_slice(&ranges.max);
    record
}
