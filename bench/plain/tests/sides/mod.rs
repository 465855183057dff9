//! One call on both sides, with the records of the comparison.

use compare::case::{After, Case, Op};
use compare::sides::{plain as plain_side, record};
use lerc2::raw;
use second::refusal::{NO_ROOM, WRONG_FIELD};
use second::{Header, Ranges};

/// `second`, which the comparison calls the plain one. Its place is dropped,
/// since this reader tells none.
pub fn slow(case: &Case) -> After {
    let mut after = plain_side(case);
    after.lent.place.clone_from(&case.place);
    after
}

/// This reader.
pub fn fast(case: &Case) -> After {
    let mut lent = case.clone();
    let done = room(&case.place, raw::PLACE).and_then(|()| match case.op {
        Op::Walk => walk(&mut lent),
        Op::Fill => fill(&mut lent),
        Op::Read => read(&mut lent),
        _ => unreachable!("{} is that of second", case.op.name()),
    });
    After {
        answer: done.err().unwrap_or(0),
        word: 0,
        outside: false,
        lent,
    }
}

fn walk(case: &mut Case) -> Result<(), u32> {
    let (header, ranges) = given(case, raw::WALK)?;
    let list = &mut case.list;
    let (blocks, end) = plain::walk(&case.blob, &header, &ranges, &case.mask, list)?;
    case.said[..raw::WALK].copy_from_slice(&[blocks as u64, end as u64]);
    Ok(())
}

fn fill(case: &mut Case) -> Result<(), u32> {
    let (header, ranges) = given(case, raw::FILL)?;
    let (blob, number) = (&case.blob, case.numbers[0] as usize);
    let (mask, list, image) = (&case.mask, &case.list, &mut case.image);
    case.said[0] = plain::fill(blob, &header, &ranges, mask, list, number, image)? as u64;
    Ok(())
}

fn read(case: &mut Case) -> Result<(), u32> {
    room(&case.said, raw::READ)?;
    let (kept, spare) = (&mut case.kept, &mut case.spare);
    let (list, image) = (&mut case.list, &mut case.image);
    let (header, blocks, end) = plain::read(&case.blob, case.reuse, kept, spare, list, image)?;
    case.said[..raw::HEADER].copy_from_slice(&record(&header));
    case.said[raw::HEADER..raw::READ].copy_from_slice(&[blocks as u64, end as u64]);
    Ok(())
}

/// A record that is too short is 5, before anything else.
fn room(record: &[u64], numbers: usize) -> Result<(), u32> {
    if record.len() < numbers {
        return Err(NO_ROOM);
    }
    Ok(())
}

/// Header and ranges out of their records; a number that its field cannot hold
/// is 3.
fn given(case: &Case, said: usize) -> Result<(Header, Ranges), u32> {
    room(&case.header, raw::HEADER)?;
    room(&case.ranges, raw::RANGES)?;
    room(&case.said, said)?;
    let (header, ranges) = (&case.header, &case.ranges);
    let field = |n: usize| u32::try_from(header[n]).map_err(|_| WRONG_FIELD);
    let header = Header {
        rows: field(0)?,
        columns: field(1)?,
        depth: field(2)?,
        valid: field(3)?,
        side: field(4)?,
        size: field(5)?,
        kind: field(6)?,
        error: header[7],
        min: header[8],
        max: header[9],
        mask: field(10)?,
    };
    if ranges[1] > 1 {
        return Err(WRONG_FIELD);
    }
    let numbers = |from: usize| std::array::from_fn(|n| ranges[from + n]);
    let ranges = Ranges {
        place: ranges[0] as usize,
        constant: ranges[1] == 1,
        min: numbers(2),
        max: numbers(66),
    };
    Ok((header, ranges))
}
