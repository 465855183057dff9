//! Calls made out of the tiles of one pack.

use super::breaches::{damaged, pack_with, put, slices_with, tiles_with};
use super::breaches::{DAMAGE, OF_PACK, OF_SLICES, OF_TILES};
use super::call::{Call, Op};
use super::table::Sort;
use super::tiles::{any_tiles, large_tiles, packed, write_call, Tile};
use crate::random::Random;
use second::{Pack, MOST_TILES};

/// Tries of each group of breaches; some tiles cannot have some of them.
const TRIES: usize = 5;

/// The calls of one pack of a run.
pub fn calls(random: &mut Random, out: &mut Vec<Call>) {
    let (sort, tiles) = any_tiles(random);
    let pack = packed(&tiles);
    out.push(lent(random, Call::open(sort, pack.clone())));
    for room in 0..4 {
        let call = roomed(random, write_call(sort, &tiles), room);
        out.push(lent(random, call));
    }
    entries(random, &tiles, &pack, out);
    for _ in 0..TRIES {
        of_tiles(random, &tiles, out);
        of_pack(random, &tiles, out);
        of_slices(random, &tiles, out);
        of_damage(random, &tiles, out);
    }
    for _ in 0..TRIES {
        let call = made_entry(random);
        out.push(lent(random, call));
    }
}

/// The same with a blob as long as any may be, and few calls.
pub fn large(random: &mut Random, out: &mut Vec<Call>) {
    let tiles = large_tiles(random);
    let pack = packed(&tiles);
    for room in [1, 2] {
        out.push(roomed(random, write_call(Sort::Large, &tiles), room));
    }
    out.push(Call::open(Sort::Large, pack.clone()));
    out.push(Call::entry(Sort::Right, pack, 2, 1));
}

/// What is read of a pack, for the writer.
pub fn again(pack: &Pack) -> Option<Call> {
    let mut call = Call::new(Op::Write, Sort::Again);
    for number in 0..pack.count() {
        let entry = pack.entry(number).ok()?;
        call.rows.push(entry.row);
        call.columns.push(entry.column);
        call.lengths.push(pack.body(number).len());
        call.bodies.extend_from_slice(pack.body(number));
    }
    call.pack = vec![0x5A; pack.bytes.len()];
    Some(call)
}

/// Place and record of any length; most of them are long enough.
fn lent(random: &mut Random, mut call: Call) -> Call {
    let numbers = call.op.numbers();
    let places = match random.below(12) {
        0 => 0,
        1 => random.between(2, 4),
        _ => 1,
    };
    let records = match random.below(12) {
        0 => random.below(numbers),
        1 => numbers + random.between(1, 4),
        _ => numbers,
    };
    call.place = (0..places).map(|_| random.word()).collect();
    call.record = (0..records).map(|_| random.word()).collect();
    call
}

/// Room for the pack: none or some, one byte short, exact, longer.
fn roomed(random: &mut Random, mut call: Call, room: usize) -> Call {
    let needed = call.needed();
    let bytes = match room {
        0 => match random.below(4) {
            0 => random.below(needed),
            1 => random.pick(&[7, 8, 8 + 16 * call.rows.len()]),
            _ => 0,
        },
        1 => needed - 1,
        2 => needed,
        _ => needed + random.between(1, 40),
    };
    let mark = random.byte();
    call.pack = vec![mark; bytes.min(needed + 40)];
    call
}

fn of_tiles(random: &mut Random, good: &[Tile], out: &mut Vec<Call>) {
    let sort = random.pick(&OF_TILES);
    let Some(tiles) = tiles_with(random, sort, good) else {
        return;
    };
    out.push(lent(random, Call::open(sort, packed(&tiles))));
    let room = random.below(4);
    let call = roomed(random, write_call(sort, &tiles), room);
    out.push(lent(random, call));
}

fn of_pack(random: &mut Random, good: &[Tile], out: &mut Vec<Call>) {
    let sort = random.pick(&OF_PACK);
    if let Some(pack) = pack_with(random, sort, good) {
        out.push(lent(random, Call::open(sort, pack)));
    }
}

fn of_slices(random: &mut Random, good: &[Tile], out: &mut Vec<Call>) {
    let sort = random.pick(&OF_SLICES);
    if let Some(call) = slices_with(random, sort, write_call(sort, good)) {
        let room = random.below(4);
        let call = roomed(random, call, room);
        out.push(lent(random, call));
    }
}

fn of_damage(random: &mut Random, good: &[Tile], out: &mut Vec<Call>) {
    let sort = random.pick(&DAMAGE);
    let pack = damaged(random, sort, good);
    for _ in 0..2 {
        let number = random.below(good.len() + 1);
        let tiles = good.len() + random.below(2);
        let call = Call::entry(sort, pack.clone(), tiles, number);
        out.push(lent(random, call));
    }
    out.push(lent(random, Call::open(sort, pack)));
}

// ---- entries by number

/// Of a pack that is right, by counts and numbers that need not be.
fn entries(random: &mut Random, tiles: &[Tile], pack: &[u8], out: &mut Vec<Call>) {
    let count = tiles.len();
    let most = [MOST_TILES, 1 << 32, 1 << 60, 1 << 63, usize::MAX];
    let far = [
        1 << 60,
        (1 << 60) + random.below(count + 1),
        15 << 60 | random.below(count + 1),
        1 << 63,
        usize::MAX / 16,
        usize::MAX / 16 + 1,
        usize::MAX - 1,
    ];
    let far = random.pick(&far);
    let most = random.pick(&most);
    let above = count + random.between(1, 3);
    let mut calls = vec![
        (
            Sort::AtCount,
            count,
            random.pick(&[count, count + 1, count.max(most)]),
        ),
        (
            Sort::CountMore,
            random.pick(&[above, above, above.max(most)]),
            random.below(above),
        ),
        (
            Sort::FarNumber,
            random.pick(&[usize::MAX, far.saturating_add(1)]),
            far,
        ),
    ];
    if count > 0 {
        let less = random.below(count);
        calls.push((Sort::Right, count, random.below(count)));
        calls.push((Sort::CountLess, less, random.below(count)));
    }
    for (sort, tiles, number) in calls {
        let call = Call::entry(sort, pack.to_vec(), tiles, number);
        out.push(lent(random, call));
    }
}

/// Of bytes that are no pack, but for one entry.
fn made_entry(random: &mut Random) -> Call {
    let number = random.pick(&[0, 0, 0, 1, 2, 3, 255, 256]);
    let ends = 8 + 16 * number + 16;
    let bytes = ends + random.below(60);
    let mut pack = random.bytes(bytes);
    let tiles = number + random.between(1, 3);
    let start = random.between(0, bytes);
    let sort = random.pick(&[Sort::AnyFields, Sort::AtEnd, Sort::EntryCut, Sort::Past32]);
    let (start, length) = match sort {
        Sort::AtEnd => {
            let start = random.pick(&[start, bytes, bytes - 1, bytes + 1]);
            let past = random.below(2);
            (start, (bytes + past).saturating_sub(start))
        }
        Sort::Past32 => {
            let start = match random.below(3) {
                0 => (1 << 32) - random.between(1, 100),
                1 => 1 << 31,
                _ => random.between(bytes + 1, (1 << 32) - 1),
            };
            // Cut to 32 bits, the end is inside. The start is not, so that the
            // length fits.
            (start, (1 << 32) - start + random.between(0, bytes))
        }
        _ => (start, random.between(0, bytes - start)),
    };
    put(&mut pack, ends - 8, start);
    put(&mut pack, ends - 4, length);
    if sort == Sort::EntryCut {
        pack.truncate(random.below(ends));
    }
    Call::entry(sort, pack, tiles, number)
}
