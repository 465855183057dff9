//! The same call on both sides.

use super::call::{After, Call, Op};
use crate::lent::Lent;
use lerc2::raw;
use second::refusal::NO_ROOM;
use second::{Entry, Refusal};

/// The slices of a call, marked on both sides.
struct Slices {
    pack: Lent<u8>,
    rows: Lent<u16>,
    columns: Lent<u16>,
    lengths: Lent<usize>,
    bodies: Lent<u8>,
    record: Lent<u64>,
    place: Lent<u64>,
}

fn called(call: &Call, answer: impl Fn(&Call, &mut Slices) -> u32) -> After {
    let mut slices = Slices {
        pack: Lent::new(&call.pack),
        rows: Lent::new(&call.rows),
        columns: Lent::new(&call.columns),
        lengths: Lent::new(&call.lengths),
        bodies: Lent::new(&call.bodies),
        record: Lent::new(&call.record),
        place: Lent::new(&call.place),
    };
    let answer = answer(call, &mut slices);
    let mut outside = false;
    let lent = Call {
        op: call.op,
        sort: call.sort,
        pack: slices.pack.back(&mut outside),
        tiles: call.tiles,
        number: call.number,
        rows: slices.rows.back(&mut outside),
        columns: slices.columns.back(&mut outside),
        lengths: slices.lengths.back(&mut outside),
        bodies: slices.bodies.back(&mut outside),
        record: slices.record.back(&mut outside),
        place: slices.place.back(&mut outside),
    };
    After {
        answer,
        outside,
        lent,
    }
}

/// The proved reader and writer.
pub fn proved(call: &Call) -> After {
    called(call, |call, s| {
        let (pack, record, place) = (s.pack.slice(), s.record.slice(), s.place.slice());
        match call.op {
            Op::Open => raw::pack_open(pack, record, place),
            Op::Entry => raw::pack_entry(pack, call.tiles, call.number, record, place),
            Op::Write => raw::pack_write(
                s.rows.slice(),
                s.columns.slice(),
                s.lengths.slice(),
                s.bodies.slice(),
                pack,
                record,
                place,
            ),
        }
    })
}

/// Who answers without records and place.
pub trait Packs {
    fn open(&self, pack: &[u8]) -> Result<usize, Refusal>;
    fn entry(&self, pack: &[u8], tiles: usize, number: usize) -> Result<Entry, Refusal>;
    fn write(
        &self,
        rows: &[u16],
        columns: &[u16],
        lengths: &[usize],
        bodies: &[u8],
        pack: &mut [u8],
    ) -> Result<usize, Refusal>;
}

/// The proved reader and writer, with records of their own.
pub struct Proved;

impl Packs for Proved {
    fn open(&self, pack: &[u8]) -> Result<usize, Refusal> {
        let [mut said, mut place] = [[0], [0]];
        let answer = raw::pack_open(pack, &mut said, &mut place);
        told(answer, place)?;
        Ok(said[0] as usize)
    }

    fn entry(&self, pack: &[u8], tiles: usize, number: usize) -> Result<Entry, Refusal> {
        let (mut entry, mut place) = ([0; raw::PACK_ENTRY], [0]);
        let answer = raw::pack_entry(pack, tiles, number, &mut entry, &mut place);
        told(answer, place)?;
        Ok(Entry {
            row: entry[0] as u16,
            column: entry[1] as u16,
            kind: entry[2] as u32,
            depth: entry[3] as u32,
            start: entry[4] as u32,
            length: entry[5] as u32,
        })
    }

    fn write(
        &self,
        rows: &[u16],
        columns: &[u16],
        lengths: &[usize],
        bodies: &[u8],
        pack: &mut [u8],
    ) -> Result<usize, Refusal> {
        let [mut said, mut place] = [[0], [0]];
        let answer = raw::pack_write(rows, columns, lengths, bodies, pack, &mut said, &mut place);
        told(answer, place)?;
        Ok(said[0] as usize)
    }
}

fn told(answer: u32, place: [u64; 1]) -> Result<(), Refusal> {
    match answer {
        0 => Ok(()),
        number => Err(Refusal::at(number, place[0] as usize)),
    }
}

pub struct Plain;

impl Packs for Plain {
    fn open(&self, pack: &[u8]) -> Result<usize, Refusal> {
        second::open_pack(pack)
    }

    fn entry(&self, pack: &[u8], tiles: usize, number: usize) -> Result<Entry, Refusal> {
        second::pack_entry(pack, tiles, number)
    }

    fn write(
        &self,
        rows: &[u16],
        columns: &[u16],
        lengths: &[usize],
        bodies: &[u8],
        pack: &mut [u8],
    ) -> Result<usize, Refusal> {
        second::write_pack(rows, columns, lengths, bodies, pack)
    }
}

/// The plain reader and writer, lent the same records.
pub fn plain(call: &Call) -> After {
    answered(&Plain, call)
}

/// A call of one who knows of no records. Without room for a place it is 5,
/// before anything else, and nothing is written; then a short record is 5.
pub fn answered(packs: &dyn Packs, call: &Call) -> After {
    called(call, |call, slices| {
        if slices.place.slice().is_empty() {
            return NO_ROOM;
        }
        let refusal = match said(packs, call, slices) {
            Ok(record) => {
                slices.record.slice()[..record.len()].copy_from_slice(&record);
                Refusal::of(0)
            }
            Err(refusal) => refusal,
        };
        slices.place.slice()[0] = refusal.place as u64;
        refusal.number
    })
}

fn said(packs: &dyn Packs, call: &Call, s: &mut Slices) -> Result<Vec<u64>, Refusal> {
    if s.record.slice().len() < call.op.numbers() {
        return Err(Refusal::of(NO_ROOM));
    }
    let pack = s.pack.slice();
    match call.op {
        Op::Open => Ok(vec![packs.open(pack)? as u64]),
        Op::Entry => Ok(record(&packs.entry(pack, call.tiles, call.number)?).to_vec()),
        Op::Write => {
            let (rows, columns) = (s.rows.slice(), s.columns.slice());
            let (lengths, bodies) = (s.lengths.slice(), s.bodies.slice());
            let length = packs.write(rows, columns, lengths, bodies, pack)?;
            Ok(vec![length as u64])
        }
    }
}

fn record(entry: &Entry) -> [u64; raw::PACK_ENTRY] {
    [
        entry.row.into(),
        entry.column.into(),
        entry.kind.into(),
        entry.depth.into(),
        entry.start.into(),
        entry.length.into(),
    ]
}
