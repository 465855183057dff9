//! A reader and writer of packs with faults planted in it.

use compare::checksum::mended;
use compare::packs::call::Op;
use compare::packs::sides::Packs;
use compare::packs::tiles::staged;
use compare::sides;
use second::{read_header, Entry, Refusal};

#[derive(Clone, Copy, Debug, PartialEq, Eq)]
pub enum Fault {
    EqualAllowed,
    ColumnFirst,
    RowAlone,
    SignedRow,
    OrderNotJudged,
    GapAllowed,
    OverlapAllowed,
    StartNotJudged,
    EndShort,
    DepthAsItIs,
    DepthNotCompared,
    KindNotCompared,
    LengthNotCompared,
    /// A blob may go on behind its length.
    DeclaredSizeTaken,
    Most257,
    CountInOneByte,
    VersionNotJudged,
    /// Bytes 1, 2 and 3 of the pack, 6 and 7 of an entry.
    ZeroNotJudged(usize),
    HeaderNotJudged,
    ChecksumNotJudged,
    BodyJudged,
    RoomBeforeContents,
    ContentsWrittenEarly,
    FrontWrittenEarly,
    WrittenBehind,
    BodiesNotAddedUp,
    ColumnsNotCounted,
    NotHeldToCount,
    EntryJudgedAgain,
    BodyNotHeld,
    NumberWraps,
    SumIn32Bits,
    BigEndianStart,
}

/// The fault is one of this operation alone.
#[derive(Clone, Copy, Debug)]
pub struct Planted {
    pub fault: Option<Fault>,
    pub op: Op,
}

const WRONG: Refusal = Refusal::of(12);

fn held(is_right: bool) -> Result<(), Refusal> {
    is_right.then_some(()).ok_or(WRONG)
}

struct Header {
    kind: u32,
    depth: u32,
    size: usize,
}

/// One operation, with its fault.
struct Rules(Option<Fault>);

impl Rules {
    fn has(&self, fault: Fault) -> bool {
        self.0 == Some(fault)
    }

    fn zero(&self, at: usize, byte: u8) -> Result<(), Refusal> {
        held(byte == 0 || self.has(Fault::ZeroNotJudged(at)))
    }

    fn rises(&self, before: Option<(u16, u16)>, place: (u16, u16)) -> bool {
        let Some(before) = before else {
            return true;
        };
        match self.0 {
            Some(Fault::EqualAllowed) => before <= place,
            Some(Fault::ColumnFirst) => (before.1, before.0) < (place.1, place.0),
            Some(Fault::RowAlone) => before.0 <= place.0 && before != place,
            Some(Fault::SignedRow) => (before.0 as i16, before.1) < (place.0 as i16, place.1),
            Some(Fault::OrderNotJudged) => before != place,
            _ => before < place,
        }
    }

    fn field<'a>(&self, pack: &'a [u8], number: usize) -> Result<&'a [u8], Refusal> {
        let at = match self.has(Fault::NumberWraps) {
            true => number.wrapping_mul(16).wrapping_add(8),
            false => number
                .checked_mul(16)
                .and_then(|at| at.checked_add(8))
                .ok_or(WRONG)?,
        };
        let end = at.checked_add(16).ok_or(WRONG)?;
        pack.get(at..end).ok_or(WRONG)
    }

    fn entry(&self, field: &[u8]) -> Entry {
        let two = |at: usize| u16::from_le_bytes([field[at], field[at + 1]]);
        let four = |at: usize| [field[at], field[at + 1], field[at + 2], field[at + 3]];
        Entry {
            row: two(0),
            column: two(2),
            kind: field[4].into(),
            depth: u32::from(field[5]) + u32::from(!self.has(Fault::DepthAsItIs)),
            start: match self.has(Fault::BigEndianStart) {
                true => u32::from_be_bytes(four(8)),
                false => u32::from_le_bytes(four(8)),
            },
            length: u32::from_le_bytes(four(12)),
        }
    }

    fn body<'a>(&self, pack: &'a [u8], entry: &Entry) -> Result<&'a [u8], Refusal> {
        let (start, length) = (entry.start as usize, entry.length as usize);
        if self.has(Fault::SumIn32Bits) {
            let end = entry.start.wrapping_add(entry.length) as usize;
            held(end <= pack.len())?;
            return Ok(pack.get(start..end).unwrap_or_default());
        }
        if self.has(Fault::BodyNotHeld) {
            return Ok(pack.get(start..).unwrap_or_default());
        }
        pack.get(start..start + length).ok_or(WRONG)
    }

    /// `rest` begins as the body does and goes on to the end of all bodies.
    fn header(&self, body: &[u8], rest: &[u8]) -> Result<Header, Refusal> {
        let read = match self.0 {
            Some(Fault::HeaderNotJudged) => {
                let field = |at: usize| -> Result<u32, Refusal> {
                    let bytes = body.get(at..at + 4).ok_or(WRONG)?;
                    Ok(u32::from_le_bytes(bytes.try_into().unwrap()))
                };
                return Ok(Header {
                    kind: field(38)?,
                    depth: field(22)?,
                    size: body.len(),
                });
            }
            Some(Fault::ChecksumNotJudged) => read_header(&mended(body)),
            Some(Fault::DeclaredSizeTaken) => read_header(rest),
            _ => read_header(body),
        };
        let header = read.map_err(|_| WRONG)?;
        let size = header.size as usize;
        let taken = [Fault::LengthNotCompared, Fault::DeclaredSizeTaken];
        held(size == body.len() || taken.iter().any(|&fault| self.has(fault)))?;
        if self.has(Fault::BodyJudged) {
            held(sides::plain(&staged(body)).answer == 0)?;
        }
        Ok(Header {
            kind: header.kind,
            depth: header.depth,
            size: body.len(),
        })
    }

    fn open(&self, pack: &[u8]) -> Result<usize, Refusal> {
        let front = pack.get(..8).ok_or(WRONG)?;
        held(front[0] == 1 || self.has(Fault::VersionNotJudged))?;
        for (at, &byte) in front.iter().enumerate().take(4).skip(1) {
            self.zero(at, byte)?;
        }
        let most = if self.has(Fault::Most257) { 257 } else { 256 };
        let count = u32::from_le_bytes(front[4..].try_into().unwrap()) as usize;
        held(count <= most)?;
        let count = match self.has(Fault::CountInOneByte) {
            true => count % 256,
            false => count,
        };
        let mut end = 8 + 16 * count;
        let mut before = None;
        for number in 0..count {
            let field = self.field(pack, number)?;
            self.zero(6, field[6])?;
            self.zero(7, field[7])?;
            let entry = self.entry(field);
            held(self.rises(before, (entry.row, entry.column)))?;
            let start = entry.start as usize;
            let taken = match self.0 {
                Some(Fault::GapAllowed) => start >= end,
                Some(Fault::OverlapAllowed) => start <= end,
                Some(Fault::StartNotJudged) => true,
                _ => start == end,
            };
            held(taken)?;
            let header = self.header(self.body(pack, &entry)?, &pack[start..])?;
            held(entry.kind == header.kind || self.has(Fault::KindNotCompared))?;
            held(entry.depth == header.depth || self.has(Fault::DepthNotCompared))?;
            before = Some((entry.row, entry.column));
            end = match self.has(Fault::StartNotJudged) {
                true => end + header.size,
                false => start + header.size,
            };
        }
        held(end == pack.len() || end < pack.len() && self.has(Fault::EndShort))?;
        Ok(count)
    }

    fn by_number(&self, pack: &[u8], tiles: usize, number: usize) -> Result<Entry, Refusal> {
        held(number < tiles || self.has(Fault::NotHeldToCount))?;
        let field = self.field(pack, number)?;
        let entry = self.entry(field);
        self.body(pack, &entry)?;
        if self.has(Fault::EntryJudgedAgain) {
            held(entry.kind < 8 && entry.depth <= 64 && field[6..8] == [0, 0])?;
        }
        Ok(entry)
    }

    fn write(
        &self,
        rows: &[u16],
        columns: &[u16],
        lengths: &[usize],
        bodies: &[u8],
        pack: &mut [u8],
    ) -> Result<usize, Refusal> {
        let count = rows.len();
        let contents = 8 + 16 * count;
        let needed = contents + bodies.len();
        let room = (pack.len() >= needed).then_some(()).ok_or(Refusal::of(5));
        if self.has(Fault::RoomBeforeContents) {
            room?;
        }
        let counted =
            columns.len() == count || columns.len() > count && self.has(Fault::ColumnsNotCounted);
        held(counted && lengths.len() == count)?;
        held(count <= if self.has(Fault::Most257) { 257 } else { 256 })?;
        let mut written = vec![1, 0, 0, 0];
        written.extend((count as u32).to_le_bytes());
        let (mut taken, mut before) = (0, None);
        for number in 0..count {
            if self.has(Fault::ContentsWrittenEarly) && room.is_ok() {
                pack[..written.len()].copy_from_slice(&written);
            }
            let place = (rows[number], columns[number]);
            held(self.rises(before, place))?;
            let end = usize::checked_add(taken, lengths[number]).ok_or(WRONG)?;
            let body = bodies.get(taken..end).ok_or(WRONG)?;
            let header = self.header(body, &bodies[taken..])?;
            let depth = header.depth - u32::from(!self.has(Fault::DepthAsItIs));
            let start = (contents + taken) as u32;
            written.extend(place.0.to_le_bytes());
            written.extend(place.1.to_le_bytes());
            written.extend([header.kind as u8, depth as u8, 0, 0]);
            match self.has(Fault::BigEndianStart) {
                true => written.extend(start.to_be_bytes()),
                false => written.extend(start.to_le_bytes()),
            }
            written.extend((body.len() as u32).to_le_bytes());
            before = Some(place);
            taken = end;
        }
        held(taken == bodies.len() || self.has(Fault::BodiesNotAddedUp))?;
        if self.has(Fault::FrontWrittenEarly) && pack.len() >= contents {
            pack[..contents].copy_from_slice(&written);
        }
        room?;
        pack[..contents].copy_from_slice(&written);
        pack[contents..needed].copy_from_slice(bodies);
        if let (true, Some(byte)) = (self.has(Fault::WrittenBehind), pack.get_mut(needed)) {
            *byte = !*byte;
        }
        Ok(contents + taken)
    }
}

impl Planted {
    fn rules(&self, op: Op) -> Rules {
        Rules(self.fault.filter(|_| op == self.op))
    }
}

impl Packs for Planted {
    fn open(&self, pack: &[u8]) -> Result<usize, Refusal> {
        self.rules(Op::Open).open(pack)
    }

    fn entry(&self, pack: &[u8], tiles: usize, number: usize) -> Result<Entry, Refusal> {
        self.rules(Op::Entry).by_number(pack, tiles, number)
    }

    fn write(
        &self,
        rows: &[u16],
        columns: &[u16],
        lengths: &[usize],
        bodies: &[u8],
        pack: &mut [u8],
    ) -> Result<usize, Refusal> {
        let rules = self.rules(Op::Write);
        rules.write(rows, columns, lengths, bodies, pack)
    }
}
