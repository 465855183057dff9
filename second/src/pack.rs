//! A pack: the tiles of a field, a table of contents first, then the bodies.

use crate::bytes::{little, part};
use crate::header::{read_header, Header};
use crate::refusal::{Refusal, NO_ROOM, WRONG_PACK};

pub const MOST_TILES: usize = 256;

/// Version, three zeros, count.
const FRONT_BYTES: usize = 8;
const ENTRY_BYTES: usize = 16;
/// How a pack of any count begins: the version and three zeros.
const BEGINNING: [u8; 4] = [1, 0, 0, 0];

/// Whatever is wrong with a pack, no byte of it is named.
const WRONG: Refusal = Refusal::of(WRONG_PACK);

/// What the contents say of one tile; `start` is counted from the pack's first
/// byte.
#[derive(Clone, Copy, Debug, PartialEq, Eq)]
pub struct Entry {
    pub row: u16,
    pub column: u16,
    pub kind: u32,
    pub depth: u32,
    pub start: u32,
    pub length: u32,
}

/// A lent pack and its count. One that is put together by hand is answered as
/// well: see [`pack_entry`].
#[derive(Clone, Copy, Debug)]
pub struct Pack<'a> {
    pub bytes: &'a [u8],
    pub count: usize,
}

impl<'a> Pack<'a> {
    pub fn open(bytes: &'a [u8]) -> Result<Pack<'a>, Refusal> {
        let count = open_pack(bytes)?;
        Ok(Pack { bytes, count })
    }

    pub fn count(&self) -> usize {
        self.count
    }

    pub fn entry(&self, number: usize) -> Result<Entry, Refusal> {
        pack_entry(self.bytes, self.count, number)
    }

    pub fn body(&self, number: usize) -> &'a [u8] {
        pack_body(self.bytes, self.count, number)
    }
}

/// Judges the whole pack, every blob's header and checksum included, and gives
/// the count of tiles. What is behind a blob's header is not read.
pub fn open_pack(bytes: &[u8]) -> Result<usize, Refusal> {
    let front = bytes.get(..FRONT_BYTES).ok_or(WRONG)?;
    let count = little(&front[4..]) as usize;
    if front[..4] != BEGINNING || count > MOST_TILES {
        return Err(WRONG);
    }
    let mut before = None;
    let mut end = FRONT_BYTES + ENTRY_BYTES * count;
    for number in 0..count {
        let field = entry_field(bytes, number)?;
        let entry = entry_of(field);
        let body = body_of(bytes, &entry)?;
        let place = Some((entry.row, entry.column));
        // None is below all others.
        let rises = before < place;
        if field[6..8] != [0, 0] || !rises || entry.start as usize != end {
            return Err(WRONG);
        }
        let header = whole_header(body)?;
        if entry.kind != header.kind || entry.depth != header.depth {
            return Err(WRONG);
        }
        before = place;
        end += body.len();
    }
    if end != bytes.len() {
        return Err(WRONG);
    }
    Ok(count)
}

/// One entry of a pack that was opened, whose count the caller hands in. It may
/// be any number, right or wrong: the entry is given if its number is below it
/// and entry and body lie in the bytes. Nothing else is judged again.
pub fn pack_entry(bytes: &[u8], count: usize, number: usize) -> Result<Entry, Refusal> {
    if number >= count {
        return Err(WRONG);
    }
    let entry = entry_of(entry_field(bytes, number)?);
    body_of(bytes, &entry)?;
    Ok(entry)
}

/// The blob of a tile, and no bytes where its entry is refused.
pub fn pack_body(bytes: &[u8], count: usize, number: usize) -> &[u8] {
    let entry = pack_entry(bytes, count, number);
    entry
        .and_then(|entry| body_of(bytes, &entry))
        .unwrap_or_default()
}

/// Writes the pack of these tiles and gives its length. The bodies stand end to
/// end in one slice; kind and depth come from their headers.
pub fn write_pack(
    rows: &[u16],
    columns: &[u16],
    lengths: &[usize],
    bodies: &[u8],
    pack: &mut [u8],
) -> Result<usize, Refusal> {
    let count = rows.len();
    if columns.len() != count || lengths.len() != count || count > MOST_TILES {
        return Err(WRONG);
    }
    let contents = FRONT_BYTES + ENTRY_BYTES * count;
    let mut written = BEGINNING.to_vec();
    written.extend((count as u32).to_le_bytes());
    let mut before = None;
    let mut taken = 0;
    for number in 0..count {
        let place = Some((rows[number], columns[number]));
        let body = part(bodies, taken, lengths[number]).map_err(|_| WRONG)?;
        let header = whole_header(body)?;
        if before >= place {
            return Err(WRONG);
        }
        // At most 255 blobs of 2^24 bytes stand before, so that it fits.
        let start = (contents + taken) as u32;
        written.extend(rows[number].to_le_bytes());
        written.extend(columns[number].to_le_bytes());
        written.extend([header.kind as u8, (header.depth - 1) as u8, 0, 0]);
        written.extend(start.to_le_bytes());
        written.extend(header.size.to_le_bytes());
        before = place;
        taken += body.len();
    }
    if taken != bodies.len() {
        return Err(WRONG);
    }
    let length = contents + taken;
    let room = pack.get_mut(..length).ok_or(Refusal::of(NO_ROOM))?;
    room[..contents].copy_from_slice(&written);
    room[contents..].copy_from_slice(bodies);
    Ok(length)
}

/// The sixteen bytes of an entry. Its number may be any.
fn entry_field(bytes: &[u8], number: usize) -> Result<&[u8], Refusal> {
    let behind = number.checked_mul(ENTRY_BYTES).ok_or(WRONG)?;
    let at = behind.checked_add(FRONT_BYTES).ok_or(WRONG)?;
    part(bytes, at, ENTRY_BYTES).map_err(|_| WRONG)
}

fn entry_of(field: &[u8]) -> Entry {
    Entry {
        row: little(&field[..2]) as u16,
        column: little(&field[2..4]) as u16,
        kind: field[4].into(),
        depth: u32::from(field[5]) + 1,
        start: little(&field[8..12]) as u32,
        length: little(&field[12..]) as u32,
    }
}

/// Start and length are added as usize, since their sum may pass 2^32.
fn body_of<'a>(bytes: &'a [u8], entry: &Entry) -> Result<&'a [u8], Refusal> {
    part(bytes, entry.start as usize, entry.length as usize).map_err(|_| WRONG)
}

/// The header of a blob that is as long as it declares.
fn whole_header(body: &[u8]) -> Result<Header, Refusal> {
    let header = read_header(body).map_err(|_| WRONG)?;
    if header.size as usize != body.len() {
        return Err(WRONG);
    }
    Ok(header)
}
