//! How many calls there were of each sort, and what came of them. A run that
//! leaves one of them out has not compared it.

use super::call::{After, Call, Op};
use crate::table::grouped;
use second::refusal::{NO_ROOM, WRONG_PACK};

/// How a call was come to.
#[derive(Clone, Copy, Debug, PartialEq, Eq)]
pub enum Sort {
    Empty,
    Good,
    Full,
    Broken,
    Large,
    Again,
    TooMany,
    Equal,
    RowFalls,
    ColumnFalls,
    Stub,
    Key,
    BlobVersion,
    Field,
    Ceiling,
    Checksum,
    DeclaresMore,
    DeclaresLess,
    Short,
    ContentsCut,
    Version,
    Zero1,
    Zero2,
    Zero3,
    Zero6,
    Zero7,
    GapBefore,
    GapBetween,
    Behind,
    BodyCut,
    Overlap,
    Turned,
    Kind,
    Depth,
    Rows,
    Columns,
    Lengths,
    BodiesShort,
    BodiesLong,
    Wrapped,
    Flipped,
    Cut,
    Extended,
    Swapped,
    Limits,
    Far,
    Noise,
    Right,
    AtCount,
    CountLess,
    CountMore,
    FarNumber,
    AnyFields,
    AtEnd,
    EntryCut,
    Past32,
}

impl Sort {
    pub fn name(self) -> &'static str {
        SORTS[self as usize].1
    }

    /// More than one thing may be wrong, or nothing.
    pub fn is_damage(self) -> bool {
        super::breaches::DAMAGE.contains(&self)
    }
}

const NONE: &[u32] = &[];
const ACCEPTED: &[u32] = &[0];
const REFUSED: &[u32] = &[WRONG_PACK];
const BOTH: &[u32] = &[0, WRONG_PACK];
const ROOM: &[u32] = &[0, NO_ROOM];

/// What must have come of a sort, by operation: open, entry, write.
type Came = [&'static [u32]; 3];

const GOOD: Came = [ACCEPTED, NONE, ROOM];
const OF_TILES: Came = [REFUSED, NONE, REFUSED];
const OF_PACK: Came = [REFUSED, NONE, NONE];
const OF_SLICES: Came = [NONE, NONE, REFUSED];
const DAMAGED: Came = [REFUSED, BOTH, NONE];
const ENTRY: Came = [NONE, ACCEPTED, NONE];
const NO_ENTRY: Came = [NONE, REFUSED, NONE];
const SOME_ENTRY: Came = [NONE, BOTH, NONE];

/// All of them in order, with their names and what must have come of them.
pub const SORTS: [(Sort, &str, Came); 56] = [
    (Sort::Empty, "no tiles", GOOD),
    (Sort::Good, "1 to 255 tiles", GOOD),
    (Sort::Full, "256 tiles", GOOD),
    (Sort::Broken, "a broken body, its checksum true", GOOD),
    (Sort::Large, "a start from 2^24 on", GOOD),
    (
        Sort::Again,
        "what was read, written again",
        [NONE, NONE, ACCEPTED],
    ),
    (Sort::TooMany, "more than 256 tiles", OF_TILES),
    (Sort::Equal, "row and column twice", OF_TILES),
    (Sort::RowFalls, "the row falls", OF_TILES),
    (Sort::ColumnFalls, "the column falls in its row", OF_TILES),
    (Sort::Stub, "blob: under 70 bytes", OF_TILES),
    (Sort::Key, "blob: key", OF_TILES),
    (Sort::BlobVersion, "blob: version", OF_TILES),
    (Sort::Field, "blob: a field", OF_TILES),
    (Sort::Ceiling, "blob: a ceiling", OF_TILES),
    (Sort::Checksum, "blob: checksum", OF_TILES),
    (
        Sort::DeclaresMore,
        "blob: declares more than its length",
        OF_TILES,
    ),
    (
        Sort::DeclaresLess,
        "blob: declares less than its length",
        OF_TILES,
    ),
    (Sort::Short, "under 8 bytes", OF_PACK),
    (Sort::ContentsCut, "contents cut short", OF_PACK),
    (Sort::Version, "version", OF_PACK),
    (Sort::Zero1, "byte 1 not 0", OF_PACK),
    (Sort::Zero2, "byte 2 not 0", OF_PACK),
    (Sort::Zero3, "byte 3 not 0", OF_PACK),
    (Sort::Zero6, "byte 6 of an entry not 0", OF_PACK),
    (Sort::Zero7, "byte 7 of an entry not 0", OF_PACK),
    (Sort::GapBefore, "a gap before the first body", OF_PACK),
    (Sort::GapBetween, "a gap between bodies", OF_PACK),
    (Sort::Behind, "bytes behind the last body", OF_PACK),
    (Sort::BodyCut, "the last body cut short", OF_PACK),
    (Sort::Overlap, "two entries of one body", OF_PACK),
    (Sort::Turned, "bodies in another order", OF_PACK),
    (Sort::Kind, "kind not the blob's", OF_PACK),
    (Sort::Depth, "depth not the blob's", OF_PACK),
    (Sort::Rows, "rows: another number", OF_SLICES),
    (Sort::Columns, "columns: another number", OF_SLICES),
    (Sort::Lengths, "lengths: another number", OF_SLICES),
    (Sort::BodiesShort, "bodies: bytes missing", OF_SLICES),
    (Sort::BodiesLong, "bodies: bytes behind", OF_SLICES),
    (
        Sort::Wrapped,
        "lengths: their sum passes 2^32 or 2^64",
        OF_SLICES,
    ),
    (Sort::Flipped, "damaged: bits", DAMAGED),
    (Sort::Cut, "damaged: cut", DAMAGED),
    (Sort::Extended, "damaged: bytes put in", DAMAGED),
    (
        Sort::Swapped,
        "damaged: entries swapped",
        [REFUSED, ACCEPTED, NONE],
    ),
    (Sort::Limits, "damaged: a field at a limit", DAMAGED),
    (Sort::Far, "damaged: start and length near 2^32", DAMAGED),
    (Sort::Noise, "any bytes", DAMAGED),
    (Sort::Right, "entry: number and count right", ENTRY),
    (
        Sort::AtCount,
        "entry: number at the count or above",
        NO_ENTRY,
    ),
    (Sort::CountLess, "entry: count too small", SOME_ENTRY),
    (Sort::CountMore, "entry: count too large", SOME_ENTRY),
    (
        Sort::FarNumber,
        "entry: number whose place passes 2^64",
        NO_ENTRY,
    ),
    (Sort::AnyFields, "entry: any fields, body inside", ENTRY),
    (Sort::AtEnd, "entry: body at the pack's end", SOME_ENTRY),
    (Sort::EntryCut, "entry: cut short", NO_ENTRY),
    (Sort::Past32, "entry: start and length pass 2^32", NO_ENTRY),
];

/// How long the slices were that are judged by their length alone.
#[derive(Clone, Copy, Debug, PartialEq, Eq)]
pub enum Room {
    NoPlace,
    OnePlace,
    MorePlaces,
    RecordShort,
    RecordExact,
    RecordMore,
    PackNone,
    PackOneShort,
    PackExact,
    PackMore,
    /// Too short, and 12 is deserved.
    PackBoth,
}

pub const ROOMS: [(Room, &str); 11] = [
    (Room::NoPlace, "place: none"),
    (Room::OnePlace, "place: one"),
    (Room::MorePlaces, "place: more"),
    (Room::RecordShort, "record: too short"),
    (Room::RecordExact, "record: exact"),
    (Room::RecordMore, "record: longer"),
    (Room::PackNone, "room for the pack: none"),
    (Room::PackOneShort, "room for the pack: one byte short"),
    (Room::PackExact, "room for the pack: exact"),
    (Room::PackMore, "room for the pack: longer"),
    (Room::PackBoth, "room for the pack: short, and 12 deserved"),
];

impl Room {
    fn is_of(self, op: Op) -> bool {
        op == Op::Write || (self as usize) < Room::PackNone as usize
    }
}

/// Numbers of the columns.
const ANSWERS: [u32; 3] = [0, WRONG_PACK, NO_ROOM];

#[derive(Clone)]
pub struct Table {
    sorts: [[[u64; ANSWERS.len()]; Op::ALL.len()]; SORTS.len()],
    rooms: [[u64; Op::ALL.len()]; ROOMS.len()],
    /// Calls that have another answer than their sort deserves.
    pub unexpected: Vec<String>,
}

impl Default for Table {
    fn default() -> Table {
        Table {
            sorts: [[[0; ANSWERS.len()]; Op::ALL.len()]; SORTS.len()],
            rooms: [[0; Op::ALL.len()]; ROOMS.len()],
            unexpected: Vec::new(),
        }
    }
}

impl Table {
    /// Counts a call, given what the plain side left of it.
    pub fn count(&mut self, call: &Call, after: &After) {
        if !is_deserved(call, after.answer) {
            let (op, sort) = (call.op.name(), call.sort.name());
            let said = format!("{op}, {sort}: answer {}", after.answer);
            self.unexpected.push(said);
        }
        self.add(call.sort, call.op, after.answer);
        for room in rooms(call, after.answer) {
            self.add_room(room, call.op);
        }
    }

    pub fn add(&mut self, sort: Sort, op: Op, answer: u32) {
        let column = ANSWERS.iter().position(|&number| number == answer);
        self.sorts[sort as usize][op as usize][column.unwrap_or(1)] += 1;
    }

    pub fn add_room(&mut self, room: Room, op: Op) {
        self.rooms[room as usize][op as usize] += 1;
    }

    pub fn of(&self, sort: Sort, op: Op, answer: u32) -> u64 {
        let column = ANSWERS.iter().position(|&number| number == answer);
        column.map_or(0, |column| self.sorts[sort as usize][op as usize][column])
    }

    pub fn of_room(&self, room: Room, op: Op) -> u64 {
        self.rooms[room as usize][op as usize]
    }

    pub fn total(&self) -> u64 {
        self.sorts.iter().flatten().flatten().sum()
    }

    /// What no call had.
    pub fn missing(&self) -> Vec<String> {
        let mut missing = Vec::new();
        for op in Op::ALL {
            for (sort, name, came) in SORTS {
                for &answer in came[op as usize] {
                    if self.of(sort, op, answer) == 0 {
                        missing.push(format!("{}, {name}: {answer}", op.name()));
                    }
                }
            }
            for (room, name) in ROOMS {
                if room.is_of(op) && self.of_room(room, op) == 0 {
                    missing.push(format!("{}, {name}", op.name()));
                }
            }
        }
        missing
    }

    pub fn text(&self) -> String {
        let mut text = head("operation", &["calls", "accepted", "12", "5"]);
        for op in Op::ALL {
            let rows = self.sorts.iter().map(|row| row[op as usize]);
            let sums = rows.fold([0; 3], |a, b| [a[0] + b[0], a[1] + b[1], a[2] + b[2]]);
            let counts = [&[sums.iter().sum()], &sums[..]].concat();
            text += &row(&format!("`{}`", op.name()), &counts);
        }
        let columns = Op::ALL.map(|op| {
            let name = op.name().trim_start_matches("pack_");
            ["accepted", "12", "5"].map(|answer| format!("{name}: {answer}"))
        });
        let columns: Vec<&str> = columns.iter().flatten().map(String::as_str).collect();
        text += "\n";
        text += &head("sort", &columns);
        for ((_, name, _), counts) in SORTS.iter().zip(&self.sorts) {
            text += &row(name, counts.as_flattened());
        }
        text += "\n";
        text += &head("lengths of slices", &Op::ALL.map(Op::name));
        for ((_, name), counts) in ROOMS.iter().zip(&self.rooms) {
            text += &row(name, counts);
        }
        text
    }
}

/// Whether a sort can have this answer.
fn is_deserved(call: &Call, answer: u32) -> bool {
    if is_short(call) {
        return answer == NO_ROOM;
    }
    let (_, _, came) = SORTS[call.sort as usize];
    came[call.op as usize].contains(&answer) || call.sort.is_damage() && BOTH.contains(&answer)
}

/// Refused before anything is looked at.
fn is_short(call: &Call) -> bool {
    call.place.is_empty() || call.record.len() < call.op.numbers()
}

fn rooms(call: &Call, answer: u32) -> Vec<Room> {
    let numbers = call.op.numbers();
    let mut rooms = vec![match call.place.len() {
        0 => Room::NoPlace,
        1 => Room::OnePlace,
        _ => Room::MorePlaces,
    }];
    rooms.push(match call.record.len() {
        length if length < numbers => Room::RecordShort,
        length if length == numbers => Room::RecordExact,
        _ => Room::RecordMore,
    });
    if call.op != Op::Write || is_short(call) {
        return rooms;
    }
    let (room, needed) = (call.pack.len(), call.needed());
    if answer == WRONG_PACK && room < needed {
        rooms.push(Room::PackBoth);
    }
    if answer == NO_ROOM && room == 0 {
        rooms.push(Room::PackNone);
    }
    if answer == NO_ROOM && room + 1 == needed {
        rooms.push(Room::PackOneShort);
    }
    if answer == 0 {
        let is_exact = room == needed;
        rooms.push(if is_exact {
            Room::PackExact
        } else {
            Room::PackMore
        });
    }
    rooms
}

fn head(first: &str, columns: &[&str]) -> String {
    let head = format!("| {first} | {} |\n", columns.join(" | "));
    head + &format!("|---|{}\n", "---|".repeat(columns.len()))
}

fn row(name: &str, counts: &[u64]) -> String {
    let shown = counts.iter().map(|&count| match count {
        0 => "-".into(),
        _ => grouped(count),
    });
    let shown: Vec<String> = shown.collect();
    format!("| {name} | {} |\n", shown.join(" | "))
}
