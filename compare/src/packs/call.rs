//! One call with a pack: the operation, and everything it is lent.

use super::table::Sort;
use lerc2::raw;

#[derive(Clone, Copy, Debug, PartialEq, Eq)]
pub enum Op {
    Open,
    Entry,
    Write,
}

impl Op {
    pub const ALL: [Op; 3] = [Op::Open, Op::Entry, Op::Write];

    /// The entry's name without `lerc2_`.
    pub fn name(self) -> &'static str {
        match self {
            Op::Open => "pack_open",
            Op::Entry => "pack_entry",
            Op::Write => "pack_write",
        }
    }

    /// Numbers of the record.
    pub fn numbers(self) -> usize {
        match self {
            Op::Open => raw::PACK_OPEN,
            Op::Entry => raw::PACK_ENTRY,
            Op::Write => raw::PACK_WRITE,
        }
    }
}

/// Slices that the operation is not lent stay empty.
#[derive(Clone, Debug, PartialEq, Eq)]
pub struct Call {
    pub op: Op,
    /// How it was come to; it is counted, and not lent.
    pub sort: Sort,
    /// Read by open and entry, written by write.
    pub pack: Vec<u8>,
    /// Entry: the count that is handed in, and the number.
    pub tiles: usize,
    pub number: usize,
    pub rows: Vec<u16>,
    pub columns: Vec<u16>,
    pub lengths: Vec<usize>,
    pub bodies: Vec<u8>,
    /// What open and write say, or the entry.
    pub record: Vec<u64>,
    /// The first number of it is the place of the refusal, afterwards.
    pub place: Vec<u64>,
}

impl Call {
    /// With room for record and place, and for nothing else.
    pub fn new(op: Op, sort: Sort) -> Call {
        Call {
            op,
            sort,
            pack: Vec::new(),
            tiles: 0,
            number: 0,
            rows: Vec::new(),
            columns: Vec::new(),
            lengths: Vec::new(),
            bodies: Vec::new(),
            record: vec![7; op.numbers()],
            place: vec![7],
        }
    }

    pub fn open(sort: Sort, pack: Vec<u8>) -> Call {
        Call {
            pack,
            ..Call::new(Op::Open, sort)
        }
    }

    pub fn entry(sort: Sort, pack: Vec<u8>, tiles: usize, number: usize) -> Call {
        Call {
            pack,
            tiles,
            number,
            ..Call::new(Op::Entry, sort)
        }
    }

    /// The bytes that a writer needs for these slices.
    pub fn needed(&self) -> usize {
        8 + 16 * self.rows.len() + self.bodies.len()
    }

    /// One line for each thing that it is lent, and is not empty.
    pub fn text(&self) -> String {
        fn words<T: std::fmt::LowerHex>(numbers: &[T]) -> String {
            let words: Vec<String> = numbers.iter().map(|n| format!("{n:x}")).collect();
            words.join(" ")
        }
        let bytes = |bytes: &[u8]| -> String { bytes.iter().map(|b| format!("{b:02x}")).collect() };
        let of_entry = |number: usize| match self.op {
            Op::Entry => format!("{number:x}"),
            _ => String::new(),
        };
        let lines = [
            ("op", self.op.name().to_string()),
            ("sort", self.sort.name().to_string()),
            ("pack", bytes(&self.pack)),
            ("tiles", of_entry(self.tiles)),
            ("number", of_entry(self.number)),
            ("rows", words(&self.rows)),
            ("columns", words(&self.columns)),
            ("lengths", words(&self.lengths)),
            ("bodies", bytes(&self.bodies)),
            ("record", words(&self.record)),
            ("place", words(&self.place)),
        ];
        let lines = lines.iter().filter(|(_, value)| !value.is_empty());
        lines
            .map(|(name, value)| format!("{name} {value}\n"))
            .collect()
    }
}

/// What a call left: its answer, every lent slice, and whether a mark beside a
/// slice was overwritten.
#[derive(Clone, Debug, PartialEq, Eq)]
pub struct After {
    pub answer: u32,
    pub outside: bool,
    pub lent: Call,
}

impl After {
    /// The first thing in which two calls differ.
    pub fn difference(&self, other: &After) -> Option<String> {
        if self.answer != other.answer {
            return Some(format!("answer {} and {}", self.answer, other.answer));
        }
        if self.outside || other.outside {
            return Some("a mark beside a slice was overwritten".into());
        }
        let (a, b) = (&self.lent, &other.lent);
        first_of("place", &a.place, &b.place)
            .or_else(|| first_of("record", &a.record, &b.record))
            .or_else(|| first_of("pack", &a.pack, &b.pack))
            .or_else(|| first_of("rows", &a.rows, &b.rows))
            .or_else(|| first_of("columns", &a.columns, &b.columns))
            .or_else(|| first_of("lengths", &a.lengths, &b.lengths))
            .or_else(|| first_of("bodies", &a.bodies, &b.bodies))
    }
}

pub(crate) fn first_of<T: PartialEq + std::fmt::LowerHex>(
    name: &str,
    a: &[T],
    b: &[T],
) -> Option<String> {
    if a.len() != b.len() {
        return Some(format!("{name}: lengths {} and {}", a.len(), b.len()));
    }
    let at = a.iter().zip(b).position(|(a, b)| a != b)?;
    Some(format!("{name}[{at}]: {:#x} and {:#x}", a[at], b[at]))
}
