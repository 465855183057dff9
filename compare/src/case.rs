//! One call: the operation, and everything it is lent.

use crate::publishes::Sort;

/// The operations of the C interface, and two of them one after the other.
#[derive(Clone, Copy, Debug, PartialEq, Eq)]
pub enum Op {
    Header,
    Mask,
    Ranges,
    Walk,
    Fill,
    Read,
    Stage,
    Publish,
    /// Stage, some fills, publish: on the plain side a whole read.
    Both,
    Sum,
    Scaled,
    Narrow,
    Number,
    Stored,
}

impl Op {
    /// The entries that read a blob.
    pub const READING: [Op; 8] = [
        Op::Header,
        Op::Mask,
        Op::Ranges,
        Op::Walk,
        Op::Fill,
        Op::Read,
        Op::Stage,
        Op::Publish,
    ];

    pub const ALL: [Op; 14] = [
        Op::Header,
        Op::Mask,
        Op::Ranges,
        Op::Walk,
        Op::Fill,
        Op::Read,
        Op::Stage,
        Op::Publish,
        Op::Both,
        Op::Sum,
        Op::Scaled,
        Op::Narrow,
        Op::Number,
        Op::Stored,
    ];

    /// The entry's name without `lerc2_`, or two.
    pub fn name(self) -> &'static str {
        match self {
            Op::Header => "read_header",
            Op::Mask => "prepare_mask",
            Op::Ranges => "read_ranges",
            Op::Walk => "walk",
            Op::Fill => "fill",
            Op::Read => "read",
            Op::Stage => "stage",
            Op::Publish => "publish",
            Op::Both => "stage+publish",
            Op::Sum => "sum",
            Op::Scaled => "scaled",
            Op::Narrow => "narrow",
            Op::Number => "number",
            Op::Stored => "stored",
        }
    }

    /// All but arithmetic.
    pub fn has_blob(self) -> bool {
        Op::READING.contains(&self) || self == Op::Both
    }

    /// Those that are given no header read the blob's own.
    pub fn reads_header(self) -> bool {
        self.has_blob() && !self.is_given_header()
    }

    pub fn is_given_header(self) -> bool {
        matches!(self, Op::Mask | Op::Ranges | Op::Walk | Op::Fill)
    }

    /// Those that can are lent a slice for the place.
    pub fn can_refuse(self) -> bool {
        !matches!(self, Op::Sum | Op::Scaled | Op::Narrow | Op::Number)
    }
}

/// Slices that the operation is not lent stay empty.
#[derive(Clone, Debug, PartialEq, Eq)]
pub struct Case {
    pub op: Op,
    pub blob: Vec<u8>,
    /// The record of a header, written by `read_header`, else read.
    pub header: Vec<u64>,
    /// The record of ranges, written by `read_ranges`, else read.
    pub ranges: Vec<u64>,
    /// The mask lent to walk and fill.
    pub mask: Vec<u8>,
    pub kept: Vec<u8>,
    pub spare: Vec<u8>,
    pub list: Vec<usize>,
    pub image: Vec<u64>,
    /// The record of a staged answer, written by `stage`, read by `publish`.
    pub staged: Vec<u64>,
    pub said: Vec<u64>,
    pub reuse: bool,
    /// Fill: the block's number. Both: how many fills. Arithmetic: the operands.
    pub numbers: [u64; 2],
    /// The first number of it is the place of the refusal, afterwards.
    pub place: Vec<u64>,
    /// How a publish was come to; it is counted, and not lent.
    pub sort: Option<Sort>,
}

impl Case {
    /// With room for the place, and for nothing else.
    pub fn new(op: Op) -> Case {
        Case {
            op,
            blob: Vec::new(),
            header: Vec::new(),
            ranges: Vec::new(),
            mask: Vec::new(),
            kept: Vec::new(),
            spare: Vec::new(),
            list: Vec::new(),
            image: Vec::new(),
            staged: Vec::new(),
            said: Vec::new(),
            reuse: false,
            numbers: [0; 2],
            place: vec![7; usize::from(op.can_refuse())],
            sort: None,
        }
    }

    pub fn arithmetic(op: Op, a: u64, b: u64) -> Case {
        Case {
            numbers: [a, b],
            ..Case::new(op)
        }
    }
}

/// What a slice has for elements.
pub trait Element: Copy + Default + PartialEq + From<u8> {}

impl Element for u8 {}
impl Element for u64 {}
impl Element for usize {}

/// One slice of a call.
pub type Part<T> = fn(&mut Case) -> &mut Vec<T>;

const BYTES: [Part<u8>; 4] = [
    |case| &mut case.blob,
    |case| &mut case.mask,
    |case| &mut case.kept,
    |case| &mut case.spare,
];

const NUMBERS: [Part<u64>; 6] = [
    |case| &mut case.header,
    |case| &mut case.ranges,
    |case| &mut case.image,
    |case| &mut case.staged,
    |case| &mut case.said,
    |case| &mut case.place,
];

const STARTS: [Part<usize>; 1] = [|case| &mut case.list];

/// What is done with a slice, whatever its elements are.
pub trait Visit {
    fn part<T: Element>(&mut self, part: Part<T>);
}

pub fn each_part(visit: &mut impl Visit) {
    BYTES.into_iter().for_each(|part| visit.part(part));
    NUMBERS.into_iter().for_each(|part| visit.part(part));
    STARTS.into_iter().for_each(|part| visit.part(part));
}

/// What a call left: its answer, the word of an arithmetic operation, every
/// lent slice, and whether a mark beside a slice was overwritten.
#[derive(Clone, Debug, PartialEq, Eq)]
pub struct After {
    pub answer: u32,
    pub word: u64,
    pub outside: bool,
    pub lent: Case,
}

impl After {
    /// The place of the refusal, or 0, where there is room for it.
    pub fn place(&self) -> Option<u64> {
        self.lent.place.first().copied()
    }

    pub fn outcome(&self) -> String {
        let place = match self.place() {
            Some(place) => place.to_string(),
            None => "none".into(),
        };
        format!(
            "answer {}, place {place}, word {:#x}",
            self.answer, self.word
        )
    }

    /// The first thing in which two calls differ.
    pub fn difference(&self, other: &After) -> Option<String> {
        if self.answer != other.answer {
            return Some(format!("answer {} and {}", self.answer, other.answer));
        }
        if let (Some(a), Some(b)) = (self.place(), other.place()) {
            if a != b {
                return Some(format!("answer {}, place {a} and {b}", self.answer));
            }
        }
        if self.word != other.word {
            return Some(format!("word {:#018x} and {:#018x}", self.word, other.word));
        }
        if self.outside || other.outside {
            return Some("a mark beside a slice was overwritten".into());
        }
        let (a, b) = (&self.lent, &other.lent);
        first_of("blob", &a.blob, &b.blob)
            .or_else(|| first_of("header", &a.header, &b.header))
            .or_else(|| first_of("ranges", &a.ranges, &b.ranges))
            .or_else(|| first_of("mask", &a.mask, &b.mask))
            .or_else(|| first_of("kept", &a.kept, &b.kept))
            .or_else(|| first_of("spare", &a.spare, &b.spare))
            .or_else(|| first_of("list", &a.list, &b.list))
            .or_else(|| first_of("image", &a.image, &b.image))
            .or_else(|| first_of("staged", &a.staged, &b.staged))
            .or_else(|| first_of("said", &a.said, &b.said))
            .or_else(|| first_of("place", &a.place, &b.place))
    }
}

fn first_of<T: PartialEq + std::fmt::LowerHex>(name: &str, a: &[T], b: &[T]) -> Option<String> {
    if a.len() != b.len() {
        return Some(format!("{name}: lengths {} and {}", a.len(), b.len()));
    }
    let at = a.iter().zip(b).position(|(a, b)| a != b)?;
    Some(format!("{name}[{at}]: {:#x} and {:#x}", a[at], b[at]))
}
