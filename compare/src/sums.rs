//! Checksums of blobs that come from elsewhere: each is taken as it is, and with
//! one byte of it changed refused 13, by both sides, by header reading and by
//! the whole read.

use crate::case::{After, Case, Op};
use crate::run::Side;
use crate::table::grouped;
use lerc2::raw;
use second::refusal::{NO_ROOM, WRONG_CHECKSUM};
use std::ops::Range;

const FIELD: Range<usize> = 10..14;

/// What a byte of the field is changed by: each bit, and all of them.
const CHANGES: [u8; 9] = [1, 2, 4, 8, 16, 32, 64, 128, 255];

/// Header reading, or a whole read that is lent nothing: past the checksum it
/// is refused for room.
pub fn asked(side: Side, op: Op, blob: &[u8]) -> After {
    let mut case = Case::new(op);
    case.blob = blob.to_vec();
    match op {
        Op::Read => case.said = vec![7; raw::READ],
        _ => case.header = vec![7; raw::HEADER],
    }
    side(&case)
}

/// What came of the blobs.
#[derive(Default)]
pub struct Sums {
    /// Blobs whose own checksum is taken.
    pub taken: u64,
    /// Copies with another one that are refused 13.
    pub refused: u64,
    /// Blobs that are refused before their checksum is looked at.
    pub before: u64,
    pub differ: Vec<String>,
}

impl Sums {
    pub fn count(&mut self, name: &str, blob: &[u8], proved: Side, plain: Side) {
        let own = asked(plain, Op::Header, blob).answer;
        if own != 0 && own != WRONG_CHECKSUM {
            self.before += 1;
            return;
        }
        let expected = [(Op::Header, 0), (Op::Read, NO_ROOM)];
        match answered(blob, expected, proved, plain) {
            Ok(()) => self.taken += 1,
            Err(said) => {
                self.differ.push(format!("{name}, as it is: {said}"));
                return;
            }
        }
        for (at, change) in FIELD.flat_map(|at| CHANGES.map(|change| (at, change))) {
            let mut copy = blob.to_vec();
            copy[at] ^= change;
            let expected = [(Op::Header, WRONG_CHECKSUM), (Op::Read, WRONG_CHECKSUM)];
            match answered(&copy, expected, proved, plain) {
                Ok(()) => self.refused += 1,
                Err(said) => {
                    let byte = copy[at];
                    let changed = format!("{name}, byte {at} changed to {byte:#04x}");
                    self.differ.push(format!("{changed}: {said}"));
                }
            }
        }
    }

    pub fn text(&self) -> String {
        let mut text = format!(
            "{} blobs whose own checksum is taken, {} copies with another refused 13, \
             {} blobs refused before it; {} disagreements",
            grouped(self.taken),
            grouped(self.refused),
            grouped(self.before),
            self.differ.len()
        );
        for line in self.differ.iter().take(20) {
            text += &format!("\n{line}");
        }
        text
    }
}

/// Whether both sides answer so, alike in every lent byte.
fn answered(
    blob: &[u8],
    expected: [(Op, u32); 2],
    proved: Side,
    plain: Side,
) -> Result<(), String> {
    for (op, number) in expected {
        let (one, other) = (asked(proved, op, blob), asked(plain, op, blob));
        if let Some(difference) = one.difference(&other) {
            return Err(format!("{}, proved and plain: {difference}", op.name()));
        }
        if (one.answer, one.place()) != (number, Some(0)) {
            let outcome = one.outcome();
            return Err(format!("{}, both: {outcome}, not {number}", op.name()));
        }
    }
    Ok(())
}
