//! Sides that test the checksum in another way.

use compare::case::{After, Case};
use compare::checksum::{mend, truth};
use compare::sides::plain;

/// The plain reader, to which the checksum is right where `is_right` says so.
pub fn judged(case: &Case, is_right: impl Fn(&[u8]) -> bool) -> After {
    if !case.op.reads_header() || truth(&case.blob).is_none() {
        return plain(case);
    }
    let mut other = case.clone();
    mend(&mut other.blob);
    if !is_right(&case.blob) {
        other.blob[10] ^= 1;
    }
    let mut after = plain(&other);
    after.lent.blob.clone_from(&case.blob);
    after
}

/// It is not tested at all.
pub fn untested(case: &Case) -> After {
    judged(case, |_| true)
}

/// It is tested of a header by value, too.
pub fn tested_by_value(case: &Case) -> After {
    let mut after = plain(case);
    let is_given = case.op.has_blob() && after.answer == 0;
    if is_given && compare::checksum::wrong(&case.blob).is_some() {
        after.answer = 13;
        after.lent.clone_from(case);
        after.lent.place[0] = 0;
    }
    after
}
