//! The checksum of a blob: mended, damaged, and what is wrong with it.

use crate::form::Form;
use crate::random::Random;
use second::checksum;
use std::ops::Range;

const FIELD: Range<usize> = 10..14;
const FIRST: usize = FIELD.end;

/// Ends before the size that a wrong sum may have.
const BEFORE_SIZE: usize = 9;

/// In what way a stored checksum is wrong.
#[derive(Clone, Copy, Debug, PartialEq, Eq)]
pub enum Wrong {
    /// As the words have it, where Esri's code has another one.
    ByWords,
    Zero,
    OneBit,
    /// Bytes or halves swapped.
    Swapped,
    /// True of the whole slice, or of some bytes less.
    OtherEnd,
    Other,
}

/// The declared size, if the blob reaches it and a header fits in.
fn size(blob: &[u8]) -> Option<usize> {
    let field = blob.get(34..38)?.try_into().ok()?;
    let size = u32::from_le_bytes(field) as usize;
    (70..=blob.len()).contains(&size).then_some(size)
}

pub fn stored(blob: &[u8]) -> Option<u32> {
    let field = blob.get(FIELD)?.try_into().ok()?;
    Some(u32::from_le_bytes(field))
}

/// What a blob that reaches its size must store.
pub fn truth(blob: &[u8]) -> Option<u32> {
    size(blob).map(|size| checksum(&blob[FIRST..size]))
}

fn put(blob: &mut [u8], sum: u32) {
    blob[FIELD].copy_from_slice(&sum.to_le_bytes());
}

/// Stores the true checksum, where the blob reaches its size.
pub fn mend(blob: &mut [u8]) {
    if let Some(sum) = truth(blob) {
        put(blob, sum);
    }
}

pub fn mended(blob: &[u8]) -> Vec<u8> {
    let mut blob = blob.to_vec();
    mend(&mut blob);
    blob
}

/// By the words alone: both sums modulo 65,535, zero written as 65,535.
pub fn by_words(bytes: &[u8]) -> u32 {
    let (mut sum, mut running) = (0u64, 0u64);
    for word in bytes.chunks(2) {
        let low = word.get(1).copied().unwrap_or(0);
        sum += u64::from(word[0]) << 8 | u64::from(low);
        running += sum % 65_535;
    }
    let half = |sum: u64| (sum + 65_534) % 65_535 + 1;
    (half(running) << 16 | half(sum)) as u32
}

/// What a blob would store by the words, if it reaches its size.
pub fn words_of(blob: &[u8]) -> Option<u32> {
    size(blob).map(|size| by_words(&blob[FIRST..size]))
}

/// Nothing if the blob does not reach its size, or if its checksum is true.
pub fn wrong(blob: &[u8]) -> Option<Wrong> {
    let (stored, truth) = (stored(blob)?, truth(blob)?);
    Some(match stored {
        _ if stored == truth => return None,
        _ if Some(stored) == words_of(blob) => Wrong::ByWords,
        0 => Wrong::Zero,
        _ if (stored ^ truth).count_ones() == 1 => Wrong::OneBit,
        _ if stored == truth.swap_bytes() || stored == truth.rotate_left(16) => Wrong::Swapped,
        _ if other_ends(blob).any(|end| checksum(&blob[FIRST..end]) == stored) => Wrong::OtherEnd,
        _ => Wrong::Other,
    })
}

/// The slice's, and those just before the size.
fn other_ends(blob: &[u8]) -> impl Iterator<Item = usize> {
    let size = size(blob).unwrap_or(blob.len());
    let before = size.saturating_sub(BEFORE_SIZE).max(FIRST)..size;
    before.chain([blob.len()])
}

/// Stores a wrong checksum, where the blob reaches its size.
pub fn damage(random: &mut Random, blob: &mut [u8]) {
    let Some(truth) = truth(blob) else {
        return;
    };
    let words = words_of(blob).unwrap_or(truth);
    if words != truth && random.once_in(2) {
        return put(blob, words);
    }
    let sum = match random.below(8) {
        0 => 0,
        1 | 2 => truth ^ 1 << random.below(32),
        3 => truth.swap_bytes(),
        4 => truth.rotate_left(16),
        5 => random.word() as u32,
        _ => {
            let ends: Vec<usize> = other_ends(blob).collect();
            checksum(&blob[FIRST..random.pick(&ends)])
        }
    };
    // Some sums are the same turned round, or with zeros behind them.
    put(blob, if sum == truth { truth ^ 1 } else { sum });
}

/// Copies with a wrong checksum of each sort that is made; none if the blob
/// does not reach its size.
pub fn damaged(blob: &[u8]) -> Vec<Vec<u8>> {
    let Some(size) = size(blob) else {
        return Vec::new();
    };
    let truth = checksum(&blob[FIRST..size]);
    let words = by_words(&blob[FIRST..size]);
    // A word less, since an odd last byte of 0 adds nothing.
    let fewer = checksum(&blob[FIRST..size - 2]);
    let turned = [truth.swap_bytes(), truth.rotate_left(16)];
    let sums = [0, truth ^ 1, truth ^ 1 << 31, !truth, words, fewer];
    let sums = sums.into_iter().chain(turned);
    let copy = |sum| {
        let mut copy = blob.to_vec();
        put(&mut copy, sum);
        copy
    };
    sums.filter(|&sum| sum != truth).map(copy).collect()
}

/// Before the last fold: the sum of the words, and that of the running sums, of
/// odd sizes on which words and code differ.
const LAST_SUM: u32 = 131_071;
const LAST_RUNNING: [u32; 3] = [131_071, 196_606, 196_607];

/// Puts bytes between the body and the size such that words and code differ.
/// Without a run of high words before the last byte only one of the four cases
/// comes up.
pub fn put_odd(random: &mut Random, form: &mut Form) {
    form.gap.clear();
    form.gap.resize(form.size() % 2, 0);
    let words = (form.size() - FIRST) / 2;
    // To the end of a group of 359, and most of one at least.
    let run = match random.once_in(2) {
        true => 359 * (words + 2).div_ceil(359) + 359 - words - 2,
        false => 0,
    };
    let at = form.size();
    form.gap.extend([0; 4]);
    form.gap.resize(form.gap.len() + 2 * run, 255);
    let mut bytes = form.bytes()[..form.size()].to_vec();
    let size = bytes.len() as u32 + 1;
    bytes[34..38].copy_from_slice(&size.to_le_bytes());
    for _ in 0..4_000 {
        let front = random.word().to_le_bytes();
        bytes[at..at + 4].copy_from_slice(&front[..4]);
        if run > 0 && random.once_in(400) {
            aim_at_sum(&mut bytes, at);
        }
        if let Some(last) = last_byte(&mut bytes) {
            let gap = form.gap.len();
            form.gap = [&bytes[bytes.len() - gap..], &[last]].concat();
            return;
        }
    }
}

/// Sets the word at `at` so that the sum of all is 256, which a long run leaves
/// at 65,791.
fn aim_at_sum(bytes: &mut [u8], at: usize) {
    bytes[at..at + 2].fill(0);
    let sum = checksum(&bytes[FIRST..]) & 0xFFFF;
    let word = (65_535 + 256 - sum % 65_535) % 65_535;
    bytes[at..at + 2].copy_from_slice(&(word as u16).to_be_bytes());
}

/// An odd last byte with which words and code differ.
fn last_byte(bytes: &mut Vec<u8>) -> Option<u8> {
    let sums = checksum(&bytes[FIRST..]);
    let (sum, running) = (sums & 0xFFFF, sums >> 16);
    let running = LAST_RUNNING.map(|last| (last, sum + running));
    let wanted = running.into_iter().chain([(LAST_SUM, sum)]);
    // These sums are folded once more than those that go on.
    let both = wanted.flat_map(|(last, sum)| [(last, sum), (last - 65_535, sum)]);
    let mut added = both.filter_map(|(last, sum)| last.checked_sub(sum));
    added.find_map(|added| {
        let last = u8::try_from(added / 256)
            .ok()
            .filter(|_| added % 256 == 0)?;
        bytes.push(last);
        let differ = checksum(&bytes[FIRST..]) != by_words(&bytes[FIRST..]);
        bytes.pop();
        differ.then_some(last)
    })
}
