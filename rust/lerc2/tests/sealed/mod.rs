//! The checksum of a blob as Esri's code has it, for blobs that tests put
//! together.

/// Where the field stands; from its end on the blob is summed.
pub const FIELD: std::ops::Range<usize> = 10..14;

/// Words that are added up before the sums are folded.
const GROUP: usize = 359;

fn folded(sum: u32) -> u32 {
    (sum & 0xFFFF) + (sum >> 16)
}

/// Of words of two bytes, the first one high, the sum and the sum of the
/// running sums. An odd last byte comes behind the last group, high.
pub fn checksum(summed: &[u8]) -> u32 {
    let (whole, odd) = summed.split_at(summed.len() / 2 * 2);
    let (mut low, mut high) = (0xFFFF, 0xFFFF);
    for group in whole.chunks(2 * GROUP) {
        for word in group.chunks(2) {
            low += u32::from(word[0]) << 8 | u32::from(word[1]);
            high += low;
        }
        (low, high) = (folded(low), folded(high));
    }
    for &byte in odd {
        low += u32::from(byte) << 8;
        high += low;
    }
    folded(high) << 16 | folded(low)
}

/// Writes the true checksum of a blob that ends with its size.
pub fn seal(blob: &mut [u8]) {
    let field = checksum(&blob[FIELD.end..]).to_le_bytes();
    blob[FIELD].copy_from_slice(&field);
}
