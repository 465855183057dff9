//! A slice with marks on both sides.

const BESIDE: usize = 8;

/// Numbers that can serve as marks.
pub trait Mark: Copy + PartialEq {
    const MARK: Self;
}

impl Mark for u8 {
    const MARK: u8 = 0xA7;
}

impl Mark for u16 {
    const MARK: u16 = 0xA7B6;
}

impl Mark for u64 {
    const MARK: u64 = 0xA7B6_C5D4_E3F2_0119;
}

impl Mark for usize {
    const MARK: usize = 0x5A6B_7C8D_9EAF_B0C1;
}

pub struct Lent<T>(Vec<T>);

impl<T: Mark> Lent<T> {
    pub fn new(content: &[T]) -> Lent<T> {
        let beside = [T::MARK; BESIDE];
        Lent([&beside[..], content, &beside[..]].concat())
    }

    pub fn slice(&mut self) -> &mut [T] {
        let end = self.0.len() - BESIDE;
        &mut self.0[BESIDE..end]
    }

    /// The content, and whether a mark was overwritten.
    pub fn back(mut self, outside: &mut bool) -> Vec<T> {
        let end = self.0.len() - BESIDE;
        let mut marks = self.0[..BESIDE].iter().chain(&self.0[end..]);
        *outside |= marks.any(|&mark| mark != T::MARK);
        self.0.truncate(end);
        self.0.drain(..BESIDE);
        self.0
    }
}
