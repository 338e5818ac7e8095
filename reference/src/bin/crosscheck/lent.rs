//! Buffers with guards on both sides, as they are lent to the library under test.

use std::fmt::LowerHex;

use reference::cases::Random;

/// Elements on each side of a lent buffer.
const GUARD: usize = 64;
/// The front guard is longer by less than this, so that byte buffers start at any alignment.
const SHIFTS: usize = 16;

/// What a lent buffer is made of.
pub trait Element: Copy + PartialEq + LowerHex {
    /// The guard at an index. Neighbours differ, and none looks like an item.
    fn guard(index: usize) -> Self;
    /// Any contents.
    fn random(random: &mut Random, length: usize) -> Vec<Self>;
}

impl Element for u8 {
    fn guard(index: usize) -> u8 {
        0x80 | (index * 37 % 128) as u8
    }

    fn random(random: &mut Random, length: usize) -> Vec<u8> {
        random.bytes(length)
    }
}

impl Element for u64 {
    fn guard(index: usize) -> u64 {
        0xC35A_C35A_C35A_0000 | index as u64
    }

    fn random(random: &mut Random, length: usize) -> Vec<u64> {
        (0..length).map(|_| random.word()).collect()
    }
}

/// A buffer between two guards.
pub struct Lent<T> {
    all: Vec<T>,
    start: usize,
    end: usize,
}

impl<T: Element> Lent<T> {
    /// Lends a copy of the contents, which start anywhere.
    pub fn new(contents: &[T], random: &mut Random) -> Lent<T> {
        let start = GUARD + random.below(SHIFTS);
        let end = start + contents.len();
        let mut all: Vec<T> = (0..end + GUARD).map(T::guard).collect();
        all[start..end].copy_from_slice(contents);
        Lent { all, start, end }
    }

    pub fn contents(&self) -> &[T] {
        &self.all[self.start..self.end]
    }

    pub fn contents_mut(&mut self) -> &mut [T] {
        &mut self.all[self.start..self.end]
    }

    /// The first guard that was written, as how far it lies before the buffer or beyond its end.
    pub fn broken_guard(&self) -> Option<String> {
        let broken = |index: &usize| self.all[*index] != T::guard(*index);
        if let Some(index) = (0..self.start).rev().find(broken) {
            return Some(format!("{} before its start", self.start - index));
        }
        let beyond = (self.end..self.all.len()).find(broken);
        beyond.map(|index| format!("{} beyond its end", index - self.end + 1))
    }
}

#[cfg(test)]
mod tests {
    use super::*;

    #[test]
    fn contents_are_kept_and_guards_tell() {
        let mut random = Random::new(1);
        for length in 0..20 {
            let contents = random.bytes(length);
            let mut lent = Lent::new(&contents, &mut random);
            assert_eq!(lent.contents(), contents);
            assert_eq!(lent.broken_guard(), None);
            let (start, end) = (lent.start, lent.end);
            lent.all[start - 1] ^= 1;
            assert_eq!(lent.broken_guard().unwrap(), "1 before its start");
            lent.all[start - 1] ^= 1;
            lent.all[end + 2] = 0;
            assert_eq!(lent.broken_guard().unwrap(), "3 beyond its end");
        }
    }
}
