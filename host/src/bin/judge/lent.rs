//! Memory that is lent to the library: dirty before each call, with a margin on both sides that
//! nothing may touch.

use abutfern::random::Random;
use std::fmt::Debug;

const MARGIN: usize = 8;

/// Lent memory, kept from call to call, and the dirt that it is filled from.
pub struct Lent<T> {
    dirt: Vec<T>,
    from: usize,
    words: Vec<T>,
}

impl<T: Copy + PartialEq + Debug> Lent<T> {
    /// Memory to lend at most `longest` elements of, with dirt made by `any`.
    pub fn new(longest: usize, any: impl FnMut() -> T) -> Self {
        let dirt = std::iter::repeat_with(any).take(longest + 2 * MARGIN + 1000);
        Self {
            dirt: dirt.collect(),
            from: 0,
            words: Vec::new(),
        }
    }

    /// Lends a slice of some length, dirty.
    pub fn lend(&mut self, length: usize, random: &mut Random) -> &mut [T] {
        let whole = length + 2 * MARGIN;
        self.from = random.index(self.dirt.len() - whole + 1);
        self.words.clear();
        let dirt = &self.dirt[self.from..self.from + whole];
        self.words.extend_from_slice(dirt);
        &mut self.words[MARGIN..MARGIN + length]
    }

    /// The fault if the memory is not what it was but for the first elements, which are `first`.
    pub fn fault(&self, first: &[T]) -> Option<String> {
        let before = &self.dirt[self.from..self.from + self.words.len()];
        let end = MARGIN + first.len();
        let same = self.words[MARGIN..end] == *first
            && self.words[..MARGIN] == before[..MARGIN]
            && self.words[end..] == before[end..];
        if same {
            return None;
        }
        let expected = |i: usize| match i.checked_sub(MARGIN) {
            Some(j) if j < first.len() => first[j],
            _ => before[i],
        };
        let at = (0..before.len()).find(|i| self.words[*i] != expected(*i))?;
        let place = at as i64 - MARGIN as i64;
        Some(format!(
            "lent memory at {place} is {:?}, not {:?}",
            self.words[at],
            expected(at)
        ))
    }
}

/// Bytes to lend.
pub fn bytes(longest: usize, random: &mut Random) -> Lent<u8> {
    Lent::new(longest, || random.byte())
}

/// Words to lend, none of them zero before a call.
pub fn words(longest: usize, random: &mut Random) -> Lent<u32> {
    Lent::new(longest, || random.word() as u32 | 1)
}

/// The length of a lent slice where `needed` is enough: one short, exact or longer.
pub fn length_near(needed: usize, random: &mut Random) -> usize {
    match random.below(4) {
        0 => needed.saturating_sub(1),
        1 => needed,
        2 => needed + 1,
        _ => needed + random.index(50),
    }
}
