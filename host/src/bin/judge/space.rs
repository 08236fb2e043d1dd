//! The 64 MiB that general MultiMMC is lent, kept from case to case: dirty before each call.

use abutfern::numbers::SPACE;
use abutfern::random::Random;
use std::collections::BTreeMap;

const MARGIN: usize = 64;

/// The space and what is known of it: `fill` everywhere but at the spots.
pub struct Space {
    words: Vec<u32>,
    fill: u32,
    spots: BTreeMap<usize, u32>,
}

impl Space {
    pub fn new() -> Self {
        Self {
            words: vec![0; SPACE + MARGIN],
            fill: 0,
            spots: BTreeMap::new(),
        }
    }

    /// Makes some places dirty, and seldom all of them.
    pub fn dirty(&mut self, random: &mut Random) {
        if random.chance(1, 32) {
            self.fill = random.word() as u32;
            self.words.fill(self.fill);
            self.spots.clear();
        }
        for i in 0..200 {
            let place = match i {
                0..=15 => SPACE - 8 + i,
                16..=31 => i - 16,
                _ => random.index(SPACE),
            };
            self.spots.insert(place, random.word() as u32);
        }
        for (place, word) in &self.spots {
            self.words[*place] = *word;
        }
    }

    /// The first words, to be lent.
    pub fn lend(&mut self, length: usize) -> &mut [u32] {
        &mut self.words[..length]
    }

    /// The fault if the words are not `first`, then zero up to `zeros`, then what they were. The
    /// space is clean afterwards.
    pub fn fault(&mut self, first: &[u32], zeros: usize) -> Option<String> {
        let changed = first.len().max(zeros);
        let start = self.words[..first.len()] == *first;
        let zero = uniform(&self.words[first.len()..changed], 0);
        let kept = self.spots.range(changed..);
        let spots = kept
            .clone()
            .all(|(place, word)| self.words[*place] == *word);
        for (place, _) in kept {
            self.words[*place] = self.fill;
        }
        let rest = uniform(&self.words[changed..], self.fill);
        let good = start && zero && spots && rest;
        if !good || self.fill != 0 || !first.is_empty() {
            self.words.fill(0);
            self.fill = 0;
        }
        self.spots.clear();
        (!good).then(|| {
            format!(
                "space: counts {start}, zeros {zero}, the rest as it was {}",
                spots && rest
            )
        })
    }
}

fn uniform(words: &[u32], value: u32) -> bool {
    words
        .chunks(4096)
        .all(|chunk| chunk.iter().fold(0, |all, word| all | (word ^ value)) == 0)
}
