//! Captures made against the rule of a store of words, so that every look into it is long.

use abutfern::shapes::draws;
use std::collections::HashSet;

/// Numbers so far apart have their keys, number * 256 + symbol, in one tree where the symbol falls
/// by one: 512 * 256 - 1 is the number of trees, 131,071.
const BLOCK: usize = 512;

/// So many blocks fill a level, which makes 100,000 entries.
const BLOCKS: usize = 195;

/// Each block is the block before with every symbol one lower, until the levels are full; then the
/// last block again and again. As every word of three symbols is new, a level's numbers rise with
/// the place, so that from level 3 on all entries stand in 512 trees of 194 or 195, whose quotients
/// follow each other. The last block's are the deepest, and a look for one goes all the way.
pub fn crafted(length: usize) -> Vec<u8> {
    let first = first_block();
    let symbol = |place: usize| {
        let block = (place / BLOCK).min(BLOCKS - 1);
        first[place % BLOCK] - block as u8
    };
    (0..length).map(symbol).collect()
}

/// Symbols that can fall 194 times. No two neighbours' differences come twice, so that a word of
/// three symbols tells its place.
fn first_block() -> Vec<u8> {
    let mut draw = draws(7);
    let mut seen = HashSet::new();
    let mut block: Vec<u8> = Vec::with_capacity(BLOCK);
    while block.len() < BLOCK {
        let symbol = 195 + (draw() % 61) as u8;
        let [.., a, b] = block[..] else {
            block.push(symbol);
            continue;
        };
        if seen.insert((
            i16::from(b) - i16::from(a),
            i16::from(symbol) - i16::from(b),
        )) {
            block.push(symbol);
        }
    }
    block
}

/// Random words of three symbols that all have one value under the polynomial that takes h to
/// h * 263 + symbol + 1 modulo 131,071, from the newest symbol to the oldest. A store that hashes
/// contexts by it has those of 1, 2, .. 5 whole words in one chain. Every value comes once before,
/// so that no symbol is renumbered.
pub fn same_hash(length: usize) -> Vec<u8> {
    let words = words_alike();
    let mut draw = draws(8);
    let drawn = (0..length).flat_map(|_| words[draw() as usize % words.len()]);
    (0..=255).chain(drawn).take(length).collect()
}

fn words_alike() -> Vec<[u8; 3]> {
    let hash = |word: [u8; 3]| {
        let step = |h: u32, symbol: u8| (h * 263 + u32::from(symbol) + 1) % 131_071;
        word.into_iter().rev().fold(0, step)
    };
    (0..1 << 24)
        .map(|number: u32| [(number >> 16) as u8, (number >> 8) as u8, number as u8])
        .filter(|word| hash(*word) == hash([0; 3]))
        .collect()
}

#[cfg(test)]
mod tests {
    use super::*;
    use abutfern::numbers::LEVELS;
    use std::collections::HashMap;

    /// The keys of each level in the order of their numbers, by the store's own rule.
    fn keys(symbols: &[u8]) -> Vec<HashMap<usize, usize>> {
        let mut tables = vec![HashMap::new(); LEVELS];
        let mut contexts = [0; LEVELS + 1];
        for (place, symbol) in symbols.iter().enumerate() {
            let mut word = usize::from(*symbol) + 1;
            for (level, table) in tables.iter_mut().enumerate().take(place) {
                let key = contexts[level] * 256 + usize::from(*symbol);
                contexts[level] = word;
                let next = table.len() + 1;
                word = *table.entry(key).or_insert(next);
            }
            contexts[LEVELS.min(place)] = word;
        }
        tables
    }

    #[test]
    fn trees_are_full() {
        for table in &keys(&crafted(BLOCKS * BLOCK))[2..] {
            let mut trees: HashMap<usize, usize> = HashMap::new();
            for key in table.keys() {
                *trees.entry(key % 131_071).or_default() += 1;
            }
            let full = trees.values().filter(|size| **size >= 194).count();
            assert_eq!(full, BLOCK);
        }
    }
}
