//! MultiMMC's levels as document 01 has them: tables of what was counted before a place. What the
//! levels say of the whole history, with no table, stands in rules.rs.

use crate::race::{Race, Said};
use abutfern::numbers::LEVELS;
use std::collections::HashMap;

/// The race of the levels over bits.
pub fn on_bits(data: &[u8], cap: usize) -> Race<LEVELS> {
    let mut race = Race::new();
    let mut levels: Vec<BitLevel> = (1..=LEVELS).map(BitLevel::new).collect();
    let mut before = 0;
    for (place, bit) in data.iter().enumerate() {
        if place >= 2 {
            race.place(&said_on_bits(&levels, place, before), *bit);
        }
        for level in levels.iter_mut().take(place) {
            level.count(before, *bit, cap);
        }
        before = (before * 2 + usize::from(*bit)) % (1 << LEVELS);
    }
    race
}

/// What each level says after the bits before a place: the first with no count is silent, and so
/// are longer ones.
fn said_on_bits(levels: &[BitLevel], place: usize, before: usize) -> Said<LEVELS> {
    let mut said = [None; LEVELS];
    for (level, said) in levels.iter().zip(&mut said).take(place - 1) {
        let [zeros, ones] = level.counts[before & level.mask];
        if zeros + ones == 0 {
            break;
        }
        *said = Some(u8::from(zeros <= ones));
    }
    said
}

/// For each context of a level, how often 0 and 1 followed it.
struct BitLevel {
    mask: usize,
    counts: Vec<[u32; 2]>,
    pairs: usize,
}

impl BitLevel {
    fn new(length: usize) -> Self {
        Self {
            mask: (1 << length) - 1,
            counts: vec![[0; 2]; 1 << length],
            pairs: 0,
        }
    }

    /// Counts a pair; a new one only below the cap.
    fn count(&mut self, before: usize, bit: u8, cap: usize) {
        let count = &mut self.counts[before & self.mask][usize::from(bit)];
        if *count > 0 {
            *count += 1;
        } else if self.pairs < cap {
            *count = 1;
            self.pairs += 1;
        }
    }
}

/// The race of the levels over samples of any values.
pub fn in_general(data: &[u8], cap: usize) -> Race<LEVELS> {
    let mut race = Race::new();
    let mut levels: Vec<Level> = (1..=LEVELS).map(Level::new).collect();
    let mut before = 0;
    for (place, symbol) in data.iter().enumerate() {
        let said = said_in_general(&levels, place, before);
        if place >= 2 {
            race.place(&said, *symbol);
        }
        for (level, said) in levels.iter_mut().zip(&said).take(place) {
            level.count(before, *symbol, said.is_some(), cap);
        }
        before = before << 8 | u128::from(*symbol);
    }
    race
}

/// What each level says after the samples before a place: the first whose context is absent is
/// silent, and so are longer ones.
fn said_in_general(levels: &[Level], place: usize, before: u128) -> Said<LEVELS> {
    let mut said = [None; LEVELS];
    let taking_part = place.saturating_sub(1);
    for (level, said) in levels.iter().zip(&mut said).take(taking_part) {
        let Some(followers) = level.contexts.get(&(before & level.mask)) else {
            break;
        };
        *said = commonest(followers);
    }
    said
}

/// The symbols that followed a context, each with how often.
type Followers = Vec<(u8, u64)>;

/// The symbol of largest count, a tie going to the larger symbol.
fn commonest(followers: &Followers) -> Option<u8> {
    let best = followers
        .iter()
        .max_by_key(|(symbol, count)| (*count, *symbol));
    best.map(|(symbol, _)| *symbol)
}

/// The contexts of a level that are present. A context is its samples, the last one lowest.
struct Level {
    mask: u128,
    contexts: HashMap<u128, Followers>,
    entries: usize,
}

impl Level {
    fn new(length: usize) -> Self {
        Self {
            mask: u128::MAX >> (128 - 8 * length),
            contexts: HashMap::new(),
            entries: 0,
        }
    }

    /// Counts a pair. Where the level was silent, its context or a shorter one being absent, the
    /// pair makes an entry below the cap even if it is there already, and at the cap is not counted.
    fn count(&mut self, before: u128, symbol: u8, spoke: bool, cap: usize) {
        let context = before & self.mask;
        let known = spoke && self.knows(context, symbol);
        if !known && self.entries >= cap {
            return;
        }
        self.entries += usize::from(!known);
        let followers = self.contexts.entry(context).or_default();
        match followers.iter_mut().find(|(other, _)| *other == symbol) {
            Some((_, count)) => *count += 1,
            None => followers.push((symbol, 1)),
        }
    }

    fn knows(&self, context: u128, symbol: u8) -> bool {
        let followers = self.contexts.get(&context);
        followers.is_some_and(|followers| followers.iter().any(|(other, _)| *other == symbol))
    }
}

#[cfg(test)]
mod tests {
    use super::*;
    use abutfern::numbers::PAIR_CAP;

    fn values(race: Race<LEVELS>) -> [u64; 5] {
        let end = race.end();
        [end.c, end.n, end.longest, end.winner, end.score]
    }

    fn bits(text: &str) -> [u64; 5] {
        let data: Vec<u8> = text.bytes().map(|digit| digit - b'0').collect();
        values(on_bits(&data, PAIR_CAP))
    }

    #[test]
    fn bits_by_hand() {
        assert_eq!(bits("0000"), [2, 2, 2, 1, 2]);
        assert_eq!(bits("0101"), [1, 2, 1, 1, 1]);
        assert_eq!(bits("0011"), [0, 2, 0, 1, 0]);
        assert_eq!(bits("00101"), [1, 3, 1, 1, 1]);
        assert_eq!(bits("0001"), [1, 2, 1, 1, 1]);
        assert_eq!(bits("0110"), [0, 2, 0, 1, 0]);
    }

    /// From place 6 on, level 2 has seen every context and is always right.
    #[test]
    fn two_bits_of_memory_win() {
        let [_, n, _, winner, score] = bits(&"0011".repeat(10));
        assert_eq!([n, winner, score], [38, 2, 34]);
    }

    /// As many zeros as a level is long, then a one: shorter levels cannot tell when the one comes,
    /// and longer ones have to see it once more.
    #[test]
    fn every_level_can_win() {
        for level in 2..=LEVELS {
            let mut period = vec![0; level];
            period.push(1);
            let data = period.repeat(40);
            assert_eq!(on_bits(&data, PAIR_CAP).end().winner, level as u64);
            assert_eq!(in_general(&data, PAIR_CAP).end().winner, level as u64);
        }
    }

    #[test]
    fn literals_by_hand() {
        let race = in_general(&[0, 2, 0, 1, 0, 2], PAIR_CAP);
        assert_eq!(values(race), [1, 4, 1, 1, 1]);
        let race = in_general(&[9, 9, 9, 9], PAIR_CAP);
        assert_eq!(values(race), [2, 2, 2, 1, 2]);
    }

    /// At cap 1 a level counts nothing but its first pair.
    #[test]
    fn full_levels() {
        assert_eq!(values(on_bits(&[0, 0, 1, 0, 0], 1)), [1, 3, 1, 1, 1]);
        let race = in_general(&[0, 0, 1, 0, 0, 2, 0, 0], 1);
        assert_eq!(values(race), [2, 6, 1, 1, 2]);
    }
}
