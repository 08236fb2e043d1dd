//! The rules of document 01 as they are written down: what each window and each level says is read
//! from the whole history, with no table in sight.

use crate::race::{Outcome, Race, Said};
use crate::windows::WINDOWS;
use abutfern::numbers::LEVELS;

/// MultiMCW over samples of any values.
pub fn windows(data: &[u8]) -> Outcome {
    race(data, WINDOWS[0], &said_in_windows(data))
}

/// MultiMMC over bits.
pub fn on_bits(data: &[u8], cap: usize) -> Outcome {
    race(data, 2, &said_on_bits(data, cap))
}

/// MultiMMC over samples of any values.
pub fn in_general(data: &[u8], cap: usize) -> Outcome {
    race(data, 2, &said_in_general(data, cap))
}

/// The race from the first place that is predicted.
fn race<const S: usize>(data: &[u8], first: usize, said: &[Said<S>]) -> Outcome {
    let mut race = Race::new();
    for (symbol, said) in data.iter().zip(said).skip(first) {
        race.place(said, *symbol);
    }
    race.end()
}

/// A window takes part from the place on where it is full.
fn said_in_windows(data: &[u8]) -> Vec<Said<4>> {
    let said = |place: usize| {
        WINDOWS.map(|window| {
            let first = place.checked_sub(window)?;
            latest_commonest(&data[first..place])
        })
    };
    (0..data.len()).map(said).collect()
}

/// The symbol of largest count, ties to the one seen latest.
fn latest_commonest(samples: &[u8]) -> Option<u8> {
    let mut counts = [0; 256];
    for symbol in samples {
        counts[usize::from(*symbol)] += 1;
    }
    let most = counts.iter().max()?;
    let mut latest_first = samples.iter().rev().copied();
    latest_first.find(|symbol| counts[usize::from(*symbol)] == *most)
}

/// Whether two places have the same `level` symbols before them.
fn same_context(data: &[u8], level: usize, a: usize, b: usize) -> bool {
    data[a - level..a] == data[b - level..b]
}

/// Bits: a pair's counter is the number of places before where the bit followed the context, if
/// the pair is among the first `cap` distinct ones by place. A level with no count is silent, and
/// so are longer ones; 0 is said only if its counter is larger.
fn said_on_bits(data: &[u8], cap: usize) -> Vec<Said<LEVELS>> {
    let mut said = vec![[None; LEVELS]; data.len()];
    let counted: Vec<Vec<usize>> = (1..=LEVELS)
        .map(|level| among_first(data, level, cap))
        .collect();
    for (place, said) in said.iter_mut().enumerate().skip(2) {
        for level in 1..=LEVELS.min(place - 1) {
            let count = |bit: u8| {
                let before = counted[level - 1].iter().filter(|at| **at < place);
                before
                    .filter(|at| data[**at] == bit && same_context(data, level, **at, place))
                    .count()
            };
            let (zeros, ones) = (count(0), count(1));
            if zeros + ones == 0 {
                break;
            }
            said[level - 1] = Some(u8::from(zeros <= ones));
        }
    }
    said
}

/// The places of a level whose pair is among the first `cap` distinct pairs.
fn among_first(data: &[u8], level: usize, cap: usize) -> Vec<usize> {
    let mut places: Vec<usize> = Vec::new();
    let mut pairs = 0;
    for place in level..data.len() {
        let seen = |at: &usize| data[*at] == data[place] && same_context(data, level, *at, place);
        if places.iter().any(seen) {
            places.push(place);
        } else if pairs < cap {
            pairs += 1;
            places.push(place);
        }
    }
    places
}

/// General: each level has the places counted there and the number of entries made.
fn said_in_general(data: &[u8], cap: usize) -> Vec<Said<LEVELS>> {
    let mut said = vec![[None; LEVELS]; data.len()];
    let mut levels = vec![(Vec::new(), 0); LEVELS];
    for place in 1..data.len() {
        let mut found = true;
        for level in 1..=LEVELS.min(place) {
            let (counted, entries) = &mut levels[level - 1];
            if place == level {
                counted.push(place);
                *entries = 1;
                continue;
            }
            let same = |at: &&usize| same_context(data, level, **at, place);
            let history: Vec<u8> = counted.iter().filter(same).map(|at| data[*at]).collect();
            found &= !history.is_empty();
            if found {
                said[place][level - 1] = commonest(&history);
            }
            let known = found && history.contains(&data[place]);
            if known || *entries < cap {
                counted.push(place);
                *entries += usize::from(!known);
            }
        }
    }
    said
}

/// The symbol of largest count, ties to the larger.
fn commonest(symbols: &[u8]) -> Option<u8> {
    let count = |symbol: u8| symbols.iter().filter(|other| **other == symbol).count();
    symbols
        .iter()
        .copied()
        .max_by_key(|symbol| (count(*symbol), *symbol))
}

#[cfg(test)]
mod tests {
    use super::*;
    use crate::{levels, windows};
    use abutfern::numbers::PAIR_CAP;
    use abutfern::random::Random;
    use abutfern::shapes::{SHAPES, capture};

    fn some(length: usize, values: usize, random: &mut Random) -> Vec<u8> {
        let shape = random.one_of(&SHAPES);
        capture(shape, values, length, || random.word() >> 40)
    }

    #[test]
    fn the_windows_with_counts_are_those_of_the_history() {
        let mut random = Random::new(1);
        for values in [1, 2, 3, 5, 256] {
            for length in [4096, 4097, 4300] {
                let data = some(length, values, &mut random);
                assert_eq!(windows::race(&data).end(), super::windows(&data));
            }
        }
    }

    #[test]
    fn the_levels_with_tables_are_those_of_the_history() {
        let mut random = Random::new(2);
        for turn in 0..200 {
            let data = some(4 + turn % 80, 2 + turn % 4, &mut random);
            for cap in [1, 2, 5, 20, PAIR_CAP] {
                let found = in_general(&data, cap);
                assert_eq!(
                    levels::in_general(&data, cap).end(),
                    found,
                    "cap {cap}: {data:?}"
                );
                let bits: Vec<u8> = data.iter().map(|symbol| symbol % 2).collect();
                let found = on_bits(&bits, cap);
                assert_eq!(
                    levels::on_bits(&bits, cap).end(),
                    found,
                    "cap {cap}: {bits:?}"
                );
            }
        }
    }
}
