//! Captures to compare on: every short one, random ones of every shape, and damaged copies.

use crate::plain;
use abutfern::numbers::SYMBOL_LIMIT;
use abutfern::random::Random;
use abutfern::shapes::{SHAPES, capture};

/// Widths to try: all that are taken, and some that are not.
pub const TRIED: [u8; 11] = [0, 1, 2, 3, 4, 5, 6, 7, 8, 9, 255];

/// A width that is taken, at times any.
pub fn some_width(random: &mut Random) -> u8 {
    let any = random.byte();
    if random.chance(1, 8) {
        random.one_of(&[0, 9, any])
    } else {
        random.one_of(&plain::TAKEN)
    }
}

/// How many distinct values a random capture may have.
const VALUES: [usize; 12] = [1, 2, 2, 2, 3, 4, 5, 16, 17, 100, 255, 256];

/// A random capture of some length: one shape or two, over values that may stand anywhere in a
/// byte, damaged at times.
pub fn random_capture(length: usize, random: &mut Random) -> Vec<u8> {
    let values = random.one_of(&VALUES);
    let cut = random.index(length + 1);
    let first = random.one_of(&[length, length, cut]);
    let mut symbols = shaped(first, values, random);
    symbols.extend(shaped(length - first, values, random));
    if random.chance(1, 2) {
        relabel(&mut symbols, random);
    }
    if random.chance(1, 4) {
        damage(&mut symbols, random);
    }
    symbols
}

fn shaped(length: usize, values: usize, random: &mut Random) -> Vec<u8> {
    match random.below(8) {
        0 => stretches(length, random),
        1 => repeated(length, values, random),
        _ => capture(random.one_of(&SHAPES), values, length, || {
            random.word() >> 40
        }),
    }
}

/// A short random row of symbols, again and again: a few symbols of memory guess it, one does not.
pub fn repeated(length: usize, values: usize, random: &mut Random) -> Vec<u8> {
    let period = 3 + random.index(20);
    let row = capture(SHAPES[0], values, period, || random.word() >> 40);
    row.into_iter().cycle().take(length).collect()
}

/// Zeros and ones by turns, a stretch of each: of lengths that mislead short levels, or that mislead
/// short windows, so that longer ones win.
pub fn stretches(length: usize, random: &mut Random) -> Vec<u8> {
    let (zeros, ones) = if random.chance(2, 3) {
        (1 + random.index(17), 1 + random.index(2))
    } else {
        let window = random.one_of(&[63, 63, 255, 1023]);
        let ones = window / 2 + 1 + random.index(window / 3);
        (ones * (3 + random.index(3)), ones)
    };
    let one = |place: usize| u8::from(place % (zeros + ones) >= zeros);
    (0..length).map(one).collect()
}

/// Gives every value another one, all different.
fn relabel(symbols: &mut [u8], random: &mut Random) {
    let mut label: Vec<u8> = (0..=255).collect();
    for i in (1..label.len()).rev() {
        label.swap(i, random.index(i + 1));
    }
    for symbol in symbols {
        *symbol = label[usize::from(*symbol)];
    }
}

/// Changes, swaps or turns a few symbols; the length stays.
pub fn damage(symbols: &mut [u8], random: &mut Random) {
    if symbols.is_empty() {
        return;
    }
    for _ in 0..=random.below(4) {
        let (at, other) = (random.index(symbols.len()), random.index(symbols.len()));
        match random.below(4) {
            0 => symbols[at] = random.byte(),
            1 => symbols[at] ^= 1 << random.below(8),
            2 => symbols.swap(at, other),
            _ => symbols.rotate_left(at),
        }
    }
}

/// A random capture whose symbols are all 0 or 1.
pub fn random_bits(length: usize, random: &mut Random) -> Vec<u8> {
    let values = random.one_of(&[1, 2, 2, 2, 2]);
    let mut symbols = shaped(length, values, random);
    for _ in 0..random.below(4) {
        if length > 0 {
            symbols[random.index(length)] ^= 1;
        }
    }
    symbols
}

/// A random capture that fits a width: bits up to width 1, but for a damaged one at times.
pub fn fitting(length: usize, width: u8, random: &mut Random) -> Vec<u8> {
    if width > 1 {
        return random_capture(length, random);
    }
    let mut symbols = random_bits(length, random);
    if random.chance(1, 8) {
        damage(&mut symbols, random);
    }
    symbols
}

/// Captures without and with reasons to be refused beside their width, alone and together: too few
/// samples for one estimator or both, too many symbols, a symbol above 1 at the first or last place.
pub fn refusable(random: &mut Random) -> Vec<Vec<u8>> {
    const LENGTHS: [usize; 8] = [0, 3, 4, 511, 512, 4095, 4096, SYMBOL_LIMIT + 1];
    let mut captures = Vec::new();
    for length in LENGTHS {
        let bits = random_bits(length, random);
        for place in [0, length.saturating_sub(1)] {
            let mut symbols = bits.clone();
            if let Some(symbol) = symbols.get_mut(place) {
                *symbol = random.one_of(&[2, 3, 128, 255]);
                captures.push(symbols);
            }
        }
        captures.push(bits);
    }
    captures
}

/// The capture of `length` digits of `number` to a base.
pub fn digits(mut number: u64, base: u64, length: usize) -> Vec<u8> {
    let mut symbols = vec![0; length];
    for symbol in &mut symbols {
        *symbol = (number % base) as u8;
        number /= base;
    }
    symbols
}

/// A capture in words: whole if it is short, else its length, ends and sum.
pub fn described(symbols: &[u8]) -> String {
    if symbols.len() <= 64 {
        return format!("{symbols:?}");
    }
    let sum = symbols.iter().fold(0u64, |sum, symbol| {
        sum.wrapping_mul(31).wrapping_add(u64::from(*symbol))
    });
    format!(
        "{} symbols {:?}..{:?} (sum {sum:x})",
        symbols.len(),
        &symbols[..8],
        &symbols[symbols.len() - 8..]
    )
}
