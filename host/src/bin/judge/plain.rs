//! Document 01's answer numbers and their order once more, as plainly as they can be said, with 7
//! for a width and 6 for a board figure from document 02.

use abutfern::numbers::{
    COUNTERS, MCW_SAMPLES, MMC_SAMPLES, PREDICTION_LIMIT, SPACE, SYMBOL_LIMIT,
};
use abutfern::{Answer, Estimate, Figure};
use std::ops::RangeInclusive;

/// The widths that are taken: demand 2 compares with the Rust on these alone.
pub const TAKEN: [u8; 8] = [1, 2, 3, 4, 5, 6, 7, 8];

/// The numbers that an answer can have: 10, which is said of a running test, is given too. 8 and 9
/// are said of records, not in them.
pub const GIVEN: [u64; 9] = [0, 1, 2, 3, 4, 5, 6, 7, 10];

/// A refusal: its number and its place.
pub type Refusal = (u64, u64);

/// What every answer but 0 looks like.
pub fn refused((number, place): Refusal) -> Answer {
    Answer {
        number,
        place,
        k: 0,
        rounds: 0,
        winner: 0,
        score: 0,
        estimate: Estimate {
            c: 0,
            n: 0,
            max_run_len: 0,
            p_global: -1.0,
            p_global_prime: -1.0,
            p_local: -1.0,
            min_entropy: -1.0,
        },
    }
}

/// A refusal without a place, if there is reason for it.
fn refuse(number: u64, reason: bool) -> Option<Refusal> {
    reason.then_some((number, 0))
}

fn too_long(symbols: &[u8]) -> Option<Refusal> {
    refuse(1, symbols.len() > SYMBOL_LIMIT)
}

fn not_taken(width: u8) -> Option<Refusal> {
    refuse(7, !TAKEN.contains(&width))
}

fn too_few(samples: u64, least: usize) -> Option<Refusal> {
    refuse(6, samples < least as u64)
}

fn too_short(lent: usize, needed: usize) -> Option<Refusal> {
    refuse(2, lent < needed)
}

fn samples(symbols: &[u8], width: u8) -> u64 {
    symbols.len() as u64 * u64::from(width)
}

/// The first symbol that a width-1 capture may not have.
fn bad_symbol(symbols: &[u8], width: u8) -> Option<Refusal> {
    if width > 1 {
        return None;
    }
    let place = symbols.iter().position(|symbol| *symbol > 1);
    place.map(|place| (3, place as u64))
}

/// Why the bit reader refuses.
pub fn bit(symbols: &[u8], width: u8, i: u64) -> Option<Refusal> {
    too_long(symbols)
        .or_else(|| not_taken(width))
        .or_else(|| refuse(2, i >= samples(symbols, width)))
        .or_else(|| (width == 1 && symbols[i as usize] > 1).then_some((3, i)))
}

/// Why a translator refuses.
pub fn translator(symbols: &[u8], out: usize) -> Option<Refusal> {
    too_long(symbols).or_else(|| too_short(out, symbols.len()))
}

/// Why MultiMCW on bits refuses.
pub fn multi_mcw(symbols: &[u8], width: u8) -> Option<Refusal> {
    too_long(symbols)
        .or_else(|| not_taken(width))
        .or_else(|| too_few(samples(symbols, width), MCW_SAMPLES))
        .or_else(|| bad_symbol(symbols, width))
}

/// Why MultiMCW on literals refuses.
pub fn multi_mcw_literal(symbols: &[u8], out: usize) -> Option<Refusal> {
    too_long(symbols)
        .or_else(|| too_few(symbols.len() as u64, MCW_SAMPLES))
        .or_else(|| too_short(out, symbols.len()))
}

/// Why MultiMMC on bits refuses.
pub fn multi_mmc(symbols: &[u8], width: u8, counters: usize) -> Option<Refusal> {
    too_long(symbols)
        .or_else(|| not_taken(width))
        .or_else(|| too_few(samples(symbols, width), MMC_SAMPLES))
        .or_else(|| too_short(counters, COUNTERS))
        .or_else(|| bad_symbol(symbols, width))
}

/// The numbers that MultiMMC on literals needs: more than two distinct values need the store.
pub fn space_needed(symbols: &[u8]) -> usize {
    let mut seen = [false; 256];
    for symbol in symbols {
        seen[usize::from(*symbol)] = true;
    }
    let size = seen.iter().filter(|seen| **seen).count();
    if size <= 2 { COUNTERS } else { SPACE }
}

/// Why MultiMMC on literals refuses.
pub fn multi_mmc_literal(symbols: &[u8], out: usize, space: usize) -> Option<Refusal> {
    too_long(symbols)
        .or_else(|| too_few(symbols.len() as u64, MMC_SAMPLES))
        .or_else(|| too_short(out, symbols.len()))
        .or_else(|| too_short(space, space_needed(symbols)))
}

/// Whether counts cannot be.
pub fn impossible(c: u64, n: u64, max_run_len: u64, k: u64) -> bool {
    c > n
        || max_run_len > c
        || (c > 0 && max_run_len == 0)
        || !(1..=256).contains(&k)
        || n > PREDICTION_LIMIT
}

/// Why the steps of the estimate refuse.
pub fn step(p: f64, max_run_len: u64, n: u64) -> Option<u64> {
    if n > PREDICTION_LIMIT || max_run_len > n {
        return Some(4);
    }
    let within = (1.0 / 256.0..1.0).contains(&p);
    (!within).then_some(5)
}

/// The board figure.
pub fn board_figure(answers: &[Answer; 4], width: u8) -> Figure {
    match no_figure(answers, width) {
        Some((number, _)) => Figure {
            number,
            which: 0,
            value: -1.0,
        },
        None => smallest(answers, width),
    }
}

/// Why there is no board figure.
fn no_figure(answers: &[Answer; 4], width: u8) -> Option<Refusal> {
    not_taken(width)
        .or_else(|| first_refused(answers))
        .or_else(|| refuse(5, out_of_range(answers)))
        .or_else(|| refuse(6, !answers.iter().all(ran)))
}

fn ran(answer: &Answer) -> bool {
    answer.number == 0
}

/// The number of the first refused estimate, 5 for one that is not given.
fn first_refused(answers: &[Answer; 4]) -> Option<Refusal> {
    let mut numbers = answers.iter().map(|answer| answer.number);
    let number = numbers.find(|number| ![0, 6].contains(number))?;
    Some((if GIVEN.contains(&number) { number } else { 5 }, 0))
}

/// Whether an estimate that ran has an entropy outside 0..1 on bits or 0..8 on literals.
fn out_of_range(answers: &[Answer; 4]) -> bool {
    let ranges = [0.0..=1.0, 0.0..=8.0, 0.0..=1.0, 0.0..=8.0];
    let outside = |(answer, range): (&Answer, RangeInclusive<f64>)| {
        ran(answer) && !range.contains(&answer.estimate.min_entropy)
    };
    answers.iter().zip(ranges).any(outside)
}

/// The first of four entropies per symbol that none of them is below.
fn smallest(answers: &[Answer; 4], width: u8) -> Figure {
    let [a, b, c, d] = answers.map(|answer| answer.estimate.min_entropy);
    let bits = f64::from(width);
    let values = [a * bits, b, c * bits, d];
    let least = |value: &f64| values.iter().all(|other| value <= other);
    let first = values.iter().position(least);
    let first = first.expect("one of four numbers is the smallest");
    Figure {
        number: 0,
        which: first as u64 + 1,
        value: values[first],
    }
}
