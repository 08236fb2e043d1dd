//! The board figure beside a second, plain implementation, and beside the four estimates.

use crate::captures::{digits, some_width};
use crate::floats::{any, near, same};
use crate::plain;
use crate::tally::{Clock, Tally};
use abutfern::random::Random;
use abutfern::{Answer, Figure, exported};
use std::cmp::Ordering;

/// The largest entropies in the four places: bits, literal, bits, literal.
const LARGEST: [f64; 4] = [1.0, 8.0, 1.0, 8.0];

/// Judges the family; returns how many differ.
pub fn judge(clock: Clock, random: &mut Random) -> u64 {
    if !exported("board_figure") {
        return 0;
    }
    let mut given = Tally::new("board_figure: a given one is the first smallest of four");
    let differ = every_number(&mut given, random) + random_answers(clock, &mut given, random);
    differ + given.close()
}

/// Compares a figure with the plain one, and if it is given, with the four estimates.
fn compare(answers: &[Answer; 4], width: u8, tally: &mut Tally, given: &mut Tally) {
    let ours = abutfern::board_figure(answers, width);
    let expected = plain::board_figure(answers, width);
    let good = (ours.number, ours.which) == (expected.number, expected.which)
        && same(ours.value, expected.value);
    let case = || {
        let offered = answers.map(|answer| (answer.number, answer.estimate.min_entropy));
        format!("{offered:?} at width {width}: {ours:?}")
    };
    tally.check(good, || format!("{}, not {expected:?}", case()));
    if ours.number == 0 {
        given.check(first_smallest(&ours, answers, width), case);
    }
}

/// Whether all four ran, and a figure is that of the estimate it names, below those before it and
/// not above those after it.
fn first_smallest(figure: &Figure, answers: &[Answer; 4], width: u8) -> bool {
    let mut values = answers.map(|answer| answer.estimate.min_entropy);
    values[0] *= f64::from(width);
    values[2] *= f64::from(width);
    let in_order = |(which, value): (u64, f64)| match which.cmp(&figure.which) {
        Ordering::Less => figure.value < value,
        Ordering::Equal => same(figure.value, value),
        Ordering::Greater => figure.value <= value,
    };
    answers.iter().all(|answer| answer.number == 0)
        && (1..=4).contains(&figure.which)
        && (1..=4).zip(values).all(in_order)
}

/// An answer of which only the number and the entropy matter.
fn answer(number: u64, min_entropy: f64, random: &mut Random) -> Answer {
    let mut answer = plain::refused((number, random.below(9)));
    answer.k = random.below(257);
    answer.rounds = random.word();
    answer.winner = random.word();
    answer.score = random.word();
    answer.estimate.c = random.word();
    answer.estimate.p_local = any(random);
    answer.estimate.min_entropy = min_entropy;
    answer
}

/// Every combination of the numbers that are given, some that are not, and entropies in and out of
/// range in the four places, at every width.
fn every_number(given: &mut Tally, random: &mut Random) -> u64 {
    let mut tally = Tally::new("board_figure: every number in every place, every width");
    let sorts = LARGEST.map(sorts);
    let base = sorts[0].len() as u64;
    for combination in 0..base.pow(4) {
        let sort = digits(combination, base, 4);
        let answers = [0, 1, 2, 3].map(|place| {
            let (number, entropy) = sorts[place][usize::from(sort[place])];
            answer(number, entropy, random)
        });
        for width in 0..=u8::MAX {
            compare(&answers, width, &mut tally, given);
        }
    }
    tally.close()
}

/// Sorts of answers where entropies go up to `largest`: a number and an entropy.
fn sorts(largest: f64) -> Vec<(u64, f64)> {
    let numbers = plain::GIVEN.into_iter().chain([8, 256 + 7]);
    let ran = [0.0, -0.0, largest, -1.0, largest + 0.5, f64::NAN];
    let not_run = [-1.0, f64::NAN];
    numbers
        .map(|number| (number, 0.5))
        .chain(ran.map(|entropy| (0, entropy)))
        .chain(not_run.map(|entropy| (6, entropy)))
        .collect()
}

/// Random answers; in about half of the cases all four ran.
fn random_answers(clock: Clock, given: &mut Tally, random: &mut Random) -> u64 {
    let mut tally = Tally::new("board_figure: entropies in and out of range");
    for () in clock.turns() {
        for _ in 0..1000 {
            let width = some_width(random);
            let unit = random.unit();
            let bit = random.one_of(&[0.125, 0.5, 1.0, unit, unit, unit]);
            let symbol = bit * f64::from(width);
            let shared = [bit, symbol, bit, symbol];
            let answers = [0, 1, 2, 3].map(|place| {
                let number = match random.below(60) {
                    0 => random.word() >> random.below(64),
                    1..=8 => 6,
                    _ => 0,
                };
                let entropy = some_entropy(shared[place], LARGEST[place], random);
                answer(number, entropy, random)
            });
            compare(&answers, width, &mut tally, given);
        }
    }
    tally.close()
}

/// An entropy, mostly within its range, and often a zero, one that others share, or beside it.
fn some_entropy(shared: f64, largest: f64, random: &mut Random) -> f64 {
    match random.below(16) {
        0 => any(random),
        1 => near(random.one_of(&[0.0, -0.0, largest]), random),
        2..=5 => near(shared, random),
        6..=8 => shared,
        9 | 10 => random.one_of(&[0.0, -0.0]),
        _ => random.unit() * largest,
    }
}
