//! Answers to put into records: those that the estimators give, others within the same limits, and
//! others with fields that no estimator gives.

use crate::floats::any;
use crate::plain;
use crate::prediction::counts;
use abutfern::numbers::{LEVELS, PREDICTION_LIMIT, ROUND_LIMIT, SYMBOL_LIMIT};
use abutfern::random::Random;
use abutfern::{Answer, Estimate};

/// The words of an answer.
const WORDS: usize = 13;

/// How many of an answer's words are whole numbers; the rest are floats.
const NUMBERS: usize = 9;

/// Whole numbers at which something changes: the limits of the fields, of their bytes and of words.
const LIMITS: [u64; 16] = [
    0,
    1,
    4,
    7,
    10,
    11,
    LEVELS as u64,
    256,
    ROUND_LIMIT,
    1 << 16,
    SYMBOL_LIMIT as u64,
    PREDICTION_LIMIT,
    1 << 31,
    1 << 32,
    1 << 62,
    1 << 63,
];

/// Doubles by their bits at which something changes: what is not a number (beside these, quiet and
/// signalling, of either sign), the infinities, the zeros, the least normal ones, the ranges' ends.
const FLOATS: [u64; 18] = [
    0x7ff8_0000_0000_0000,
    0x7ff4_0000_0000_0000,
    0x7fff_ffff_ffff_ffff,
    0xfff8_0000_0000_0000,
    0xfff4_0000_0000_0000,
    0xffff_ffff_ffff_ffff,
    f64::INFINITY.to_bits(),
    f64::NEG_INFINITY.to_bits(),
    0.0f64.to_bits(),
    (-0.0f64).to_bits(),
    f64::MIN_POSITIVE.to_bits(),
    (-f64::MIN_POSITIVE).to_bits(),
    0.5f64.to_bits(),
    1.0f64.to_bits(),
    2.0f64.to_bits(),
    8.0f64.to_bits(),
    (-1.0f64).to_bits(),
    (-8.0f64).to_bits(),
];

/// The answer of words that stand as `Answer::words` has them.
fn of_words(words: [u64; WORDS]) -> Answer {
    let [
        number,
        place,
        k,
        rounds,
        winner,
        score,
        c,
        n,
        max_run_len,
        floats @ ..,
    ] = words;
    let [p_global, p_global_prime, p_local, min_entropy] = floats.map(f64::from_bits);
    Answer {
        number,
        place,
        k,
        rounds,
        winner,
        score,
        estimate: Estimate {
            c,
            n,
            max_run_len,
            p_global,
            p_global_prime,
            p_local,
            min_entropy,
        },
    }
}

/// The numbers whose refusals have no place.
fn placeless() -> impl Iterator<Item = u64> {
    plain::GIVEN
        .into_iter()
        .filter(|number| ![0, 3].contains(number))
}

/// An answer of each number that a record may hold: solved, unsolved and with no prediction among
/// those that ran, of counts alone and with the least and the most that a winner may have; with the
/// first place, some place and the last place among those of number 3.
pub fn of_each_number() -> Vec<Answer> {
    let counts = [
        [99_342, 199_937, 24, 2],
        [5_995, 49_937, 6, 16],
        [0, 0, 0, 1],
    ];
    let counted = counts.map(|[c, n, run, k]| abutfern::prediction_estimate(c, n, run, k));
    let [solved, unsolved, empty] = counted;
    let won = [
        named(solved, LEVELS as u64, solved.estimate.n),
        named(unsolved, 4, 0x00ab_cdef % unsolved.estimate.n),
        named(empty, 1, 0),
    ];
    let ran = counted.into_iter().chain(won);
    let last = SYMBOL_LIMIT as u64 - 1;
    let refusals = placeless().map(|number| (number, 0));
    let placed = [0, 0x00ab_cdef, last].map(|place| (3, place));
    let refused = refusals.chain(placed).map(plain::refused);
    ran.chain(refused).collect()
}

/// An answer with another winner and score.
fn named(answer: Answer, winner: u64, score: u64) -> Answer {
    Answer {
        winner,
        score,
        ..answer
    }
}

/// Answers that no record may hold: numbers that are not given, a 0 that did not run, refusals with
/// a place or a winner, and places that no capture has.
pub fn of_no_number() -> Vec<Answer> {
    let numbers = [0, 8, 9, 11, 128, 255, 256, 259, 263, 1 << 32, u64::MAX];
    let misplaced = placeless().map(|number| (number, 1));
    let too_far = [(3, SYMBOL_LIMIT as u64), (3, u64::MAX)];
    let refusals = numbers.map(|number| (number, 0)).into_iter();
    let refusals = refusals.chain(misplaced).chain(too_far);
    let won = named(plain::refused((6, 0)), 1, 0);
    refusals.map(plain::refused).chain([won]).collect()
}

/// Each field of each answer of both kinds changed to each mark, the floats by their bits.
pub fn of_other_fields() -> impl Iterator<Item = Answer> {
    let answers = of_each_number().into_iter().chain(of_no_number());
    let fields = answers.flat_map(|answer| (0..WORDS).map(move |field| (answer.words(), field)));
    fields.flat_map(|(words, field)| {
        let changed = others(field, &words).into_iter();
        changed.map(move |other| {
            of_words(std::array::from_fn(|i| {
                if i == field { other } else { words[i] }
            }))
        })
    })
}

/// An answer that a record may hold.
pub fn good(random: &mut Random) -> Answer {
    match random.below(8) {
        0..=1 => plain::refused(refusal(random)),
        2..=3 => won(within_limits(random), random),
        4 => estimated(random),
        _ => won(estimated(random), random),
    }
}

/// An answer that ran, with a winner and a score that can be.
fn won(answer: Answer, random: &mut Random) -> Answer {
    let n = answer.estimate.n;
    let some = random.below(n + 1);
    let level = 1 + random.below(LEVELS as u64);
    let winner = random.one_of(&[1, 4, level, level, LEVELS as u64]);
    named(answer, winner, random.one_of(&[0, some, some, n]))
}

fn refusal(random: &mut Random) -> (u64, u64) {
    let number = random.one_of(&plain::GIVEN[1..]);
    let far = random.below(SYMBOL_LIMIT as u64);
    let place = random.one_of(&[0, 1, far, SYMBOL_LIMIT as u64 - 1]);
    (number, if number == 3 { place } else { 0 })
}

/// What the shared estimate answers to counts that can be.
fn estimated(random: &mut Random) -> Answer {
    let (c, n, run) = counts(random);
    let other = 1 + random.below(256);
    let k = random.one_of(&[1, 2, 256, other]);
    abutfern::prediction_estimate(c, n, run, k)
}

/// Fields that have nothing to do with each other, but for the counts.
fn within_limits(random: &mut Random) -> Answer {
    let some = random.below(PREDICTION_LIMIT);
    let n = random.one_of(&[0, 1, some, PREDICTION_LIMIT]);
    let some = random.below(n + 1);
    let c = random.one_of(&[0, some, n]);
    let some = random.below(c + 1).max(c.min(1));
    let max_run_len = random.one_of(&[c.min(1), some, c]);
    let some = random.below(ROUND_LIMIT);
    let rounds = random.one_of(&[0, 1, some, ROUND_LIMIT]);
    let [p_global, p_global_prime, p_local, min_entropy] =
        [1.0, 1.0, 1.0, 8.0].map(|most| within(most, random));
    Answer {
        number: 0,
        place: 0,
        k: 1 + random.below(256),
        rounds,
        winner: 0,
        score: 0,
        estimate: Estimate {
            c,
            n,
            max_run_len,
            p_global,
            p_global_prime,
            p_local: random.one_of(&[-1.0, p_local]),
            min_entropy,
        },
    }
}

/// A float from 0 to `most`, at times an end, -0.0 or a subnormal one.
fn within(most: f64, random: &mut Random) -> f64 {
    let tiny = f64::from_bits(random.word() >> 12);
    let some = random.unit() * most;
    random.one_of(&[0.0, -0.0, most, tiny, some, some, some])
}

/// What a field of some words is changed to, one after the other.
fn others(field: usize, words: &[u64; WORDS]) -> Vec<u64> {
    let own = words[field];
    let mut marks = vec![own];
    if field < NUMBERS {
        marks.extend(LIMITS);
        marks.extend(&words[..NUMBERS]);
        marks.extend([8, 16, 32, 63].map(|shift| own.wrapping_add(1 << shift)));
    } else {
        marks.extend(FLOATS);
        marks.push(own ^ 1 << 63);
    }
    let around = |mark: u64| [mark.wrapping_sub(1), mark, mark.wrapping_add(1)];
    marks.into_iter().flat_map(around).collect()
}

/// Changes one field of an answer.
pub fn disturbed(answer: &Answer, random: &mut Random) -> Answer {
    let mut words = answer.words();
    let field = random.index(words.len());
    words[field] = if field < NUMBERS {
        other_number(&words, field, random)
    } else {
        other_float(words[field], random)
    };
    of_words(words)
}

/// At or beside a limit or another field, the same low bytes, or anything.
fn other_number(words: &[u64; WORDS], field: usize, random: &mut Random) -> u64 {
    match random.below(5) {
        0 | 1 => beside(random.one_of(&LIMITS), random),
        2 => beside(random.one_of(&words[..NUMBERS]), random),
        3 => words[field].wrapping_add(1 << random.below(64)),
        _ => random.word() >> random.below(64),
    }
}

/// At or beside a mark, not a number, the same with another sign, or anything.
fn other_float(own: u64, random: &mut Random) -> u64 {
    match random.below(5) {
        0 | 1 => beside(random.one_of(&FLOATS), random),
        2 => random.word() | 0x7ff0_0000_0000_0000,
        3 => own ^ 1 << 63,
        _ => any(random).to_bits(),
    }
}

/// A word at most one from another.
fn beside(mark: u64, random: &mut Random) -> u64 {
    mark.wrapping_add(random.below(3)).wrapping_sub(1)
}

#[cfg(test)]
mod tests {
    use super::*;

    #[test]
    fn words_make_the_answer_that_they_are_of() {
        let words: [u64; WORDS] = std::array::from_fn(|i| 1000 + i as u64);
        assert_eq!(of_words(words).words(), words);
        let answer = named(plain::refused((3, 5)), 6, 7);
        assert_eq!(of_words(answer.words()).words(), answer.words());
        assert_eq!(answer.words()[..NUMBERS], [3, 5, 0, 0, 6, 7, 0, 0, 0]);
    }

    #[test]
    fn winners_and_scores_at_and_beside_their_limits() {
        let mut words = plain::refused((0, 0)).words();
        words[7] = 5_000;
        let [winners, scores] = [4, 5].map(|field| others(field, &words));
        for number in [0, 1, 4, 15, 16, 17, 255, 256, 257, 1 << 32, u64::MAX] {
            assert!(winners.contains(&number), "no winner {number}");
        }
        for number in [0, 1, 4_999, 5_000, 5_001, 1 << 32, u64::MAX] {
            assert!(scores.contains(&number), "no score {number}");
        }
    }
}
