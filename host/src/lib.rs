//! Abutfern for Rust: safe bindings of the proved libraries. Every capture, width, count, lent
//! slice and lent state gets an answer; what cannot be done is refused by number (see [`numbers`]),
//! with all lent memory unchanged. A width that is none of [`numbers::WIDTHS`] is refused with 7 by the
//! functions that take one; the literal tracks and the alphabets have no width and never answer 7.

pub mod ffi;
pub mod numbers;
pub mod random;
pub mod shapes;

#[cfg(has_reference)]
pub mod steps;

#[cfg(has_reference)]
pub extern crate reference;

/// The Rust of README.md is a test.
#[cfg(doctest)]
#[doc = include_str!("../README.md")]
pub struct Linking;

pub use ffi::{
    Alarm, Alphabet, Answer, BitRead, Cutoff, Estimate, Figure, Reading, RepetitionTest, Row,
    Solved, Value, Written, exported,
};

/// The kind of a record that holds an answer without who predicted, and how many bytes it takes.
pub const RECORD_KIND: u64 = 1;
pub const RECORD_SIZE: usize = 61;

/// The kind of a record that tells who predicted as well, and how many bytes it takes.
pub const NAMED_RECORD_KIND: u64 = 2;
pub const NAMED_RECORD_SIZE: usize = 66;

/// Who predicted: the sub-predictor that won, from 1, and how often it was right. 0 in both says
/// that there was none.
#[derive(Clone, Copy, Debug, PartialEq, Eq)]
pub struct Winner {
    pub winner: u64,
    pub score: u64,
}

impl Answer {
    /// Every field as a word, floats by their bits: equal words are equal answers.
    pub fn words(&self) -> [u64; 13] {
        let e = &self.estimate;
        let floats = [e.p_global, e.p_global_prime, e.p_local, e.min_entropy];
        let [p_global, p_global_prime, p_local, min_entropy] = floats.map(f64::to_bits);
        [
            self.number,
            self.place,
            self.k,
            self.rounds,
            self.winner,
            self.score,
            e.c,
            e.n,
            e.max_run_len,
            p_global,
            p_global_prime,
            p_local,
            min_entropy,
        ]
    }
}

impl Reading {
    /// Who predicted, where the record tells it. One of kind 1 does not: that is absent, and not
    /// the same as none.
    pub fn winner(&self) -> Option<Winner> {
        let Answer { winner, score, .. } = self.answer;
        (self.told != 0).then_some(Winner { winner, score })
    }
}

impl RepetitionTest {
    /// The state before the first start.
    pub const NEVER_STARTED: Self = Self {
        cutoff: 0,
        last_sample: 0,
        count: 0,
    };
}

impl Default for RepetitionTest {
    fn default() -> Self {
        Self::NEVER_STARTED
    }
}

// Each call below passes the pointer and length of slices that outlive it, or the pointer of a
// state that does, so all are sound: the libraries read and write nothing else, and their functions
// take every value.

/// Bit `i` of a capture: answers 0, 1, 7, 2, 3.
pub fn bit(symbols: &[u8], width: u8, i: u64) -> BitRead {
    unsafe { ffi::abutfern_bit(symbols.as_ptr(), symbols.len(), width, i) }
}

/// Numbers the symbols by first sight into `out`: answers 0, 1, 2.
pub fn dense_alphabet(symbols: &[u8], out: &mut [u8]) -> Alphabet {
    unsafe {
        ffi::abutfern_dense_alphabet(symbols.as_ptr(), symbols.len(), out.as_mut_ptr(), out.len())
    }
}

/// Numbers the symbols in rising order into `out`: answers 0, 1, 2.
pub fn value_sorted_alphabet(symbols: &[u8], out: &mut [u8]) -> Alphabet {
    unsafe {
        let (out, length) = (out.as_mut_ptr(), out.len());
        ffi::abutfern_value_sorted_alphabet(symbols.as_ptr(), symbols.len(), out, length)
    }
}

/// Whether two floats are close, absolutely, relatively or by units in the last place.
pub fn rel_epsilon_equal(a: f64, b: f64, max_abs: f64, max_rel: f64, max_ulp: u64) -> bool {
    unsafe { ffi::abutfern_rel_epsilon_equal(a, b, max_abs, max_rel, max_ulp) }
}

/// The square root, rounded correctly.
pub fn sqrt(x: f64) -> f64 {
    unsafe { ffi::abutfern_sqrt(x) }
}

/// The natural logarithm.
pub fn ln(x: f64) -> f64 {
    unsafe { ffi::abutfern_ln(x) }
}

/// A whole-number power, by halving the exponent.
pub fn power(x: f64, n: u64) -> f64 {
    unsafe { ffi::abutfern_power(x, n) }
}

/// The min-entropy of a largest probability in 1/256..1: answers 0, 5.
pub fn min_entropy(p: f64) -> Value {
    unsafe { ffi::abutfern_min_entropy(p) }
}

/// The function whose root p_local is: answers 0, 4, 5.
pub fn prediction_estimate_function(p: f64, max_run_len: u64, n: u64) -> Value {
    unsafe { ffi::abutfern_prediction_estimate_function(p, max_run_len, n) }
}

/// p_local by bisection over `ldomain`..1: answers 0, 4, 5.
pub fn calc_p_local(max_run_len: u64, n: u64, ldomain: f64) -> Solved {
    unsafe { ffi::abutfern_calc_p_local(max_run_len, n, ldomain) }
}

/// The shared estimate from counts and the alphabet's size: answers 0, 4.
pub fn prediction_estimate(c: u64, n: u64, max_run_len: u64, k: u64) -> Answer {
    unsafe { ffi::abutfern_prediction_estimate(c, n, max_run_len, k) }
}

/// MultiMCW on the bitstring track: answers 0, 1, 7, 6, 3.
pub fn multi_mcw(symbols: &[u8], bits_per_symbol: u8) -> Answer {
    unsafe { ffi::abutfern_multi_mcw(symbols.as_ptr(), symbols.len(), bits_per_symbol) }
}

/// MultiMCW on the literal track: answers 0, 1, 6, 2. `out` takes the translated capture.
pub fn multi_mcw_literal(symbols: &[u8], out: &mut [u8]) -> Answer {
    unsafe {
        let (out, length) = (out.as_mut_ptr(), out.len());
        ffi::abutfern_multi_mcw_literal(symbols.as_ptr(), symbols.len(), out, length)
    }
}

/// MultiMMC on the bitstring track: answers 0, 1, 7, 6, 2, 3. `counters` takes the counts.
pub fn multi_mmc(symbols: &[u8], bits_per_symbol: u8, counters: &mut [u32]) -> Answer {
    unsafe {
        ffi::abutfern_multi_mmc(
            symbols.as_ptr(),
            symbols.len(),
            bits_per_symbol,
            counters.as_mut_ptr(),
            counters.len(),
        )
    }
}

/// MultiMMC on the literal track: answers 0, 1, 6, 2. `out` takes the translated capture.
pub fn multi_mmc_literal(symbols: &[u8], out: &mut [u8], space: &mut [u32]) -> Answer {
    unsafe {
        ffi::abutfern_multi_mmc_literal(
            symbols.as_ptr(),
            symbols.len(),
            out.as_mut_ptr(),
            out.len(),
            space.as_mut_ptr(),
            space.len(),
        )
    }
}

/// The smallest of the four estimates, in bits per symbol, and the estimator that gave it; none
/// unless all four ran.
/// The answers stand in the order MultiMCW bits, MultiMCW literal, MultiMMC bits, MultiMMC literal.
/// Its own answers: 0; 7 for the width, before all others; the number of the first refused estimate
/// (5 for one above 7 other than 10); 5 for an entropy out of range; 6 where one or more did not
/// run, which are those with number 6.
pub fn board_figure(answers: &[Answer; 4], bits_per_symbol: u8) -> Figure {
    let [mcw_bits, mcw_literal, mmc_bits, mmc_literal] = *answers;
    unsafe {
        ffi::abutfern_board_figure(
            mcw_bits,
            mcw_literal,
            mmc_bits,
            mmc_literal,
            bits_per_symbol,
        )
    }
}

/// Writes an answer's record of a kind (1 or 2) at the start of `out`: answers 0, 2, 8, 9. `told` says
/// whether the answer's winner and score are there: where they are absent, as in what was read from a
/// record of kind 1, kind 2 is refused with 9.
pub fn write_record(answer: &Answer, told: bool, kind: u64, out: &mut [u8]) -> Written {
    let (out, length) = (out.as_mut_ptr(), out.len());
    unsafe { ffi::abutfern_write_record(*answer, told.into(), kind, out, length) }
}

/// Reads the record at the start of `bytes`, whatever follows it: answers 0, 8, 9.
pub fn read_record(bytes: &[u8]) -> Reading {
    unsafe { ffi::abutfern_read_record(bytes.as_ptr(), bytes.len()) }
}

/// Reads records that stand one after the other: how many are good, and the first that is not.
pub fn read_records(bytes: &[u8]) -> Row {
    unsafe { ffi::abutfern_read_records(bytes.as_ptr(), bytes.len()) }
}

/// The record of a place, counted from 0, among records that stand one after the other. A place at
/// the first bad record or past it has the first bad one's number; a place past the end has 8.
pub fn record_at(bytes: &[u8], place: u64) -> Reading {
    unsafe { ffi::abutfern_record_at(bytes.as_ptr(), bytes.len(), place) }
}

/// The cutoff of the repetition count test for an entropy in bits per sample, rounded down to 1/64:
/// answers 0, 5.
pub fn repetition_cutoff(entropy: f64) -> Cutoff {
    unsafe { ffi::abutfern_repetition_cutoff(entropy) }
}

/// Starts a test for an entropy in bits per sample, whatever its state: answers 0, 5.
pub fn repetition_start(test: &mut RepetitionTest, entropy: f64) -> u64 {
    unsafe { ffi::abutfern_repetition_start(test, entropy) }
}

/// Takes the next sample of a test that was started: answers 0, 10.
pub fn repetition_sample(test: &mut RepetitionTest, sample: u8) -> Alarm {
    unsafe { ffi::abutfern_repetition_sample(test, sample) }
}
