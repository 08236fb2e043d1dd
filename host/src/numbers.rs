//! The limits of documents 01 and 02 and the answer numbers in words.

use std::ops::RangeInclusive;

/// The most symbols a capture may have.
pub const SYMBOL_LIMIT: usize = 16_777_216;
/// The widths that are taken, in bits to a symbol; any other is refused with number 7.
pub const WIDTHS: RangeInclusive<u8> = 1..=8;
/// The most predictions that the estimate takes.
pub const PREDICTION_LIMIT: u64 = 134_217_728;
/// The least number of samples for MultiMCW.
pub const MCW_SAMPLES: usize = 4_096;
/// The least number of samples for MultiMMC.
pub const MMC_SAMPLES: usize = 4;
/// The counters that MultiMMC on bits needs.
pub const COUNTERS: usize = 262_140;
/// The numbers that MultiMMC on more than two values needs.
pub const SPACE: usize = 16_777_216;
/// The levels of MultiMMC.
pub const LEVELS: usize = 16;
/// The most distinct pairs that a level of MultiMMC counts.
pub const PAIR_CAP: usize = 100_000;
/// The most rounds of the bisection.
pub const ROUND_LIMIT: u64 = 1_076;
/// The entropies that a repetition count test starts with, in bits per sample; any other is refused
/// with number 5.
pub const ENTROPIES: RangeInclusive<f64> = 1.0 / 64.0..=8.0;

/// An answer number in words.
pub fn meaning(number: u64) -> &'static str {
    match number {
        0 => "done",
        1 => "the capture has more than 16,777,216 symbols",
        2 => "a lent buffer is too short, or a bit past the end was asked for",
        3 => "the width is 1 and a symbol is above 1",
        4 => "counts that cannot be",
        5 => "a probability or an entropy is outside its range",
        6 => "not run: too few samples",
        7 => "the width is 0, as if never filled in, or above 8",
        8 => "a record with a wrong length or kind, or the end of the input",
        9 => "a record that holds what no answer is",
        10 => "a sample before a start, or a state that no start and samples could have left",
        _ => "a number that is not given",
    }
}
