//! The four races of document 01: MultiMCW and MultiMMC on bits and on literals.

use crate::race::{Outcome, Race};
use crate::{levels, windows};
use abutfern::numbers::{LEVELS, PAIR_CAP};

/// MultiMCW on the bits of a capture.
pub fn mcw_bits(symbols: &[u8], width: u8) -> Outcome {
    windows::race(&bits(symbols, width)).end()
}

/// MultiMCW on the symbols. Its rules do not look at what a symbol is, so none is translated.
pub fn mcw_literal(symbols: &[u8]) -> Outcome {
    windows::race(symbols).end()
}

/// MultiMMC on the bits of a capture.
pub fn mmc_bits(symbols: &[u8], width: u8) -> Outcome {
    levels::on_bits(&bits(symbols, width), PAIR_CAP).end()
}

/// MultiMMC on the symbols.
pub fn mmc_literal(symbols: &[u8]) -> Outcome {
    mmc_race(symbols).end()
}

/// The race of the levels on symbols, which the general rules only order; at most two values are
/// bits.
pub fn mmc_race(symbols: &[u8]) -> Race<LEVELS> {
    let lowest = symbols.iter().copied().min().unwrap_or(0);
    let highest = symbols.iter().copied().max().unwrap_or(0);
    if symbols.iter().all(|s| [lowest, highest].contains(s)) {
        let bits: Vec<u8> = symbols.iter().map(|s| u8::from(*s > lowest)).collect();
        return levels::on_bits(&bits, PAIR_CAP);
    }
    levels::in_general(symbols, PAIR_CAP)
}

/// The low bits of each symbol, the highest first.
fn bits(symbols: &[u8], width: u8) -> Vec<u8> {
    let of_one = |symbol: &u8| {
        let symbol = *symbol;
        (0..width).rev().map(move |shift| symbol >> shift & 1)
    };
    symbols.iter().flat_map(of_one).collect()
}

#[cfg(all(test, has_reference))]
mod tests {
    use super::*;
    use crate::captures::random_capture;
    use abutfern::random::Random;
    use abutfern::reference::prediction::PredictionEstimate;
    use abutfern::reference::{multi_mcw, multi_mmc};
    use abutfern::shapes::{Shape, capture};

    fn agree(race: Outcome, rust: PredictionEstimate) {
        assert_eq!(race.counts(), (rust.c, rust.n, rust.max_run_len));
        assert!(race.score <= race.n);
    }

    #[test]
    fn windows_are_the_rusts() {
        let mut random = Random::new(3);
        for turn in 0..60 {
            let symbols = random_capture(4096 + turn * turn, &mut random);
            let width = 2 + (turn % 7) as u8;
            let rust = multi_mcw::multi_mcw(&symbols, width).estimate;
            agree(mcw_bits(&symbols, width), rust);
            let rust = multi_mcw::multi_mcw_literal(&symbols).estimate;
            agree(mcw_literal(&symbols), rust);
        }
    }

    #[test]
    fn levels_are_the_rusts() {
        let mut random = Random::new(4);
        for turn in 0..100 {
            let symbols = random_capture(4 + turn * turn / 8, &mut random);
            let width = 2 + (turn % 7) as u8;
            let rust = multi_mmc::multi_mmc(&symbols, width).estimate;
            agree(mmc_bits(&symbols, width), rust);
            let rust = multi_mmc::multimmc_literal(&symbols).estimate;
            agree(mmc_literal(&symbols), rust);
        }
    }

    /// Random bits, enough of them that level 16 reaches its cap.
    #[test]
    fn level_16_is_the_rusts_at_its_cap() {
        let mut random = Random::new(5);
        let bits = capture(Shape::Uniform, 2, 300_000, || random.word() >> 40);
        agree(mmc_bits(&bits, 1), multi_mmc::multi_mmc(&bits, 1).estimate);
    }
}
