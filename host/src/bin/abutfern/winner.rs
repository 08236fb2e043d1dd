//! Who predicted, in words: the sub-predictor that won, and how often it was right.

use crate::rate::Estimator;
use crate::table::counted;
use abutfern::{Answer, Winner};

/// What the sub-predictors of an estimator look back on.
pub struct Memory {
    pub name: &'static str,
    /// How many samples that is, for each of them in their order.
    lengths: &'static [u64],
}

/// The windows of MultiMCW.
pub const WINDOWS: Memory = Memory {
    name: "window",
    lengths: &[63, 255, 1023, 4095],
};

/// The prefixes of MultiMMC.
pub const PREFIXES: Memory = Memory {
    name: "prefix",
    lengths: &[1, 2, 3, 4, 5, 6, 7, 8, 9, 10, 11, 12, 13, 14, 15, 16],
};

impl Memory {
    /// How many samples a winner, counted from 1, looks back on; none where there is no such one.
    pub fn of(&self, winner: u64) -> Option<u64> {
        let place = winner.checked_sub(1)?;
        self.lengths.get(place as usize).copied()
    }
}

/// Who won an estimate that ran, and its share of the predictions.
pub fn rated(estimator: &Estimator, answer: &Answer) -> String {
    let memory = &estimator.memory;
    let Some(length) = memory.of(answer.winner) else {
        return NONE.to_string();
    };
    let share = share(answer.score, answer.estimate.n);
    // The length is a name here, as NIST writes it: its thousands do not stand apart.
    format!(
        "{} {length}, {} ({share})",
        memory.name,
        right(answer.score)
    )
}

/// Who won, as a record tells it: a number, since no record says of which estimator it is. A dash
/// where the record does not tell.
pub fn recorded(winner: Option<Winner>) -> String {
    match winner {
        None => "-".to_string(),
        Some(Winner { winner: 0, .. }) => NONE.to_string(),
        Some(Winner { winner, score }) => format!("sub-predictor {winner}, {}", right(score)),
    }
}

/// Said of counts alone and of refusals, which have no sub-predictor.
const NONE: &str = "none";

fn right(score: u64) -> String {
    format!("right {}", counted(score, "time"))
}

/// A part of a whole in percent, to a tenth, never more than it is.
fn share(part: u64, whole: u64) -> String {
    let tenths = (part * 1000).checked_div(whole).unwrap_or(0);
    format!("{}.{}%", tenths / 10, tenths % 10)
}

#[cfg(test)]
mod tests {
    use super::*;
    use crate::rate::ESTIMATORS;
    use abutfern::Estimate;

    #[test]
    fn windows_and_prefixes_have_their_lengths() {
        let windows = [1, 2, 3, 4].map(|winner| WINDOWS.of(winner));
        assert_eq!(windows, [Some(63), Some(255), Some(1023), Some(4095)]);
        let prefixes = [1, 8, 16].map(|winner| PREFIXES.of(winner));
        assert_eq!(prefixes, [Some(1), Some(8), Some(16)]);
        assert_eq!([0, 5, 16, u64::MAX].map(|none| WINDOWS.of(none)), [None; 4]);
        assert_eq!(
            [0, 17, 255, u64::MAX].map(|none| PREFIXES.of(none)),
            [None; 4]
        );
        assert_eq!(PREFIXES.lengths.len(), abutfern::numbers::LEVELS);
    }

    /// An answer of a winner among a thousand predictions.
    fn answer(winner: u64, score: u64) -> Answer {
        Answer {
            number: 0,
            place: 0,
            k: 2,
            rounds: 0,
            winner,
            score,
            estimate: Estimate {
                c: 500,
                n: 1000,
                max_run_len: 9,
                p_global: 0.5,
                p_global_prime: 0.54,
                p_local: -1.0,
                min_entropy: 0.875,
            },
        }
    }

    #[test]
    fn a_winner_is_told_by_its_memory() {
        let [mcw, _, _, mmc] = &ESTIMATORS;
        assert_eq!(
            rated(mcw, &answer(2, 62)),
            "window 255, right 62 times (6.2%)"
        );
        assert_eq!(
            rated(mcw, &answer(4, 1000)),
            "window 4095, right 1,000 times (100.0%)"
        );
        assert_eq!(
            rated(mmc, &answer(8, 999)),
            "prefix 8, right 999 times (99.9%)"
        );
        assert_eq!(rated(mmc, &answer(16, 1)), "prefix 16, right 1 time (0.1%)");
        assert_eq!(rated(mmc, &answer(1, 0)), "prefix 1, right 0 times (0.0%)");
        assert_eq!(rated(mmc, &answer(0, 0)), "none");
    }

    #[test]
    fn a_share_is_never_shown_larger() {
        for (part, whole, shown) in [
            (0, 0, "0.0%"),
            (0, 2, "0.0%"),
            (1, 199_937, "0.0%"),
            (999, 1_000_000, "0.0%"),
            (1000, 1_000_000, "0.1%"),
            (1, 3, "33.3%"),
            (2, 3, "66.6%"),
            (1999, 2000, "99.9%"),
            (134_217_727, 134_217_728, "99.9%"),
            (134_217_728, 134_217_728, "100.0%"),
        ] {
            assert_eq!(share(part, whole), shown, "{part} of {whole}");
        }
    }

    #[test]
    fn what_a_record_does_not_tell_is_a_dash_and_no_winner_is_none() {
        let told = |winner, score| recorded(Some(Winner { winner, score }));
        assert_eq!(recorded(None), "-");
        assert_eq!(told(0, 0), "none");
        assert_eq!(told(1, 0), "sub-predictor 1, right 0 times");
        assert_eq!(told(2, 12_345), "sub-predictor 2, right 12,345 times");
        assert_eq!(told(16, 1), "sub-predictor 16, right 1 time");
    }
}
