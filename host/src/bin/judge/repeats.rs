//! The repetition count test of document 02 (v) once more, over histories: what stands after a
//! sample is found anew from all samples since the start.

use abutfern::{Alarm, Cutoff, RepetitionTest};
use std::ops::RangeInclusive;

/// The entries of the table of cutoffs.
pub const ENTRIES: RangeInclusive<u64> = 1..=512;

/// The entropy at which an entry begins.
pub fn entropy_of(entry: u64) -> f64 {
    entry as f64 / 64.0
}

/// The cutoff in an entry.
pub fn cutoff_of(entry: u64) -> u64 {
    1 + 1280u64.div_ceil(entry)
}

/// An entropy's whole 64ths, from the double's bits; none where it is refused.
fn entry(entropy: f64) -> Option<u64> {
    let bits = entropy.to_bits();
    let negative = bits >> 63 == 1;
    let exponent = (bits >> 52) & 0x7ff;
    // These are the exponents from 1/64 on to below 16.
    if negative || !(1017..=1026).contains(&exponent) {
        return None;
    }
    let numerator = u128::from((bits & ((1 << 52) - 1)) | (1 << 52));
    let denominator = 1u128 << (1075 - exponent);
    (numerator <= 8 * denominator).then_some((64 * numerator / denominator) as u64)
}

/// The cutoff for an entropy.
pub fn cutoff(entropy: f64) -> Cutoff {
    match entry(entropy) {
        Some(entry) => Cutoff {
            number: 0,
            cutoff: cutoff_of(entry),
        },
        None => Cutoff {
            number: 5,
            cutoff: 0,
        },
    }
}

/// The answer to a sample that is not taken.
pub const NOT_TAKEN: Alarm = Alarm {
    number: 10,
    alarm: 0,
};

/// The entropy of the start, none before one, and every sample since.
#[derive(Clone, Default)]
pub struct History {
    entropy: Option<f64>,
    samples: Vec<u8>,
}

impl History {
    /// Begins anew with an entropy, unless that is refused.
    pub fn start(&mut self, entropy: f64) -> u64 {
        if entry(entropy).is_none() {
            return 5;
        }
        *self = Self {
            entropy: Some(entropy),
            samples: Vec::new(),
        };
        0
    }

    /// Adds a sample, unless there was no start.
    pub fn sample(&mut self, sample: u8) -> Alarm {
        let Some(entropy) = self.entropy else {
            return NOT_TAKEN;
        };
        self.samples.push(sample);
        let reached = self.equal_at_end() >= cutoff(entropy).cutoff;
        Alarm {
            number: 0,
            alarm: u64::from(reached),
        }
    }

    /// The state that the history leaves.
    pub fn state(&self) -> RepetitionTest {
        let cutoff = self.entropy.map_or(0, |entropy| cutoff(entropy).cutoff);
        let last = self.samples.last().copied().unwrap_or(0);
        RepetitionTest {
            cutoff: cutoff as u16,
            last_sample: u16::from(last),
            count: self.equal_at_end().min(cutoff) as u16,
        }
    }

    /// The number of equal samples at the end of the list.
    fn equal_at_end(&self) -> u64 {
        let backward = || self.samples.iter().rev();
        let last = backward().next();
        backward()
            .take_while(|sample| Some(*sample) == last)
            .count() as u64
    }
}

#[cfg(test)]
mod tests {
    use super::{ENTRIES, History, cutoff, cutoff_of, entropy_of, entry};

    #[test]
    fn the_table_is_the_document_s() {
        assert_eq!(cutoff_of(64), 21);
        assert_eq!(cutoff_of(512), 4);
        assert_eq!(cutoff_of(1), 1281);
    }

    #[test]
    fn entropies_are_rounded_down() {
        for j in ENTRIES {
            let exact = entropy_of(j);
            assert_eq!(entry(exact), Some(j));
            let below = (j > 1).then(|| j - 1);
            assert_eq!(entry(exact.next_down()), below);
            let above = (j < 512).then_some(j);
            assert_eq!(entry(exact.next_up()), above);
        }
        for refused in [f64::NAN, f64::INFINITY, -1.0, 0.0, -0.0, 5e-324, 16.0] {
            assert_eq!((cutoff(refused).number, cutoff(refused).cutoff), (5, 0));
        }
    }

    #[test]
    fn four_equal_samples_are_an_alarm_at_eight_bits() {
        let mut history = History::default();
        assert_eq!(history.sample(0).number, 10);
        assert_eq!(history.start(8.0), 0);
        let alarms = [0, 0, 0, 0, 0, 1, 1, 1, 1].map(|sample| history.sample(sample).alarm);
        assert_eq!(alarms, [0, 0, 0, 1, 1, 0, 0, 0, 1]);
        let state = history.state();
        assert_eq!((state.cutoff, state.last_sample, state.count), (4, 1, 4));
    }
}
