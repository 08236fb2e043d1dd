//! States that are offered to the running test: a sample is taken exactly where some start and
//! samples leave that state, which is found by running them through the plain definition.

use crate::repeats::{ENTRIES, History, NOT_TAKEN, cutoff_of, entropy_of};
use crate::standing::{Called, Standing};
use crate::tally::{Clock, Tally};
use abutfern::random::Random;
use abutfern::{Alarm, RepetitionTest};
use std::collections::HashMap;

/// The samples that are run, and offered to every state.
const SAMPLES: [u8; 4] = [0, 1, 7, 255];

/// The last samples in the states.
const LAST: [u16; 6] = [0, 1, 7, 255, 256, 65_535];

/// The largest cutoff among the small states.
const LARGEST: u16 = 1300;

/// Judges every state; returns how many differ.
pub fn judge(_: Clock, random: &mut Random) -> u64 {
    let mut bench = Bench {
        standing: Standing::new(random),
    };
    let reached = reached(ENTRIES, &SAMPLES);
    bench.small(&reached, random)
        + bench.every_cutoff(&reached, random)
        + bench.every_count(&reached, random)
        + bench.every_last_sample(random)
}

/// The states that are left, each by its fields with all histories that left it.
type Reached = HashMap<[u16; 3], Vec<History>>;

/// What is left by a start for each entry and equal samples after it, from none to three more than
/// the cutoff, right after the start and after another sample.
fn reached(entries: impl IntoIterator<Item = u64>, samples: &[u8]) -> Reached {
    let mut reached = Reached::new();
    for entry in entries {
        for sample in samples {
            let mut first = History::default();
            first.start(entropy_of(entry));
            let mut second = first.clone();
            second.sample(sample.wrapping_add(1));
            for mut history in [first, second] {
                for _ in 0..=cutoff_of(entry) + 3 {
                    let histories = reached.entry(fields(&history.state())).or_default();
                    histories.push(history.clone());
                    history.sample(*sample);
                }
            }
        }
    }
    reached
}

fn fields(state: &RepetitionTest) -> [u16; 3] {
    [state.cutoff, state.last_sample, state.count]
}

/// The faults of a call with one more sample after each of some histories.
fn after(histories: &[History], sample: u8, called: &Called<Alarm>) -> Vec<String> {
    let faults = |history: &History| {
        let mut history = history.clone();
        let alarm = history.sample(sample);
        called.faults(&alarm, &history.state())
    };
    let mut faults: Vec<String> = histories.iter().flat_map(faults).collect();
    faults.sort();
    faults.dedup();
    faults
}

struct Bench {
    standing: Standing,
}

impl Bench {
    /// Offers the samples to a state.
    fn compare(
        &mut self,
        [cutoff, last_sample, count]: [u16; 3],
        reached: &Reached,
        random: &mut Random,
        tally: &mut Tally,
    ) {
        let state = RepetitionTest {
            cutoff,
            last_sample,
            count,
        };
        let histories = reached.get(&fields(&state));
        let mut faults = Vec::new();
        for sample in SAMPLES {
            let call = |test: &mut _| abutfern::repetition_sample(test, sample);
            let called = self.standing.call(state, random, call);
            let wrong = match histories {
                None => called.faults(&NOT_TAKEN, &state),
                Some(histories) => after(histories, sample, &called),
            };
            let said = |fault| format!("sample {sample}: {fault}");
            faults.extend(wrong.into_iter().map(said));
        }
        let left = histories.is_some();
        tally.note(if left { "taken" } else { "refused by 10" });
        tally.judge(faults, || format!("{state:?}"));
    }

    /// All cutoffs up to past the largest, all counts up to two past the cutoff, a few last samples.
    fn small(&mut self, reached: &Reached, random: &mut Random) -> u64 {
        let mut tally = Tally::new("repetition_sample: every state with small fields");
        for cutoff in 0..=LARGEST {
            for count in 0..=cutoff + 2 {
                for last in LAST {
                    self.compare([cutoff, last, count], reached, random, &mut tally);
                }
            }
        }
        tally.close()
    }

    fn every_cutoff(&mut self, reached: &Reached, random: &mut Random) -> u64 {
        let mut tally = Tally::new("repetition_sample: every cutoff of two bytes");
        for cutoff in 0..=u16::MAX {
            for count in [0, 1, cutoff, cutoff.wrapping_add(1)] {
                for last in [0, 7] {
                    self.compare([cutoff, last, count], reached, random, &mut tally);
                }
            }
        }
        tally.close()
    }

    fn every_count(&mut self, reached: &Reached, random: &mut Random) -> u64 {
        let mut tally = Tally::new("repetition_sample: every count of two bytes");
        for count in 0..=u16::MAX {
            for cutoff in [0, 4, 21, 42, 1281] {
                for last in [0, 7] {
                    self.compare([cutoff, last, count], reached, random, &mut tally);
                }
            }
        }
        tally.close()
    }

    fn every_last_sample(&mut self, random: &mut Random) -> u64 {
        let mut tally = Tally::new("repetition_sample: every last sample of two bytes");
        let samples: Vec<u8> = (0..=u8::MAX).collect();
        let reached = reached([512, 64], &samples);
        for last in 0..=u16::MAX {
            for cutoff in [4, 21] {
                for count in [0, 1, cutoff - 1, cutoff, cutoff + 1] {
                    self.compare([cutoff, last, count], &reached, random, &mut tally);
                }
            }
        }
        tally.close()
    }
}
