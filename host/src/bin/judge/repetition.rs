//! The running test beside the plain definition, after every start and every sample of a list.

use crate::captures::digits;
use crate::entropies;
use crate::lists::{List, Step, beside_cutoff, described, random_list, with_starts, without_start};
use crate::repeats::{ENTRIES, History, cutoff_of};
use crate::standing::Standing;
use crate::tally::{Clock, Tally};
use abutfern::random::Random;
use abutfern::{RepetitionTest, exported};

/// Judges what of the family exists; returns how many differ.
pub fn judge(clock: Clock, random: &mut Random) -> u64 {
    let differ = entropies::judge(clock.part(4), random);
    if !exported("repetition_start") || !exported("repetition_sample") {
        return differ;
    }
    let mut bench = Bench {
        standing: Standing::new(random),
    };
    differ
        + bench.short(random)
        + bench.pairs(random)
        + bench.constant(random)
        + bench.crafted(random)
        + bench.random(clock, random)
}

struct Bench {
    standing: Standing,
}

impl Bench {
    /// Compares after every step of a list, up to the first that differs.
    fn compare(&mut self, list: &List, random: &mut Random, tally: &mut Tally) {
        let mut history = History::default();
        let mut test = RepetitionTest::NEVER_STARTED;
        for (place, step) in list.steps.iter().enumerate() {
            let faults = self.step(*step, &mut test, &mut history, random, tally);
            let differs = !faults.is_empty();
            tally.judge(faults, || described(&list.steps[..=place]));
            if differs {
                return;
            }
        }
    }

    /// Does a step to a test and to its history; returns the faults.
    fn step(
        &mut self,
        step: Step,
        test: &mut RepetitionTest,
        history: &mut History,
        random: &mut Random,
        tally: &mut Tally,
    ) -> Vec<String> {
        match step {
            Step::Start(entropy) => {
                let call = |test: &mut _| abutfern::repetition_start(test, entropy);
                let called = self.standing.call(*test, random, call);
                let number = history.start(entropy);
                *test = called.left;
                tally.note(if number == 0 {
                    "starts"
                } else {
                    "starts refused"
                });
                called.faults(&number, &history.state())
            }
            Step::Sample(sample) => {
                let call = |test: &mut _| abutfern::repetition_sample(test, sample);
                let called = self.standing.call(*test, random, call);
                let alarm = history.sample(sample);
                *test = called.left;
                tally.note(match (alarm.number, alarm.alarm) {
                    (0, 0) => "samples",
                    (0, _) => "samples with an alarm",
                    _ => "samples refused",
                });
                called.faults(&alarm, &history.state())
            }
        }
    }

    /// Every list of nine samples of three values, at the smallest cutoffs.
    fn short(&mut self, random: &mut Random) -> u64 {
        let mut tally = Tally::new("repetition_sample: every list of 9 samples of 3 values");
        for entry in [512, 427, 426, 256] {
            for number in 0..3u64.pow(9) {
                let list = List::of(entry).samples(&digits(number, 3, 9));
                self.compare(&list, random, &mut tally);
            }
        }
        tally.close()
    }

    /// Every value after every value, where an equal one is an alarm.
    fn pairs(&mut self, random: &mut Random) -> u64 {
        let mut tally = Tally::new("repetition_sample: every pair of values at the cutoff");
        for first in 0..=u8::MAX {
            for second in 0..=u8::MAX {
                let list = List::of(512).run(first, 3).run(second, 1).run(first, 1);
                self.compare(&list, random, &mut tally);
            }
        }
        tally.close()
    }

    /// Every value far past a small cutoff, and a few past every cutoff.
    fn constant(&mut self, random: &mut Random) -> u64 {
        let mut tally = Tally::new("repetition_sample: constant lists past the cutoff");
        for value in 0..=u8::MAX {
            self.compare(&List::of(512).run(value, 300), random, &mut tally);
        }
        for entry in ENTRIES {
            for value in [0, 1, 255] {
                let list = List::of(entry).run(value, 2 * cutoff_of(entry) + 10);
                self.compare(&list, random, &mut tally);
            }
        }
        for (entry, value) in [(512, 7), (1, 0)] {
            let list = List::of(entry).run(value, 10_000).run(value ^ 1, 10);
            self.compare(&list, random, &mut tally);
        }
        tally.close()
    }

    /// Runs beside every cutoff, starts within them, and samples before a start.
    fn crafted(&mut self, random: &mut Random) -> u64 {
        let mut tally = Tally::new("repetition_sample: runs beside every cutoff, with starts");
        for value in [0, 1, 255] {
            for entry in ENTRIES {
                let starts = with_starts(entry, value, random);
                for list in beside_cutoff(entry, value).iter().chain(&starts) {
                    self.compare(list, random, &mut tally);
                }
            }
            for list in without_start(value) {
                self.compare(&list, random, &mut tally);
            }
        }
        tally.close()
    }

    fn random(&mut self, clock: Clock, random: &mut Random) -> u64 {
        let mut tally = Tally::new("repetition_sample: random lists");
        for () in clock.turns() {
            for _ in 0..100 {
                let list = random_list(random);
                self.compare(&list, random, &mut tally);
            }
        }
        tally.close()
    }
}
