//! The cutoff for an entropy, and a start with it, beside the plain definition.

use crate::floats::{any, near};
use crate::repeats::{ENTRIES, History, cutoff, entropy_of};
use crate::standing::{Standing, any_state};
use crate::tally::{Clock, Tally};
use abutfern::exported;
use abutfern::random::Random;

/// Judges what of the two functions exists; returns how many differ.
pub fn judge(clock: Clock, random: &mut Random) -> u64 {
    let mut tallies = Tallies::new("every 1/64 and its neighbours", random);
    for entropy in marks() {
        for _ in 0..8 {
            tallies.compare(entropy, random);
        }
    }
    let differ = tallies.close();
    let mut tallies = Tallies::new("any entropy", random);
    for () in clock.turns() {
        for _ in 0..1000 {
            tallies.compare(some_entropy(random), random);
        }
    }
    differ + tallies.close()
}

/// What was compared of cutoffs and of starts.
struct Tallies {
    cutoffs: Tally,
    starts: Tally,
    standing: Standing,
}

impl Tallies {
    fn new(kind: &str, random: &mut Random) -> Self {
        Self {
            cutoffs: Tally::new(&format!("repetition_cutoff: {kind}")),
            starts: Tally::new(&format!("repetition_start: {kind}")),
            standing: Standing::new(random),
        }
    }

    fn compare(&mut self, entropy: f64, random: &mut Random) {
        if exported("repetition_cutoff") {
            let ours = abutfern::repetition_cutoff(entropy);
            let expected = cutoff(entropy);
            self.cutoffs.note(outcome(ours.number));
            self.cutoffs.check(ours == expected, || {
                format!("{}: {ours:?}, not {expected:?}", described(entropy))
            });
        }
        if exported("repetition_start") {
            self.start(entropy, random);
        }
    }

    /// Starts a test on whatever stands there, which stays if the entropy is refused.
    fn start(&mut self, entropy: f64, random: &mut Random) {
        let before = any_state(random);
        let called = self.standing.call(before, random, |test| {
            abutfern::repetition_start(test, entropy)
        });
        let mut history = History::default();
        let number = history.start(entropy);
        let left = if number == 0 { history.state() } else { before };
        self.starts.note(outcome(number));
        self.starts.judge(called.faults(&number, &left), || {
            format!("{} on {before:?}", described(entropy))
        });
    }

    fn close(self) -> u64 {
        self.cutoffs.close() + self.starts.close()
    }
}

fn described(entropy: f64) -> String {
    format!("{entropy:?} ({:#018x})", entropy.to_bits())
}

fn outcome(number: u64) -> &'static str {
    match number {
        0 => "done",
        5 => "refused by 5",
        _ => "with another number",
    }
}

/// Every 1/64 to past 8 and the middle above it, every power of two, zero, infinity and what is
/// not a number, each with its neighbours, of both signs.
fn marks() -> Vec<f64> {
    let entries = 0..=ENTRIES.end() + 2;
    let sixty_fourths = entries.flat_map(|j| [entropy_of(j), entropy_of(j) + 1.0 / 128.0]);
    let exponents = (0..=0x7ff).map(|exponent: u64| f64::from_bits(exponent << 52));
    let subnormals = (0..52).map(|digit| f64::from_bits(1 << digit));
    let not_numbers = [f64::NAN, f64::from_bits(u64::MAX >> 1)];
    let marks = sixty_fourths
        .chain(exponents)
        .chain(subnormals)
        .chain(not_numbers);
    marks.flat_map(neighbours).collect()
}

/// The doubles at most two units in the last place away, by their bits, of both signs.
fn neighbours(mark: f64) -> impl Iterator<Item = f64> {
    let size = mark.abs().to_bits();
    let sizes = (0..5).map(move |step| (size + step).wrapping_sub(2));
    sizes.flat_map(|size| [f64::from_bits(size), f64::from_bits(size | (1 << 63))])
}

/// An entropy of any kind; most are taken, at large cutoffs as often as at small ones.
pub fn some_entropy(random: &mut Random) -> f64 {
    let entry = entropy_of(random.of_any_size(*ENTRIES.end()));
    match random.below(8) {
        0 => any(random),
        1 => near(entry, random),
        2 => random.unit() * 8.0,
        3 => random.unit() * random.one_of(&[0.03, 0.5, 9.0]),
        _ => entry,
    }
}
