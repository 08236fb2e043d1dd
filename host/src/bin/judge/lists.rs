//! Lists of starts and samples to compare on.

use crate::entropies::some_entropy;
use crate::repeats::{cutoff, cutoff_of, entropy_of};
use abutfern::random::Random;
use abutfern::shapes::{SHAPES, capture};

/// What is done to a test.
#[derive(Clone, Copy, Debug, PartialEq)]
pub enum Step {
    Start(f64),
    Sample(u8),
}

/// Entropies that do not start a test.
const REFUSED: [f64; 6] = [0.0, 0.0156, 8.000001, -1.0, f64::INFINITY, f64::NAN];

/// Steps, one after the other.
#[derive(Default)]
pub struct List {
    pub steps: Vec<Step>,
}

impl List {
    /// A list that begins with the start for an entry.
    pub fn of(entry: u64) -> Self {
        Self::default().start(entropy_of(entry))
    }

    pub fn start(mut self, entropy: f64) -> Self {
        self.steps.push(Step::Start(entropy));
        self
    }

    /// Adds equal samples.
    pub fn run(mut self, value: u8, length: u64) -> Self {
        let run = std::iter::repeat_n(Step::Sample(value), length as usize);
        self.steps.extend(run);
        self
    }

    pub fn samples(mut self, samples: &[u8]) -> Self {
        self.steps.extend(samples.iter().copied().map(Step::Sample));
        self
    }
}

/// Runs one short of an entry's cutoff, of its length, and longer: right after the start, after
/// another value, and with one other sample in the middle.
pub fn beside_cutoff(entry: u64, value: u8) -> Vec<List> {
    let cutoff = cutoff_of(entry);
    let other = value ^ 1;
    let mut lists = Vec::new();
    for length in cutoff - 1..=cutoff + 1 {
        let first = List::of(entry).run(value, length).run(other, length);
        lists.push(first.run(value, length));
        let second = List::of(entry).run(other, 1).run(value, length);
        lists.push(second.run(other, 1).run(value, cutoff));
    }
    let broken = List::of(entry).run(value, cutoff / 2).run(other, 1);
    lists.push(broken.run(value, cutoff - cutoff / 2).run(value, cutoff));
    lists.push(List::of(entry).samples(&[value, other].repeat(cutoff as usize)));
    lists
}

/// Runs of an entry with a start in them: the same, another, and one that is refused.
pub fn with_starts(entry: u64, value: u8, random: &mut Random) -> Vec<List> {
    let cutoff = cutoff_of(entry);
    let mut lists = Vec::new();
    for length in [0, 1, cutoff / 2, cutoff - 1, cutoff, cutoff + 2] {
        let first = || List::of(entry).run(value, length);
        lists.push(first().start(entropy_of(entry)).run(value, cutoff + 1));
        let other = 300 + random.below(213);
        lists.push(first().start(entropy_of(other)).run(value, 7));
        let second = List::of(other).run(value, 7).start(entropy_of(entry));
        lists.push(second.run(value, length));
        let refused = random.one_of(&REFUSED);
        lists.push(first().start(refused).run(value, cutoff + 3 - length));
    }
    lists
}

/// Samples before every start, some after one that is refused.
pub fn without_start(value: u8) -> Vec<List> {
    let without = |refused: &f64| {
        let list = List::default().run(value, 3).start(*refused);
        list.run(value, 5).start(8.0).run(value, 5)
    };
    REFUSED.iter().map(without).collect()
}

/// A list of up to six starts, some of them refused, with samples of several kinds after each.
pub fn random_list(random: &mut Random) -> List {
    let mut list = List::default();
    if random.chance(1, 8) {
        list = list.run(random.byte(), random.below(4));
    }
    let mut length = 21;
    for _ in 0..=random.below(6) {
        let entropy = some_entropy(random);
        let taken = cutoff(entropy);
        if taken.number == 0 {
            length = taken.cutoff;
        }
        list = list.start(entropy);
        list = if random.chance(1, 2) {
            list.samples(&shaped(length, random))
        } else {
            list.samples(&runs(length, random))
        };
    }
    list
}

/// Samples of any shape and of 1, 2, 3 or 256 values.
fn shaped(cutoff: u64, random: &mut Random) -> Vec<u8> {
    let length = random.index(2 * cutoff as usize + 40);
    let values = random.one_of(&[1, 2, 3, 256]);
    let shape = random.one_of(&SHAPES);
    let first = random.byte();
    let mut samples = capture(shape, values, length, || random.word() >> 40);
    for sample in &mut samples {
        *sample = sample.wrapping_add(first);
    }
    samples
}

/// Runs of two or three values, many of them beside the cutoff.
fn runs(cutoff: u64, random: &mut Random) -> Vec<u8> {
    let values = [random.byte(), random.byte(), 0];
    let mut samples = Vec::new();
    for _ in 0..random.below(6) {
        let any = random.below(2 * cutoff);
        let length = random.one_of(&[1, cutoff - 1, cutoff, cutoff + 1, any]);
        let value = random.one_of(&values);
        samples.extend(std::iter::repeat_n(value, length as usize));
    }
    samples
}

/// Steps in words, equal ones in a row as one, and of many only the last.
pub fn described(steps: &[Step]) -> String {
    const SHOWN: usize = 12;
    let runs = steps.chunk_by(|a, b| a == b);
    let words: Vec<String> = runs
        .map(|run| format!("{} {:?}", run.len(), run[0]))
        .collect();
    let hidden = words.len().saturating_sub(SHOWN);
    let before = if hidden > 0 { ".., " } else { "" };
    format!("{before}{}", words[hidden..].join(", "))
}
