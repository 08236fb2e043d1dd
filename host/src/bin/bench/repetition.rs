//! The repetition test: one call for each sample of a capture, beside the same count in a plain loop
//! that keeps its state to itself and looks at none, and one call of a start.

use crate::captures::captures;
use crate::clock;
use abutfern::{RepetitionTest, exported};
use std::hint::black_box;

/// Entropies of the first, a middle and the last entry: cutoffs 1,281, 21 and 4.
const ENTROPIES: [f64; 3] = [1.0 / 64.0, 1.0, 8.0];

/// Beside a constant capture: no runs, short ones that nothing predicts, and long ones.
const NAMES: [&str; 3] = ["uniform 8-bit", "uniform 1-bit", "sticky 90%"];

const STARTS: usize = 4096;

pub fn print(length: usize) {
    if !exported("repetition_sample") {
        return;
    }
    println!("\n{length} samples                        cutoff  one sample   plain loop");
    let mut lines = vec![("constant", vec![7; length])];
    let captures = captures(length).into_iter();
    let named = captures.filter(|capture| NAMES.contains(&capture.name));
    lines.extend(named.map(|capture| (capture.name, capture.symbols)));
    for (name, samples) in &lines {
        for entropy in ENTROPIES {
            line(name, samples, entropy);
        }
    }
    let seconds = clock::best(|| (0..STARTS).for_each(|i| start(i as f64 / 512.0)));
    println!("\none start {:>49.2} ns", seconds / STARTS as f64 * 1e9);
}

fn line(name: &str, samples: &[u8], entropy: f64) {
    let cutoff = abutfern::repetition_cutoff(entropy).cutoff;
    let ours = || tested(samples, entropy);
    let plain = || counted(samples, cutoff);
    assert_eq!(ours(), plain(), "alarms of {name}");
    let ours = || {
        black_box(ours());
    };
    let plain = || {
        black_box(plain());
    };
    let (ours, plain) = clock::beside(ours, Some(plain));
    let each = |seconds: f64| seconds / samples.len() as f64 * 1e9;
    let plain = plain.map_or(f64::NAN, each);
    println!(
        "repetition_sample   {name:<20} {cutoff:>6} {:>8.2} ns {plain:>9.2} ns",
        each(ours)
    );
}

/// How many samples the alarm stands after.
fn tested(samples: &[u8], entropy: f64) -> u64 {
    let mut test = RepetitionTest::NEVER_STARTED;
    abutfern::repetition_start(&mut test, entropy);
    let mut alarms = 0;
    for sample in samples {
        alarms += abutfern::repetition_sample(black_box(&mut test), *sample).alarm;
    }
    alarms
}

fn counted(samples: &[u8], cutoff: u64) -> u64 {
    let (mut last, mut count, mut alarms) = (0, 0, 0);
    for sample in samples {
        count = if *sample == last { count + 1 } else { 1 };
        last = *sample;
        alarms += u64::from(black_box(count) >= cutoff);
    }
    alarms
}

fn start(entropy: f64) {
    let mut test = RepetitionTest::NEVER_STARTED;
    black_box(abutfern::repetition_start(&mut test, black_box(entropy)));
    black_box(test);
}
