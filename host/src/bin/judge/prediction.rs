//! The shared estimate and its two steps.

use crate::floats::{any, near, same};
use crate::mcw::refusal_faults;
use crate::race::Outcome;
use crate::tally::{Clock, Tally, spread};
use crate::{estimate, floats, plain};
use abutfern::numbers::PREDICTION_LIMIT;
use abutfern::random::Random;
use abutfern::steps::{Library, Rust, bisect, function};
use abutfern::{exported, reference};

/// Alphabet sizes that matter.
const SIZES: [u64; 7] = [1, 2, 3, 4, 16, 255, 256];

/// Judges what of the family exists; returns how many differ.
pub fn judge(clock: Clock, random: &mut Random) -> u64 {
    let mut differ = 0;
    if exported("prediction_estimate") {
        differ += impossible(random) + edges();
        differ += small(clock.part(3)) + random_counts(clock.part(3), random);
    }
    if exported("prediction_estimate_function") {
        differ += functions(clock.part(3), random);
    }
    if exported("calc_p_local") {
        differ += solutions(clock.part(1), random);
    }
    differ
}

/// Compares one estimate, or its refusal.
fn compare(c: u64, n: u64, max_run_len: u64, k: u64, tally: &mut Tally) {
    let ours = abutfern::prediction_estimate(c, n, max_run_len, k);
    let faults = if plain::impossible(c, n, max_run_len, k) {
        refusal_faults(&ours, (4, 0))
    } else {
        let rust = reference::prediction::prediction_estimate(c, n, max_run_len, k);
        let counted = Outcome::of_counts(c, n, max_run_len);
        estimate::faults(&ours, &rust, k, &counted, tally)
    };
    tally.judge(faults, || format!("C {c}, N {n}, run {max_run_len}, k {k}"));
}

/// Counts that cannot be, beside those that can.
fn impossible(random: &mut Random) -> u64 {
    let mut tally = Tally::new("prediction_estimate: counts that cannot be");
    let limit = PREDICTION_LIMIT;
    for n in [0, 1, 2, 5, limit - 1, limit, limit + 1, u64::MAX] {
        for c in [0, 1, 2, 5, 6, limit, limit + 1, u64::MAX] {
            for run in [0, 1, 2, 5, 6, limit + 1, u64::MAX] {
                for k in [0, 1, 2, 256, 257, u64::MAX] {
                    if plain::impossible(c, n, run, k) {
                        compare(c, n, run, k, &mut tally);
                    }
                }
            }
        }
    }
    for _ in 0..100_000 {
        let [c, n, run, k] = [0; 4].map(|_: u64| random.word() >> random.below(64));
        if plain::impossible(c, n, run, k) {
            compare(c, n, run, k, &mut tally);
        }
    }
    tally.close()
}

/// Every possible C, N up to 40 and run, and these alphabets.
fn small(clock: Clock) -> u64 {
    let mut tally = Tally::new("prediction_estimate: every C, N to 40 and run");
    let mut cases = Vec::new();
    for n in 0..=40 {
        for c in 0..=n {
            for run in c.min(1)..=c {
                cases.extend(SIZES.map(|k| (c, n, run, k)));
            }
        }
    }
    for i in spread(cases.len() as u64) {
        let (c, n, run, k) = cases[i as usize];
        compare(c, n, run, k, &mut tally);
        if clock.over() {
            break;
        }
    }
    let all = cases.len();
    tally.remark(format!("of {all} in all"));
    tally.close()
}

/// No prediction right, all right, and the shortest and longest runs, at many N to the limit.
fn edges() -> u64 {
    let mut tally = Tally::new("prediction_estimate: C and run at their ends");
    let mut lengths: Vec<u64> = (0..=27).map(|i| 1 << i).collect();
    lengths.extend((0..=26).map(|i| (1 << i) + 1));
    lengths.extend([3, 7, 4033, 4034, 999_998, 999_937, PREDICTION_LIMIT - 1]);
    for n in lengths {
        for c in [0, 1, n / 256, n / 100, n / 3, n / 2, n.saturating_sub(1), n] {
            let runs = [0, 1, 2, 20, c / 2, c.saturating_sub(1), c];
            for run in runs.into_iter().filter(|run| *run <= c.min(n)) {
                for k in SIZES {
                    if !plain::impossible(c, n, run, k) {
                        compare(c, n, run, k, &mut tally);
                    }
                }
            }
        }
    }
    tally.close()
}

fn random_counts(clock: Clock, random: &mut Random) -> u64 {
    let mut tally = Tally::new("prediction_estimate: random counts");
    for () in clock.turns() {
        for _ in 0..20 {
            let (c, n, run) = counts(random);
            let other = 1 + random.below(256);
            let k = random.one_of(&[2, 2, 256, other]);
            compare(c, n, run, k, &mut tally);
        }
    }
    tally.close()
}

/// Counts that can be, most of them as an estimator would find them.
pub fn counts(random: &mut Random) -> (u64, u64, u64) {
    let n = random.of_any_size(PREDICTION_LIMIT);
    let p = match random.below(3) {
        0 => random.unit(),
        1 => 0.5 + (random.unit() - 0.5) / 64.0,
        _ => random.unit() / 256.0,
    };
    let c = ((n as f64 * p) as u64).min(n);
    if c == 0 {
        return (0, n, 0);
    }
    let usual = (n as f64).ln() / -p.clamp(1e-9, 0.999_999_9).ln();
    let run = match random.below(4) {
        0 => 1 + random.below(c),
        1 => 1 + random.below(c.min(60)),
        _ => (usual * (0.5 + random.unit())) as u64,
    };
    (c, n, run.clamp(1, c))
}

/// A p and counts for the two steps, inside and outside their range.
fn step_case(random: &mut Random) -> (f64, u64, u64) {
    let (_, n, run) = counts(random);
    let p = match random.below(8) {
        0 => any(random),
        1 => near(random.one_of(&[1.0 / 256.0, 1.0, 0.5]), random),
        2 => 1.0 - random.unit() / (1u64 << random.below(53)) as f64,
        _ => 1.0 / 256.0 + random.unit() * 255.0 / 256.0,
    };
    match random.below(16) {
        0 => (p, random.word() >> random.below(64), n),
        1 => (p, run, random.word() >> random.below(64)),
        _ => (p, run, n),
    }
}

fn functions(clock: Clock, random: &mut Random) -> u64 {
    let mut tally = Tally::new("prediction_estimate_function: same bits as its own steps");
    for () in clock.turns() {
        let (p, run, n) = step_case(random);
        let ours = abutfern::prediction_estimate_function(p, run, n);
        let (number, value) = match plain::step(p, run, n) {
            Some(number) => (number, -1.0),
            None => (0, function::<Library>(p, run + 1, n)),
        };
        tally.check(ours.number == number && same(ours.value, value), || {
            let bits = p.to_bits();
            format!("p {bits:#x}, run {run}, N {n}: {ours:?}, not {number}, {value}")
        });
    }
    tally.close()
}

fn solutions(clock: Clock, random: &mut Random) -> u64 {
    let mut tally = Tally::new("calc_p_local: same bits and rounds as its own steps");
    let mut near_rust = 0u64;
    for () in clock.turns() {
        let (p, run, n) = step_case(random);
        let ours = abutfern::calc_p_local(run, n, p);
        let given = (ours.number, ours.rounds);
        let good = match plain::step(p, run, n) {
            Some(number) => given == (number, 0) && ours.value == -1.0,
            None => {
                let own = bisect::<Library>(run, n, p);
                let rust = bisect::<Rust>(run, n, p);
                near_rust += u64::from((ours.value - rust.p).abs() <= 1e-6);
                let inside = (p..=1.0).contains(&ours.value);
                given == (0, own.rounds) && floats::same(ours.value, own.p) && inside
            }
        };
        tally.check(good, || {
            format!("ldomain {:#x}, run {run}, N {n}: {ours:?}", p.to_bits())
        });
    }
    tally.remark(format!("{near_rust} of them within 1e-6 of the Rust's"));
    tally.close()
}
