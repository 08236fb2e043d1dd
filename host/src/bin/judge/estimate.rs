//! One estimate of the library beside the Rust's, by document 01's rules of closeness.

use crate::floats::same;
use crate::race::Outcome;
use crate::tally::Tally;
use crate::trip;
use abutfern::numbers::ROUND_LIMIT;
use abutfern::reference::prediction::PredictionEstimate;
use abutfern::steps::{Bisection, End, Library, Local, Rust, local};
use abutfern::{Answer, exported};

/// The parity bound of p_local and min-entropy.
const NEAR: f64 = 1e-6;

/// Bounds further apart than this leave a bisection that an interval check ended uncompared.
const APART: f64 = 1e-9;

/// The faults of an answer 0, and of its records, against the Rust's estimate over an alphabet of
/// size k, and against a race over the same samples, which says who predicted.
pub fn faults(
    ours: &Answer,
    rust: &PredictionEstimate,
    k: u64,
    race: &Outcome,
    tally: &mut Tally,
) -> Vec<String> {
    let mut faults = Vec::from_iter(trip::fault(ours));
    let counts = (ours.estimate.c, ours.estimate.n, ours.estimate.max_run_len);
    if (ours.number, ours.place, ours.k) != (0, 0, k) {
        faults.push(format!("number, place, k of {ours:?}, not 0, 0, {k}"));
        return faults;
    }
    if counts != (rust.c, rust.n, rust.max_run_len) {
        faults.push(format!("counts {counts:?} of {ours:?}, not {rust:?}"));
        return faults;
    }
    race_faults(ours, rust, race, &mut faults);
    if race.winner > 1 {
        tally.note("not won by the shortest window or level");
    }
    global_faults(ours, rust, &mut faults);
    local_faults(ours, rust, k, &mut faults, tally);
    faults
}

/// The Rust does not say who predicted. A race with its C, N and longest run is taken for its race.
fn race_faults(ours: &Answer, rust: &PredictionEstimate, race: &Outcome, faults: &mut Vec<String>) {
    if race.counts() != (rust.c, rust.n, rust.max_run_len) {
        faults.push(format!("the judge's own race, {race:?}, is not the Rust's"));
    }
    if (ours.winner, ours.score) != (race.winner, race.score) {
        let (winner, score) = (ours.winner, ours.score);
        faults.push(format!("winner {winner} with score {score}, not {race:?}"));
    }
}

fn global_faults(ours: &Answer, rust: &PredictionEstimate, faults: &mut Vec<String>) {
    let e = &ours.estimate;
    if !same(e.p_global, rust.p_global) {
        faults.push(format!("p_global {}, not {}", e.p_global, rust.p_global));
    }
    let prime = (e.p_global_prime, rust.p_global_prime);
    let good = if rust.c > 0 {
        same(prime.0, prime.1)
    } else if rust.n == 0 {
        prime.0 == 1.0
    } else {
        (0.0..=1.0).contains(&prime.0) && (prime.0 - prime.1).abs() <= 1e-9
    };
    if !good {
        faults.push(format!("p_global' {}, not {}", prime.0, prime.1));
    }
}

/// The largest of 1/k and p_global'.
fn largest(k: u64, p_global_prime: f64) -> f64 {
    (1.0 / k as f64).max(p_global_prime)
}

fn local_faults(
    ours: &Answer,
    rust: &PredictionEstimate,
    k: u64,
    faults: &mut Vec<String>,
    tally: &mut Tally,
) {
    let rusts = local::<Rust>(largest(k, rust.p_global_prime), rust.max_run_len, rust.n);
    if !same(rusts.p_local(), rust.p_local) {
        faults.push("the judge's own steps are not the Rust's".to_string());
    }
    let mine = own_steps(ours, k, faults);
    own_entropy(ours, k, faults);
    if let Some(why) = uncompared(&rusts, mine.as_ref(), rust.max_run_len) {
        tally.note(why);
        if !near(ours.estimate.p_local, rust.p_local)
            || !near(ours.estimate.min_entropy, rust.min_entropy)
        {
            tally.note("of those, p_local or min-entropy further than 1e-6 apart");
        }
        return;
    }
    compare_local(ours, rust, &rusts, faults, tally);
}

fn compare_local(
    ours: &Answer,
    rust: &PredictionEstimate,
    rusts: &Local,
    faults: &mut Vec<String>,
    tally: &mut Tally,
) {
    let e = &ours.estimate;
    let one_only = (e.p_local == -1.0) != (rust.p_local == -1.0);
    if one_only && near_the_target(rusts, rust) {
        tally.note(
            "p_local not compared: solved in one only, the test value within rounding of ln 0.99",
        );
    } else if !near(e.p_local, rust.p_local) {
        faults.push(format!("p_local {}, not {}", e.p_local, rust.p_local));
    }
    if !near(e.min_entropy, rust.min_entropy) {
        faults.push(format!(
            "min-entropy {}, not {}",
            e.min_entropy, rust.min_entropy
        ));
    }
}

fn near(a: f64, b: f64) -> bool {
    (a - b).abs() <= NEAR
}

/// Whether rounding decides if the test value is above ln 0.99: N + 1 times the error of a
/// logarithm, and for C = 0 what p_global' may differ.
fn near_the_target(rusts: &Local, rust: &PredictionEstimate) -> bool {
    let slack = if rust.c == 0 { 1e-8 } else { 0.0 };
    let bound = (rust.n as f64 + 16.0) * 32.0 * f64::EPSILON + slack;
    rusts.above.is_some_and(|above| above.abs() <= bound)
}

/// Why document 01 does not compare p_local and min-entropy here, if it does not.
fn uncompared(rusts: &Local, mine: Option<&Local>, max_run_len: u64) -> Option<&'static str> {
    if above_the_root(rusts.highest, max_run_len + 1) {
        return Some("p_local not compared: a p above r/(r+1) was evaluated");
    }
    let solved = [rusts.solved, mine.and_then(|mine| mine.solved)];
    let wide = |b: &Bisection| b.end == End::Interval && b.apart > APART;
    let any_wide = solved.iter().flatten().any(wide);
    any_wide.then_some("p_local not compared: an interval check ended the bisection early")
}

/// Whether p > r / (r + 1), exactly: p is its mantissa over a power of two.
fn above_the_root(p: f64, r: u64) -> bool {
    if p < 1.0 / 512.0 {
        return false;
    }
    let bits = p.to_bits();
    let mantissa = u128::from(bits & ((1 << 52) - 1) | (1 << 52));
    let down = 1075 - (bits >> 52);
    mantissa * u128::from(r + 1) > u128::from(r) << down
}

/// The same steps over the library's own logarithm and power: its p_local and rounds.
fn own_steps(ours: &Answer, k: u64, faults: &mut Vec<String>) -> Option<Local> {
    if !exported("ln") || !exported("power") {
        return None;
    }
    let e = &ours.estimate;
    let mine = local::<Library>(largest(k, e.p_global_prime), e.max_run_len, e.n);
    let rounds = mine.solved.map_or(0, |solved| solved.rounds);
    if !same(e.p_local, mine.p_local()) || ours.rounds != rounds || rounds > ROUND_LIMIT {
        faults.push(format!(
            "p_local {} in {} rounds, not {} in {rounds}, which its own steps give",
            e.p_local,
            ours.rounds,
            mine.p_local()
        ));
    }
    Some(mine)
}

/// The min-entropy is that of the largest of the three.
fn own_entropy(ours: &Answer, k: u64, faults: &mut Vec<String>) {
    if !exported("min_entropy") {
        return;
    }
    let e = &ours.estimate;
    let entropy = abutfern::min_entropy(largest(k, e.p_global_prime).max(e.p_local));
    if entropy.number != 0 || !same(entropy.value, e.min_entropy) {
        faults.push(format!(
            "min-entropy {}, not {}",
            e.min_entropy, entropy.value
        ));
    }
}
