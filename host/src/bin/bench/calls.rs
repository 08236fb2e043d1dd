//! The time of one call: the functions on floats, and the shared estimate on its worst input.

use crate::clock;
use abutfern::exported;
use abutfern::random::Random;
#[cfg(has_reference)]
use abutfern::reference::prediction;
use std::hint::black_box;

const CALLS: usize = 4096;

/// C, N, the longest run and k.
type Counts = [u64; 4];

/// Prints what exists.
pub fn print() {
    let mut random = Random::new(1);
    println!("\none call                                         ours         Rust   ratio");
    let positive: Vec<f64> = (0..CALLS)
        .map(|_| f64::from_bits(random.below(0x7ff0_0000_0000_0000)))
        .collect();
    let subnormal: Vec<f64> = positive
        .iter()
        .map(|x| f64::from_bits(x.to_bits() >> 12))
        .collect();
    let near_one: Vec<f64> = (0..CALLS).map(|_| 0.5 + random.unit()).collect();
    let unit: Vec<f64> = (0..CALLS)
        .map(|_| 1.0 / 256.0 + random.unit() * 255.0 / 256.0)
        .collect();
    one("sqrt", "", &positive, abutfern::sqrt, f64::sqrt);
    one("sqrt", " subnormal", &subnormal, abutfern::sqrt, f64::sqrt);
    one("ln", "", &positive, abutfern::ln, f64::ln);
    one("ln", " near 1", &near_one, abutfern::ln, f64::ln);
    one("ln", " subnormal", &subnormal, abutfern::ln, f64::ln);
    for n in [3, 1_000, 134_217_728] {
        let label = format!(" to the {n}");
        let ours = move |x: f64| abutfern::power(x, n);
        one("power", &label, &near_one, ours, move |x: f64| {
            x.powf(black_box(n as f64))
        });
    }
    let entropy = |p: f64| abutfern::min_entropy(p).value;
    one("min_entropy", "", &unit, entropy, |p: f64| -p.log2());
    closeness(&near_one);
    one("empty", " loop", &positive, |x| x, |x| x);
    estimate();
}

/// Prints the time of one function of a float.
fn one(
    name: &str,
    label: &str,
    inputs: &[f64],
    ours: impl Fn(f64) -> f64,
    rust: impl Fn(f64) -> f64,
) {
    if exported(name) || name == "empty" {
        line(&format!("{name}{label}"), each(inputs, ours, rust));
    }
}

/// Seconds of one call of each, on the average of the inputs.
fn each(
    inputs: &[f64],
    ours: impl Fn(f64) -> f64,
    rust: impl Fn(f64) -> f64,
) -> (f64, Option<f64>) {
    let ours = || over(inputs, &ours);
    let (ours, rust) = clock::beside(ours, Some(|| over(inputs, &rust)));
    let one = |all: f64| all / inputs.len() as f64;
    (one(ours), rust.map(one))
}

fn over(inputs: &[f64], call: &impl Fn(f64) -> f64) {
    for x in inputs {
        black_box(call(black_box(*x)));
    }
}

fn line(title: &str, (ours, rust): (f64, Option<f64>)) {
    print!("{title:<40} {:>9.1} ns", ours * 1e9);
    match rust {
        Some(rust) => println!(" {:>9.1} ns {:>7.3}", rust * 1e9, ours / rust),
        None => println!("            -       -"),
    }
}

#[cfg(has_reference)]
fn closeness(inputs: &[f64]) {
    if !exported("rel_epsilon_equal") {
        return;
    }
    let (tiny, epsilon) = (f64::MIN_POSITIVE, f64::EPSILON);
    let yes = |close: bool| f64::from(u8::from(close));
    let ours = |x: f64| yes(abutfern::rel_epsilon_equal(x, 0.75, tiny, epsilon, 4));
    let rust = |x: f64| yes(prediction::rel_epsilon_equal(x, 0.75, tiny, epsilon, 4));
    line("rel_epsilon_equal", each(inputs, ours, rust));
}

#[cfg(not(has_reference))]
fn closeness(_: &[f64]) {}

/// Prints the estimate's time on its slowest input and where it stands worst beside the Rust's.
fn estimate() {
    if !exported("prediction_estimate") {
        return;
    }
    let all = inputs().into_iter();
    let times: Vec<Timed> = all.map(|input| timed(input, 15)).collect();
    let of = |whether: bool, timed: &Timed| if whether { timed.ratio() } else { 0.0 };
    let rows: [(&str, &dyn Fn(&Timed) -> f64); 5] = [
        ("our slowest input", &|timed| timed.ours),
        ("the Rust's slowest input", &|timed| {
            timed.rust.unwrap_or(0.0)
        }),
        ("worst ratio, solved", &|timed| of(timed.solved, timed)),
        ("worst ratio, k over 1", &|timed| {
            of(timed.input[3] > 1, timed)
        }),
        ("worst ratio", &Timed::ratio),
    ];
    for (title, key) in rows {
        let Some(timed) = worst(&times, key) else {
            return;
        };
        let title = format!("prediction_estimate, {title}");
        line(&title, (timed.ours, timed.rust));
        println!("    at C, N, run, k = {:?}", timed.input);
    }
}

/// The worst by a key: of the hundred that seemed worst, timed once more and longer.
fn worst(times: &[Timed], key: &dyn Fn(&Timed) -> f64) -> Option<Timed> {
    let falling = |a: &Timed, b: &Timed| key(b).total_cmp(&key(a));
    let mut order: Vec<&Timed> = times.iter().collect();
    order.sort_by(|a, b| falling(a, b));
    let again = order.iter().take(100).map(|at| timed(at.input, 200));
    again.min_by(falling)
}

/// The seconds of one estimate, and whether its p_local was solved.
struct Timed {
    input: Counts,
    solved: bool,
    ours: f64,
    rust: Option<f64>,
}

impl Timed {
    fn ratio(&self) -> f64 {
        self.ours / self.rust.unwrap_or(f64::INFINITY)
    }
}

/// Seconds of a call in the quickest of some rows of calls, ours and the Rust's by turns.
fn timed(input: Counts, rows: usize) -> Timed {
    let call = |[c, n, run, k]: Counts| abutfern::prediction_estimate(c, n, run, k);
    let (mut ours, mut rust) = (f64::INFINITY, None);
    for _ in 0..rows {
        ours = ours.min(row(input, call));
        rust = rust_estimate(input, rust);
    }
    Timed {
        input,
        solved: call(input).rounds > 0,
        ours,
        rust,
    }
}

fn row<Answer>(input: Counts, call: impl Fn(Counts) -> Answer) -> f64 {
    const ROW: u32 = 8;
    let start = std::time::Instant::now();
    for _ in 0..ROW {
        let answer = call(black_box(input));
        black_box(&answer);
    }
    start.elapsed().as_secs_f64() / f64::from(ROW)
}

#[cfg(has_reference)]
fn rust_estimate(input: Counts, best: Option<f64>) -> Option<f64> {
    let call = |[c, n, run, k]: Counts| prediction::prediction_estimate(c, n, run, k);
    Some(best.unwrap_or(f64::INFINITY).min(row(input, call)))
}

#[cfg(not(has_reference))]
fn rust_estimate(_: Counts, _: Option<f64>) -> Option<f64> {
    None
}

fn inputs() -> Vec<Counts> {
    let mut inputs = small();
    inputs.extend(at_limits());
    inputs.extend(spread());
    inputs
}

/// Every count to N = 40.
fn small() -> Vec<Counts> {
    let mut inputs = Vec::new();
    for n in 0..=40 {
        for c in 0..=n {
            for run in c.min(1)..=c {
                inputs.extend([1, 2, 256].map(|k| [c, n, run, k]));
            }
        }
    }
    inputs
}

/// The ends of the counts and of the runs at the largest N of the tracks and of the estimate.
fn at_limits() -> Vec<Counts> {
    let mut inputs = Vec::new();
    for n in [16_777_215, 16_777_216, 134_217_728] {
        for c in [0, 1, n / 2, n - 1, n] {
            for run in [1, c / 2, c] {
                inputs.extend([1, 2, 256].map(|k| [c, n, run.clamp(c.min(1), c), k]));
            }
        }
    }
    inputs
}

/// Counts of every size, the runs short, usual and long.
fn spread() -> Vec<Counts> {
    let mut inputs = Vec::new();
    for n in [40, 4_033, 100_000, 999_998, 8_000_000, 134_217_728] {
        for part in [0, 1, 16, 64, 128, 192, 240, 255] {
            let c = n * part / 256;
            let p = (part as f64 / 256.0).clamp(0.004, 0.996);
            let usual = ((n as f64).ln() / -p.ln()) as u64;
            for run in [1, usual / 2, usual, usual * 2, c / 16, c] {
                for k in [2, 256] {
                    inputs.push([c, n, run.clamp(c.min(1), c), k]);
                }
            }
        }
    }
    inputs
}
