//! The cases of the list, kind by kind.

use abutfern::numbers::PREDICTION_LIMIT;
use abutfern::random::Random;
use abutfern::reference;
use abutfern::reference::prediction::{PredictionEstimate, prediction_estimate};
use abutfern::shapes::{SHAPES, capture, draws};
use abutfern::steps::{Bisection, End, Rust, bisect, local};

/// A capture of the list: stored, or made by its rule.
#[derive(Clone)]
struct Capture {
    symbols: Vec<u8>,
    /// Shape number, values and seed.
    rule: Option<(u8, u32, u32)>,
}

/// One case before it is written.
#[derive(Default)]
struct Case {
    kind: u8,
    width: u8,
    checks: u8,
    words: Vec<u64>,
    expected: Vec<u8>,
}

/// The cases that a program replays.
pub fn answers() -> Vec<u8> {
    let mut random = Random::new(20_261_024);
    let mut file = Vec::new();
    captures(&mut file, &mut random);
    floats(&mut file, &mut random);
    estimates(&mut file, &mut random);
    windows(&mut file, &mut random);
    levels(&mut file, &mut random);
    assert!(file.len() < 1 << 19, "the list is meant to be small");
    file
}

/// The cases that need the general store.
pub fn general() -> Vec<u8> {
    let mut random = Random::new(67_690_501);
    let mut file = Vec::new();
    for i in 0..230 {
        let capture = if i < 200 {
            let values = random.one_of(&[3, 3, 4, 5, 17, 256]);
            some(3 + i % 40, values, &mut random)
        } else {
            let values = random.one_of(&[3, 4, 16, 256]);
            some(4096 + 400 * (i - 200), values, &mut random)
        };
        put_general(&mut file, &capture);
    }
    // Random bytes enough that levels 2 and up reach their caps.
    put_general(&mut file, &shaped(0, 150_000, 256, &mut random));
    file
}

fn put_general(file: &mut Vec<u8>, capture: &Capture) {
    let (_, size) = reference::value_sorted(&capture.symbols);
    if size > 2 {
        let rust = reference::multi_mmc::multimmc_literal(&capture.symbols).estimate;
        put(file, capture, estimate_case(15, 8, &rust, size as u64));
    }
}

fn put(file: &mut Vec<u8>, capture: &Capture, case: Case) {
    let (shape, values, seed) = capture.rule.unwrap_or((255, 0, 0));
    file.extend([case.kind, shape, case.width, case.checks]);
    let length = capture.symbols.len() as u32;
    let (expected, words) = (case.expected.len() as u32, case.words.len() as u32);
    for number in [values, length, seed, expected, words] {
        file.extend(number.to_le_bytes());
    }
    for word in case.words {
        file.extend(word.to_le_bytes());
    }
    if capture.rule.is_none() {
        file.extend(&capture.symbols);
    }
    file.extend(case.expected);
}

/// A case without a capture.
fn put_words(file: &mut Vec<u8>, kind: u8, checks: u8, words: Vec<u64>) {
    let none = Capture {
        symbols: Vec::new(),
        rule: None,
    };
    let case = Case {
        kind,
        checks,
        words,
        ..Case::default()
    };
    put(file, &none, case);
}

/// A capture by rule if it is long, stored if it is short.
fn some(length: usize, values: usize, random: &mut Random) -> Capture {
    let shape = random.index(SHAPES.len());
    shaped(shape, length, values, random)
}

fn shaped(shape: usize, length: usize, values: usize, random: &mut Random) -> Capture {
    let seed = 1 + random.below(2_147_483_646) as u32;
    let symbols = capture(SHAPES[shape], values, length, draws(seed));
    let rule = (length >= 64).then_some((shape as u8, values as u32, seed));
    Capture { symbols, rule }
}

/// A stored capture of short length whose values stand anywhere in a byte.
fn scattered(length: usize, random: &mut Random) -> Capture {
    let values = [random.byte(), random.byte(), random.byte(), 0, 255];
    let symbols = (0..length).map(|_| random.one_of(&values)).collect();
    Capture {
        symbols,
        rule: None,
    }
}

fn captures(file: &mut Vec<u8>, random: &mut Random) {
    let mut list = Vec::new();
    for length in 0..40 {
        list.push(scattered(length, random));
        list.push(some(length, random.one_of(&[1, 2, 3, 256]), random));
    }
    list.extend([300, 300, 5000].map(|length| some(length, 256, random)));
    for capture in &list {
        // 1 and 8, the ends, are drawn more often.
        let width = random.one_of(&[1, 1, 2, 3, 4, 5, 6, 7, 8, 8, 8]);
        let fits = width > 1 || capture.symbols.iter().all(|symbol| *symbol < 2);
        if fits && capture.symbols.len() < 1000 {
            let expected = reference::bitstring(&capture.symbols, width);
            put(file, capture, case_of(1, width, Vec::new(), expected));
        }
    }
    for (kind, translate) in [
        (2, reference::dense as fn(&[u8]) -> _),
        (3, reference::value_sorted),
    ] {
        for capture in &list {
            let (expected, size): (Vec<u8>, usize) = translate(&capture.symbols);
            put(file, capture, case_of(kind, 8, vec![size as u64], expected));
        }
    }
}

fn case_of(kind: u8, width: u8, words: Vec<u64>, expected: Vec<u8>) -> Case {
    Case {
        kind,
        width,
        words,
        expected,
        ..Case::default()
    }
}

/// A double of any kind.
fn any(random: &mut Random) -> f64 {
    match random.below(5) {
        0 => f64::from_bits(random.word()),
        1 => f64::from_bits(random.word() >> (12 + random.below(52))),
        2 => near(f64::from_bits(random.below(2047) << 52), random),
        3 => near(1.0, random),
        _ => random.unit(),
    }
}

fn near(x: f64, random: &mut Random) -> f64 {
    f64::from_bits((x.to_bits() + random.below(7)).saturating_sub(3))
}

const MARKS: [f64; 12] = [
    0.0,
    -0.0,
    1.0,
    -1.0,
    4.0,
    f64::MIN_POSITIVE,
    5e-324,
    f64::MAX,
    f64::MIN,
    f64::INFINITY,
    f64::NEG_INFINITY,
    f64::NAN,
];

fn floats(file: &mut Vec<u8>, random: &mut Random) {
    for i in 0..1000 {
        closeness(file, i, random);
    }
    let drawn: Vec<f64> = (0..700).map(|_| any(random)).collect();
    let all = || MARKS.iter().chain(&drawn).copied();
    for x in all() {
        put_words(file, 5, 0, vec![x.to_bits(), x.sqrt().to_bits()]);
    }
    for x in all() {
        put_words(file, 6, 0, vec![x.to_bits(), x.ln().to_bits()]);
    }
    powers(file);
    for i in 0..300 {
        let p = match i {
            0..=8 => 1.0 / f64::from(1u32 << i),
            _ => near((random.unit() * -8.0).exp2(), random),
        };
        if (1.0 / 256.0..=1.0).contains(&p) {
            put_words(file, 8, 0, vec![p.to_bits(), (-p.log2()).to_bits()]);
        }
    }
}

fn closeness(file: &mut Vec<u8>, i: usize, random: &mut Random) {
    let a = if i < 144 { MARKS[i / 12] } else { any(random) };
    let b = match random.below(4) {
        _ if i < 144 => MARKS[i % 12],
        0 => any(random),
        1 => -near(a, random),
        _ => near(a, random),
    };
    let limits = match random.below(3) {
        0 => (any(random), any(random), random.below(9)),
        _ => (f64::MIN_POSITIVE, f64::EPSILON, 4),
    };
    let (max_abs, max_rel, ulp) = limits;
    let yes = reference::prediction::rel_epsilon_equal(a, b, max_abs, max_rel, ulp);
    let [a, b, max_abs, max_rel] = [a, b, max_abs, max_rel].map(f64::to_bits);
    put_words(file, 4, 0, vec![a, b, max_abs, max_rel, ulp, yes.into()]);
}

/// Powers whose exact value is a double: no order of multiplications rounds them.
fn powers(file: &mut Vec<u8>) {
    for (odd, most) in [(1u64, 70), (3, 33), (5, 22), (7, 18), (9, 16), (11, 15)] {
        for scale in [1.0, 0.5, -0.25, 8.0] {
            for n in (0..=most).step_by(3) {
                let x = odd as f64 * scale;
                let power = (odd as f64).powi(n) * scale.powi(n);
                put_words(file, 7, 0, vec![x.to_bits(), n as u64, power.to_bits()]);
            }
        }
    }
}

/// Whether a bisection ended with its bounds far apart.
fn wide(bisection: Bisection) -> bool {
    bisection.end != End::Equal && bisection.apart > 1e-9
}

/// Whether document 01 compares p_local and min-entropy of this estimate.
fn compared(rust: &PredictionEstimate, k: u64) -> bool {
    let largest = (1.0 / k as f64).max(rust.p_global_prime);
    let steps = local::<Rust>(largest, rust.max_run_len, rust.n);
    let r = rust.max_run_len as f64 + 1.0;
    let decided = steps.above.is_none_or(|above| above.abs() > 1e-4);
    decided && steps.highest < r / (r + 1.0) && !steps.solved.is_some_and(wide)
}

/// The nine words of an answer, and its checks.
fn estimate_case(kind: u8, width: u8, rust: &PredictionEstimate, k: u64) -> Case {
    let ran = rust.min_entropy != -1.0;
    let (number, k) = if ran { (0, k) } else { (6, 0) };
    let mut words = vec![number, rust.c, rust.n, rust.max_run_len, k];
    let floats = [
        rust.p_global,
        rust.p_global_prime,
        rust.p_local,
        rust.min_entropy,
    ];
    words.extend(floats.map(f64::to_bits));
    let same_prime = u8::from(rust.c > 0 || rust.n == 0);
    let near_local = u8::from(!ran || compared(rust, k));
    Case {
        kind,
        width,
        checks: same_prime + 2 * near_local,
        words,
        ..Case::default()
    }
}

fn estimates(file: &mut Vec<u8>, random: &mut Random) {
    for i in 0..1200u64 {
        let n = match i {
            0..=399 => i % 41,
            400..=410 => PREDICTION_LIMIT >> (i - 400),
            _ => random.of_any_size(PREDICTION_LIMIT),
        };
        let c = match random.below(6) {
            0 => 0,
            1 => n,
            2 => n / 2,
            _ => random.below(n + 1),
        };
        let run = if c == 0 { 0 } else { random.of_any_size(c) };
        let k = random.one_of(&[1, 2, 2, 3, 16, 255, 256]);
        let rust = prediction_estimate(c, n, run, k);
        let case = estimate_case(9, 0, &rust, k);
        let mut words = vec![c, n, run, k];
        words.extend(case.words);
        put_words(file, 9, case.checks, words);
    }
    for _ in 0..400 {
        let n = random.of_any_size(PREDICTION_LIMIT);
        let run = random.below(n.min(100) + 1);
        let ldomain = 1.0 / 256.0 + random.unit() * 0.3;
        let solved = bisect::<Rust>(run, n, ldomain);
        let r = run as f64 + 1.0;
        if !wide(solved) && solved.highest < r / (r + 1.0) {
            let p_local = reference::prediction::calc_p_local(run, n, ldomain);
            put_words(
                file,
                10,
                2,
                vec![run, n, ldomain.to_bits(), p_local.to_bits()],
            );
        }
    }
}

fn windows(file: &mut Vec<u8>, random: &mut Random) {
    for i in 0..48 {
        let width = 1 + (i % 8) as u8;
        let values = if width == 1 { 2 } else { 1 << width };
        let length = 4090 / usize::from(width) + i * i / usize::from(width);
        let capture = some(length, values, random);
        let rust = reference::multi_mcw::multi_mcw(&capture.symbols, width).estimate;
        put(file, &capture, estimate_case(11, width, &rust, 2));
    }
    for i in 0..48 {
        let values = random.one_of(&[1, 2, 3, 4, 16, 17, 256]);
        let capture = some(4090 + i * i * 4, values, random);
        let size = reference::dense(&capture.symbols).1 as u64;
        let rust = reference::multi_mcw::multi_mcw_literal(&capture.symbols).estimate;
        put(file, &capture, estimate_case(12, 8, &rust, size));
    }
}

fn levels(file: &mut Vec<u8>, random: &mut Random) {
    for i in 0..160 {
        let width = if i < 80 { 1 } else { 1 + (i % 8) as u8 };
        let values = if width == 1 { 2 } else { 1 << width };
        let length = if i < 120 { i % 40 } else { 60 * i };
        let capture = some(length, values, random);
        let rust = reference::multi_mmc::multi_mmc(&capture.symbols, width).estimate;
        put(file, &capture, estimate_case(13, width, &rust, 2));
    }
    for i in 0..100 {
        let length = if i < 70 { i % 35 } else { 100 * i };
        let mut capture = some(length, random.one_of(&[1, 2, 2]), random);
        if capture.rule.is_none() {
            let labels = [random.byte(), random.byte()];
            for symbol in &mut capture.symbols {
                *symbol = labels[usize::from(*symbol)];
            }
        }
        let rust = reference::multi_mmc::multimmc_literal(&capture.symbols).estimate;
        put(file, &capture, estimate_case(14, 8, &rust, 2));
    }
}
