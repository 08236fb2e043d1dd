//! Replays a fixed list of the Rust's answers; the sample command says how such a file is laid
//! out. The Rust itself is not needed.

use crate::floats::{same, units_between};
use crate::race::Outcome;
use crate::tally::Tally;
use crate::{tracks, trip};
use abutfern::numbers::{COUNTERS, SPACE};
use abutfern::shapes::{SHAPES, capture, draws};
use abutfern::{Alphabet, Answer, exported};

/// The functions of the kinds 1 to 15.
const KINDS: [&str; 15] = [
    "bit",
    "dense_alphabet",
    "value_sorted_alphabet",
    "rel_epsilon_equal",
    "sqrt",
    "ln",
    "power",
    "min_entropy",
    "prediction_estimate",
    "calc_p_local",
    "multi_mcw",
    "multi_mcw_literal",
    "multi_mmc",
    "multi_mmc_literal",
    "multi_mmc_literal",
];

/// One case of a file.
struct Case {
    kind: usize,
    width: u8,
    checks: u8,
    words: Vec<u64>,
    symbols: Vec<u8>,
    expected: Vec<u8>,
}

/// Replays a file; returns how many differ, or what is wrong with the file.
pub fn judge(path: &str) -> Result<u64, String> {
    let file = std::fs::read(path).map_err(|error| format!("{path}: {error}"))?;
    let mut cases = Vec::new();
    let mut rest = &file[..];
    while !rest.is_empty() {
        let at = file.len() - rest.len();
        cases.push(case(&mut rest).ok_or(format!("{path}: no case at byte {at}"))?);
    }
    println!("== replay {path}");
    let mut space = Vec::new();
    let mut differ = 0;
    for (i, name) in KINDS.iter().enumerate() {
        let kind = cases.iter().filter(|case| case.kind == i + 1);
        let kind: Vec<&Case> = kind.collect();
        if kind.is_empty() {
            continue;
        }
        if !exported(name) {
            println!("{name}: left out, the archive has none of it");
            continue;
        }
        let mut tally = Tally::new(&format!("{name}: replayed"));
        for (number, case) in kind.into_iter().enumerate() {
            let good = replayed(case, &mut space);
            tally.check(good, || format!("case {number} of kind {}", i + 1));
        }
        differ += tally.close();
    }
    Ok(differ)
}

fn take<'a>(rest: &mut &'a [u8], length: usize) -> Option<&'a [u8]> {
    let (first, more) = rest.split_at_checked(length)?;
    *rest = more;
    Some(first)
}

fn number(rest: &mut &[u8]) -> Option<usize> {
    let bytes = take(rest, 4)?.try_into().ok()?;
    Some(u32::from_le_bytes(bytes) as usize)
}

/// The next case of a file.
fn case(rest: &mut &[u8]) -> Option<Case> {
    let [kind, shape, width, checks] = take(rest, 4)?.try_into().ok()?;
    let values = number(rest)?;
    let length = number(rest)?;
    let seed = number(rest)?;
    let expected = number(rest)?;
    let words = number(rest)?;
    let words = take(rest, words * 8)?.chunks(8);
    let words = words.filter_map(|bytes| bytes.try_into().ok().map(u64::from_le_bytes));
    let words = words.collect();
    let symbols = match shape {
        255 => take(rest, length)?.to_vec(),
        _ => {
            let shape = SHAPES.get(usize::from(shape))?;
            capture(*shape, values, length, draws(seed as u32))
        }
    };
    Some(Case {
        kind: kind.into(),
        width,
        checks,
        words,
        symbols,
        expected: take(rest, expected)?.to_vec(),
    })
}

/// Whether the library answers a case as the Rust did.
fn replayed(case: &Case, space: &mut Vec<u32>) -> bool {
    match case.kind {
        1 => bits(case),
        2 => translated(case, abutfern::dense_alphabet),
        3 => translated(case, abutfern::value_sorted_alphabet),
        4..=8 => on_floats(case),
        10 => {
            let [run, n, ldomain, p_local] = [0, 1, 2, 3].map(|i| case.words[i]);
            let solved = abutfern::calc_p_local(run, n, f64::from_bits(ldomain));
            solved.number == 0 && near(solved.value, f64::from_bits(p_local), 1e-6)
        }
        _ => estimated(case, space),
    }
}

fn translated(case: &Case, translate: fn(&[u8], &mut [u8]) -> Alphabet) -> bool {
    let mut out = vec![170; case.symbols.len()];
    let alphabet = translate(&case.symbols, &mut out);
    (alphabet.number, alphabet.size) == (0, case.words[0]) && out == case.expected
}

/// The functions on floats, kinds 4 to 8.
fn on_floats(case: &Case) -> bool {
    let float = |i: usize| f64::from_bits(case.words[i]);
    match case.kind {
        4 => {
            let [a, b, max_abs, max_rel] = [0, 1, 2, 3].map(float);
            let yes = abutfern::rel_epsilon_equal(a, b, max_abs, max_rel, case.words[4]);
            u64::from(yes) == case.words[5]
        }
        5 => same(abutfern::sqrt(float(0)), float(1)),
        6 => near_logarithm(abutfern::ln(float(0)), float(1)),
        7 => same(abutfern::power(float(0), case.words[1]), float(2)),
        _ => {
            let entropy = abutfern::min_entropy(float(0));
            entropy.number == 0 && near(entropy.value, float(1), 1e-6)
        }
    }
}

/// The estimate and the estimators, kinds 9 and 11 to 15.
fn estimated(case: &Case, space: &mut Vec<u32>) -> bool {
    let (symbols, width) = (&case.symbols, case.width);
    let mut out = vec![170; symbols.len()];
    let needed = if case.kind == 15 { SPACE } else { COUNTERS };
    if space.len() < needed {
        space.resize(needed, 170);
    }
    let (ours, words) = match case.kind {
        9 => {
            let [c, n, run, k] = [0, 1, 2, 3].map(|i| case.words[i]);
            let ours = abutfern::prediction_estimate(c, n, run, k);
            (ours, &case.words[4..])
        }
        11 => (abutfern::multi_mcw(symbols, width), &case.words[..]),
        12 => {
            let ours = abutfern::multi_mcw_literal(symbols, &mut out);
            (ours, &case.words[..])
        }
        13 => {
            let ours = abutfern::multi_mmc(symbols, width, space);
            (ours, &case.words[..])
        }
        _ => {
            let ours = abutfern::multi_mmc_literal(symbols, &mut out, space);
            (ours, &case.words[..])
        }
    };
    answered(&ours, words, case.checks) && predicted(&ours, case) && trip::fault(&ours).is_none()
}

/// Whether an answer names who predicted, which the Rust did not say: a race over the same samples
/// does, and there is nobody in counts alone and in what did not run.
fn predicted(ours: &Answer, case: &Case) -> bool {
    let (symbols, width) = (&case.symbols, case.width);
    let race = match case.kind {
        11 => tracks::mcw_bits(symbols, width),
        12 => tracks::mcw_literal(symbols),
        13 => tracks::mmc_bits(symbols, width),
        14 | 15 => tracks::mmc_literal(symbols),
        _ => return (ours.winner, ours.score) == (0, 0),
    };
    let nobody = Outcome::of_counts(0, 0, 0);
    Outcome::of(ours) == if ours.number == 0 { race } else { nobody }
}

fn bits(case: &Case) -> bool {
    let read = |i: usize| abutfern::bit(&case.symbols, case.width, i as u64);
    let same = |(i, bit): (usize, &u8)| {
        let read = read(i);
        (read.number, read.place, read.bit) == (0, 0, u64::from(*bit))
    };
    case.expected.iter().enumerate().all(same) && read(case.expected.len()).number == 2
}

fn near(a: f64, b: f64, distance: f64) -> bool {
    (a - b).abs() <= distance
}

fn near_logarithm(ours: f64, rust: f64) -> bool {
    if rust.is_finite() {
        ours.is_finite() && units_between(ours, rust) <= 4
    } else {
        same(ours, rust)
    }
}

/// Whether an answer is the nine words, as far as the checks ask.
fn answered(ours: &Answer, words: &[u64], checks: u8) -> bool {
    let e = &ours.estimate;
    let counts = [ours.number, e.c, e.n, e.max_run_len, ours.k];
    let [p_global, prime, p_local, entropy] = [5, 6, 7, 8].map(|i| f64::from_bits(words[i]));
    let good_prime = if checks & 1 == 1 || ours.number != 0 {
        same(e.p_global_prime, prime)
    } else {
        near(e.p_global_prime, prime, 1e-9)
    };
    let good_local =
        checks & 2 == 0 || (near(e.p_local, p_local, 1e-6) && near(e.min_entropy, entropy, 1e-6));
    counts == words[..5] && same(e.p_global, p_global) && good_prime && good_local
}
