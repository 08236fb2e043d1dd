//! Square root, logarithms, powers, the entropy's logarithm and the closeness test.

use crate::exact::bounds_entropy;
use crate::floats::{any, near, positive, same, units_between};
use crate::tally::{Clock, Tally};
use abutfern::random::Random;
use abutfern::{exported, reference};

/// How many cases are compared between two looks at the clock.
const BATCH: u32 = 1000;

/// Units of the min-entropy in one bit.
const UNITS: f64 = 16_777_216.0;

/// Judges what of the family exists; returns how many differ.
pub fn judge(clock: Clock, random: &mut Random) -> u64 {
    let mut differ = 0;
    if exported("sqrt") {
        differ += sqrt(clock.part(6), random);
    }
    if exported("rel_epsilon_equal") {
        differ += closeness(clock.part(5), random);
    }
    if exported("ln") {
        differ += ln(clock.part(4), random) + ln_ends();
    }
    if exported("power") {
        differ += power(clock.part(3), random);
    }
    if exported("min_entropy") {
        differ += entropy_exactly(random) + entropy_ends();
        differ += entropy(clock.part(1), random);
    }
    differ
}

fn batches(clock: Clock, mut case: impl FnMut()) {
    for () in clock.turns() {
        for _ in 0..BATCH {
            case();
        }
    }
}

fn sqrt(clock: Clock, random: &mut Random) -> u64 {
    let mut tally = Tally::new("sqrt: every kind of double");
    batches(clock, || {
        let x = root_case(random);
        let (ours, rust) = (abutfern::sqrt(x), x.sqrt());
        tally.check(same(ours, rust), || {
            format!("sqrt of {:#x} ({x:e}): {ours:e}, not {rust:e}", x.to_bits())
        });
    });
    tally.close()
}

/// Any double, or one beside a square.
fn root_case(random: &mut Random) -> f64 {
    if random.chance(3, 4) {
        return any(random);
    }
    let root = f64::from_bits(positive(random).to_bits());
    near(root * root, random)
}

fn closeness(clock: Clock, random: &mut Random) -> u64 {
    let mut tally = Tally::new("rel_epsilon_equal: near and far pairs");
    let mut yes = 0u64;
    batches(clock, || {
        let (a, b, max_abs, max_rel, ulp) = pair(random);
        let ours = abutfern::rel_epsilon_equal(a, b, max_abs, max_rel, ulp);
        let rust = reference::prediction::rel_epsilon_equal(a, b, max_abs, max_rel, ulp);
        yes += u64::from(rust);
        tally.check(ours == rust, || {
            let bits = [a, b, max_abs, max_rel].map(f64::to_bits);
            format!("{bits:x?}, {ulp}: {ours}, not {rust}")
        });
    });
    tally.remark(format!("{yes} of them close"));
    tally.close()
}

/// Two doubles, often near each other, and the three limits.
fn pair(random: &mut Random) -> (f64, f64, f64, f64, u64) {
    let a = any(random);
    let b = match random.below(8) {
        0 => any(random),
        1 => -near(a, random),
        2 => a * (1.0 + random.unit() / (1u64 << random.below(60)) as f64),
        3 => f64::from_bits(a.to_bits().wrapping_add(random.below(20))),
        4 => a + f64::MIN_POSITIVE * random.unit(),
        _ => near(a, random),
    };
    let limit = |random: &mut Random, usual: f64| match random.below(4) {
        0 => any(random),
        1 => near(usual, random),
        _ => usual,
    };
    let max_abs = limit(random, f64::MIN_POSITIVE);
    let max_rel = limit(random, f64::EPSILON);
    let ulp = match random.below(4) {
        0 => random.word(),
        1 => random.below(24),
        _ => 4,
    };
    (a, b, max_abs, max_rel, ulp)
}

fn ln(clock: Clock, random: &mut Random) -> u64 {
    let mut tally = Tally::new("ln: positive doubles, at most 4 units apart");
    let (mut most, mut at) = (0, 1.0);
    batches(clock, || {
        let x = positive(random);
        let (ours, rust) = (abutfern::ln(x), x.ln());
        let apart = units_between(ours, rust);
        let same_zero = (ours == 0.0) == (rust == 0.0);
        if apart > most {
            (most, at) = (apart, x);
        }
        tally.check(ours.is_finite() && apart <= 4 && same_zero, || {
            format!("ln of {:#x} ({x:e}): {ours:e}, not {rust:e}", x.to_bits())
        });
    });
    tally.remark(format!("at most {most} units apart, at {at:e}"));
    tally.close()
}

fn ln_ends() -> u64 {
    let mut tally = Tally::new("ln: 0, below 0, infinity, not a number, 1");
    let (zero, infinity) = (f64::NEG_INFINITY, f64::INFINITY);
    let cases = [
        (0.0, zero),
        (-0.0, zero),
        (infinity, infinity),
        (1.0, 0.0),
        (f64::NAN, f64::NAN),
        (-5e-324, f64::NAN),
        (-1.0, f64::NAN),
        (f64::MIN, f64::NAN),
        (zero, f64::NAN),
    ];
    for (x, expected) in cases {
        let ours = abutfern::ln(x);
        tally.check(same(ours, expected), || {
            format!("ln of {x:e}: {ours:e}, not {expected:e}")
        });
    }
    tally.close()
}

/// y times the power by halving, as document 01 says.
fn halved_power(y: f64, x: f64, n: u64) -> f64 {
    match n {
        0 => y,
        _ if n % 2 == 1 => halved_power(y * x, x * x, n / 2),
        _ => halved_power(y, x * x, n / 2),
    }
}

fn power(clock: Clock, random: &mut Random) -> u64 {
    let mut tally = Tally::new("power: by halving, same bits");
    let mut worst = 0.0f64;
    batches(clock, || {
        let x = match random.below(3) {
            0 => any(random),
            1 => random.unit(),
            _ => 1.0 + random.unit() / 1e6,
        };
        let n = random.word() >> random.below(64);
        let (ours, plain) = (abutfern::power(x, n), halved_power(1.0, x, n));
        let rust = x.powf(n as f64);
        if n < 1 << 28 && rust.is_normal() && plain.is_normal() {
            worst = worst.max((ours / rust - 1.0).abs());
        }
        tally.check(same(ours, plain), || {
            format!("{:#x} to the {n}: {ours:e}, not {plain:e}", x.to_bits())
        });
    });
    tally.remark(format!(
        "at most {worst:e} from powf, relatively, for exponents below 2^28"
    ));
    tally.close()
}

/// The figure's units, if it is a whole number of them and its zero is negative.
fn units(value: f64) -> Option<i64> {
    let m = value * UNITS;
    let whole = m.fract() == 0.0 && (0.0..=8.0 * UNITS).contains(&m);
    let zero_is_negative = value != 0.0 || value.is_sign_negative();
    (whole && zero_is_negative).then_some(m as i64)
}

/// A thousand p's by long arithmetic, both ends of every octave among them.
fn entropy_exactly(random: &mut Random) -> u64 {
    let mut tally = Tally::new("min_entropy: by 256-bit powers");
    let mut cases = Vec::new();
    for j in 0..=8 {
        let p = 1.0 / f64::from(1u32 << j);
        let bits = p.to_bits();
        let ends = [bits - 2, bits - 1, bits, bits + 1, bits + 2];
        cases.extend(ends.map(f64::from_bits));
    }
    for _ in 0..2000 {
        cases.push((random.unit() * -8.0).exp2());
        cases.push(random.unit());
        cases.push(1.0 - random.unit() / (1u64 << random.below(50)) as f64);
    }
    cases.retain(|p| (1.0 / 256.0..=1.0).contains(p));
    for p in cases {
        entropy_bounds(p, &mut tally);
    }
    tally.close()
}

/// Both exact bounds at p, and the whole octave's: j at 2^-j, at most j above it.
fn entropy_bounds(p: f64, tally: &mut Tally) {
    let ours = abutfern::min_entropy(p);
    let m = units(ours.value).unwrap_or(-1);
    let octave = -(p.log2().floor()) as i64;
    let exact = p.to_bits() << 12 == 0;
    let within = if exact {
        m == octave << 24
    } else {
        m <= octave << 24
    };
    let bounded = m >= 0 && bounds_entropy(p, m) == Some(true);
    tally.check(ours.number == 0 && within && bounded, || {
        format!("min_entropy of {:#x} ({p}): {ours:?}", p.to_bits())
    });
}

/// What lies outside 1/256..1.
fn entropy_ends() -> u64 {
    let mut tally = Tally::new("min_entropy: outside 1/256..1");
    let below = f64::from_bits((1.0f64 / 256.0).to_bits() - 1);
    let above = f64::from_bits(1.0f64.to_bits() + 1);
    let marks = [0.0, -0.0, -0.5, -1.0, 2.0, 5e-324, f64::MAX, f64::MIN];
    let others = [f64::NAN, f64::INFINITY, f64::NEG_INFINITY, below, above];
    for p in marks.into_iter().chain(others) {
        let ours = abutfern::min_entropy(p);
        tally.check((ours.number, ours.value) == (5, -1.0), || {
            format!("min_entropy of {:#x} ({p:e}): {ours:?}", p.to_bits())
        });
    }
    tally.close()
}

/// Beside -log2 as the Rust has it, wherever a double falls.
fn entropy(clock: Clock, random: &mut Random) -> u64 {
    let mut tally = Tally::new("min_entropy: beside the Rust's -log2");
    let mut most = 0.0f64;
    batches(clock, || {
        let p = match random.below(4) {
            0 => any(random),
            1 => (random.unit() * -8.0).exp2(),
            2 => 1.0 - random.unit() / (1u64 << random.below(50)) as f64,
            _ => random.unit(),
        };
        let ours = abutfern::min_entropy(p);
        if !(1.0 / 256.0..=1.0).contains(&p) {
            let refused = (ours.number, ours.value) == (5, -1.0);
            tally.check(refused, || format!("{:#x}: {ours:?}", p.to_bits()));
            return;
        }
        let below = -p.log2() - ours.value;
        most = most.max(below);
        let near = (-1e-14..=2f64.powi(-22) + 1e-14).contains(&below);
        let good = ours.number == 0 && units(ours.value).is_some() && near;
        tally.check(good, || format!("{:#x} ({p}): {ours:?}", p.to_bits()));
    });
    tally.remark(format!(
        "at most {:.3} units of 2^-24 below -log2",
        most * UNITS
    ));
    tally.close()
}
