//! Doubles to compare on, and the distance between two.

use abutfern::random::Random;

/// Doubles at which something changes.
const MARKS: [f64; 20] = [
    0.0,
    -0.0,
    1.0,
    -1.0,
    0.5,
    2.0,
    4.0,
    0.99,
    0.01,
    1.0 / 256.0,
    f64::EPSILON,
    f64::MIN_POSITIVE,
    f64::MAX,
    f64::MIN,
    f64::INFINITY,
    f64::NEG_INFINITY,
    f64::NAN,
    5e-324,
    std::f64::consts::SQRT_2,
    std::f64::consts::LN_2,
];

/// A double of any kind: any pattern, a subnormal, near a power of two, near 1, near a mark.
pub fn any(random: &mut Random) -> f64 {
    match random.below(8) {
        0..=2 => f64::from_bits(random.word()),
        3 => f64::from_bits(random.word() >> (12 + random.below(52))),
        4 => near(f64::from_bits(random.below(2047) << 52), random),
        5 => near(1.0 + (random.unit() - 0.5) / power_of_two(random), random),
        6 => random.unit() * power_of_two(random),
        _ => near(random.one_of(&MARKS), random),
    }
}

/// A positive, finite double of any kind.
pub fn positive(random: &mut Random) -> f64 {
    loop {
        let x = any(random).abs();
        if x > 0.0 && x.is_finite() {
            return x;
        }
    }
}

/// A double at most three units in the last place from another, or that one.
pub fn near(x: f64, random: &mut Random) -> f64 {
    let bits = x.to_bits();
    let step = random.below(4);
    f64::from_bits(if random.chance(1, 2) {
        bits.wrapping_add(step)
    } else {
        bits.wrapping_sub(step)
    })
}

fn power_of_two(random: &mut Random) -> f64 {
    (1u64 << random.below(53)) as f64
}

/// Whether two doubles have the same bits, or both are not a number.
pub fn same(a: f64, b: f64) -> bool {
    a.to_bits() == b.to_bits() || (a.is_nan() && b.is_nan())
}

/// How many doubles lie from one finite number to another, counted over zero.
pub fn units_between(a: f64, b: f64) -> u64 {
    let place = |x: f64| {
        let size = (x.to_bits() << 1 >> 1) as i64;
        if x.is_sign_negative() { -size } else { size }
    };
    place(a).abs_diff(place(b))
}
