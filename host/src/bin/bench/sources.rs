//! Captures such as noise sources give, good ones and spoilt ones.

/// What the next number is drawn from.
pub type Draw<'a> = &'a mut dyn FnMut() -> u64;

/// Each symbol the AND of three uniform ones.
pub fn and_of_three(length: usize, draw: Draw) -> Vec<u8> {
    let symbol = |_| (draw() & draw() & draw()) as u8;
    (0..length).map(symbol).collect()
}

/// A sine of 628 places, with noise.
pub fn sine(length: usize, draw: Draw) -> Vec<u8> {
    let symbol = |place| {
        let level = 120.0 + 100.0 * (f64::from(place) / 100.0).sin();
        level as u8 + (draw() % 16) as u8
    };
    (0..length as u32).map(symbol).collect()
}

/// One place in `rare` is drawn anew below `values`; the others repeat the symbol before.
pub fn sticky(rare: u64, values: u64, length: usize, draw: Draw) -> Vec<u8> {
    let mut before = 0;
    let symbol = |_| {
        let (r, any) = (draw(), draw() % values);
        if r % rare == 0 {
            before = any as u8;
        }
        before
    };
    (0..length).map(symbol).collect()
}

/// A bell around 128 with a standard deviation of 7.9: the sum of twelve draws below 8.
pub fn bell(length: usize, draw: Draw) -> Vec<u8> {
    let symbol = |_| 86 + (0..12).map(|_| draw() % 8).sum::<u64>() as u8;
    (0..length).map(symbol).collect()
}

/// Each value half as often as the one below it, to 24, since a number drawn has 24 bits.
pub fn halving(length: usize, draw: Draw) -> Vec<u8> {
    let symbol = |_| draw().trailing_zeros().min(24) as u8;
    (0..length).map(symbol).collect()
}

/// 37 values in turn, but for one place in twenty.
pub fn period(length: usize, draw: Draw) -> Vec<u8> {
    let pattern = [(); 37].map(|_| draw() as u8);
    let symbol = |place| {
        let (r, any) = (draw(), draw() as u8);
        if r % 20 == 0 {
            any
        } else {
            pattern[place % 37]
        }
    };
    (0..length).map(symbol).collect()
}

/// A level that moves by an eighth, up or down, at two places in three, with noise.
pub fn drift(length: usize, draw: Draw) -> Vec<u8> {
    let most = 248 * 8;
    let mut eighths = most / 2;
    let symbol = |_| {
        eighths = (eighths + draw() % 3).saturating_sub(1).min(most);
        (eighths / 8 + draw() % 8) as u8
    };
    (0..length).map(symbol).collect()
}

/// Stretches of 5,000 places, each uniform over eight values of its own: as the step between them is
/// odd, no two are the same.
pub fn blocks(length: usize, draw: Draw) -> Vec<u8> {
    let (mut first, mut step) = (0, 0);
    let symbol = |place| {
        if place % 5_000 == 0 {
            (first, step) = (draw(), 2 * draw() + 1);
        }
        (first + step * (draw() % 8)) as u8
    };
    (0..length).map(symbol).collect()
}

/// One place in four is 1, the others are 0.
pub fn biased_bits(length: usize, draw: Draw) -> Vec<u8> {
    let symbol = |_| u8::from(draw().is_multiple_of(4));
    (0..length).map(symbol).collect()
}
