//! Captures of several shapes, drawn from any source of numbers, and a source so plain that every
//! program can repeat it.

/// How the symbols of a capture follow each other.
#[derive(Clone, Copy, Debug, PartialEq, Eq)]
pub enum Shape {
    /// Every value as often.
    Uniform,
    /// Three places in four are 0.
    Biased,
    /// Seven places in eight repeat the symbol before.
    Sticky,
    /// The values in turn.
    Periodic,
    /// The values in turn, but for one place in sixteen.
    Noisy,
}

/// Every shape, in the order of its number.
pub const SHAPES: [Shape; 5] = [
    Shape::Uniform,
    Shape::Biased,
    Shape::Sticky,
    Shape::Periodic,
    Shape::Noisy,
];

/// A capture of `length` symbols below `values` (1 to 256). Each place draws two numbers, r and s.
pub fn capture(
    shape: Shape,
    values: usize,
    length: usize,
    mut draw: impl FnMut() -> u64,
) -> Vec<u8> {
    let mut symbols = Vec::with_capacity(length);
    let mut before = 0;
    for place in 0..length {
        let (r, s) = (draw(), draw());
        let any = (s % values as u64) as u8;
        let turn = (place % values) as u8;
        before = match shape {
            Shape::Uniform => any,
            Shape::Biased => if_else(r % 16 < 12, 0, any),
            Shape::Sticky => if_else(r % 16 < 14, before, any),
            Shape::Periodic => turn,
            Shape::Noisy => if_else(r % 16 < 15, turn, any),
        };
        symbols.push(before);
    }
    symbols
}

fn if_else(test: bool, yes: u8, no: u8) -> u8 {
    if test { yes } else { no }
}

/// The numbers of a seed (1 to 2,147,483,646): the state times 48,271 modulo 2,147,483,647 is the
/// next state, and the number drawn is that divided by 128.
pub fn draws(seed: u32) -> impl FnMut() -> u64 {
    let mut state = u64::from(seed);
    move || {
        state = state * 48_271 % 2_147_483_647;
        state / 128
    }
}
