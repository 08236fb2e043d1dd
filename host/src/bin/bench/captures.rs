//! The captures to measure on.

use crate::crafted::{crafted, same_hash};
use crate::files::{counter, text};
use crate::sources::{
    Draw, and_of_three, bell, biased_bits, blocks, drift, halving, period, sine, sticky,
};
use abutfern::shapes::{Shape, capture, draws};

/// A capture to measure on.
pub struct Capture {
    pub name: &'static str,
    pub symbols: Vec<u8>,
    pub width: u8,
    pub kind: Kind,
}

/// Which functions a capture is for.
#[derive(Clone, Copy, PartialEq, Eq)]
pub enum Kind {
    /// All.
    Usual,
    /// The translators: values are missing below the largest, so that the rising one renumbers.
    Gapped,
    /// The estimators, whose time depends on the shape, but for the general store, where the Rust
    /// takes seconds.
    Further,
    /// The estimators and the general store.
    Stored,
    /// The general store alone.
    Crafted,
}

const USUAL: [(&str, Shape, usize, u8); 5] = [
    ("uniform 8-bit", Shape::Uniform, 256, 8),
    ("uniform 4-bit", Shape::Uniform, 16, 4),
    ("uniform 1-bit", Shape::Uniform, 2, 1),
    ("biased 8-bit", Shape::Biased, 256, 8),
    ("sticky 8-bit", Shape::Sticky, 256, 8),
];

/// Makes a capture of a length from numbers drawn.
type Maker = fn(usize, Draw) -> Vec<u8>;

const STORED: [(&str, u8, Maker); 8] = [
    ("three values", 2, |n, draw| uniform(3, n, draw)),
    ("and of three", 8, and_of_three),
    ("sine", 8, sine),
    ("sticky 90%", 8, |n, draw| sticky(10, 256, n, draw)),
    ("bell", 8, bell),
    ("drift", 8, drift),
    ("blocks", 8, blocks),
    ("counter", 8, counter),
];

const FURTHER: [(&str, u8, Maker); 10] = [
    ("sticky 50%", 8, |n, draw| sticky(2, 256, n, draw)),
    ("sticky 99%", 8, |n, draw| sticky(100, 256, n, draw)),
    ("sticky 4-bit", 4, |n, draw| sticky(10, 16, n, draw)),
    ("sticky 1-bit", 1, |n, draw| sticky(5, 2, n, draw)),
    ("biased 1-bit", 1, biased_bits),
    ("uniform 6-bit", 6, |n, draw| uniform(64, n, draw)),
    ("halving", 8, halving),
    ("period 37", 8, period),
    ("constant", 8, |n, _| vec![0; n]),
    ("text", 8, text),
];

fn uniform(values: usize, length: usize, draw: Draw) -> Vec<u8> {
    capture(Shape::Uniform, values, length, draw)
}

/// The captures over which the worst ratio is taken.
pub fn captures(length: usize) -> Vec<Capture> {
    let made = |name, symbols, width, kind| Capture {
        name,
        symbols,
        width,
        kind,
    };
    let drawn = |shape, values, seed: u32| capture(shape, values, length, draws(seed * 1_000_003));
    let mut captures: Vec<Capture> = USUAL
        .iter()
        .zip(1..)
        .map(|((name, shape, values, width), seed)| {
            made(name, drawn(*shape, *values, seed), *width, Kind::Usual)
        })
        .collect();
    let odd = |symbol| 2 * symbol + 1;
    let gapped = drawn(Shape::Uniform, 128, 6).into_iter().map(odd).collect();
    captures.push(made("gapped 8-bit", gapped, 8, Kind::Gapped));
    let stored = STORED.iter().map(|source| (source, Kind::Stored));
    let further = FURTHER.iter().map(|source| (source, Kind::Further));
    for (((name, width, make), kind), seed) in stored.chain(further).zip(7..) {
        let symbols = make(length, &mut draws(seed * 1_000_003));
        captures.push(made(name, symbols, *width, kind));
    }
    captures.push(made("crafted", crafted(length), 8, Kind::Crafted));
    captures.push(made("old crafted", same_hash(length), 8, Kind::Crafted));
    captures
}

#[cfg(test)]
mod tests {
    use super::*;

    #[test]
    fn captures_fit() {
        for length in [0, 1, 5_003] {
            for capture in captures(length) {
                let name = capture.name;
                let fits = |symbol: &u8| u16::from(*symbol) >> capture.width == 0;
                assert_eq!(capture.symbols.len(), length, "{name}");
                assert!(capture.symbols.iter().all(fits), "{name}");
                assert!(name.len() <= 14, "{name} is wider than its column");
            }
        }
    }

    /// So the parts that growth is measured on are what a short capture is.
    #[test]
    fn longer_begins_as_shorter() {
        for (short, long) in captures(5_003).iter().zip(captures(20_000)) {
            assert!(long.symbols.starts_with(&short.symbols), "{}", long.name);
        }
    }
}
