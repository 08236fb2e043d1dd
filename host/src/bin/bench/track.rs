//! The translators and the estimators' tracks, ours and the Rust's.

use crate::captures::{Capture, Kind};
use crate::clock;
use abutfern::numbers::{COUNTERS, SPACE};
#[cfg(has_reference)]
use abutfern::reference::{self, multi_mcw, multi_mmc};
use std::hint::black_box;

/// What the benchmark lends.
pub struct Lent {
    out: Vec<u8>,
    space: Vec<u32>,
}

impl Lent {
    pub fn new(length: usize) -> Self {
        Self {
            out: vec![0; length],
            space: vec![0; SPACE],
        }
    }
}

/// One function to measure.
pub struct Track {
    pub name: &'static str,
    pub title: &'static str,
    /// Whether a capture is measured on it.
    pub takes: fn(&Capture) -> bool,
    pub ours: fn(&Capture, &mut Lent),
    #[cfg(has_reference)]
    rust: fn(&Capture),
}

impl Track {
    /// Our best time, and the Rust's where it is at hand.
    #[cfg(has_reference)]
    pub fn times(&self, capture: &Capture, lent: &mut Lent) -> (f64, Option<f64>) {
        let rust = || (self.rust)(capture);
        clock::beside(|| (self.ours)(capture, lent), Some(rust))
    }

    #[cfg(not(has_reference))]
    pub fn times(&self, capture: &Capture, lent: &mut Lent) -> (f64, Option<f64>) {
        (clock::best(|| (self.ours)(capture, lent)), None)
    }
}

/// What the translators are measured on.
pub fn all(capture: &Capture) -> bool {
    matches!(capture.kind, Kind::Usual | Kind::Gapped)
}

fn further(capture: &Capture) -> bool {
    matches!(capture.kind, Kind::Usual | Kind::Further | Kind::Stored)
}

fn binary(capture: &Capture) -> bool {
    capture.width == 1
}

fn wider(capture: &Capture) -> bool {
    let stored = matches!(capture.kind, Kind::Usual | Kind::Stored | Kind::Crafted);
    capture.width > 1 && stored
}

fn mmc_literal(capture: &Capture, lent: &mut Lent) {
    let out = &mut lent.out[..capture.symbols.len()];
    black_box(abutfern::multi_mmc_literal(
        &capture.symbols,
        out,
        &mut lent.space,
    ));
}

#[cfg(has_reference)]
fn rust_mmc_literal(capture: &Capture) {
    black_box(multi_mmc::multimmc_literal(&capture.symbols));
}

pub const TRACKS: [Track; 7] = [
    Track {
        name: "dense_alphabet",
        title: "dense_alphabet",
        takes: all,
        ours: |capture, lent| {
            black_box(abutfern::dense_alphabet(&capture.symbols, &mut lent.out));
        },
        #[cfg(has_reference)]
        rust: |capture| {
            black_box(reference::dense(&capture.symbols));
        },
    },
    Track {
        name: "value_sorted_alphabet",
        title: "value_sorted_alphabet",
        takes: all,
        ours: |capture, lent| {
            let out = &mut lent.out;
            black_box(abutfern::value_sorted_alphabet(&capture.symbols, out));
        },
        #[cfg(has_reference)]
        rust: |capture| {
            black_box(reference::value_sorted(&capture.symbols));
        },
    },
    Track {
        name: "multi_mcw",
        title: "MultiMCW bits",
        takes: further,
        ours: |capture, _| {
            black_box(abutfern::multi_mcw(&capture.symbols, capture.width));
        },
        #[cfg(has_reference)]
        rust: |capture| {
            black_box(multi_mcw::multi_mcw(&capture.symbols, capture.width));
        },
    },
    Track {
        name: "multi_mcw_literal",
        title: "MultiMCW literal",
        takes: further,
        ours: |capture, lent| {
            black_box(abutfern::multi_mcw_literal(&capture.symbols, &mut lent.out));
        },
        #[cfg(has_reference)]
        rust: |capture| {
            black_box(multi_mcw::multi_mcw_literal(&capture.symbols));
        },
    },
    Track {
        name: "multi_mmc",
        title: "MultiMMC bits",
        takes: further,
        ours: |capture, lent| {
            let counters = &mut lent.space[..COUNTERS];
            black_box(abutfern::multi_mmc(
                &capture.symbols,
                capture.width,
                counters,
            ));
        },
        #[cfg(has_reference)]
        rust: |capture| {
            black_box(multi_mmc::multi_mmc(&capture.symbols, capture.width));
        },
    },
    Track {
        name: "multi_mmc_literal",
        title: "MultiMMC two values",
        takes: binary,
        ours: mmc_literal,
        #[cfg(has_reference)]
        rust: rust_mmc_literal,
    },
    Track {
        name: "multi_mmc_literal",
        title: "MultiMMC literal",
        takes: wider,
        ours: mmc_literal,
        #[cfg(has_reference)]
        rust: rust_mmc_literal,
    },
];
