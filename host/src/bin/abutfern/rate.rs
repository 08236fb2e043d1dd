//! The four estimates of a capture and its board figure.

use crate::winner::{Memory, PREFIXES, WINDOWS};
use abutfern::numbers::{COUNTERS, MCW_SAMPLES, MMC_SAMPLES, SPACE, meaning};
use abutfern::{Answer, Figure};

/// One of the four estimators.
pub struct Estimator {
    pub name: &'static str,
    /// What a sample is: a bit on the bitstring track, a symbol on the literal track.
    pub sample: &'static str,
    /// The least number of samples that it runs on.
    pub least: usize,
    /// What its sub-predictors look back on.
    pub memory: Memory,
}

/// The estimators, in the order of the board figure.
pub const ESTIMATORS: [Estimator; 4] = [
    Estimator {
        name: "MultiMCW bits",
        sample: "bit",
        least: MCW_SAMPLES,
        memory: WINDOWS,
    },
    Estimator {
        name: "MultiMCW literal",
        sample: "symbol",
        least: MCW_SAMPLES,
        memory: WINDOWS,
    },
    Estimator {
        name: "MultiMMC bits",
        sample: "bit",
        least: MMC_SAMPLES,
        memory: PREFIXES,
    },
    Estimator {
        name: "MultiMMC literal",
        sample: "symbol",
        least: MMC_SAMPLES,
        memory: PREFIXES,
    },
];

impl Estimator {
    /// The samples in a symbol of a width.
    fn per_symbol(&self, width: u8) -> u64 {
        match self.sample {
            "bit" => width.into(),
            _ => 1,
        }
    }

    /// The samples that a rated capture has for it.
    pub fn samples(&self, rating: &Rating) -> u64 {
        rating.symbols * self.per_symbol(rating.width)
    }

    /// The least number of symbols of a width that it runs on.
    fn least_symbols(&self, width: u8) -> u64 {
        (self.least as u64).div_ceil(self.per_symbol(width))
    }
}

/// The least number of symbols of a width that all four run on.
fn enough(width: u8) -> u64 {
    let least = ESTIMATORS.iter().map(|each| each.least_symbols(width));
    least.fold(0, u64::max)
}

/// The functions of the library that a rating calls.
pub const CALLED: [&str; 5] = [
    "multi_mcw",
    "multi_mcw_literal",
    "multi_mmc",
    "multi_mmc_literal",
    "board_figure",
];

/// A capture, rated.
pub struct Rating {
    /// The symbols in the file.
    pub symbols: u64,
    pub width: u8,
    pub answers: [Answer; 4],
    pub figure: Figure,
    /// Symbols with bits above the width, and the first one's place.
    pub wide: Option<(usize, usize)>,
}

impl Rating {
    /// The estimators that did not run, in the order of the board figure.
    pub fn not_run(&self) -> Vec<&'static Estimator> {
        let answers = ESTIMATORS.iter().zip(&self.answers);
        let not_run = answers.filter(|(_, answer)| answer.number == 6);
        not_run.map(|(estimator, _)| estimator).collect()
    }

    /// How many of the estimates did not run, in words.
    pub fn how_many_not_run(&self) -> String {
        let count = self.not_run().len();
        format!("{count} of the {} estimates did not run", ESTIMATORS.len())
    }

    /// The board figure's number in words.
    pub fn reason(&self) -> String {
        match self.figure.number {
            6 => self.how_many_not_run(),
            number => meaning(number).to_string(),
        }
    }

    /// The least number of symbols that all four estimators run on, at its width.
    pub fn symbols_needed(&self) -> u64 {
        enough(self.width)
    }
}

/// A rating, or why the capture cannot be read.
pub type Rated = Result<Rating, String>;

/// Memory that is lent to the library, kept from file to file.
pub struct Lent {
    out: Vec<u8>,
    space: Vec<u32>,
}

impl Lent {
    pub fn new() -> Self {
        Self {
            out: Vec::new(),
            space: vec![0; SPACE],
        }
    }
}

/// Rates a capture of which the file has `length` symbols; `started` hears of each estimator.
pub fn rate(
    symbols: &[u8],
    length: u64,
    width: u8,
    lent: &mut Lent,
    started: impl Fn(&str),
) -> Rating {
    lent.out.clear();
    lent.out.shrink_to(symbols.len());
    lent.out.resize(symbols.len(), 0);
    let (out, space) = (&mut lent.out, &mut lent.space);
    started(ESTIMATORS[0].name);
    let mcw_bits = abutfern::multi_mcw(symbols, width);
    started(ESTIMATORS[1].name);
    let mcw_literal = abutfern::multi_mcw_literal(symbols, out);
    started(ESTIMATORS[2].name);
    let mmc_bits = abutfern::multi_mmc(symbols, width, &mut space[..COUNTERS]);
    started(ESTIMATORS[3].name);
    let mmc_literal = abutfern::multi_mmc_literal(symbols, out, space);
    let answers = [mcw_bits, mcw_literal, mmc_bits, mmc_literal];
    Rating {
        symbols: length,
        width,
        answers,
        figure: abutfern::board_figure(&answers, width),
        wide: wide(symbols, width),
    }
}

/// Symbols with bits above the width. Width 1 is left to answer 3.
fn wide(symbols: &[u8], width: u8) -> Option<(usize, usize)> {
    if !(2..8).contains(&width) {
        return None;
    }
    let above = |symbol: &&u8| **symbol >> width != 0;
    let first = symbols.iter().position(|symbol| above(&symbol))?;
    Some((symbols.iter().filter(above).count(), first))
}

#[cfg(test)]
mod tests {
    use super::*;
    use abutfern::numbers::WIDTHS;

    #[test]
    fn bits_are_rounded_up_to_whole_symbols() {
        for (width, least) in [
            (1, [4096, 4096, 4, 4]),
            (3, [1366, 4096, 2, 4]),
            (4, [1024, 4096, 1, 4]),
            (5, [820, 4096, 1, 4]),
            (8, [512, 4096, 1, 4]),
        ] {
            let symbols = ESTIMATORS.map(|estimator| estimator.least_symbols(width));
            assert_eq!(symbols, least, "{width}");
            assert_eq!(enough(width), 4096, "{width}");
        }
    }

    /// Rates as many zeros.
    fn zeros(count: u64, width: u8, lent: &mut Lent) -> Rating {
        rate(&vec![0; count as usize], count, width, lent, |_| ())
    }

    #[test]
    fn the_library_gives_a_figure_from_so_many_symbols_on() {
        let mut lent = Lent::new();
        for width in WIDTHS {
            let needed = enough(width);
            assert_eq!(zeros(needed, width, &mut lent).figure.number, 0);
            let short = zeros(needed - 1, width, &mut lent);
            assert_eq!((short.figure.number, short.symbols_needed()), (6, needed));
        }
    }

    fn ran(estimator: &Estimator, rating: &Rating) -> bool {
        let mut not_run = rating.not_run().into_iter();
        not_run.all(|each| each.name != estimator.name)
    }

    #[test]
    fn each_estimator_runs_from_its_least_symbols_on() {
        let mut lent = Lent::new();
        for width in WIDTHS {
            for estimator in ESTIMATORS {
                let least = estimator.least_symbols(width);
                assert!(ran(&estimator, &zeros(least, width, &mut lent)));
                assert!(!ran(&estimator, &zeros(least - 1, width, &mut lent)));
            }
        }
    }
}
