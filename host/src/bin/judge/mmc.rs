//! MultiMMC on bits, and on literals of at most two values and of more.

use crate::captures::{
    TRIED, described, digits, fitting, random_bits, random_capture, refusable, some_width,
};
use crate::counters::count;
use crate::lent::{Lent, bytes, length_near, words};
use crate::mcw::refusal_faults;
use crate::space::Space;
use crate::tally::{Clock, Tally, spread};
use crate::{estimate, plain, tracks, trip};
use abutfern::numbers::{COUNTERS, SPACE, SYMBOL_LIMIT};
use abutfern::random::Random;
use abutfern::shapes::{Shape, capture};
use abutfern::{Answer, exported, reference};

/// Judges what of the family exists; returns how many differ.
pub fn judge(clock: Clock, random: &mut Random) -> u64 {
    let mut bench = Bench::new(random);
    let mut differ = 0;
    if exported("multi_mmc") {
        differ += bench.short_bits(clock.part(5), random);
        differ += bench.random_bits(clock.part(4), random);
        differ += bench.again_on_bits(clock.part(20), random);
        if clock.left() > 4.0 {
            differ += bench.capped_bits(random);
        }
    }
    if exported("multi_mmc_literal") {
        differ += bench.two_valued(clock.part(5), random);
        differ += bench.again_on_literals(clock.part(12), random);
        if clock.left() > 6.0 {
            differ += bench.capped_literals(random);
        }
        differ += bench.short_literals(clock.part(2), random);
        differ += bench.random_literals(clock.part(1), random);
    }
    if exported("multi_mmc") {
        differ += bench.every_width(random);
    }
    differ + bench.limit(random)
}

/// What is lent, and the counts that are expected in it.
struct Bench {
    out: Lent<u8>,
    counters: Lent<u32>,
    space: Space,
    counts: Vec<u32>,
}

/// What an answer on literals leaves: the translation, and numbers that are zero.
struct Left {
    translated: Vec<u8>,
    zeros: usize,
}

impl Bench {
    fn new(random: &mut Random) -> Self {
        Self {
            out: bytes(400_000, random),
            counters: words(COUNTERS + 100, random),
            space: Space::new(),
            counts: Vec::new(),
        }
    }

    /// Compares one answer on bits, and all of the counters' memory.
    fn compare_bits(
        &mut self,
        symbols: &[u8],
        width: u8,
        length: usize,
        random: &mut Random,
        tally: &mut Tally,
    ) {
        let ours = abutfern::multi_mmc(symbols, width, self.counters.lend(length, random));
        self.counts.clear();
        let mut faults = match plain::multi_mmc(symbols, width, length) {
            Some(refusal) => refusal_faults(&ours, refusal),
            None => {
                count(&reference::bitstring(symbols, width), &mut self.counts);
                let rust = reference::multi_mmc::multi_mmc(symbols, width).estimate;
                let race = tracks::mmc_bits(symbols, width);
                estimate::faults(&ours, &rust, 2, &race, tally)
            }
        };
        faults.extend(self.counters.fault(&self.counts));
        tally.judge(faults, || {
            format!(
                "MultiMMC in {length} counters of {} at width {width}",
                described(symbols)
            )
        });
    }

    /// The faults of an answer on literals, and what it has to leave in lent memory.
    fn literal_faults(
        &mut self,
        ours: &Answer,
        symbols: &[u8],
        out: usize,
        space: usize,
        tally: &mut Tally,
    ) -> (Vec<String>, Left) {
        self.counts.clear();
        if let Some(refusal) = plain::multi_mmc_literal(symbols, out, space) {
            let left = Left {
                translated: Vec::new(),
                zeros: 0,
            };
            return (refusal_faults(ours, refusal), left);
        }
        let (translated, size) = reference::value_sorted(symbols);
        let rust = reference::multi_mmc::multimmc_literal(symbols).estimate;
        let race = tracks::mmc_literal(symbols);
        let faults = estimate::faults(ours, &rust, size.max(2) as u64, &race, tally);
        let zeros = if size <= 2 {
            count(&translated, &mut self.counts);
            0
        } else {
            SPACE
        };
        (faults, Left { translated, zeros })
    }

    /// Compares one answer on literals in the large space, and all of the lent memory.
    fn compare_literal(
        &mut self,
        symbols: &[u8],
        out: usize,
        space: usize,
        random: &mut Random,
        tally: &mut Tally,
    ) {
        self.space.dirty(random);
        let lent = self.out.lend(out, random);
        let ours = abutfern::multi_mmc_literal(symbols, lent, self.space.lend(space));
        let (mut faults, left) = self.literal_faults(&ours, symbols, out, space, tally);
        faults.extend(self.out.fault(&left.translated));
        faults.extend(self.space.fault(&self.counts, left.zeros));
        tally.judge(faults, || literal_case(symbols, out, space));
    }

    /// The same in a small space, which is enough for at most two values.
    fn compare_two_valued(
        &mut self,
        symbols: &[u8],
        out: usize,
        space: usize,
        random: &mut Random,
        tally: &mut Tally,
    ) {
        let lent = self.out.lend(out, random);
        let ours = abutfern::multi_mmc_literal(symbols, lent, self.counters.lend(space, random));
        let (mut faults, left) = self.literal_faults(&ours, symbols, out, space, tally);
        faults.extend(self.out.fault(&left.translated));
        faults.extend(self.counters.fault(&self.counts));
        tally.judge(faults, || literal_case(symbols, out, space));
    }

    /// Every bitstring of 0 to 14 bits.
    fn short_bits(&mut self, clock: Clock, random: &mut Random) -> u64 {
        let mut tally = Tally::new("multi_mmc: every bitstring of 0 to 14 bits");
        let all = (1u64 << 15) - 1;
        for i in spread(all) {
            let length = (i + 1).ilog2();
            let symbols = digits(i + 1 - (1 << length), 2, length as usize);
            self.compare_bits(&symbols, 1, COUNTERS, random, &mut tally);
            if clock.over() {
                break;
            }
        }
        tally.remark(format!("of {all} in all"));
        tally.close()
    }

    /// Every shape and width that is taken, and some that are not; the counters one short, exact
    /// and longer.
    fn random_bits(&mut self, clock: Clock, random: &mut Random) -> u64 {
        let mut tally = Tally::new("multi_mmc: random captures, widths 1 to 8 and others");
        for () in clock.turns() {
            let width = some_width(random);
            let most = random.one_of(&[5, 20, 40, 40, 600, 600, 5000, 50_000]);
            let symbols = fitting(random.index(most), width, random);
            let length = length_near(COUNTERS, random);
            self.compare_bits(&symbols, width, length, random, &mut tally);
        }
        tally.close()
    }

    /// 700,000 random bits: level 16 reaches its cap.
    fn capped_bits(&mut self, random: &mut Random) -> u64 {
        let mut tally = Tally::new("multi_mmc: 700,000 random bits, level 16 at its cap");
        let symbols = capture(Shape::Uniform, 2, 700_000, || random.word() >> 40);
        self.compare_bits(&symbols, 1, COUNTERS, random, &mut tally);
        let level_16 = self.counts[(1 << 17) - 4..].iter();
        let pairs = level_16.filter(|count| **count > 0).count();
        tally.remark(format!("{pairs} pairs counted at level 16"));
        tally.close()
    }

    /// Captures of at most two values: counted in the first numbers of the space.
    fn two_valued(&mut self, clock: Clock, random: &mut Random) -> u64 {
        let mut tally = Tally::new("multi_mmc_literal: at most two values");
        for () in clock.turns() {
            let most = random.one_of(&[5, 20, 40, 600, 5000]);
            let length = random.index(most);
            let values = [random.byte(), random.byte()];
            let mut symbols = random_bits(length, random);
            for symbol in &mut symbols {
                *symbol = values[usize::from(*symbol)];
            }
            let out = length_near(length, random);
            let space = length_near(COUNTERS, random);
            if random.chance(1, 50) {
                self.compare_literal(&symbols, out, SPACE, random, &mut tally);
            } else {
                self.compare_two_valued(&symbols, out, space, random, &mut tally);
            }
        }
        tally.close()
    }

    /// Every capture of 3 or 4 values and 3 to 7 symbols.
    fn short_literals(&mut self, clock: Clock, random: &mut Random) -> u64 {
        let mut tally =
            Tally::new("multi_mmc_literal: every capture of 3 or 4 values to 7 symbols");
        let cases = few_valued();
        for i in spread(cases.len() as u64) {
            let symbols = &cases[i as usize];
            self.compare_literal(symbols, symbols.len(), SPACE, random, &mut tally);
            if clock.over() {
                break;
            }
        }
        tally.remark(format!("of {} in all", cases.len()));
        tally.close()
    }

    fn random_literals(&mut self, clock: Clock, random: &mut Random) -> u64 {
        let mut tally = Tally::new("multi_mmc_literal: random captures");
        for () in clock.turns() {
            let most = random.one_of(&[8, 40, 40, 600, 600, 5000, 20_000]);
            let length = random.index(most);
            let symbols = random_capture(length, random);
            let out = length_near(length, random);
            let space = length_near(plain::space_needed(&symbols), random);
            self.compare_literal(&symbols, out, space, random, &mut tally);
        }
        tally.close()
    }

    /// 300,000 random bytes: levels 2 and up reach their caps.
    fn capped_literals(&mut self, random: &mut Random) -> u64 {
        let mut tally = Tally::new("multi_mmc_literal: 300,000 random bytes, at the cap");
        let symbols = capture(Shape::Uniform, 256, 300_000, || random.word() >> 40);
        self.compare_literal(&symbols, symbols.len(), SPACE, random, &mut tally);
        tally.close()
    }

    /// The same capture again, in counters that another run left.
    fn again_on_bits(&mut self, clock: Clock, random: &mut Random) -> u64 {
        let mut tally = Tally::new("multi_mmc: again, in what another run left");
        let mut counters = vec![0; COUNTERS];
        for () in clock.turns() {
            let one = some_capture(random);
            let other = some_capture(random);
            let first = abutfern::multi_mmc(&one, 8, &mut counters);
            let left = counters.clone();
            abutfern::multi_mmc(&other, 8, &mut counters);
            let second = abutfern::multi_mmc(&one, 8, &mut counters);
            let same = first.words() == second.words() && left == counters;
            let fault = (!same).then(|| format!("{second:?}, not as before"));
            let faults = fault.into_iter().chain(trip::fault(&first)).collect();
            tally.judge(faults, || described(&one));
        }
        tally.close()
    }

    /// The same capture again, after one of two values, which leaves counts, or of more.
    fn again_on_literals(&mut self, clock: Clock, random: &mut Random) -> u64 {
        let mut tally = Tally::new("multi_mmc_literal: again, in what another run left");
        let mut out = vec![0; 500];
        for () in clock.turns() {
            let one = some_capture(random);
            let other = if random.chance(1, 2) {
                random_bits(4 + random.index(400), random)
            } else {
                some_capture(random)
            };
            let space = self.space.lend(SPACE);
            let first = abutfern::multi_mmc_literal(&one, &mut out, space);
            abutfern::multi_mmc_literal(&other, &mut out, space);
            let second = abutfern::multi_mmc_literal(&one, &mut out, space);
            let same = first.words() == second.words();
            let fault = (!same).then(|| format!("{second:?}, not as before"));
            let faults = fault.into_iter().chain(trip::fault(&first)).collect();
            tally.judge(faults, || described(&one));
        }
        self.space.lend(SPACE).fill(0);
        tally.close()
    }

    /// Every width, beside the other reasons to refuse: the captures', and counters that are short.
    fn every_width(&mut self, random: &mut Random) -> u64 {
        let mut tally = Tally::new("multi_mmc: every width, beside the other refusals");
        for symbols in refusable(random) {
            for width in 0..=u8::MAX {
                for length in [0, COUNTERS - 1, COUNTERS] {
                    self.compare_bits(&symbols, width, length, random, &mut tally);
                }
            }
        }
        tally.close()
    }

    /// One symbol too many, none, and too few.
    fn limit(&mut self, random: &mut Random) -> u64 {
        let mut tally = Tally::new("multi_mmc and literal: 16,777,217 symbols, and 0 to 3");
        let many = vec![2; SYMBOL_LIMIT + 1];
        for length in [SYMBOL_LIMIT + 1, 0, 1, 2, 3] {
            let symbols = &many[..length];
            if exported("multi_mmc") {
                for width in TRIED {
                    self.compare_bits(symbols, width, COUNTERS - 1, random, &mut tally);
                    self.compare_bits(symbols, width, COUNTERS, random, &mut tally);
                }
            }
            if exported("multi_mmc_literal") {
                for space in [0, COUNTERS, COUNTERS + 1] {
                    self.compare_two_valued(symbols, 3, space, random, &mut tally);
                }
            }
        }
        tally.close()
    }
}

fn literal_case(symbols: &[u8], out: usize, space: usize) -> String {
    format!(
        "MultiMMC in {out} bytes and {space} numbers of {}",
        described(symbols)
    )
}

fn some_capture(random: &mut Random) -> Vec<u8> {
    random_capture(4 + random.index(400), random)
}

/// The captures of 3 to 7 symbols whose values are 0, 1, 2 or 0, 1, 2, 3.
fn few_valued() -> Vec<Vec<u8>> {
    let mut captures = Vec::new();
    for length in 3..=7usize {
        for number in 0..4u64.pow(length as u32) {
            let symbols = digits(number, 4, length);
            let (translated, size) = reference::value_sorted(&symbols);
            if size > 2 && translated == symbols {
                captures.push(symbols);
            }
        }
    }
    captures
}
