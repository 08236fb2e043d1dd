//! MultiMCW on both tracks.

use crate::captures::{
    TRIED, described, fitting, random_bits, random_capture, refusable, some_width,
};
use crate::lent::{Lent, bytes, length_near};
use crate::tally::{Clock, Tally};
use crate::windows::{self, WINDOWS};
use crate::{estimate, plain, tracks, trip};
use abutfern::numbers::{MCW_SAMPLES, SYMBOL_LIMIT};
use abutfern::random::Random;
use abutfern::{exported, reference};

/// Judges what of the family exists; returns how many differ.
pub fn judge(clock: Clock, random: &mut Random) -> u64 {
    let mut differ = 0;
    if exported("multi_mcw") {
        differ += bits_around(clock.part(5), random) + bits_long(clock.part(4), random);
        differ += every_width(random);
    }
    differ += turning(clock.part(6), random);
    if exported("multi_mcw_literal") {
        differ += literals_around(clock.part(2), random) + literals_long(clock.part(1), random);
    }
    differ + limit(random)
}

/// Compares one answer on bits.
fn compare_bits(symbols: &[u8], width: u8, tally: &mut Tally) {
    let ours = abutfern::multi_mcw(symbols, width);
    let faults = match plain::multi_mcw(symbols, width) {
        Some(refusal) => refusal_faults(&ours, refusal),
        None => {
            let rust = reference::multi_mcw::multi_mcw(symbols, width).estimate;
            let race = tracks::mcw_bits(symbols, width);
            estimate::faults(&ours, &rust, 2, &race, tally)
        }
    };
    tally.judge(faults, || {
        format!("MultiMCW of {} at width {width}", described(symbols))
    });
}

/// The faults of an answer that is not this refusal, in every field, or not in its record.
pub fn refusal_faults(ours: &abutfern::Answer, refusal: plain::Refusal) -> Vec<String> {
    let same = ours.words() == plain::refused(refusal).words();
    let fault = (!same).then(|| format!("{ours:?}, not refused by {refusal:?}"));
    fault.into_iter().chain(trip::fault(ours)).collect()
}

/// Compares one answer on literals, and all of the output's memory.
fn compare_literal(
    symbols: &[u8],
    out: usize,
    lent: &mut Lent<u8>,
    random: &mut Random,
    tally: &mut Tally,
) {
    let ours = abutfern::multi_mcw_literal(symbols, lent.lend(out, random));
    let (mut faults, translated) = match plain::multi_mcw_literal(symbols, out) {
        Some(refusal) => (refusal_faults(&ours, refusal), Vec::new()),
        None => {
            let (translated, size) = reference::dense(symbols);
            let rust = reference::multi_mcw::multi_mcw_literal(symbols).estimate;
            let race = tracks::mcw_literal(symbols);
            let faults = estimate::faults(&ours, &rust, size as u64, &race, tally);
            (faults, translated)
        }
    };
    faults.extend(lent.fault(&translated));
    tally.judge(faults, || {
        format!("MultiMCW into {out} bytes of {}", described(symbols))
    });
}

/// Every width that is taken, with 4,090 to 4,110 bits.
fn bits_around(clock: Clock, random: &mut Random) -> u64 {
    let mut tally = Tally::new("multi_mcw: 4,090 to 4,110 bits, widths 1 to 8");
    for () in clock.turns() {
        for width in plain::TAKEN {
            let wide = usize::from(width);
            for length in (4090 / wide)..=(4110 / wide) {
                compare_bits(&fitting(length, width, random), width, &mut tally);
            }
        }
    }
    tally.close()
}

fn bits_long(clock: Clock, random: &mut Random) -> u64 {
    let mut tally = Tally::new("multi_mcw: 0 to 100,000 symbols");
    for () in clock.turns() {
        let width = some_width(random);
        let length = any_length(random);
        compare_bits(&fitting(length, width, random), width, &mut tally);
    }
    tally.close()
}

/// Every width, beside the other reasons to refuse.
fn every_width(random: &mut Random) -> u64 {
    let mut tally = Tally::new("multi_mcw: every width, beside the other refusals");
    for symbols in refusable(random) {
        for width in 0..=u8::MAX {
            compare_bits(&symbols, width, &mut tally);
        }
    }
    tally.close()
}

/// Captures that end where another window takes the lead, a place before and a place after.
fn turning(clock: Clock, random: &mut Random) -> u64 {
    let mut tally = Tally::new("multi_mcw and literal: cut where the winner changes");
    let mut lent = bytes(MCW_SAMPLES + 8000, random);
    for () in clock.turns() {
        let symbols = random_bits(MCW_SAMPLES + random.index(8000), random);
        let turns = windows::race(&symbols).turns.into_iter();
        let ends = turns.map(|n| n as usize + WINDOWS[0]);
        for end in ends.filter(|end| *end > MCW_SAMPLES).take(4) {
            for length in [end - 1, end, (end + 1).min(symbols.len())] {
                let cut = &symbols[..length];
                if exported("multi_mcw") {
                    compare_bits(cut, 1, &mut tally);
                }
                if exported("multi_mcw_literal") {
                    compare_literal(cut, length, &mut lent, random, &mut tally);
                }
            }
        }
    }
    tally.close()
}

/// Mostly a few thousand, seldom up to 100,000, at times too few.
fn any_length(random: &mut Random) -> usize {
    match random.below(32) {
        0 => random.index(100_001),
        1..=3 => random.index(MCW_SAMPLES),
        4..=7 => random.index(20_000),
        _ => 4096 + random.index(3000),
    }
}

/// 4,090 to 4,110 symbols, the output one short, exact and longer.
fn literals_around(clock: Clock, random: &mut Random) -> u64 {
    let mut tally = Tally::new("multi_mcw_literal: 4,090 to 4,110 symbols");
    let mut lent = bytes(100_100, random);
    for () in clock.turns() {
        for length in 4090..=4110 {
            let symbols = random_capture(length, random);
            for out in [length - 1, length, length + 1] {
                compare_literal(&symbols, out, &mut lent, random, &mut tally);
            }
        }
    }
    tally.close()
}

fn literals_long(clock: Clock, random: &mut Random) -> u64 {
    let mut tally = Tally::new("multi_mcw_literal: 0 to 100,000 symbols");
    let mut lent = bytes(100_100, random);
    for () in clock.turns() {
        let symbols = random_capture(any_length(random), random);
        let out = length_near(symbols.len(), random);
        compare_literal(&symbols, out, &mut lent, random, &mut tally);
    }
    tally.close()
}

/// One symbol too many: refused before anything else is looked at.
fn limit(random: &mut Random) -> u64 {
    let mut tally = Tally::new("multi_mcw and literal: 16,777,217 symbols, and none");
    let mut lent = bytes(SYMBOL_LIMIT + 2, random);
    let many = vec![2; SYMBOL_LIMIT + 1];
    for symbols in [&many[..], &[]] {
        if exported("multi_mcw") {
            for width in TRIED {
                compare_bits(symbols, width, &mut tally);
            }
        }
        if exported("multi_mcw_literal") {
            for out in [0, 100, symbols.len(), symbols.len() + 1] {
                compare_literal(symbols, out, &mut lent, random, &mut tally);
            }
        }
    }
    if exported("multi_mcw_literal") {
        let most = &many[..SYMBOL_LIMIT];
        compare_literal(most, SYMBOL_LIMIT - 1, &mut lent, random, &mut tally);
    }
    tally.close()
}
