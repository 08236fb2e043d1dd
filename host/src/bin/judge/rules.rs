//! The rules as they are written down beside the Rust, whose levels are built with small caps too,
//! beside the tables that long captures are raced with, and beside the library.

use crate::captures::{described, repeated, stretches};
use crate::race::Outcome;
use crate::tally::{Clock, Tally};
use crate::{history, levels, tracks, windows};
use abutfern::numbers::{COUNTERS, MMC_SAMPLES, PAIR_CAP, SPACE};
use abutfern::random::Random;
use abutfern::reference::prediction::PredictionEstimate;
use abutfern::shapes::{SHAPES, capture};
use abutfern::{exported, reference};

/// Judges the rules; returns how many differ.
pub fn judge(clock: Clock, random: &mut Random) -> u64 {
    window_rules(clock.part(4), random) + level_rules(clock, random)
}

/// The races that must come to the same as the rules.
type Others = Vec<(&'static str, Outcome)>;

/// The faults of what the rules come to: the Rust's counts, and everything of the other races.
fn faults(rules: &Outcome, rust: &PredictionEstimate, others: &Others) -> Vec<String> {
    let counts = (rust.c, rust.n, rust.max_run_len);
    let mut faults = Vec::new();
    if rules.counts() != counts {
        faults.push(format!("{rules:?}, the Rust {counts:?}"));
    }
    for (name, other) in others {
        if other != rules {
            faults.push(format!("{rules:?}, {name} {other:?}"));
        }
    }
    faults
}

fn some_capture(length: usize, values: usize, random: &mut Random) -> Vec<u8> {
    match random.below(4) {
        0 if values <= 2 => stretches(length, random),
        0 | 1 => repeated(length, values, random),
        _ => capture(random.one_of(&SHAPES), values, length, || {
            random.word() >> 40
        }),
    }
}

fn window_rules(clock: Clock, random: &mut Random) -> u64 {
    let mut tally = Tally::new("window rules: 4,096 to 4,400 samples");
    for () in clock.turns() {
        let values = random.one_of(&[1, 2, 2, 3, 4, 16, 256]);
        let symbols = some_capture(4096 + random.index(305), values, random);
        let rules = history::windows(&symbols);
        let rust = reference::multi_mcw::multi_mcw_literal(&symbols).estimate;
        let mut others = vec![("the counts", windows::race(&symbols).end())];
        if exported("multi_mcw_literal") {
            let answer = abutfern::multi_mcw_literal(&symbols, &mut symbols.clone());
            others.push(("the library on literals", Outcome::of(&answer)));
        }
        if exported("multi_mcw") && values <= 2 {
            let answer = abutfern::multi_mcw(&symbols, 1);
            others.push(("the library on bits", Outcome::of(&answer)));
        }
        tally.judge(faults(&rules, &rust, &others), || described(&symbols));
    }
    tally.close()
}

fn level_rules(clock: Clock, random: &mut Random) -> u64 {
    let mut bits = Tally::new("level rules on bits: caps 1 to 20 and 100,000");
    let mut general = Tally::new("general level rules: caps 1 to 20 and 100,000");
    let mut space = vec![0; SPACE];
    for () in clock.turns() {
        let most = random.one_of(&[20, 60, 150]);
        let values = random.one_of(&[1, 2, 2, 3, 3, 4, 8]);
        let mut symbols = some_capture(4 + random.index(most), values, random);
        if random.chance(1, 2) {
            symbols.truncate(a_turn(&symbols, random));
        }
        let (data, size) = reference::value_sorted(&symbols);
        for (cap, rust) in reference::CAPPED {
            let rust = rust(&symbols);
            let (rules, tables, tally) = if size <= 2 {
                let rules = history::on_bits(&data, *cap);
                (rules, levels::on_bits(&data, *cap).end(), &mut bits)
            } else {
                let rules = history::in_general(&data, *cap);
                (rules, levels::in_general(&data, *cap).end(), &mut general)
            };
            let mut others = vec![("the tables", tables)];
            if *cap == PAIR_CAP {
                others.extend(library_levels(&data, size, &mut space));
            }
            tally.judge(faults(&rules, &rust, &others), || {
                format!("cap {cap}, {}", described(&data))
            });
        }
    }
    bits.close() + general.close()
}

/// A length at which another level has just taken the lead, or the whole.
fn a_turn(symbols: &[u8], random: &mut Random) -> usize {
    let turns = tracks::mmc_race(symbols).turns;
    let lengths = turns.iter().map(|n| *n as usize + 2);
    let enough: Vec<usize> = lengths.filter(|length| *length >= MMC_SAMPLES).collect();
    if enough.is_empty() {
        return symbols.len();
    }
    random.one_of(&enough)
}

/// What the library's levels come to on translated samples, as literals and, of two values, as bits.
fn library_levels(data: &[u8], size: usize, space: &mut [u32]) -> Others {
    let mut found = Vec::new();
    if exported("multi_mmc_literal") {
        let lent = if size <= 2 { COUNTERS } else { SPACE };
        let answer = abutfern::multi_mmc_literal(data, &mut data.to_vec(), &mut space[..lent]);
        found.push(("the library on literals", Outcome::of(&answer)));
    }
    if exported("multi_mmc") && size <= 2 {
        let answer = abutfern::multi_mmc(data, 1, &mut space[..COUNTERS]);
        found.push(("the library on bits", Outcome::of(&answer)));
    }
    found
}
