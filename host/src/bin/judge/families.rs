//! The families of functions, and the time that each of them gets.

use crate::arguments::Arguments;
use crate::tally::Clock;
use crate::{board, capture, mcw, mmc, prediction, real, records, repetition, rules, states};
use abutfern::exported;
use abutfern::random::Random;

struct Family {
    name: &'static str,
    /// Its part of the time, beside the others'.
    weight: u32,
    functions: &'static [&'static str],
    judge: fn(Clock, &mut Random) -> u64,
}

const FAMILIES: [Family; 10] = [
    Family {
        name: "capture",
        weight: 2,
        functions: &["bit", "dense_alphabet", "value_sorted_alphabet"],
        judge: capture::judge,
    },
    Family {
        name: "real",
        weight: 2,
        functions: &["sqrt", "rel_epsilon_equal", "ln", "power", "min_entropy"],
        judge: real::judge,
    },
    Family {
        name: "prediction",
        weight: 3,
        functions: &[
            "prediction_estimate",
            "prediction_estimate_function",
            "calc_p_local",
        ],
        judge: prediction::judge,
    },
    Family {
        name: "mcw",
        weight: 3,
        functions: &["multi_mcw", "multi_mcw_literal"],
        judge: mcw::judge,
    },
    Family {
        name: "mmc",
        weight: 6,
        functions: &["multi_mmc", "multi_mmc_literal"],
        judge: mmc::judge,
    },
    Family {
        name: "rules",
        weight: 1,
        functions: &[
            "multi_mcw",
            "multi_mcw_literal",
            "multi_mmc",
            "multi_mmc_literal",
        ],
        judge: rules::judge,
    },
    Family {
        name: "board",
        weight: 1,
        functions: &["board_figure"],
        judge: board::judge,
    },
    Family {
        name: "records",
        weight: 2,
        functions: &["write_record", "read_record", "read_records", "record_at"],
        judge: records::judge,
    },
    Family {
        name: "repetition",
        weight: 2,
        functions: &["repetition_cutoff", "repetition_start", "repetition_sample"],
        judge: repetition::judge,
    },
    Family {
        name: "states",
        weight: 1,
        functions: &["repetition_sample"],
        judge: states::judge,
    },
];

/// Judges the families that exist and were asked for; returns how many differ, or None if there
/// are none.
pub fn judge(arguments: &Arguments) -> Result<Option<u64>, String> {
    let asked = |family: &&Family| {
        let only = arguments.only.as_deref();
        only.is_none_or(|only| only == family.name)
    };
    let chosen: Vec<&Family> = FAMILIES.iter().filter(asked).collect();
    if chosen.is_empty() {
        let names: Vec<&str> = FAMILIES.iter().map(|family| family.name).collect();
        return Err(format!("a family is one of {}", names.join(", ")));
    }
    let (there, missing): (Vec<&Family>, Vec<&Family>) = chosen
        .into_iter()
        .partition(|family| family.functions.iter().any(|name| exported(name)));
    for family in missing {
        println!("{}: left out, the archive has none of it", family.name);
    }
    if there.is_empty() {
        return Ok(None);
    }
    let clock = Clock::of(arguments.seconds);
    let mut random = Random::new(arguments.seed);
    let mut differ = 0;
    let mut weights: u32 = there.iter().map(|family| family.weight).sum();
    for family in there {
        println!("== {} (seed {})", family.name, arguments.seed);
        let seconds = clock.left() * f64::from(family.weight) / f64::from(weights);
        differ += (family.judge)(Clock::of(seconds), &mut random);
        weights -= family.weight;
    }
    Ok(Some(differ))
}
