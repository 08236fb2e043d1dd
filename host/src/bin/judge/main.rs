//! The judge: runs the proved library beside the Rust that it was ported from, and says what
//! differs.

#[cfg(has_reference)]
mod answers;
mod arguments;
#[cfg(has_reference)]
mod board;
#[cfg(has_reference)]
mod capture;
#[cfg(has_reference)]
mod captures;
#[cfg_attr(not(has_reference), allow(dead_code))]
mod codec;
#[cfg(has_reference)]
mod counters;
#[cfg(has_reference)]
mod entropies;
#[cfg(has_reference)]
mod estimate;
#[cfg(has_reference)]
mod exact;
#[cfg(has_reference)]
mod families;
#[cfg_attr(not(has_reference), allow(dead_code))]
mod floats;
#[cfg(any(has_reference, test))]
mod history;
#[cfg(has_reference)]
mod lent;
mod levels;
#[cfg(has_reference)]
mod lists;
#[cfg(has_reference)]
mod mcw;
#[cfg(has_reference)]
mod mmc;
#[cfg_attr(not(has_reference), allow(dead_code))]
mod plain;
#[cfg(has_reference)]
mod prediction;
#[cfg_attr(not(has_reference), allow(dead_code))]
mod race;
#[cfg(has_reference)]
mod reader;
#[cfg(has_reference)]
mod real;
#[cfg(has_reference)]
mod records;
#[cfg(has_reference)]
mod repeats;
#[cfg(has_reference)]
mod repetition;
mod replay;
mod replies;
#[cfg(has_reference)]
mod rows;
#[cfg(has_reference)]
mod rules;
#[cfg(has_reference)]
mod space;
#[cfg(has_reference)]
mod standing;
#[cfg(has_reference)]
mod states;
#[cfg_attr(not(has_reference), allow(dead_code))]
mod tally;
mod tracks;
mod trip;
#[cfg_attr(not(has_reference), allow(dead_code))]
mod windows;

use arguments::Arguments;
use std::process::ExitCode;

fn main() -> ExitCode {
    let arguments = match arguments::read(std::env::args().skip(1)) {
        Ok(Some(arguments)) => arguments,
        Ok(None) => {
            print!("{}", arguments::HELP);
            return ExitCode::SUCCESS;
        }
        Err(error) => {
            eprintln!("judge: {error}; judge --help says how to call it");
            return ExitCode::from(2);
        }
    };
    match judged(&arguments) {
        Ok(Some(0)) => {
            println!("judge: 0 differ");
            ExitCode::SUCCESS
        }
        Ok(Some(differ)) => {
            println!("judge: {differ} differ");
            ExitCode::FAILURE
        }
        Ok(None) => {
            println!("judge: nothing was compared");
            ExitCode::SUCCESS
        }
        Err(error) => {
            eprintln!("judge: {error}");
            ExitCode::from(2)
        }
    }
}

/// How many differ in what was asked for; None if there was nothing to compare.
fn judged(arguments: &Arguments) -> Result<Option<u64>, String> {
    if arguments.replay.is_empty() {
        return compared(arguments);
    }
    let mut differ = 0;
    for path in &arguments.replay {
        differ += replay::judge(path)?;
    }
    Ok(Some(differ))
}

#[cfg(has_reference)]
fn compared(arguments: &Arguments) -> Result<Option<u64>, String> {
    families::judge(arguments)
}

#[cfg(not(has_reference))]
fn compared(_: &Arguments) -> Result<Option<u64>, String> {
    println!(
        "judge: left out: the Rust's sources were not at hand when this was built \
         (ABUTFERN_REFERENCE names their folder)"
    );
    Ok(None)
}
