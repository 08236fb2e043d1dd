//! The translators beside a plain loop in C that has each symbol's number from a filled table.

use crate::captures::{Capture, captures};
use crate::clock;
use crate::track::all;
use crate::worst::Worst;
use abutfern::numbers::{SYMBOL_LIMIT, meaning};
use abutfern::{Alphabet, exported};
use std::hint::black_box;

type Translate = fn(&[u8], &mut [u8]) -> Alphabet;

const TRANSLATORS: [(&str, Translate); 2] = [
    ("dense_alphabet", abutfern::dense_alphabet),
    ("value_sorted_alphabet", abutfern::value_sorted_alphabet),
];

/// The symbols, the number of each value, and as much room as there are symbols.
type Lookup = fn(&[u8], &[u8; 256], &mut [u8]);

/// The loop of lookup.c, or why the build did without it.
#[cfg(has_plain_loop)]
const PLAIN: Result<Lookup, &str> = Ok(plain);
#[cfg(not(has_plain_loop))]
const PLAIN: Result<Lookup, &str> = Err(env!("NO_PLAIN_LOOP"));

#[cfg(has_plain_loop)]
fn plain(symbols: &[u8], table: &[u8; 256], out: &mut [u8]) {
    unsafe extern "C" {
        fn plain_lookup(symbols: *const u8, count: usize, table: *const u8, out: *mut u8);
    }
    assert!(symbols.len() <= out.len());
    let count = symbols.len();
    // It reads as many symbols and writes as many numbers; the table has one for every byte.
    unsafe { plain_lookup(symbols.as_ptr(), count, table.as_ptr(), out.as_mut_ptr()) }
}

/// One line for each translator that exists and each capture, and the worst ratio of each.
pub fn print(length: usize) {
    match PLAIN {
        Ok(plain) if length <= SYMBOL_LIMIT => ratios(plain, length),
        Ok(_) => left_out(meaning(1)),
        Err(reason) => left_out(reason),
    }
}

fn left_out(reason: &str) {
    println!("\nthe translators beside a plain loop in C are left out: {reason}");
}

fn ratios(plain: Lookup, length: usize) {
    let captures = captures(length);
    let mut lent = [vec![0; length], vec![0; length]];
    let head = format!("one symbol of {length}");
    println!("\n{head:<37}         ours       C loop   ratio");
    for (name, translate) in TRANSLATORS.iter().filter(|(name, _)| exported(name)) {
        let mut worst = Worst::new();
        for capture in captures.iter().filter(|capture| all(capture)) {
            let times = times(*translate, plain, &capture.symbols, &mut lent);
            worst.meet(line(name, capture, times), capture.name);
        }
        worst.print(name);
    }
}

/// Prints the nanoseconds of a symbol and returns the ratio.
fn line(name: &str, capture: &Capture, (ours, plain): (f64, f64)) -> f64 {
    let each = |seconds: f64| seconds / capture.symbols.len() as f64 * 1e9;
    println!(
        "{name:<22} {:<14} {:>9.3} ns {:>9.3} ns {:>7.3}",
        capture.name,
        each(ours),
        each(plain),
        ours / plain
    );
    ours / plain
}

/// Seconds of the translator and of the loop, by turns, once both have given the same numbers.
fn times(
    translate: Translate,
    plain: Lookup,
    symbols: &[u8],
    [ours, theirs]: &mut [Vec<u8>; 2],
) -> (f64, f64) {
    let answer = translate(symbols, ours);
    assert_eq!(answer.number, 0, "{}", meaning(answer.number));
    let table = table(symbols, ours);
    plain(symbols, &table, theirs);
    assert!(ours == theirs, "the loop gives other numbers");
    let ours = || {
        black_box(translate(black_box(symbols), black_box(ours)));
    };
    let plain = || plain(black_box(symbols), black_box(&table), black_box(theirs));
    let (ours, plain) = clock::beside(ours, Some(plain));
    (ours, plain.unwrap_or(f64::INFINITY))
}

/// The number that each value has in a translated capture; 0 where it does not occur.
fn table(symbols: &[u8], numbers: &[u8]) -> [u8; 256] {
    let mut table = [0; 256];
    for (symbol, number) in symbols.iter().zip(numbers) {
        table[usize::from(*symbol)] = *number;
    }
    table
}
