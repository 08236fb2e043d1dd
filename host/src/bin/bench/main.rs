//! The benchmark: the library's time over the Rust's in the same run, that of the translators over a
//! plain loop's, that of the repetition test, and how the library's time grows with the capture.

mod calls;
mod captures;
mod clock;
mod crafted;
mod files;
mod lookup;
mod records;
mod repetition;
mod sources;
mod track;
mod worst;

use abutfern::exported;
use captures::{Capture, captures};
use std::process::ExitCode;
use track::{Lent, TRACKS, Track};
use worst::Worst;

const HELP: &str = "\
bench: the library's time beside the Rust's, both built for release

  bench [--symbols N] [--only NAME] [--grow]

  --symbols N   symbols in a capture (default 1000000)
  --only NAME   one function, as multi_mcw_literal, or lookup: the translators beside a plain
                loop in C over a table of 256, or calls: the functions of numbers, or records: a
                row of 1,000,000 of each kind, or repetition: the repetition test, a call a sample
  --grow        the library's time for 10,000 to 16,777,216 symbols instead; a length that would
                take over five minutes is left out

The best of several repeats is printed. The output and the work space are lent by the benchmark;
the Rust allocates its own in each call.
";

const LENGTHS: [usize; 4] = [10_000, 100_000, 1_000_000, 16_777_216];

/// A length that would take more seconds, going by the length before it, is left out.
const PATIENCE: f64 = 300.0;

fn main() -> ExitCode {
    let (mut symbols, mut only, mut grow) = (1_000_000, None, false);
    let mut words = std::env::args().skip(1);
    while let Some(word) = words.next() {
        match word.as_str() {
            "--grow" => grow = true,
            "--only" => only = words.next(),
            "--symbols" => match words.next().and_then(|word| word.parse().ok()) {
                Some(number) => symbols = number,
                None => return help(2),
            },
            "--help" | "-h" => return help(0),
            _ => return help(2),
        }
    }
    let wanted = |name: &str| only.as_ref().is_none_or(|only| only == name);
    let tracks: Vec<&Track> = TRACKS.iter().filter(|track| wanted(track.name)).collect();
    if grow {
        growth(&tracks);
    } else {
        if !tracks.is_empty() {
            ratios(&tracks, symbols);
        }
        if wanted("lookup") {
            lookup::print(symbols);
        }
        if wanted("calls") {
            calls::print();
        }
        if wanted("records") {
            records::print();
        }
        if wanted("repetition") {
            repetition::print(symbols);
        }
    }
    ExitCode::SUCCESS
}

fn help(status: u8) -> ExitCode {
    print!("{HELP}");
    ExitCode::from(status)
}

/// One line for each track and capture, and the worst ratio of each track with where it was.
fn ratios(tracks: &[&Track], length: usize) {
    let captures = captures(length);
    let mut lent = Lent::new(length);
    println!("{length} symbols                              ours         Rust   ratio");
    for track in tracks.iter().filter(|track| exported(track.name)) {
        let mut worst = Worst::new();
        for capture in captures.iter().filter(|capture| (track.takes)(capture)) {
            let ratio = line(track, capture, &mut lent);
            worst.meet(ratio.unwrap_or(0.0), capture.name);
        }
        worst.print(track.title);
    }
}

fn line(track: &Track, capture: &Capture, lent: &mut Lent) -> Option<f64> {
    let (ours, rust) = track.times(capture, lent);
    print!(
        "{:<22} {:<14} {}",
        track.title,
        capture.name,
        milliseconds(ours)
    );
    let Some(rust) = rust else {
        println!("            -       -");
        return None;
    };
    println!(" {} {:>7.3}", milliseconds(rust), ours / rust);
    Some(ours / rust)
}

fn milliseconds(seconds: f64) -> String {
    format!("{:>9.3} ms", seconds * 1e3)
}

/// Nanoseconds per symbol at each length: a level row is linear growth.
fn growth(tracks: &[&Track]) {
    print!("nanoseconds per symbol                ");
    for length in LENGTHS {
        print!("{length:>12}");
    }
    println!();
    let most = LENGTHS[LENGTHS.len() - 1];
    let captures = captures(most);
    let mut lent = Lent::new(most);
    for track in tracks.iter().filter(|track| exported(track.name)) {
        for capture in captures.iter().filter(|capture| (track.takes)(capture)) {
            print!("{:<22} {:<15}", track.title, capture.name);
            grown(track, capture, &mut lent);
            println!();
        }
    }
}

/// The row of one track and capture.
fn grown(track: &Track, capture: &Capture, lent: &mut Lent) {
    let mut each = 0.0;
    for length in LENGTHS {
        if each * length as f64 > PATIENCE {
            print!("{:>12}", "-");
            continue;
        }
        let part = Capture {
            name: capture.name,
            symbols: capture.symbols[..length].to_vec(),
            ..*capture
        };
        let seconds = clock::best(|| (track.ours)(&part, lent));
        each = seconds / length as f64;
        print!("{:>12.2}", each * 1e9);
    }
}
