//! Records of each kind: a row of them read by one call, beside a sum over the same bytes, and written
//! by one call each.

use crate::clock;
use abutfern::random::Random;
use abutfern::{Answer, NAMED_RECORD_KIND, NAMED_RECORD_SIZE, RECORD_KIND, RECORD_SIZE, exported};
use std::hint::black_box;

const RECORDS: usize = 1_000_000;

/// How many different answers the records hold.
const ANSWERS: usize = 4_096;

/// A kind of record and its bytes.
#[derive(Clone, Copy)]
struct Kind {
    kind: u64,
    size: usize,
}

const KINDS: [Kind; 2] = [
    Kind {
        kind: RECORD_KIND,
        size: RECORD_SIZE,
    },
    Kind {
        kind: NAMED_RECORD_KIND,
        size: NAMED_RECORD_SIZE,
    },
];

/// Prints what exists, in each kind: for records that all ran, and for a row in which one in four is
/// a refusal, in no order.
pub fn print() {
    if !exported("write_record") {
        return;
    }
    for kind in KINDS {
        for (title, refused) in [("all ran", 0), ("1 in 4 refused", 1)] {
            let number = kind.kind;
            let head = format!("{RECORDS} of kind {number}, {title}");
            println!("\n{head:<37}   one record        speed   ratio");
            print_row(kind, refused);
        }
    }
}

/// Prints the times of a row of one kind, in which `refused` in four are refusals.
fn print_row(kind: Kind, refused: u64) {
    let mut random = Random::new(1);
    let answers: Vec<Answer> = (0..ANSWERS).map(|_| answer(&mut random, refused)).collect();
    let order: Vec<usize> = (0..RECORDS).map(|_| random.index(ANSWERS)).collect();
    let mut row = vec![0; RECORDS * kind.size];
    let written = clock::best(|| write(&answers, &order, kind, black_box(&mut row)));
    if exported("read_records") {
        let found = abutfern::read_records(&row);
        assert_eq!((found.good, found.number), (RECORDS as u64, 0));
        read(&row, kind);
    }
    println!("{}", line("write_record, one call each", written, kind));
}

/// Prints the reader's time and that of the sum, by turns, and how many of the sum's it takes.
fn read(row: &[u8], kind: Kind) {
    let ours = || {
        black_box(abutfern::read_records(black_box(row)));
    };
    let sum = || {
        black_box(sum(black_box(row)));
    };
    let (ours, sum) = clock::beside(ours, Some(sum));
    let sum = sum.unwrap_or(f64::INFINITY);
    println!(
        "{} {:>7.3}",
        line("read_records, one call", ours, kind),
        ours / sum
    );
    println!("{}", line("a sum of the same words", sum, kind));
}

/// One title with the nanoseconds of a record and the bytes of a second.
fn line(title: &str, seconds: f64, kind: Kind) -> String {
    let each = seconds / RECORDS as f64 * 1e9;
    let speed = kind.size as f64 / each;
    format!("{title:<37} {each:>9.3} ns {speed:>7.2} GB/s")
}

/// The sum of the words: what it takes to have the bytes from memory.
fn sum(bytes: &[u8]) -> u64 {
    let words = bytes
        .chunks_exact(8)
        .filter_map(|word| word.try_into().ok());
    words.map(u64::from_le_bytes).fold(0, u64::wrapping_add)
}

fn write(answers: &[Answer], order: &[usize], kind: Kind, row: &mut [u8]) {
    for (i, record) in order.iter().zip(row.chunks_exact_mut(kind.size)) {
        let written = abutfern::write_record(&answers[*i], true, kind.kind, record);
        black_box(written);
    }
}

/// An estimate of random counts with a winner, or, `refused` times in four, a refusal of any number.
fn answer(random: &mut Random, refused: u64) -> Answer {
    let n = random.of_any_size(100_000_000);
    let c = random.below(n + 1);
    let run = c.min(1 + random.below(40));
    let mut answer = abutfern::prediction_estimate(c, n, run, 1 + random.below(256));
    answer.winner = 1 + random.below(16);
    answer.score = random.below(n + 1);
    if random.chance(refused, 4) {
        answer = abutfern::prediction_estimate(0, 0, 0, 0);
        answer.number = 1 + random.below(6);
    }
    if answer.number == 3 {
        answer.place = random.below(16_777_216);
    }
    answer
}
