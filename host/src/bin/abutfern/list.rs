//! A row of records as a table for people.

use crate::row::{Bad, Record, Row};
use crate::table::{grouped, local, rounded_down};
use crate::winner;
use abutfern::Answer;
use abutfern::numbers::meaning;

/// The table of one file.
pub fn text(file: &str, row: &Row) -> String {
    let count = match row.records.len() {
        0 => "no records".to_string(),
        1 => "1 record".to_string(),
        count => format!("{} records", grouped(count as u64)),
    };
    let more = row.bad.as_ref().map_or("", |_| " before the first bad one");
    let mut text = format!("{file}: {count}{more}\n\n");
    if !row.records.is_empty() {
        text += HEADER;
        for (place, record) in row.records.iter().enumerate() {
            text += &line(place as u64, record);
        }
        text += "\n";
    }
    text
}

const HEADER: &str = concat!(
    "  record       byte  kind  answer     k       place            C            N  longest run",
    "  rounds   p_global   p_global'   p_local  min-entropy  winner\n"
);

fn line(place: u64, record: &Record) -> String {
    let [k, at, c, n, run, rounds, global, upper, local, entropy] = cells(&record.answer);
    let (answer, reason) = words(record.answer.number);
    let (place, byte) = (grouped(place), grouped(record.byte));
    let head = format!("{place:>6} {byte:>10}  {:>4}", record.kind);
    let counts = format!("{k:>4} {at:>11} {c:>12} {n:>12} {run:>12} {rounds:>7}");
    let floats = format!("{global:>9}  {upper:>10} {local:>9}  {entropy:>11}");
    let winner = winner::recorded(record.winner);
    format!("  {head}  {answer:<7} {counts}  {floats}  {winner}{reason}\n")
}

/// What an answer has, from k to the min-entropy; a dash for what it has not.
fn cells(answer: &Answer) -> [String; 10] {
    let e = &answer.estimate;
    let dash = || "-".to_string();
    if answer.number == 0 {
        return [
            grouped(answer.k),
            dash(),
            grouped(e.c),
            grouped(e.n),
            grouped(e.max_run_len),
            grouped(answer.rounds),
            format!("{:.6}", e.p_global),
            format!("{:.7}", e.p_global_prime),
            local(e.p_local),
            rounded_down(e.min_entropy),
        ];
    }
    let mut cells = std::array::from_fn(|_| dash());
    if answer.number == 3 {
        cells[1] = grouped(answer.place);
    }
    cells
}

/// An answer number in a word, and why it is not 0.
fn words(number: u64) -> (&'static str, String) {
    match number {
        0 => ("done", String::new()),
        6 => ("not run", "  too few samples (answer 6)".to_string()),
        _ => (
            "refused",
            format!("  {} (answer {number})", meaning(number)),
        ),
    }
}

/// The first bad record, in words.
pub fn bad(bad: &Bad) -> String {
    format!(
        "has a bad record at place {}, byte {}: {} (answer {}); get the file anew from where it \
         was written",
        grouped(bad.place),
        grouped(bad.byte),
        bad.reason,
        bad.number
    )
}
