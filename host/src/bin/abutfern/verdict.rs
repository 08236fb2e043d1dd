//! What the repetition count test heard, in words.

use crate::repetition::{First, Heard};
use crate::table::{counted, grouped};

/// The text of one file.
pub fn text(file: &str, heard: &Heard) -> String {
    let cutoff = grouped(heard.cutoff);
    let alarm = match &heard.first {
        None => format!("none, since nowhere are {cutoff} samples in a row equal\n"),
        Some(first) => alarm(first, heard),
    };
    let samples = counted(heard.samples, "sample");
    let entropy = format!("{}/64 bits of min-entropy", heard.sixty_fourths);
    format!("{file}: {samples}, cutoff {cutoff} for {entropy} per sample\n\n  alarm: {alarm}\n")
}

fn alarm(first: &First, heard: &Heard) -> String {
    format!(
        "first at place {}, where {} samples in a row have the value {}\n    \
         it stands after {}, in {}\n",
        grouped(first.place),
        grouped(heard.cutoff),
        first.value,
        counted(heard.alarms, "sample"),
        counted(heard.runs, "run")
    )
}
