//! What was compared, how much of it differs, and how long a kind of case may go on.

use std::collections::BTreeMap;
use std::time::{Duration, Instant};

/// How many differences of a kind are printed.
const SHOWN: usize = 3;

/// The count of one kind of case.
pub struct Tally {
    kind: String,
    compared: u64,
    differ: u64,
    first: Vec<String>,
    notes: BTreeMap<&'static str, u64>,
    remarks: Vec<String>,
}

impl Tally {
    /// An empty count.
    pub fn new(kind: &str) -> Self {
        Self {
            kind: kind.to_string(),
            compared: 0,
            differ: 0,
            first: Vec::new(),
            notes: BTreeMap::new(),
            remarks: Vec::new(),
        }
    }

    /// Counts one comparison; `case` says how to repeat it if the two differ.
    pub fn check(&mut self, same: bool, case: impl FnOnce() -> String) {
        self.compared += 1;
        if same {
            return;
        }
        self.differ += 1;
        if self.first.len() < SHOWN {
            self.first.push(case());
        }
    }

    /// Counts one comparison with the faults found in it.
    pub fn judge(&mut self, faults: Vec<String>, case: impl FnOnce() -> String) {
        self.check(faults.is_empty(), || {
            format!("{}: {}", case(), faults.join("; "))
        });
    }

    /// Counts something that is said beside the comparisons.
    pub fn note(&mut self, what: &'static str) {
        *self.notes.entry(what).or_insert(0) += 1;
    }

    /// Says something once, beside the comparisons.
    pub fn remark(&mut self, text: String) {
        self.remarks.push(text);
    }

    /// Prints the count and returns how many differ.
    pub fn close(self) -> u64 {
        println!(
            "{:<58} {:>12} compared, {} differ",
            self.kind, self.compared, self.differ
        );
        for (what, count) in &self.notes {
            println!("    {count} {what}");
        }
        for remark in &self.remarks {
            println!("    {remark}");
        }
        for case in &self.first {
            println!("    differs: {case}");
        }
        self.differ
    }
}

/// The time that is left for something.
#[derive(Clone, Copy)]
pub struct Clock {
    end: Instant,
}

impl Clock {
    /// A clock that runs for some seconds from now.
    pub fn of(seconds: f64) -> Self {
        Self {
            end: Instant::now() + Duration::from_secs_f64(seconds),
        }
    }

    /// Whether the time is over.
    pub fn over(&self) -> bool {
        Instant::now() >= self.end
    }

    /// Turns until the time is over, and one in any case.
    pub fn turns(self) -> impl Iterator<Item = ()> {
        let more = std::iter::repeat(()).take_while(move |()| !self.over());
        std::iter::once(()).chain(more)
    }

    /// One of `parts` equal parts of the time left, from now.
    pub fn part(&self, parts: u32) -> Self {
        let left = self.end.saturating_duration_since(Instant::now());
        Self {
            end: Instant::now() + left / parts.max(1),
        }
    }

    /// The seconds left.
    pub fn left(&self) -> f64 {
        self.end
            .saturating_duration_since(Instant::now())
            .as_secs_f64()
    }
}

/// Every index below `total` once, in an order that spreads what a short time allows.
pub fn spread(total: u64) -> impl Iterator<Item = u64> {
    let mut stride = (total as f64 * 0.618) as u64 | 1;
    while gcd(stride, total) != 1 {
        stride += 2;
    }
    let stride = u128::from(stride);
    (0..total).map(move |i| (u128::from(i) * stride % u128::from(total)) as u64)
}

fn gcd(a: u64, b: u64) -> u64 {
    if b == 0 { a } else { gcd(b, a % b) }
}
