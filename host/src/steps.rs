//! The steps of the shared estimate once more, over the Rust's arithmetic or the library's, with
//! a record of every p evaluated and of how the bisection ended.

use crate::numbers::ROUND_LIMIT;
use crate::reference::prediction::rel_epsilon_equal;

/// The two functions in which the Rust and the library differ.
pub trait Arithmetic {
    fn ln(x: f64) -> f64;
    fn power(x: f64, n: u64) -> f64;
}

/// As the Rust has them.
pub struct Rust;

impl Arithmetic for Rust {
    fn ln(x: f64) -> f64 {
        x.ln()
    }
    fn power(x: f64, n: u64) -> f64 {
        x.powf(n as f64)
    }
}

/// As the library has them.
pub struct Library;

impl Arithmetic for Library {
    fn ln(x: f64) -> f64 {
        crate::ln(x)
    }
    fn power(x: f64, n: u64) -> f64 {
        crate::power(x, n)
    }
}

/// How a bisection ended.
#[derive(Clone, Copy, Debug, PartialEq, Eq)]
pub enum End {
    /// The value is close to ln 0.99.
    Equal,
    /// An interval check failed, or the bounds met.
    Interval,
    /// The middle came back.
    Cycle,
    /// All rounds were used.
    Rounds,
}

/// A bisection and its record.
#[derive(Clone, Copy, Debug)]
pub struct Bisection {
    pub p: f64,
    pub rounds: u64,
    pub end: End,
    /// The upper bound less the lower, at the end.
    pub apart: f64,
    /// The largest p evaluated.
    pub highest: f64,
}

/// The function of p, for r = longest run + 1.
pub fn function<A: Arithmetic>(p: f64, r: u64, n: u64) -> f64 {
    let (run, predictions) = (r as f64, n as f64);
    let q = 1.0 - p;
    let mut x = 1.0;
    let mut last = 0.0;
    let mut updates = 0;
    while updates <= 65 && x - last > f64::EPSILON * x {
        last = x;
        x = 1.0 + q * A::power(p, r) * A::power(x, r + 1);
        updates += 1;
    }
    A::ln(1.0 - p * x) - A::ln((run + 1.0 - run * x) * q) - (predictions + 1.0) * A::ln(x)
}

/// The bisection over ldomain..1.
pub fn bisect<A: Arithmetic>(max_run_len: u64, n: u64, ldomain: f64) -> Bisection {
    let target = A::ln(0.99);
    let value = |p: f64| function::<A>(p, max_run_len + 1, n);
    let (mut low, mut high) = (ldomain, 1.0);
    let (mut low_value, mut high_value) = (f64::INFINITY, f64::NEG_INFINITY);
    let mut p = (low + high) / 2.0;
    let mut found = value(p);
    let mut highest = p;
    let mut rounds = 0;
    let mut end = End::Rounds;
    while rounds < ROUND_LIMIT {
        rounds += 1;
        if rel_epsilon_equal(found, target, f64::MIN_POSITIVE, f64::EPSILON, 4) {
            end = End::Equal;
            break;
        }
        if target < found {
            (low, low_value) = (p, found);
        } else {
            (high, high_value) = (p, found);
        }
        if let Some(stop) = stopped(low, high, ldomain) {
            (p, end) = (stop, End::Interval);
            break;
        }
        if !closed(target, low_value, high_value) {
            (p, end) = (1.0, End::Interval);
            break;
        }
        let last = p;
        p = (low + high) / 2.0;
        if !open(p, low, high) || last == p {
            end = if open(p, low, high) {
                End::Cycle
            } else {
                End::Interval
            };
            p = high;
            break;
        }
        found = value(p);
        highest = highest.max(p);
        if !closed(found, low_value, high_value) {
            (p, end) = (high, End::Interval);
            break;
        }
    }
    Bisection {
        p,
        rounds,
        end,
        apart: high - low,
        highest,
    }
}

/// The result where the bounds have met or left the domain.
fn stopped(low: f64, high: f64, ldomain: f64) -> Option<f64> {
    if low >= high {
        return Some(low.max(high).min(1.0));
    }
    let inside = closed(low, ldomain, 1.0) && closed(high, ldomain, 1.0);
    (!inside).then_some(1.0)
}

fn closed(x: f64, a: f64, b: f64) -> bool {
    if a > b {
        x >= b && x <= a
    } else {
        x >= a && x <= b
    }
}

fn open(x: f64, a: f64, b: f64) -> bool {
    if a > b {
        x > b && x < a
    } else {
        x > a && x < b
    }
}

/// What the estimate does for p_local from the largest of 1/k and p_global'.
#[derive(Clone, Copy, Debug)]
pub struct Local {
    /// The function there, and how far it is above ln 0.99; None where it is 1.
    pub above: Option<f64>,
    /// The bisection, if that is above 0.
    pub solved: Option<Bisection>,
    /// The largest p evaluated.
    pub highest: f64,
}

impl Local {
    /// p_local: -1.0 unless solved.
    pub fn p_local(&self) -> f64 {
        self.solved.map_or(-1.0, |solved| solved.p)
    }
}

/// Whether p_local is looked for, and how.
pub fn local<A: Arithmetic>(largest: f64, max_run_len: u64, n: u64) -> Local {
    if largest.partial_cmp(&1.0) != Some(std::cmp::Ordering::Less) {
        return Local {
            above: None,
            solved: None,
            highest: 0.0,
        };
    }
    let value = function::<A>(largest, max_run_len + 1, n);
    let target = A::ln(0.99);
    let solved = (value > target).then(|| bisect::<A>(max_run_len, n, largest));
    let highest = solved.map_or(largest, |solved| solved.highest.max(largest));
    Local {
        above: Some(value - target),
        solved,
        highest,
    }
}
