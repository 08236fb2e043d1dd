//! The best time of several repeats.

use std::time::Instant;

/// Seconds of the quickest of three repeats or more, fewer where one takes over three seconds.
pub fn best(run: impl FnMut()) -> f64 {
    beside(run, None::<fn()>).0
}

/// The same of two that take turns, so that what else the machine does weighs on both alike.
pub fn beside(mut ours: impl FnMut(), mut rust: Option<impl FnMut()>) -> (f64, Option<f64>) {
    let mut times = (f64::INFINITY, f64::INFINITY);
    let mut total = 0.0;
    let mut repeats = 0;
    while repeats == 0 || (total < 3.0 && repeats < 3) || (total < 1.0 && repeats < 1000) {
        let seconds = once(&mut ours);
        times.0 = times.0.min(seconds);
        total += seconds;
        if let Some(rust) = &mut rust {
            times.1 = times.1.min(once(rust));
        }
        repeats += 1;
    }
    (times.0, rust.map(|_| times.1))
}

fn once(run: &mut impl FnMut()) -> f64 {
    let start = Instant::now();
    run();
    start.elapsed().as_secs_f64()
}
