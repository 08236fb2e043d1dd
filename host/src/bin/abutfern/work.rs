//! Rates the files side by side and prints them in the order given.

use crate::arguments::Rate;
use crate::progress::Progress;
use crate::rate::{Lent, Rated, rate};
use crate::records::Records;
use crate::{failure, files, json, names, streams, table};
use std::collections::BTreeMap;
use std::path::Path;
use std::sync::atomic::{AtomicUsize, Ordering};
use std::sync::mpsc::{Receiver, Sender, channel};

/// Rates every file; true if each of them has a board figure, and the records are written.
pub fn rate_all(call: &Rate) -> bool {
    let Some(out) = &call.records else {
        return each_rated(call, &mut None);
    };
    let mut records = Records::to(&out.file, out.kind);
    if records.is_none() {
        return false;
    }
    let good = each_rated(call, &mut records);
    records.is_some_and(Records::keep) && good
}

/// Rates every file, prints it and takes its records; true if each has a board figure.
fn each_rated(call: &Rate, records: &mut Option<Records>) -> bool {
    let jobs = call.jobs.min(call.files.len());
    let progress = Progress::new(call.files.len(), jobs);
    let next = AtomicUsize::new(0);
    let (done, ratings) = channel();
    std::thread::scope(|scope| {
        for job in 0..jobs {
            let (progress, next, done) = (&progress, &next, done.clone());
            scope.spawn(move || work(job, call, progress, next, &done));
        }
        drop(done);
        print_in_order(call, &progress, ratings, records)
    })
}

/// Takes one file after the other until none is left.
fn work(
    job: usize,
    call: &Rate,
    progress: &Progress,
    next: &AtomicUsize,
    done: &Sender<(usize, Rated)>,
) {
    let mut lent = Lent::new();
    loop {
        let i = next.fetch_add(1, Ordering::Relaxed);
        let Some(file) = call.files.get(i) else {
            return;
        };
        let started = |what: &str| progress.at(job, format!("{} ({what})", names::shown(file)));
        started("reading");
        let rated = files::read(file).map(|capture| {
            rate(
                &capture.symbols,
                capture.length,
                call.width,
                &mut lent,
                started,
            )
        });
        progress.done(job);
        if done.send((i, rated)).is_err() {
            return;
        }
    }
}

/// Prints each rating once all before it are printed; true if each has a figure.
fn print_in_order(
    call: &Rate,
    progress: &Progress,
    ratings: Receiver<(usize, Rated)>,
    records: &mut Option<Records>,
) -> bool {
    let mut waiting = BTreeMap::new();
    let mut good = true;
    let mut printed = 0;
    for (i, rated) in ratings {
        waiting.insert(i, rated);
        while let Some(rated) = waiting.remove(&printed) {
            let file = &call.files[printed];
            good &= progress.aside(|| print(file, &rated, call));
            if let Some(records) = records {
                records.add(file, &rated);
            }
            printed += 1;
        }
    }
    good
}

/// Prints one rating; true if it has a figure. The program ends where it cannot be printed.
fn print(file: &Path, rated: &Rated, call: &Rate) -> bool {
    let text = match rated {
        Ok(rating) if call.json => json::text(&file.to_string_lossy(), rating),
        Ok(rating) => table::text(&names::shown(file), rating),
        Err(error) => failure::told(file, error, call.json),
    };
    if !streams::print(&text) {
        if let Some(out) = &call.records {
            streams::say(&format!("{} {NOT_ALL}", names::shown(&out.file)));
        }
        std::process::exit(1);
    }
    rated.as_ref().is_ok_and(|rating| rating.figure.number == 0)
}

const NOT_ALL: &str =
    "is not written, since standard output could not be: mend that and rate again";
