//! Runs the repetition count test over files.

use crate::arguments::Health;
use crate::repetition::{self, Heard};
use crate::{failure, json, names, streams, verdict};
use std::path::Path;

/// Tests every file; true if each was tested and has no alarm.
pub fn test_all(call: &Health) -> bool {
    let mut good = true;
    for file in &call.files {
        good &= print(file, &repetition::run(file, call.entropy), call);
    }
    good
}

/// Prints one file; true if it was tested and has no alarm. The program ends where it cannot be
/// printed.
fn print(file: &Path, tested: &Result<Heard, String>, call: &Health) -> bool {
    let text = match tested {
        Ok(heard) if call.json => json::test(&file.to_string_lossy(), call.entropy, heard),
        Ok(heard) => verdict::text(&names::shown(file), heard),
        Err(error) => failure::told(file, error, call.json),
    };
    if !streams::print(&text) {
        std::process::exit(1);
    }
    tested.as_ref().is_ok_and(|heard| heard.first.is_none())
}
