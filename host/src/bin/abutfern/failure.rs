//! A file that could not be rated or tested.

use crate::{json, names, streams};
use std::path::Path;

/// Says why, and returns what is printed in the place of its result.
pub fn told(file: &Path, error: &str, as_json: bool) -> String {
    streams::say(&format!("{} {error}", names::shown(file)));
    if as_json {
        json::failure(&file.to_string_lossy(), error)
    } else {
        String::new()
    }
}
