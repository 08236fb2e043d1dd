//! Shows the records of files.

use crate::arguments::Show;
use crate::row::{self, Row};
use crate::{json, list, names, streams};
use std::path::Path;

/// Shows every file; true if each could be read and has no bad record.
pub fn show_all(call: &Show) -> bool {
    let mut good = true;
    for file in &call.files {
        good &= print(file, &row::read(file), call.json);
    }
    good
}

/// Prints one file; true if all of it is good. The program ends where it cannot be printed.
fn print(file: &Path, row: &Result<Row, String>, as_json: bool) -> bool {
    let (shown, name) = (names::shown(file), file.to_string_lossy());
    let (text, wrong) = match row {
        Ok(row) if as_json => (json::records(&name, row), row.bad.as_ref().map(list::bad)),
        Ok(row) => (list::text(&shown, row), row.bad.as_ref().map(list::bad)),
        Err(error) if as_json => (json::failure(&name, error), Some(error.clone())),
        Err(error) => (String::new(), Some(error.clone())),
    };
    if !streams::print(&text) {
        std::process::exit(1);
    }
    if let Some(wrong) = &wrong {
        streams::say(&format!("{shown} {wrong}"));
    }
    wrong.is_none()
}
