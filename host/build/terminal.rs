//! The terminal that cargo's own words go to. Cargo keeps what a build script says from the user
//! unless the script fails, and a proof takes minutes.

use std::fs::File;
use std::io::IsTerminal;
use std::os::unix::process::parent_id;

/// Cargo's standard error, if that is a terminal.
pub fn of_cargo() -> Option<File> {
    let link = format!("/proc/{}/fd/2", parent_id());
    let device = std::fs::read_link(link).ok()?;
    if !device.starts_with("/dev") {
        return None;
    }
    let file = File::options().write(true).open(device).ok()?;
    file.is_terminal().then_some(file)
}
