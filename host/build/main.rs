//! Builds what the package stands on: the proved libraries as archives, the Rust that was ported,
//! where its sources are at hand, and a loop in C, where there is a compiler for it.

mod archive;
mod arm;
mod plain;
mod reference;
mod terminal;

use std::path::{Path, PathBuf};
use std::process::Command;

fn main() {
    let package = PathBuf::from(variable("CARGO_MANIFEST_DIR"));
    let repository = package
        .parent()
        .expect("the package stands in the repository");
    archive::link(repository);
    reference::link(repository);
    plain::link(&package);
    println!("cargo::rerun-if-changed=build");
}

/// A variable that cargo sets for every build script.
fn variable(name: &str) -> String {
    std::env::var(name).unwrap_or_else(|_| panic!("cargo sets {name}"))
}

/// A path that the caller may give through the environment.
fn given(name: &str) -> Option<PathBuf> {
    println!("cargo::rerun-if-env-changed={name}");
    let path = std::env::var_os(name).filter(|path| !path.is_empty())?;
    Some(PathBuf::from(path))
}

/// Runs a command to its end; the build stops with `hint` if it fails.
fn run(command: &mut Command, hint: &str) {
    match command.output() {
        Ok(output) if output.status.success() => {}
        Ok(output) => panic!(
            "{command:?} failed\n{}{}\n{hint}",
            String::from_utf8_lossy(&output.stdout),
            String::from_utf8_lossy(&output.stderr)
        ),
        Err(error) => panic!("{command:?} could not be started: {error}\n{hint}"),
    }
}

/// The text of a file that the build needs.
fn read(path: &Path) -> String {
    std::fs::read_to_string(path).unwrap_or_else(|error| panic!("{}: {error}", path.display()))
}

/// Writes a file that the build makes.
fn write(path: &Path, text: &str) {
    std::fs::write(path, text).unwrap_or_else(|error| panic!("{}: {error}", path.display()));
}
