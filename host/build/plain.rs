//! The plain loop in C that the benchmark holds the translators against.

use crate::{given, run, variable};
use std::path::{Path, PathBuf};
use std::process::Command;

/// Compiles the loop with `CC`, or cc, and links it into the benchmark alone. Where the compiler
/// cannot be started, the build goes on, and the benchmark finds the reason in `NO_PLAIN_LOOP`.
pub fn link(package: &Path) {
    println!("cargo::rustc-check-cfg=cfg(has_plain_loop)");
    let source = package.join("src/bin/bench/lookup.c");
    println!("cargo::rerun-if-changed={}", source.display());
    let compiler = given("CC").unwrap_or_else(|| PathBuf::from("cc"));
    if let Err(error) = Command::new(&compiler).arg("--version").output() {
        let name = compiler.display();
        println!("cargo::rustc-env=NO_PLAIN_LOOP={name} could not be started: {error}");
        return;
    }
    let object = PathBuf::from(variable("OUT_DIR")).join("lookup.o");
    let mut compile = Command::new(compiler);
    // Not -O3: there gcc 12 gathers sixteen numbers by shifts to write them at once, and is slower.
    compile
        .args(["-O2", "-funroll-loops", "-c", "-o"])
        .arg(&object)
        .arg(&source);
    run(&mut compile, "the loop is plain C; `CC` names its compiler");
    println!("cargo::rustc-link-arg-bin=bench={}", object.display());
    println!("cargo::rustc-cfg=has_plain_loop");
}
