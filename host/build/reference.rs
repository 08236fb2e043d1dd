//! The Rust that the library was ported from, compiled unchanged: its three modules, and of its
//! root the constant and the two alphabet functions that they need. Nothing of it is committed.

use crate::{given, read, run, variable, write};
use std::path::{Path, PathBuf};
use std::process::Command;

/// Where the sources stand beside the repository, unless `ABUTFERN_REFERENCE` names a folder.
const SOURCES: &str = "../shared/docs/src";

/// Caps at which a copy of MultiMMC is built besides, with that one constant changed.
const SMALL_CAPS: std::ops::RangeInclusive<u32> = 1..=20;

/// Compiles the sources as the crate `reference`, if they are there.
pub fn link(repository: &Path) {
    println!("cargo::rustc-check-cfg=cfg(has_reference)");
    let sources = given("ABUTFERN_REFERENCE").unwrap_or_else(|| repository.join(SOURCES));
    println!("cargo::rerun-if-changed={}", sources.display());
    if !sources.join("lib.rs.txt").is_file() {
        return;
    }
    let folder = PathBuf::from(variable("OUT_DIR")).join("reference");
    std::fs::create_dir_all(&folder).expect("OUT_DIR can be written");
    compile(&write_crate(&sources, &folder), &folder);
    println!("cargo::rustc-link-search={}", folder.display());
    println!("cargo::rustc-cfg=has_reference");
}

/// Copies the modules, writes the root that they need, and returns the root's path.
fn write_crate(sources: &Path, folder: &Path) -> PathBuf {
    let module = |name: &str| read(&sources.join(format!("{name}.rs.txt")));
    let mut root = String::from("pub mod multi_mcw;\npub mod multi_mmc;\npub mod prediction;\n");
    for name in ["multi_mcw", "multi_mmc", "prediction"] {
        write(&folder.join(format!("{name}.rs")), &module(name));
    }
    let mut table = entry("100_000", "multi_mmc");
    for cap in SMALL_CAPS {
        let name = format!("multi_mmc_cap_{cap}");
        write(
            &folder.join(format!("{name}.rs")),
            &capped(&module("multi_mmc"), cap),
        );
        root += &format!("mod {name};\n");
        table += &entry(&cap.to_string(), &name);
    }
    root += &format!("{CAPPED}{table}];\n");
    let lib = module("lib");
    root += &cut(&lib, "pub const Z_995", ";");
    root += &cut(&lib, "pub(crate) fn dense_alphabet", "\n}\n");
    root += &cut(&lib, "pub(crate) fn value_sorted_alphabet", "\n}\n");
    root += &cut(&module("multi_mcw"), "fn to_bitstring", "\n}\n");
    root += DOORS;
    let path = folder.join("lib.rs");
    write(&path, &root);
    path
}

/// What the crate shows of the functions that its sources keep to themselves.
const DOORS: &str = "
pub fn dense(symbols: &[u8]) -> (Vec<u8>, usize) {
    dense_alphabet(symbols)
}
pub fn value_sorted(symbols: &[u8]) -> (Vec<u8>, usize) {
    value_sorted_alphabet(symbols)
}
pub fn bitstring(symbols: &[u8], bits_per_symbol: u8) -> Vec<u8> {
    to_bitstring(symbols, bits_per_symbol)
}
";

/// The table of the caps and of what MultiMMC on literals estimates with them.
const CAPPED: &str = "
pub type Capped = (usize, fn(&[u8]) -> prediction::PredictionEstimate);
pub const CAPPED: &[Capped] = &[
";

fn entry(cap: &str, module: &str) -> String {
    format!("    ({cap}, |symbols| {module}::multimmc_literal(symbols).estimate),\n")
}

/// The text of one item, from its first words to its end.
fn cut(text: &str, first: &str, end: &str) -> String {
    let start = text
        .find(first)
        .unwrap_or_else(|| panic!("the sources have no `{first}`"));
    let length = text[start..]
        .find(end)
        .unwrap_or_else(|| panic!("`{first}` has no end"));
    format!("{}{end}\n", &text[start..start + length])
}

/// The MultiMMC module with another cap.
fn capped(module: &str, cap: u32) -> String {
    let constant = "const MAX_ENTRIES: i64 = 100_000;";
    assert!(module.contains(constant), "the sources have no cap");
    module.replace(constant, &format!("const MAX_ENTRIES: i64 = {cap};"))
}

fn compile(root: &Path, folder: &Path) {
    let mut rustc = Command::new(variable("RUSTC"));
    rustc.args([
        "--crate-name",
        "reference",
        "--crate-type",
        "rlib",
        "--edition",
        "2024",
    ]);
    rustc.args([
        "-C",
        "opt-level=3",
        "-C",
        "codegen-units=1",
        "--cap-lints",
        "allow",
    ]);
    rustc.arg("--out-dir").arg(folder).arg(root);
    run(&mut rustc, "these are the sources that the port came from");
}
