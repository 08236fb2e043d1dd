//! The proved libraries: made by host/prove, unless the archives at hand are made from the crates
//! as they are, and linked. Their symbol indexes say which functions exist.

use crate::{arm, given, read, run, terminal, write};
use std::fs::File;
use std::path::{Path, PathBuf};
use std::process::Command;

/// The archives' names.
const LIBRARIES: [&str; 2] = ["abutfern", "repetition"];

/// The crates that are made into archives.
const CRATES: [&str; 2] = ["abutfern", "repetition_c"];

/// Where the tests find the archives' paths.
const LINKED: [&str; 2] = ["ABUTFERN_LINKED", "ABUTFERN_REPETITION_LINKED"];

/// Links the libraries of this repository, or the archive that `ABUTFERN_ARCHIVE` names and the one
/// beside it.
pub fn link(repository: &Path) {
    println!("cargo::rustc-check-cfg=cfg(exported, values(any()))");
    let archives = match given("ABUTFERN_ARCHIVE") {
        Some(archive) => pair(archive),
        None if repository.join("crates/abutfern").is_dir() => make(repository),
        None => return,
    };
    for (archive, variable) in archives.iter().zip(LINKED) {
        println!("cargo::rustc-env={variable}={}", archive.display());
        link_one(archive);
    }
}

/// The archive that was given, and the other, which host/prove made with it.
fn pair(archive: PathBuf) -> [PathBuf; 2] {
    let other = archive.with_file_name("librepetition.a");
    for archive in [&archive, &other] {
        println!("cargo::rerun-if-changed={}", archive.display());
    }
    assert!(
        other.is_file(),
        "ABUTFERN_ARCHIVE names {}, and there is no librepetition.a beside it: put the one there \
         that host/prove made with it, or unset ABUTFERN_ARCHIVE",
        archive.display()
    );
    [archive, other]
}

fn link_one(archive: &Path) {
    let folder = archive.parent().expect("an archive stands in a folder");
    println!("cargo::rustc-link-search=native={}", folder.display());
    println!("cargo::rustc-link-lib=static:+verbatim={}", name(archive));
    for symbol in symbols(archive) {
        if let Some(function) = symbol.strip_prefix("abutfern_") {
            println!("cargo::rustc-cfg=exported=\"{function}\"");
        }
    }
}

fn name(archive: &Path) -> String {
    let name = archive.file_name().expect("an archive has a name");
    name.to_string_lossy().into_owned()
}

/// The archives in a folder.
fn within(folder: &Path) -> [PathBuf; 2] {
    LIBRARIES.map(|library| folder.join(format!("lib{library}.a")))
}

/// The archives for the machine that this build runs on. `rt` writes them for x86-64.
fn make(repository: &Path) -> [PathBuf; 2] {
    let kept = repository.join("host/target/proved");
    let archives = within(&kept);
    let [crates, order, proof] =
        ["crates", "crates.txt", "host/prove"].map(|name| repository.join(name));
    for path in [&crates, &order, &proof].into_iter().chain(&archives) {
        println!("cargo::rerun-if-changed={}", path.display());
    }
    let mut prove = Command::new("sh");
    prove.arg(proof);
    if let Some(terminal) = terminal::of_cargo() {
        prove.stderr(terminal);
    }
    run(&mut prove, PROVED);
    for archive in &archives {
        date_back(archive, &order);
    }
    if std::env::consts::ARCH == "aarch64" {
        return for_arm(repository, &kept);
    }
    archives
}

const PROVED: &str = "the libraries are proved and built by `rt`, of the Rattle toolchain";

/// Gives an archive the time of an older file. Cargo takes what is newer than the beginning of a
/// build for changed since, and the next build would be done once more.
fn date_back(archive: &Path, older: &Path) {
    let time = std::fs::metadata(older).and_then(|data| data.modified());
    let file = File::options().append(true).open(archive);
    let dated = file.and_then(|file| file.set_modified(time?));
    dated.unwrap_or_else(|error| panic!("{}: {error}", archive.display()));
}

/// The archives for Arm, made anew where the others were. What is proved already `rt` does not
/// prove again, but for the last crate of each.
fn for_arm(repository: &Path, kept: &Path) -> [PathBuf; 2] {
    let folder = kept.join("aarch64");
    let own = within(&folder);
    let sources = read(&kept.join("sources"));
    let made_from = folder.join("sources");
    let found = std::fs::read_to_string(&made_from).unwrap_or_default();
    if found != sources || !own.iter().all(|archive| archive.is_file()) {
        for (archive, name) in own.iter().zip(CRATES) {
            arm::make(&repository.join("crates").join(name), archive);
        }
        write(&made_from, &sources);
    }
    own
}

/// The names in an archive's symbol index: its first member, a big-endian count, as many offsets
/// of four bytes, then the names, each ended by a zero byte.
fn symbols(archive: &Path) -> Vec<String> {
    let bytes = std::fs::read(archive).unwrap_or_else(|e| panic!("{}: {e}", archive.display()));
    let index = bytes.get(68..).unwrap_or(&[]);
    assert!(
        bytes.starts_with(b"!<arch>\n/ "),
        "{} has no symbol index",
        archive.display()
    );
    let count = u32::from_be_bytes(index[..4].try_into().expect("four bytes")) as usize;
    let names = index[4 + 4 * count..].split(|byte| *byte == 0).take(count);
    names
        .map(|name| String::from_utf8_lossy(name).into_owned())
        .collect()
}
