//! A library on an Arm machine. The toolchain compiles for x86-64 only, so the module that it
//! hands to its clang is kept and compiled once more, by the same clang, for this machine.
//!
//! The toolchain is run from a folder of links to it, in which clang is a script that keeps the
//! module; the commands themselves are copied, since they look for the toolchain where they stand.
//! Only the exported functions know the calling convention; `for_arm` rewrites these. On x86-64
//! nothing of this is used.

use crate::{read, run, write};
use std::os::unix::fs::{PermissionsExt, symlink};
use std::path::{Path, PathBuf};
use std::process::Command;

/// Runs `rt lib` in the folder of a crate and writes the archive for Arm beside the one for x86-64.
pub fn make(crate_folder: &Path, archive: &Path) {
    let folder = archive.parent().expect("an archive stands in a folder");
    std::fs::create_dir_all(folder).expect("target/ can be written");
    let kit = kit();
    let mirror = folder.join("kit");
    let module = archive.with_extension("bc");
    mirrored(&kit, &mirror, &module);
    let hint = "the library is proved and built by `rt`, of the Rattle toolchain";
    let mut rt = Command::new(mirror.join("bin/rt"));
    run(rt.arg("lib").current_dir(crate_folder), hint);
    compile(&kit.join("toolchain/bin"), &module, archive);
}

/// The folder of the toolchain: `rt doc` prints the path of a page that stands in it.
fn kit() -> PathBuf {
    let output = Command::new("rt").arg("doc").output();
    let output = output.expect("`rt`, of the Rattle toolchain, is on the path");
    let page = PathBuf::from(String::from_utf8_lossy(&output.stdout).trim());
    let folder = page.parent();
    folder.expect("`rt doc` prints a path").to_path_buf()
}

/// The files of the commands, which are copied.
const COMMANDS: [&str; 2] = ["rt", "rtlib.py"];

/// A folder of links to the toolchain, but for its commands and for clang, which keeps the module it
/// is given.
fn mirrored(kit: &Path, mirror: &Path, module: &Path) {
    let _ = std::fs::remove_dir_all(mirror);
    linked(kit, mirror, &["bin", "toolchain"]);
    let (own, copy) = (kit.join("bin"), mirror.join("bin"));
    linked(&own, &copy, &COMMANDS);
    for command in COMMANDS {
        let copied = std::fs::copy(own.join(command), copy.join(command));
        copied.expect("the toolchain can be read");
    }
    let (own, copy) = (kit.join("toolchain"), mirror.join("toolchain"));
    linked(&own, &copy, &["bin"]);
    let (own, copy) = (own.join("bin"), copy.join("bin"));
    linked(&own, &copy, &["clang"]);
    let clang = copy.join("clang");
    let script = format!(
        "#!/bin/sh\n[ -f module.bc ] && cp module.bc '{}'\nexec '{}' \"$@\"\n",
        module.display(),
        own.join("clang").display()
    );
    write(&clang, &script);
    let executable = std::fs::Permissions::from_mode(0o755);
    std::fs::set_permissions(&clang, executable).expect("a script can be made executable");
}

/// A new folder with a link to everything of another but `without`.
fn linked(folder: &Path, copy: &Path, without: &[&str]) {
    std::fs::create_dir_all(copy).expect("target/ can be written");
    for entry in std::fs::read_dir(folder).expect("the toolchain can be read") {
        let name = entry.expect("the toolchain can be read").file_name();
        if !without.iter().any(|left| name == **left) {
            symlink(folder.join(&name), copy.join(&name)).expect("target/ can hold links");
        }
    }
}

/// What the toolchain asks of clang's passes, on any machine.
const PASSES: [&str; 5] = [
    "-no-trap-after-noreturn",
    "-trap-unreachable",
    "-disable-machine-licm",
    "-disable-postra-machine-licm",
    "-sink-common-insts=false",
];

/// Compiles the kept module for Arm as the toolchain does for x86-64, and archives it.
fn compile(tools: &Path, module: &Path, archive: &Path) {
    let text = module.with_extension("ll");
    let object = module.with_extension("o");
    let hint = "this is the toolchain's own clang";
    let mut print = Command::new(tools.join("clang"));
    print.args([
        "--target=x86_64-unknown-linux-gnu",
        "-S",
        "-emit-llvm",
        "-x",
        "ir",
    ]);
    run(print.arg(module).arg("-o").arg(&text), hint);
    write(&text, &for_arm(&read(&text)));
    let mut compile = Command::new(tools.join("clang"));
    compile.args(["--target=aarch64-unknown-linux-gnu", "-O3", "-fPIC"]);
    compile.args([
        "-ffp-contract=off",
        "-ffunction-sections",
        "-fdata-sections",
    ]);
    for pass in PASSES {
        compile.args(["-mllvm", pass]);
    }
    compile.args(["-c", "-x", "ir"]);
    run(compile.arg(&text).arg("-o").arg(&object), hint);
    let _ = std::fs::remove_file(archive);
    let mut index = Command::new(tools.join("llvm-ar"));
    run(index.arg("crs").arg(archive).arg(&object), hint);
}

/// The module's text with Arm's calling convention at the exported functions, which are the ones
/// that are not internal.
fn for_arm(module: &str) -> String {
    let mut text = String::new();
    let mut exported = false;
    for line in module.lines().filter(|line| !line.starts_with("target ")) {
        if line.starts_with("define ") {
            exported = !line.starts_with("define internal ");
        }
        if exported {
            text += &called_on_arm(line);
        } else {
            text += &line.replace("\"target-cpu\"=\"x86-64-v2\"", "");
        }
        text.push('\n');
        exported &= line != "}";
    }
    text
}

/// A line of an exported function: a large result goes through the register for that, a number
/// and a float come back as two words, a large argument is a pointer to the caller's copy.
fn called_on_arm(line: &str) -> String {
    let mut line = line.replace("ret ptr %a0", "ret void");
    let gives = ["define ", "ret "]
        .iter()
        .any(|word| line.trim_start().starts_with(word));
    if gives || line.contains(" = load { i64, double }") {
        line = line.replace("{ i64, double }", "[2 x i64]");
    }
    if let Some(large) = line.strip_prefix("define noundef ptr ") {
        let result = large.replacen("(ptr noundef %a0", "(ptr noundef sret(i64) %a0", 1);
        line = format!("define void {result}");
    }
    without_byval(&line)
}

/// A line without its `byval(..) align N` marks.
fn without_byval(line: &str) -> String {
    let mut parts = line.split("byval(");
    let mut text = parts.next().unwrap_or("").to_string();
    for part in parts {
        let (_, rest) = part.split_once(") align 8 ").expect("a byval mark");
        text.push_str(rest);
    }
    text
}
