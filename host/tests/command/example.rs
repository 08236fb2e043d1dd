//! The C programs of host/README.md, compiled and run as the page says.

use crate::room::{Room, repository, sample};
use std::fs::File;
use std::path::Path;
use std::process::Command;

/// The archives that the command is linked with.
const ARCHIVE: Option<&str> = option_env!("ABUTFERN_LINKED");
const REPETITION: Option<&str> = option_env!("ABUTFERN_REPETITION_LINKED");

/// The page's C program of a place, from 0.
fn program(place: usize) -> String {
    let page = include_str!("../../README.md");
    let rest = page.split("```c\n").nth(place + 1);
    let rest = rest.expect("the page has as many C programs");
    let (program, _) = rest.split_once("```").expect("the program has an end");
    program.to_string()
}

/// Compiles it under a name in the room, with every warning an error, and links it with an archive
/// alone.
fn compile(room: &Room, place: usize, name: &str, archive: Option<&str>) {
    let source = format!("{name}.c");
    room.file(&source, program(place).as_bytes());
    let mut compiler = Command::new("cc");
    compiler.args([
        "-std=c11",
        "-O2",
        "-Wall",
        "-Wextra",
        "-Wpedantic",
        "-Werror",
    ]);
    compiler.arg("-I").arg(env!("CARGO_MANIFEST_DIR"));
    compiler
        .arg("-o")
        .arg(room.path(name))
        .arg(room.path(&source));
    compiler.arg(archive.expect("the library is linked"));
    let compiled = compiler.output();
    let compiled = compiled.expect("cc, which Rust links with, is at hand");
    let said = String::from_utf8_lossy(&compiled.stderr);
    assert!(compiled.status.success(), "{said}");
}

#[test]
fn the_c_program_rates_a_capture() {
    let room = Room::new("c");
    compile(&room, 0, "rate", ARCHIVE);
    room.file("short.bin", &sample()[..4095]);
    let short = room.path("short.bin");
    let figure = "2.336441636085510253906250 bits of min-entropy per symbol\n";
    for (file, status, expected) in [
        (Path::new("sample/board-17.bin"), 0, figure),
        (&short, 1, "no board figure: answer 6\n"),
        (Path::new("/dev/null"), 1, "no board figure: answer 6\n"),
        (Path::new("sample"), 2, ""),
        (Path::new("gone.bin"), 2, ""),
    ] {
        let mut rate = Command::new(room.path("rate"));
        let output = rate.arg(file).current_dir(repository()).output();
        let output = output.expect("the program can be started");
        let written = String::from_utf8_lossy(&output.stdout);
        let ended = (output.status.code(), &*written);
        assert_eq!(ended, (Some(status), expected), "{}", file.display());
    }
}

#[test]
fn the_c_program_writes_and_reads_a_record() {
    let room = Room::new("c-record");
    compile(&room, 1, "record", ARCHIVE);
    let output = Command::new(room.path("record")).output();
    let output = output.expect("the program can be started");
    let written = String::from_utf8_lossy(&output.stdout);
    let expected = "66 bytes: C 4033 of N 4033, winner 1, right 4033 times\n";
    assert_eq!((output.status.code(), &*written), (Some(0), expected));
}

/// Both bounds of a start-up test stand in the list: the least samples, and one fewer.
#[test]
fn the_c_program_checks_a_source() {
    let room = Room::new("c-check");
    compile(&room, 2, "check", REPETITION);
    let mut stuck = sample();
    stuck[2000..2010].fill(16);
    for (name, samples, status, expected) in [
        (
            "good",
            &sample()[..],
            0,
            "50000 samples passed, cutoff 10\n",
        ),
        (
            "least",
            &sample()[..1024],
            0,
            "1024 samples passed, cutoff 10\n",
        ),
        ("short", &sample()[..1023], 1, "1023 samples are too few\n"),
        ("none", &[], 1, "0 samples are too few\n"),
        (
            "stuck",
            &stuck,
            1,
            "the sample at place 2009 did not pass: number 0, alarm 1\n",
        ),
    ] {
        room.file(name, samples);
        let input = File::open(room.path(name)).expect("it is there");
        let output = Command::new(room.path("check")).stdin(input).output();
        let output = output.expect("the program can be started");
        let written = String::from_utf8_lossy(&output.stdout);
        assert_eq!((output.status.code(), &*written), (Some(status), expected));
    }
}

#[test]
fn the_headers_stand_together_and_alone() {
    let room = Room::new("c-headers");
    for (name, first, second) in [
        ("alone.c", "repetition.h", "repetition.h"),
        ("before.c", "repetition.h", "abutfern.h"),
        ("after.c", "abutfern.h", "repetition.h"),
    ] {
        let text = format!("#include \"{first}\"\n#include \"{second}\"\n{SIX_BYTES}\n");
        room.file(name, text.as_bytes());
        let mut compiler = Command::new("cc");
        compiler.args(["-std=c99", "-Wall", "-Wextra", "-Wpedantic", "-Werror"]);
        compiler.arg("-I").arg(env!("CARGO_MANIFEST_DIR"));
        let compiled = compiler.args(["-fsyntax-only"]).arg(room.path(name));
        let compiled = compiled.output().expect("cc is at hand");
        let said = String::from_utf8_lossy(&compiled.stderr);
        assert!(compiled.status.success(), "{said}");
    }
}

/// What a compiler refuses unless a test is six bytes.
const SIX_BYTES: &str = "typedef char six[sizeof(abutfern_RepetitionTest) == 6 ? 1 : -1];";
