//! host/prove in a small repository, where tests/stand-in/rt says what `rt` says: how it tells of
//! the proofs as they go, and when it proves again.

use crate::room::{Outcome, Room, outcome};
use std::path::{Path, PathBuf};
use std::process::Command;

/// The crates under the two libraries, themselves among them, each after those below it.
const CRATES: [&str; 6] = [
    "answer",
    "capture",
    "abutfern",
    "cutoff",
    "repetition",
    "repetition_c",
];

/// A repository with six crates under the two libraries, themselves among them, and one above. One
/// is under both.
fn repository(name: &str) -> Room {
    let room = Room::new(name);
    for name in CRATES {
        for folder in ["src", "specs", "proofs"] {
            let folder = room.path("crates").join(name).join(folder);
            std::fs::create_dir_all(folder).expect("a folder can be made");
        }
    }
    std::fs::create_dir(room.path("host")).expect("a folder can be made");
    room.file("host/prove", include_bytes!("../../prove"));
    room.file("crates/answer/src/lib.rt", b"one");
    let crates = "answer:\ncapture: answer\ncutoff: answer\nrepetition: answer cutoff\n\
                  repetition_c staticlib: cutoff repetition\n\
                  abutfern staticlib: answer capture check\nreport: capture\n";
    room.file("crates.txt", crates.as_bytes());
    room
}

fn prove(room: &Room) -> Outcome {
    let stand_in = Path::new(env!("CARGO_MANIFEST_DIR")).join("tests/stand-in");
    let path = std::env::var("PATH").expect("there is a path");
    let mut prove = Command::new("sh");
    prove
        .arg(room.path("host/prove"))
        .env_remove("ABUTFERN_ARCHIVE");
    prove.env("PATH", format!("{}:{path}", stand_in.display()));
    outcome(&mut prove)
}

/// What it says, and how many crates `rt` was asked for by then.
fn said(room: &Room, status: i32) -> (String, usize) {
    let outcome = prove(room);
    assert_eq!((outcome.status, &*outcome.stdout), (status, ""));
    let calls = std::fs::read_to_string(room.path("calls")).expect("rt was called");
    (outcome.stderr, calls.lines().count())
}

const PROVED: &str = "\
abutfern: proving the libraries: 6 crates, some minutes; the next run does not prove again
abutfern: answer proved, 5 of 6 crates left
abutfern: capture proved, 4 of 6 crates left
abutfern: abutfern proved, 3 of 6 crates left
abutfern: cutoff proved, 2 of 6 crates left
abutfern: repetition proved, 1 of 6 crates left
abutfern: repetition_c proved, 0 of 6 crates left
abutfern: the libraries are kept as host/target/proved/libabutfern.a and host/target/proved/librepetition.a
";

#[test]
fn the_proofs_are_told_and_not_done_again() {
    let room = repository("proofs");
    assert_eq!(said(&room, 0), (PROVED.to_string(), 6));
    assert_eq!(said(&room, 0), (String::new(), 6));
    for name in CRATES {
        let made = room.path("crates").join(name).join("out");
        std::fs::remove_dir_all(made).expect("what rt made can be removed");
    }
    room.file("crates/answer/src/lib.rt", b"one");
    assert_eq!(said(&room, 0), (String::new(), 6));
    room.file("crates/answer/src/lib.rt", b"two");
    assert_eq!(said(&room, 0), (PROVED.to_string(), 12));
    for (library, made_of, calls) in [
        ("abutfern", "abutfern", 18),
        ("repetition", "repetition_c", 24),
    ] {
        let kept = kept(&room, library);
        let made = std::fs::read_to_string(&kept).ok();
        assert_eq!(made, Some(format!("archive of {made_of}\n")));
        std::fs::remove_file(kept).expect("the archive can be removed");
        assert_eq!(said(&room, 0), (PROVED.to_string(), calls));
    }
}

/// Where the archive of a library is kept.
fn kept(room: &Room, library: &str) -> PathBuf {
    room.path(&format!("host/target/proved/lib{library}.a"))
}

#[test]
fn what_is_not_proved_is_told_and_tried_again() {
    let room = repository("not-proved");
    for (wrong, calls) in [("capture", 2), ("cutoff", 6)] {
        room.file("wrong", wrong.as_bytes());
        let (stderr, called) = said(&room, 1);
        let refused = format!("\nfn {wrong}::number: not proved\n");
        assert!(stderr.contains(&refused), "{stderr}");
        assert_eq!((stderr.lines().last(), called), (Some(ALL), calls));
        for library in ["abutfern", "repetition"] {
            assert!(!kept(&room, library).exists(), "{library} is kept");
        }
    }
    std::fs::remove_file(room.path("wrong")).expect("it can be removed");
    assert_eq!(said(&room, 0), (PROVED.to_string(), 12));
}

const ALL: &str =
    "abutfern: the libraries are not proved; all that rt said is in host/target/proved/rt.log";
