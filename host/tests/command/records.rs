//! The file of records that `rate --records` writes: what is in it, and when it is not there.

use crate::files::as_a_user;
use crate::room::{Outcome, Room, outcome, sample, stored};
use abutfern::NAMED_RECORD_SIZE;
use std::fs::{File, Permissions};
use std::io::Write;
use std::os::unix::fs::{PermissionsExt, symlink};

/// Rates the sample with its records in out.rec.
const RATE: [&str; 6] = [
    "rate",
    "board-17.bin",
    "--width",
    "4",
    "--records",
    "out.rec",
];
const WRITTEN: &str =
    "abutfern: out.rec has 4 records of kind 2, 4 of each capture in the order given\n";

fn room(name: &str) -> Room {
    let room = Room::new(name);
    room.file("board-17.bin", &sample());
    room
}

/// The names of what is in a room.
fn names(room: &Room) -> Vec<String> {
    let entries = std::fs::read_dir(room.path(".")).expect("the room can be read");
    let names = entries.map(|entry| entry.expect("the room can be read").file_name());
    let mut names: Vec<String> = names
        .map(|name| name.to_string_lossy().into_owned())
        .collect();
    names.sort();
    names
}

/// A file of a room in hexadecimal, a record to a line.
fn records(room: &Room, name: &str) -> Vec<String> {
    let bytes = std::fs::read(room.path(name)).expect("the records can be read");
    let hex = |record: &[u8]| record.iter().map(|byte| format!("{byte:02x}")).collect();
    bytes.chunks(NAMED_RECORD_SIZE).map(hex).collect()
}

/// The estimates of a stored rating as `show --json` prints their records, which do not say what
/// the winner's window or prefix is, and say of a refusal that it has none.
fn as_shown(name: &str) -> String {
    let rating = stored(name);
    let (_, rest) = rating
        .split_once(r#""estimates":["#)
        .expect("it has estimates");
    let (estimates, _) = rest.split_once("],").expect("they have an end");
    let mut shown = estimates.to_string();
    for (i, estimator) in [
        "MultiMCW bits",
        "MultiMCW literal",
        "MultiMMC bits",
        "MultiMMC literal",
    ]
    .iter()
    .enumerate()
    {
        let named = format!(r#""estimator":"{estimator}""#);
        let byte = NAMED_RECORD_SIZE * i;
        shown = shown.replace(&named, &format!(r#""byte":{byte},"kind":2"#));
    }
    for memory in [r#""window":"#, r#""prefix":"#] {
        shown = without(&shown, memory);
    }
    let shown: Vec<String> = shown.split_inclusive('}').map(with_winner).collect();
    let shown = shown.concat();
    format!("{{\"file\":\"out.rec\",\"records\":[{shown}],\"bad\":null}}\n")
}

/// An object that ends a text of JSON, with no winner where none is named.
fn with_winner(json: &str) -> String {
    match json.strip_suffix('}') {
        Some(open) if !json.contains(r#""winner":"#) => {
            format!(r#"{open},"winner":0,"score":0}}"#)
        }
        _ => json.to_string(),
    }
}

/// A text of JSON without the key, its value and the comma after it, wherever it stands.
fn without(json: &str, key: &str) -> String {
    let mut parts = json.split(key);
    let mut left = parts.next().unwrap_or_default().to_string();
    for part in parts {
        let (_, rest) = part.split_once(',').expect("another key follows");
        left += rest;
    }
    left
}

#[test]
fn the_records_show_the_figures_of_the_rating() {
    let room = room("records");
    let expected = Outcome {
        status: 0,
        stdout: stored("board-17.txt"),
        stderr: WRITTEN.to_string(),
    };
    assert_eq!(room.run(&RATE), expected);
    assert_eq!(names(&room), ["board-17.bin", "out.rec"]);
    let shown = room.run(&["show", "out.rec", "--json"]);
    assert_eq!((shown.status, shown.stdout), (0, as_shown("board-17.json")));
}

#[test]
fn with_json_the_records_are_the_same() {
    let room = room("records-json");
    room.run(&RATE);
    let json = room.run(&[
        "rate",
        "--json",
        "board-17.bin",
        "--width=4",
        "--records=two.rec",
    ]);
    assert_eq!((json.status, json.stdout), (0, stored("board-17.json")));
    assert_eq!(json.stderr, WRITTEN.replace("out.rec", "two.rec"));
    assert_eq!(records(&room, "out.rec"), records(&room, "two.rec"));
}

#[test]
fn a_capture_that_is_refused_has_its_records() {
    let room = Room::new("records-refused");
    let mut symbols: Vec<u8> = sample().iter().map(|symbol| symbol % 2).collect();
    symbols[4321] = 2;
    room.file("a-two.bin", &symbols);
    let rated = room.run(&["rate", "a-two.bin", "--width=1", "--records", "out.rec"]);
    assert_eq!((rated.status, &*rated.stderr), (1, WRITTEN));
    let shown = room.run(&["show", "out.rec", "--json"]);
    assert_eq!((shown.status, shown.stdout), (0, as_shown("a-two.json")));
}

/// 4,096 zero bytes: C = N = run = 4,033 for MultiMCW literal, with -1.0 and -0.0 before the winner,
/// the window of 63, which was right as often.
const ZEROS: &str = "3e000000020000010000000000c10f0000c10f0000c10f0000000000000000\
                     00000000f03f000000000000f03f000000000000f0bf0000000000000080\
                     01c10f0000";
const NOT_RUN: &str = "3e0000000200060000000000000000000000000000000000000000000000000000\
                       0000f0bf000000000000f0bf000000000000f0bf000000000000f0bf\
                       0000000000";

#[test]
fn the_bytes_of_known_records_in_the_order_given() {
    let room = room("records-bytes");
    room.file("zeros.bin", &[0; 4096]);
    room.file("empty.bin", &[]);
    let rated = room.run(&[
        "rate",
        "board-17.bin",
        "empty.bin",
        "zeros.bin",
        "--width=8",
        "--jobs=3",
        "--records=out.rec",
    ]);
    let said = WRITTEN.replace("4 records", "12 records");
    assert_eq!((rated.status, rated.stderr), (1, said));
    let records = records(&room, "out.rec");
    assert_eq!(records.len(), 12);
    assert_eq!(records[4..8], [NOT_RUN; 4]);
    assert_eq!(records[9], ZEROS);
}

/// Nothing is rated and nothing changes where the records cannot be written.
fn is_refused_at_once(room: &Room, words: &[&str], said: &str) {
    let before = names(room);
    let expected = Outcome {
        status: 1,
        stdout: String::new(),
        stderr: format!("abutfern: {said}\n"),
    };
    assert_eq!(room.run(words), expected);
    assert_eq!(names(room), before);
}

#[test]
fn a_file_that_exists_is_not_replaced() {
    let room = room("records-exist");
    room.file("out.rec", b"earlier");
    symlink("nowhere", room.path("link.rec")).expect("a link can be made");
    let mut words = RATE;
    for out in ["out.rec", "board-17.bin", "link.rec", "."] {
        words[5] = out;
        let said = format!("{out} exists already; remove it or give another name");
        is_refused_at_once(&room, &words, &said);
    }
    assert_eq!(
        std::fs::read(room.path("out.rec")).ok(),
        Some(b"earlier".to_vec())
    );
    assert_eq!(
        std::fs::read(room.path("board-17.bin")).ok(),
        Some(sample())
    );
}

#[test]
fn a_folder_that_is_not_there() {
    let room = room("records-folder");
    let mut words = RATE;
    for out in ["lot/out.rec", "lot/", "board-17.bin/out.rec"] {
        words[5] = out;
        let said = format!(
            "{out} cannot be written, its folder is not there: make it or give another name"
        );
        is_refused_at_once(&room, &words, &said);
    }
}

#[test]
fn a_folder_that_may_not_be_written() {
    let room = room("records-closed");
    std::fs::create_dir(room.path("closed")).expect("a folder can be made");
    let closed = Permissions::from_mode(0o555);
    std::fs::set_permissions(room.path("closed"), closed).expect("its mode is set");
    if let Err(error) = as_a_user(&room, &["--version"]).output() {
        let text = "a_folder_that_may_not_be_written: left out, nobody cannot run the command here";
        let _ = writeln!(std::io::stderr(), "{text} ({error})");
        return;
    }
    let mut words = RATE;
    words[5] = "closed/out.rec";
    let expected = Outcome {
        status: 1,
        stdout: String::new(),
        stderr: "abutfern: closed/out.rec may not be written: \
                 check the permissions of its folder, or give another name\n"
            .to_string(),
    };
    assert_eq!(outcome(&mut as_a_user(&room, &words)), expected);
}

/// A limit of 512 or 1,024 bytes to a file stands for a disk that is full; the five captures have
/// 1,320 bytes of records. Signal 25, of that limit, would end the command.
#[test]
fn a_write_that_fails_half_way_leaves_nothing() {
    let room = room("records-full");
    let words = [&["rate"], &["board-17.bin"; 4][..], &RATE[1..]].concat();
    let full = room.shell(r#"trap '' 25; ulimit -f 1; exec "$0" "$@""#, &words);
    let said = "abutfern: out.rec could not be written (File too large (os error 27)), \
                and is not there: make room or give another name, and try again\n";
    assert_eq!((full.status, &*full.stderr), (1, said));
    assert_eq!(full.stdout, stored("board-17.txt").repeat(5));
    assert_eq!(names(&room), ["board-17.bin"]);
}

#[test]
fn a_capture_that_cannot_be_read_leaves_no_records() {
    let room = room("records-gap");
    let said = "abutfern: gone.bin is not there: check the name and the folder\n\
                abutfern: out.rec is not written: gone.bin could not be read, and records are told \
                apart by their order alone; mend that or leave it out, and rate again\n";
    let words = [&["rate", "gone.bin"], &RATE[1..]].concat();
    let expected = Outcome {
        status: 1,
        stdout: stored("board-17.txt"),
        stderr: said.to_string(),
    };
    assert_eq!(room.run(&words), expected);
    let json = room.run(&[&words[..], &["--json"]].concat());
    assert_eq!((json.status, &*json.stderr), (1, said));
    assert!(json.stdout.ends_with(&stored("board-17.json")));
    assert_eq!(names(&room), ["board-17.bin"]);
}

#[test]
fn output_that_cannot_be_printed_leaves_no_records() {
    let room = room("records-output");
    let full = File::options().write(true).open("/dev/full");
    let full = full.expect("/dev/full can be opened");
    let outcome = outcome(room.command(&RATE).stdout(full));
    let said = "abutfern: out.rec is not written, since standard output could not be: \
                mend that and rate again\n";
    assert_eq!(outcome.status, 1);
    assert!(outcome.stderr.ends_with(said), "{outcome:?}");
    assert_eq!(names(&room), ["board-17.bin"]);
}

/// The command has looked for out.rec by the time that it opens the capture.
#[test]
fn a_file_that_appears_meanwhile_is_left() {
    let room = room("records-meanwhile");
    let line = r#"mkfifo capture && { "$0" "$@" & } && exec 3>capture &&
                  echo another >out.rec && cat board-17.bin >&3 && exec 3>&- && wait $!"#;
    let words = ["rate", "capture", "--width=4", "--records=out.rec"];
    let outcome = room.shell(line, &words);
    let said = "abutfern: out.rec has been made by another meanwhile, and is left as it is: \
                give another name and try again\n";
    assert_eq!((outcome.status, &*outcome.stderr), (1, said));
    assert_eq!(
        outcome.stdout,
        stored("board-17.txt").replace("board-17.bin", "capture")
    );
    assert_eq!(names(&room), ["board-17.bin", "capture", "out.rec"]);
    let left = std::fs::read(room.path("out.rec"));
    assert_eq!(left.ok(), Some(b"another\n".to_vec()));
}
