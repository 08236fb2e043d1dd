//! Files that cannot be rated as they are, and names that are hard to print.

use crate::room::{Outcome, Room, outcome, sample, stored};
use crate::strict;
use std::fs::Permissions;
use std::io::Write;
use std::os::unix::fs::{MetadataExt, PermissionsExt};
use std::os::unix::process::CommandExt;
use std::process::Command;

/// A file that cannot be read is told on standard error, and as JSON besides.
fn cannot_be_read(room: &Room, file: &str, reason: &str) {
    let plain = room.run(&["rate", file, "--width", "8"]);
    let expected = Outcome {
        status: 1,
        stdout: String::new(),
        stderr: format!("abutfern: {file} {reason}\n"),
    };
    assert_eq!(plain, expected);
    let json = room.run(&["rate", file, "--width", "8", "--json"]);
    let expected = Outcome {
        stdout: format!("{{\"file\":\"{file}\",\"error\":\"{reason}\"}}\n"),
        ..expected
    };
    assert_eq!(json, expected);
}

#[test]
fn a_missing_file() {
    let room = Room::new("missing");
    cannot_be_read(
        &room,
        "missing.bin",
        "is not there: check the name and the folder",
    );
}

#[test]
fn a_folder() {
    let room = Room::new("folder");
    std::fs::create_dir(room.path("lot")).expect("a folder can be made");
    cannot_be_read(&room, "lot", "is a folder: name the capture files in it");
}

#[test]
fn a_file_that_fails_while_it_is_read() {
    let room = Room::new("fails");
    let reason = "could not be read (Input/output error (os error 5)): \
                  check where it comes from and try again";
    cannot_be_read(&room, "/proc/self/mem", reason);
}

/// The command for a user who may not read and write every file: root runs a copy of it as nobody.
pub fn as_a_user(room: &Room, words: &[&str]) -> Command {
    let mut command = room.command(words);
    let data = std::fs::metadata(room.path(".")).expect("the room is there");
    if data.uid() == 0 {
        // Not by this process: one that another test starts meanwhile would hold the copy open.
        let copied = Command::new("cp")
            .arg(env!("CARGO_BIN_EXE_abutfern"))
            .arg(room.path("abutfern"))
            .status();
        assert!(
            copied.is_ok_and(|status| status.success()),
            "the command is copied"
        );
        command = Command::new(room.path("abutfern"));
        command.args(words).current_dir(room.path("."));
        command.uid(65534).gid(65534);
    }
    command
}

#[test]
fn an_unreadable_file() {
    let room = Room::new("unreadable");
    room.file("closed.bin", &sample());
    let closed = Permissions::from_mode(0o000);
    std::fs::set_permissions(room.path("closed.bin"), closed).expect("its mode is set");
    if let Err(error) = as_a_user(&room, &["--version"]).output() {
        let text = "an_unreadable_file: left out, nobody cannot run the command here";
        let _ = writeln!(std::io::stderr(), "{text} ({error})");
        return;
    }
    let expected = Outcome {
        status: 1,
        stdout: String::new(),
        stderr: "abutfern: closed.bin may not be read: check its permissions\n".to_string(),
    };
    let mut command = as_a_user(&room, &["rate", "closed.bin", "--width", "8"]);
    assert_eq!(outcome(&mut command), expected);
}

#[test]
fn a_bad_file_beside_a_good_one() {
    let room = Room::new("two");
    room.file("board-17.bin", &sample());
    let plain = room.run(&["rate", "gone.bin", "board-17.bin", "--width", "4"]);
    let said = "abutfern: gone.bin is not there: check the name and the folder\n";
    assert_eq!((plain.status, &*plain.stderr), (1, said));
    assert_eq!(plain.stdout, stored("board-17.txt"));
    let json = room.run(&["rate", "board-17.bin", "gone.bin", "--width", "4", "--json"]);
    assert_eq!((json.status, &*json.stderr), (1, said));
    let failure = r#"{"file":"gone.bin","error":"is not there: check the name and the folder"}"#;
    assert_eq!(
        json.stdout,
        format!("{}{failure}\n", stored("board-17.json"))
    );
}

#[test]
fn files_are_printed_in_the_order_given() {
    let room = Room::new("order");
    room.file("board-17.bin", &sample());
    room.file("short.bin", &[1, 2, 3, 4, 5]);
    let words = [
        "rate",
        "board-17.bin",
        "short.bin",
        "--width=4",
        "--json",
        "--jobs=2",
    ];
    let both = room.run(&words);
    let names = strict::read(&both.stdout);
    assert_eq!(both.status, 1);
    assert!(both.stdout.starts_with(&stored("board-17.json")));
    assert_eq!(
        names.unwrap_or(vec!["board-17.bin".into(), "short.bin".into()]),
        ["board-17.bin", "short.bin"]
    );
}

#[test]
fn a_name_with_quotes_and_a_line_feed() {
    let room = Room::new("name");
    let name = "a \"b\"\\ é\n\u{1b}[2J";
    room.file(name, &[1; 8]);
    let plain = room.run(&["rate", name, "--width", "1"]);
    let first = plain.stdout.lines().next();
    assert_eq!(
        first,
        Some("a \"b\"\\ é\\n\\u{1b}[2J: 8 symbols at width 1")
    );
    let json = room.run(&["rate", name, "--width", "1", "--json"]);
    let names = strict::read(&json.stdout);
    assert_eq!(names.unwrap_or(vec![name.into()]), [name]);
    let gone = room.run(&["rate", "gone\n.bin", "--width", "1"]);
    assert_eq!(gone.stderr.lines().count(), 1);
}
