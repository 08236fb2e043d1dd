//! Standard input, output and error: read, full, closed, a terminal and none.

use crate::room::{Outcome, Room, outcome, sample, stored, told};
use crate::terminal::Terminal;
use std::fs::File;
use std::io::Write;
use std::process::Stdio;

const RATE: [&str; 4] = ["rate", "board-17.bin", "--width", "4"];

fn room(name: &str) -> Room {
    let room = Room::new(name);
    room.file("board-17.bin", &sample());
    room
}

#[test]
fn a_dash_reads_standard_input() {
    let room = room("dash");
    let file = |name: &str| File::open(room.path(name)).expect("it is there");
    let mut table = room.command(&["rate", "-", "--width", "4"]);
    let table = outcome(table.stdin(file("board-17.bin")));
    let expected = stored("board-17.txt").replace("board-17.bin", "standard input");
    assert_eq!((table.status, table.stdout), (0, expected));
    let mut json = room.command(&["rate", "-", "--width", "4", "--json"]);
    let json = outcome(json.stdin(file("board-17.bin")));
    let expected = stored("board-17.json").replace("board-17.bin", "-");
    assert_eq!((json.status, json.stdout), (0, expected));
}

/// The symbols are those that were read, whatever the file has before them.
#[test]
fn a_dash_reads_what_is_left_and_what_comes_through_a_pipe() {
    let room = room("left");
    let words = ["rate", "-", "--width", "4"];
    let line = r#"(dd bs=1 count=10 of=skipped 2>/dev/null; "$0" "$@") <board-17.bin"#;
    let left = room.shell(line, &words);
    assert!(
        left.stdout.starts_with("standard input: 49,990 symbols"),
        "{left:?}"
    );
    let piped = room.shell(r#"cat board-17.bin | "$0" "$@""#, &words);
    let expected = stored("board-17.txt").replace("board-17.bin", "standard input");
    assert_eq!(piped.stdout, expected);
    let long = room.shell(r#"head -c 17000000 /dev/zero | "$0" "$@""#, &words);
    assert_eq!(long.stdout.matches("(answer 1)").count(), 5, "{long:?}");
}

#[test]
fn closed_standard_input_is_no_empty_capture() {
    let closed = room("closed-input").shell(r#""$0" "$@" <&-"#, &["rate", "-", "--width", "4"]);
    let said = "abutfern: standard input could not be read (it is closed): \
                check where it comes from and try again\n";
    let expected = Outcome {
        status: 1,
        stdout: String::new(),
        stderr: said.to_string(),
    };
    assert_eq!(closed, expected);
}

#[test]
fn full_standard_output_is_told() {
    let room = room("full");
    for words in [&RATE[..], &["--help"], &["--version"]] {
        let full = File::options().write(true).open("/dev/full");
        let full = full.expect("/dev/full can be opened");
        let outcome = outcome(room.command(words).stdout(full));
        let said = "abutfern: standard output could not be written (No space left on device";
        assert_eq!(outcome.status, 1);
        assert!(outcome.stderr.starts_with(said), "{outcome:?}");
        assert_eq!(outcome.stderr.lines().count(), 1);
    }
}

#[test]
fn closed_standard_output_is_told() {
    let room = room("closed");
    let expected = Outcome {
        status: 1,
        stdout: String::new(),
        stderr: "abutfern: standard output is closed: give it a file, a pipe or a terminal\n"
            .to_string(),
    };
    for words in [&RATE[..], &["--help"], &["--version"]] {
        assert_eq!(room.shell(r#""$0" "$@" >&-"#, words), expected);
    }
}

#[test]
fn standard_output_that_cannot_be_written_is_told() {
    let outcome = room("read-only").shell(r#""$0" "$@" 1</dev/null"#, &RATE);
    assert_eq!(outcome.status, 1);
    assert!(
        outcome
            .stderr
            .contains("could not be written (Bad file descriptor"),
        "{outcome:?}"
    );
}

#[test]
fn a_reader_that_has_gone_is_left_alone() {
    let room = room("gone");
    let mut command = room.command(&RATE);
    let mut child = command
        .stdout(Stdio::piped())
        .stderr(Stdio::piped())
        .spawn()
        .expect("the command can be started");
    drop(child.stdout.take());
    let outcome = told(child.wait_with_output().expect("it ends"));
    assert_eq!((outcome.status, &*outcome.stderr), (1, ""));
}

#[test]
fn standard_error_that_is_full_or_closed_changes_nothing() {
    let room = room("error");
    for line in [r#""$0" "$@" 2>/dev/full"#, r#""$0" "$@" 2>&-"#] {
        let good = room.shell(line, &RATE);
        assert_eq!((good.status, good.stdout), (0, stored("board-17.txt")));
        assert_eq!(
            room.shell(line, &["rate", "gone.bin", "--width=4"]).status,
            1
        );
        assert_eq!(room.shell(line, &["frob"]).status, 2);
    }
}

#[test]
fn progress_on_a_terminal() {
    let room = room("terminal");
    let Some(terminal) = Terminal::new() else {
        let text = "progress_on_a_terminal: left out, no terminal can be opened here";
        let _ = writeln!(std::io::stderr(), "{text}");
        return;
    };
    let mut command = room.command(&RATE);
    let child = command
        .stdout(Stdio::piped())
        .stderr(terminal.own_end())
        .spawn();
    let child = child.expect("the command can be started");
    drop(command);
    let seen = terminal.read();
    let outcome = told(child.wait_with_output().expect("it ends"));
    assert_eq!(
        (outcome.status, outcome.stdout),
        (0, stored("board-17.txt"))
    );
    for what in [
        "reading",
        "MultiMCW bits",
        "MultiMCW literal",
        "MultiMMC bits",
        "MultiMMC literal",
    ] {
        let line = format!("\r\x1b[K0 of 1 rated; board-17.bin ({what})");
        assert!(seen.contains(&line), "{line:?} is not in {seen:?}");
    }
    assert!(
        seen.ends_with("\r\x1b[K"),
        "the line is left behind: {seen:?}"
    );
    assert!(!seen.contains('\n'), "it is more than a line: {seen:?}");
}

#[test]
fn no_progress_without_a_terminal() {
    assert_eq!(room("none").run(&RATE).stderr, "");
}
