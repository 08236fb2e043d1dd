//! A strict reader of JSON: python3's, where it is at hand.

use std::io::Write;
use std::process::{Command, Stdio};
use std::sync::LazyLock;

const READER: &str = include_str!("strict.py");

/// Whether python3 is there and runs.
pub fn at_hand() -> bool {
    static AT_HAND: LazyLock<bool> = LazyLock::new(|| {
        let tried = Command::new("python3").args(["-c", "import json"]).output();
        tried.is_ok_and(|output| output.status.success())
    });
    *AT_HAND
}

/// Reads text of one JSON object to a line, and returns the name in each. Nothing without python3.
pub fn read(text: &str) -> Option<Vec<String>> {
    assert!(!text.is_empty() && text.ends_with('\n'), "{text:?}");
    if !at_hand() {
        return None;
    }
    let mut python = Command::new("python3");
    python
        .args(["-c", READER])
        .stdin(Stdio::piped())
        .stdout(Stdio::piped());
    let mut child = python.spawn().expect("python3 can be started");
    let mut input = child.stdin.take().expect("it is piped");
    input.write_all(text.as_bytes()).expect("python3 reads");
    drop(input);
    let output = child.wait_with_output().expect("python3 ends");
    assert!(output.status.success(), "no JSON: {text}");
    let names = String::from_utf8(output.stdout).expect("python3 writes UTF-8");
    Some(names.split_terminator('\0').map(String::from).collect())
}
