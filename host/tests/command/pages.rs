//! What the pages say of the command and of the toolchain.

use crate::room::{Room, outcome, page, repository, sample, stored};
use std::process::Command;

#[test]
fn the_readme_shows_what_the_command_prints() {
    let readme = page("README.md");
    let short = stored("4095-bytes.txt");
    let figure = short.find("  board figure").expect("it speaks of one");
    let mut printed = short[figure..].to_string();
    for call in CALLS {
        assert!(readme.contains(&format!("./abutfern {call}\n")), "{call}");
        let mut command = Command::new(env!("CARGO_BIN_EXE_abutfern"));
        let command = command.args(call.split(' ')).current_dir(repository());
        printed += &outcome(command).stdout;
    }
    for line in printed.lines().filter(|line| !line.is_empty()) {
        assert!(readme.contains(&format!("    {line}\n")), "{line}");
    }
}

/// The calls that the page shows the output of.
const CALLS: [&str; 2] = [
    "rate sample/board-17.bin --width 4",
    "health sample/board-17.bin --entropy 2.336441",
];

#[test]
fn the_commands_of_the_readme_run_in_its_order() {
    let room = Room::new("readme");
    std::fs::create_dir(room.path("sample")).expect("a folder can be made");
    room.file("sample/board-17.bin", &sample());
    let readme = page("README.md");
    let calls = readme
        .lines()
        .filter_map(|line| line.strip_prefix("    ./abutfern "));
    let ends: Vec<i32> = calls
        .map(|call| room.run(&call.split(' ').collect::<Vec<_>>()).status)
        .collect();
    assert_eq!(ends, [0; 4]);
}

#[test]
fn the_pages_name_the_pinned_toolchain() {
    let pinned = page("toolchain.txt");
    let pairs = pinned.lines().filter_map(|line| line.split_once(": "));
    let words: Vec<&str> = pairs.map(|(_, word)| word).collect();
    assert_eq!(
        words.len(),
        2,
        "toolchain.txt has a line for rt and one for rustc"
    );
    for name in ["README.md", "docs/TRUST.md"] {
        for word in &words {
            assert!(page(name).contains(word), "{name} does not name {word}");
        }
    }
}
