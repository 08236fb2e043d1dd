//! Ways to call the command, right and wrong.

use crate::room::{Outcome, Room, sample, stored};

#[test]
fn a_width_after_an_equals_sign() {
    let room = Room::new("equals");
    room.file("board-17.bin", &sample());
    for words in [
        ["rate", "--width=4", "board-17.bin", "--jobs=1"],
        ["rate", "board-17.bin", "--jobs=64", "--width=4"],
    ] {
        assert_eq!(room.run(&words).stdout, stored("board-17.txt"));
    }
}

#[test]
fn help_and_version_end_with_a_line_feed() {
    let room = Room::new("help");
    for words in [
        &["--help"][..],
        &["-h"],
        &[],
        &["rate", "--help"],
        &["show", "-h"],
        &["health", "a", "-h"],
    ] {
        let help = room.run(words);
        assert_eq!((help.status, &*help.stderr), (0, ""));
        assert!(help.stdout.starts_with("abutfern: ") && help.stdout.ends_with(".json\n"));
    }
    let version = format!("abutfern {}\n", env!("CARGO_PKG_VERSION"));
    for words in [["--version"], ["-V"]] {
        let expected = Outcome {
            status: 0,
            stdout: version.clone(),
            stderr: String::new(),
        };
        assert_eq!(room.run(&words), expected);
    }
}

/// Wrong calls, their words apart by single spaces, and what is said of each.
const WRONG: [(&str, &str); 52] = [
    (
        "frob",
        "frob is no command; the commands are rate, show and health",
    ),
    (
        "a.bin --width 8",
        "a.bin is no command; the commands are rate, show and health",
    ),
    ("rate", "no capture file is named"),
    (
        "rate  --width=8",
        "a file's name is empty; is a variable unset?",
    ),
    (
        "rate - - --width=8",
        "- is standard input, which can be read once: name it once",
    ),
    (
        "rate a",
        "the bits in a symbol are missing: --width W, 1 to 8",
    ),
    (
        "rate a --width",
        "--width takes a number from 1 to 8, and none is given",
    ),
    (
        "rate a --width=",
        "--width takes a number from 1 to 8, and its value is empty; is a variable unset?",
    ),
    (
        "rate a --width 0",
        "0 is no width (answer 7), and a width field that was left empty arrives as 0: \
         say with --width how many bits a symbol has, 1 to 8",
    ),
    (
        "rate a --width=0000",
        "0000 is no width (answer 7), and a width field that was left empty arrives as 0: \
         say with --width how many bits a symbol has, 1 to 8",
    ),
    (
        "rate a --width=9",
        "9 is no width (answer 7): say with --width how many bits a symbol has, 1 to 8",
    ),
    (
        "rate a --width 300",
        "300 is no width (answer 7): say with --width how many bits a symbol has, 1 to 8",
    ),
    (
        "rate a --width -1",
        "--width takes a number from 1 to 8, not '-1'",
    ),
    (
        "rate a --width=1.5",
        "--width takes a number from 1 to 8, not '1.5'",
    ),
    (
        "rate a --width 8\n8",
        "--width takes a number from 1 to 8, not '8\\n8'",
    ),
    (
        "rate a --width=8 --jobs=0",
        "--jobs takes a number from 1 to 64, not '0'",
    ),
    ("rate a --width=8 --json=1", "--json takes no value"),
    ("rate a --width=8 --frob", "--frob is not known"),
    (
        "rate a -w 8",
        "-w is not known; a file of that name is ./-w",
    ),
    (
        "rate a --width=8 --records",
        "--records takes the name of a new file, and none is given",
    ),
    (
        "rate a --width=8 --records=",
        "--records takes the name of a new file, and none is given",
    ),
    (
        "rate a --width=8 --records -",
        "--records takes the name of a new file, not '-'; a file of that name is ./-",
    ),
    (
        "rate a --records --width=8",
        "--records takes the name of a new file, not '--width=8'; \
         a file of that name is ./--width=8",
    ),
    (
        "rate a --width=8 --records=b --records=c",
        "--records is given twice: all records go to one file",
    ),
    (
        "rate a --width=8 --records=b --kind",
        "--kind takes 2, which tells who predicted, or 1, for readers that know no other, \
         and none is given",
    ),
    (
        "rate a --width=8 --records=b --kind=",
        "--kind takes 2, which tells who predicted, or 1, for readers that know no other, \
         and its value is empty; is a variable unset?",
    ),
    (
        "rate a --width=8 --kind 3 --records=b",
        "--kind takes 2, which tells who predicted, or 1, for readers that know no other, \
         not '3'",
    ),
    (
        "rate a --width=8 --records=b --kind=named",
        "--kind takes 2, which tells who predicted, or 1, for readers that know no other, \
         not 'named'",
    ),
    (
        "rate a --width=8 --kind=2",
        "--kind is of the records, and none are asked for: \
         say with --records where they go, or leave --kind out",
    ),
    ("show", "no file of records is named"),
    (
        "show - -",
        "- is standard input, which can be read once: name it once",
    ),
    ("show a --width=8", "--width is not known"),
    ("show a --kind=1", "--kind is not known"),
    ("health --entropy=1", "no capture file is named"),
    (
        "health  --entropy=1",
        "a file's name is empty; is a variable unset?",
    ),
    (
        "health - a - --entropy=1",
        "- is standard input, which can be read once: name it once",
    ),
    (
        "health a",
        "the entropy of a sample is missing: --entropy H, in bits, 1/64 to 8",
    ),
    (
        "health a --entropy",
        "--entropy takes a decimal number of bits, 1/64 to 8, and none is given",
    ),
    (
        "health a --entropy=",
        "--entropy takes a decimal number of bits, 1/64 to 8, and its value is empty; \
         is a variable unset?",
    ),
    (
        "health a --entropy 149/64",
        "--entropy takes a decimal number of bits, 1/64 to 8, not '149/64'",
    ),
    (
        "health a --entropy 2\n2",
        "--entropy takes a decimal number of bits, 1/64 to 8, not '2\\n2'",
    ),
    (
        "health a --entropy 0",
        "0 is no entropy to test for (answer 5), and 0 is the figure of a board that gives \
         nothing: say with --entropy how many bits of min-entropy a sample has, 1/64 to 8",
    ),
    (
        "health a --entropy -1.0",
        "-1.0 is no entropy to test for (answer 5), and -1 stands where there is no board \
         figure: say with --entropy how many bits of min-entropy a sample has, 1/64 to 8",
    ),
    (
        "health a --entropy=0.0156249",
        "0.0156249 is no entropy to test for (answer 5): \
         say with --entropy how many bits of min-entropy a sample has, 1/64 to 8",
    ),
    (
        "health a --entropy=8.001",
        "8.001 is no entropy to test for (answer 5): \
         say with --entropy how many bits of min-entropy a sample has, 1/64 to 8",
    ),
    (
        "health a --entropy=nan",
        "nan is no entropy to test for (answer 5): \
         say with --entropy how many bits of min-entropy a sample has, 1/64 to 8",
    ),
    ("health a --entropy=1 --json=1", "--json takes no value"),
    ("health a --entropy=1 --width=8", "--width is not known"),
    ("health a --entropy=1 --jobs=2", "--jobs is not known"),
    ("health a --entropy=1 --kind=1", "--kind is not known"),
    (
        "health a -e 1",
        "-e is not known; a file of that name is ./-e",
    ),
    ("rate a --width=8 --entropy=1", "--entropy is not known"),
];

const USAGE: &str = "\
usage: abutfern rate FILE.. --width W [--json] [--jobs N] [--records OUT [--kind K]]
       abutfern show FILE.. [--json]
       abutfern health FILE.. --entropy H [--json]
";

#[test]
fn a_wrong_call_says_what_was_wrong_and_how_to_call_it() {
    let room = Room::new("wrong");
    for (call, wrong) in WRONG {
        let words: Vec<&str> = call.split(' ').collect();
        let expected = Outcome {
            status: 2,
            stdout: String::new(),
            stderr: format!("abutfern: {wrong}\n{USAGE}abutfern --help says the rest\n"),
        };
        assert_eq!(room.run(&words), expected);
    }
}

#[test]
fn without_a_width_nothing_is_rated_and_nothing_is_written() {
    let room = Room::new("no-width");
    room.file("board-17.bin", &sample());
    for width in ["", "0", "9", "255", "256", "x"] {
        let words = ["rate", "board-17.bin", "--records=out.rec", "--width"];
        let outcome = room.run(&[&words[..], &[width]].concat());
        assert_eq!((outcome.status, &*outcome.stdout), (2, ""), "{width}");
        assert!(!room.path("out.rec").exists(), "{width}");
    }
}
