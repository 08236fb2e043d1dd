//! What `health` says of captures with an alarm, without one and with too few samples for any.

use crate::room::{Outcome, Room, outcome, sample};
use crate::strict;
use std::fs::File;

/// The cutoff of an entropy of 1.
const CUTOFF: usize = 21;

/// A capture of 0, 1, 2 .. with stretches of one value: their first place, their length, the value.
fn with(stretches: &[(usize, usize, u8)]) -> Vec<u8> {
    let mut samples: Vec<u8> = (0..2000).map(|place| place as u8).collect();
    for (first, length, value) in stretches {
        samples[*first..first + length].fill(*value);
    }
    samples
}

/// Tests a capture for an entropy, in words and as JSON.
fn tested(name: &str, samples: &[u8], entropy: &str) -> [Outcome; 2] {
    let room = Room::new(&format!("health-{name}"));
    room.file("a.bin", samples);
    let words = ["health", "a.bin", "--entropy", entropy];
    [
        room.run(&words),
        room.run(&[&words[..], &["--json"]].concat()),
    ]
}

fn on_output(status: i32, stdout: String) -> Outcome {
    Outcome {
        status,
        stdout,
        stderr: String::new(),
    }
}

/// 2,000 samples have no alarm for an entropy of 1.
fn has_none(name: &str, samples: &[u8]) {
    let [plain, json] = tested(name, samples, "1");
    assert_eq!(plain, on_output(0, NONE.to_string()));
    let object = r#"{"file":"a.bin","entropy":1.0,"sixty_fourths":64,"cutoff":21,"samples":2000,"first_alarm":null,"alarms":0,"runs":0}"#;
    assert_eq!(json, on_output(0, format!("{object}\n")));
}

const NONE: &str = "\
a.bin: 2,000 samples, cutoff 21 for 64/64 bits of min-entropy per sample

  alarm: none, since nowhere are 21 samples in a row equal

";

/// They have one: its place and value, the samples that it stands after, and the runs of these.
fn has(name: &str, samples: &[u8], first: (&str, u8), stands: (&str, &str)) {
    let [plain, json] = tested(name, samples, "1");
    let ((place, value), (alarms, runs)) = (first, stands);
    let text = format!(
        "a.bin: 2,000 samples, cutoff 21 for 64/64 bits of min-entropy per sample\n\n  \
         alarm: first at place {place}, where 21 samples in a row have the value {value}\n    \
         it stands after {alarms}, in {runs}\n\n"
    );
    assert_eq!(plain, on_output(1, text));
    let number = |counted: &str| {
        let number = counted.split(' ').next().unwrap_or("");
        number.replace(',', "")
    };
    let [place, alarms, runs] = [place, alarms, runs].map(number);
    let object = format!(
        r#"{{"file":"a.bin","entropy":1.0,"sixty_fourths":64,"cutoff":21,"samples":2000,"first_alarm":{{"place":{place},"value":{value}}},"alarms":{alarms},"runs":{runs}}}"#
    );
    assert_eq!(json, on_output(1, format!("{object}\n")));
}

#[test]
fn no_alarm() {
    has_none("none", &with(&[]));
}

#[test]
fn one_equal_sample_too_few_for_an_alarm() {
    for (name, first) in [("start", 0), ("middle", 1000), ("end", 2001 - CUTOFF)] {
        has_none(name, &with(&[(first, CUTOFF - 1, 255)]));
    }
}

/// Each is broken by one sample: the runs on both sides are not added.
#[test]
fn equal_samples_that_are_not_in_a_row() {
    let stretches = [(100, CUTOFF - 1, 7), (100 + CUTOFF, CUTOFF - 1, 7)];
    has_none("apart", &with(&stretches));
    let stretches = [(100, CUTOFF - 1, 7), (99 + CUTOFF, CUTOFF - 1, 8)];
    has_none("beside", &with(&stretches));
}

#[test]
fn an_alarm_at_the_sample_that_reaches_the_cutoff() {
    let samples = with(&[(1000, CUTOFF, 7)]);
    has("reached", &samples, ("1,020", 7), ("1 sample", "1 run"));
}

#[test]
fn an_alarm_at_the_last_sample() {
    let samples = with(&[(2000 - CUTOFF, CUTOFF, 200)]);
    has("last", &samples, ("1,999", 200), ("1 sample", "1 run"));
}

/// A start leaves 0 as the last sample, which is no sample yet.
#[test]
fn zeros_at_the_start() {
    has_none("zeros-few", &with(&[(0, CUTOFF - 1, 0)]));
    let samples = with(&[(0, CUTOFF, 0)]);
    has("zeros", &samples, ("20", 0), ("1 sample", "1 run"));
}

#[test]
fn two_runs() {
    let samples = with(&[(300, CUTOFF + 4, 9), (800, CUTOFF, 0)]);
    has("two", &samples, ("320", 9), ("6 samples", "2 runs"));
    let samples = with(&[(300, CUTOFF, 9), (300 + CUTOFF, CUTOFF, 0)]);
    has("two-near", &samples, ("320", 9), ("2 samples", "2 runs"));
}

#[test]
fn nothing_but_one_value() {
    let samples = vec![128; 2000];
    has(
        "one-value",
        &samples,
        ("20", 128),
        ("1,980 samples", "1 run"),
    );
}

#[test]
fn an_entropy_is_rounded_down() {
    for (entropy, head) in [
        ("0.015625", "cutoff 1,281 for 1/64 bits"),
        ("0.03124999", "cutoff 1,281 for 1/64 bits"),
        ("0.03125", "cutoff 641 for 2/64 bits"),
        ("2.336441", "cutoff 10 for 149/64 bits"),
        ("7.999", "cutoff 4 for 511/64 bits"),
        ("8", "cutoff 4 for 512/64 bits"),
    ] {
        let [plain, json] = tested(entropy, &with(&[]), entropy);
        let head = format!("a.bin: 2,000 samples, {head} of min-entropy per sample\n");
        assert!(plain.stdout.starts_with(&head), "{plain:?}");
        assert_eq!((plain.status, json.status), (0, 0));
    }
}

#[test]
fn the_board_figure_of_the_sample() {
    let [plain, json] = tested("sample", &sample(), "2.3364416360855103");
    assert!(
        plain
            .stdout
            .ends_with("\n  alarm: none, since nowhere are 10 samples in a row equal\n\n")
    );
    let start = r#"{"file":"a.bin","entropy":2.3364416360855103,"sixty_fourths":149,"cutoff":10,"#;
    assert!(json.stdout.starts_with(start), "{json:?}");
    assert_eq!((plain.status, json.status), (0, 0));
}

/// Such a capture is told on standard error, and as JSON besides.
fn is_not_tested(name: &str, samples: &[u8], reason: &str) {
    let [plain, json] = tested(name, samples, "1");
    let reason = format!("{reason}: record more of this board and test that capture");
    let expected = Outcome {
        status: 1,
        stdout: String::new(),
        stderr: format!("abutfern: a.bin {reason}\n"),
    };
    assert_eq!(plain, expected);
    let stdout = format!("{{\"file\":\"a.bin\",\"error\":\"{reason}\"}}\n");
    assert_eq!(json, Outcome { stdout, ..expected });
}

#[test]
fn too_few_samples_are_not_tested() {
    is_not_tested("empty", &[], "is empty, and nothing was tested");
    for (samples, had) in [(1, "1 sample"), (CUTOFF - 1, "20 samples")] {
        let reason = format!(
            "has {had}, fewer than the cutoff, 21, so that no alarm could stand and nothing was tested"
        );
        is_not_tested(&format!("few-{samples}"), &vec![0; samples], &reason);
    }
    let different: Vec<u8> = (0..CUTOFF as u8).collect();
    assert_eq!(tested("enough", &different, "1")[0].status, 0);
}

#[test]
fn files_that_cannot_be_read() {
    let room = Room::new("health-files");
    std::fs::create_dir(room.path("lot")).expect("a folder can be made");
    for (file, reason) in [
        ("gone.bin", "is not there: check the name and the folder"),
        ("lot", "is a folder: name the capture files in it"),
        (
            "/proc/self/mem",
            "could not be read (Input/output error (os error 5)): \
             check where it comes from and try again",
        ),
    ] {
        let plain = room.run(&["health", file, "--entropy=1"]);
        let said = format!("abutfern: {file} {reason}\n");
        assert_eq!((plain.status, &*plain.stdout, plain.stderr), (1, "", said));
        let json = room.run(&["health", file, "--entropy=1", "--json"]);
        let failure = format!("{{\"file\":\"{file}\",\"error\":\"{reason}\"}}\n");
        assert_eq!((json.status, json.stdout), (1, failure));
    }
}

/// Nothing of a capture reaches the next: one ends in the midst of a run, and the other begins so.
#[test]
fn several_files_in_the_order_given() {
    let room = Room::new("health-several");
    room.file("a.bin", &with(&[(2001 - CUTOFF, CUTOFF - 1, 7)]));
    room.file("b.bin", &with(&[(0, CUTOFF - 1, 7)]));
    room.file("c.bin", &with(&[(0, CUTOFF, 7)]));
    let both = room.run(&["health", "a.bin", "--entropy=1", "b.bin"]);
    let expected = format!("{NONE}{}", NONE.replace("a.bin", "b.bin"));
    assert_eq!(both, on_output(0, expected));
    let words = [
        "health",
        "c.bin",
        "gone.bin",
        "a.bin",
        "--entropy=1",
        "--json",
    ];
    let all = room.run(&words);
    let said = "abutfern: gone.bin is not there: check the name and the folder\n";
    assert_eq!((all.status, &*all.stderr), (1, said));
    let names = strict::read(&all.stdout).unwrap_or_default();
    assert!(names.is_empty() || names == ["c.bin", "gone.bin", "a.bin"]);
    let alarms = |line: &str| line.contains("\"first_alarm\":{\"place\":20,\"value\":7}");
    assert_eq!(
        all.stdout.lines().map(alarms).collect::<Vec<_>>(),
        [true, false, false]
    );
}

#[test]
fn a_dash_reads_standard_input_and_what_comes_through_a_pipe() {
    let room = Room::new("health-dash");
    room.file("a.bin", &with(&[]));
    let words = ["health", "-", "--entropy=1"];
    let input = File::open(room.path("a.bin")).expect("it is there");
    let expected = on_output(0, NONE.replace("a.bin", "standard input"));
    assert_eq!(outcome(room.command(&words).stdin(input)), expected);
    assert_eq!(room.shell(r#"cat a.bin | "$0" "$@""#, &words), expected);
    let empty = room.run(&words);
    assert_eq!((empty.status, &*empty.stdout), (1, ""));
    assert!(
        empty
            .stderr
            .contains("standard input is empty, and nothing was tested")
    );
    let closed = room.shell(r#""$0" "$@" <&-"#, &words);
    assert_eq!(closed.status, 1);
    assert!(
        closed
            .stderr
            .contains("standard input could not be read (it is closed)")
    );
}

/// More symbols than `rate` takes, with a run over the end of what is read at once.
#[test]
fn a_capture_of_any_length() {
    let mut samples = [1, 2].repeat(8_400_000);
    let first = (1 << 20) - 10;
    samples[first..first + CUTOFF].fill(3);
    let [plain, json] = tested("long", &samples, "1");
    let text = "a.bin: 16,800,000 samples, cutoff 21 for 64/64 bits of min-entropy per sample\n\n  \
                alarm: first at place 1,048,586, where 21 samples in a row have the value 3\n    \
                it stands after 1 sample, in 1 run\n\n";
    assert_eq!(plain, on_output(1, text.to_string()));
    assert!(
        json.stdout
            .contains(r#""samples":16800000,"first_alarm":{"place":1048586,"value":3}"#)
    );
}

#[test]
fn output_that_cannot_be_printed_is_told() {
    let room = Room::new("health-full");
    room.file("a.bin", &with(&[]));
    let words = ["health", "a.bin", "--entropy=1"];
    let full = File::options().write(true).open("/dev/full");
    let full = full.expect("/dev/full can be opened");
    let outcome = outcome(room.command(&words).stdout(full));
    let said = "abutfern: standard output could not be written (No space left on device";
    assert_eq!(outcome.status, 1);
    assert!(outcome.stderr.starts_with(said), "{outcome:?}");
    let closed = room.shell(r#""$0" "$@" >&-"#, &words);
    let said = "abutfern: standard output is closed: give it a file, a pipe or a terminal\n";
    assert_eq!((closed.status, &*closed.stderr), (1, said));
}

#[test]
fn a_wrong_call_tests_nothing() {
    let room = Room::new("health-wrong");
    room.file("a.bin", &with(&[]));
    for more in [
        &[][..],
        &["--entropy"],
        &["--entropy="],
        &["--entropy", "x"],
        &["--entropy", "0"],
        &["--entropy", "0.0156"],
        &["--entropy", "8.1"],
        &["--entropy", "-1"],
        &["--entropy", "nan"],
        &["--entropy", "1", "--width=8"],
    ] {
        let outcome = room.run(&[&["health", "a.bin"][..], more].concat());
        assert_eq!((outcome.status, &*outcome.stdout), (2, ""), "{more:?}");
    }
}
