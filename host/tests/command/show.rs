//! What `show` prints of good records, of bad ones and of none.

use crate::room::{Outcome, Room, outcome, stored};
use crate::{rows, strict};
use std::fs::File;

/// Shows a file with these bytes, as a table and as JSON.
pub fn shown(name: &str, bytes: &[u8]) -> [Outcome; 2] {
    let room = Room::new(&format!("show-{name}"));
    room.file("a.rec", bytes);
    [
        room.run(&["show", "a.rec"]),
        room.run(&["show", "a.rec", "--json"]),
    ]
}

fn good(stdout: String) -> Outcome {
    Outcome {
        status: 0,
        stdout,
        stderr: String::new(),
    }
}

#[test]
fn a_record_of_each_number() {
    let [table, json] = shown("each", &rows::row());
    assert_eq!(table, good(stored("records.txt")));
    assert_eq!(json, good(stored("records.json")));
}

#[test]
fn no_bytes_are_no_records() {
    let [table, json] = shown("none", &[]);
    assert_eq!(table, good("a.rec: no records\n\n".to_string()));
    let none = r#"{"file":"a.rec","records":[],"bad":null}"#;
    assert_eq!(json, good(format!("{none}\n")));
}

/// The first two records of the page, of number 0, then the one of a place with a field changed.
pub fn third(of: usize, first: usize, field: &[u8]) -> Vec<u8> {
    let mut row = rows::row();
    let mut bad = rows::examples()[of].bytes.clone();
    bad[first..first + field.len()].copy_from_slice(field);
    row.truncate(122);
    row.extend(bad);
    row.extend([0; 61]);
    row
}

/// The first two records are shown, and the third is said to be bad.
pub fn is_bad(name: &str, row: &[u8], number: u64, reason: &str) {
    let [table, json] = shown(name, row);
    let said = format!(
        "abutfern: a.rec has a bad record at place 2, byte 122: {reason} (answer {number}); \
         get the file anew from where it was written\n"
    );
    assert_eq!((table.status, &table.stderr), (1, &said));
    assert_eq!((json.status, &json.stderr), (1, &said));
    let stored = (stored("records.txt"), stored("records.json"));
    let lines = stored.0.split_inclusive('\n').skip(1).take(4);
    let mut expected = String::from("a.rec: 2 records before the first bad one\n");
    expected.extend(lines);
    assert_eq!(table.stdout, expected + "\n");
    let (two, _) = stored.1.split_once(r#",{"byte":122"#).expect("a third");
    let bad = format!(r#"{{"place":2,"byte":122,"number":{number},"reason":"{reason}"}}"#);
    assert_eq!(json.stdout, format!("{two}],\"bad\":{bad}}}\n"));
}

#[test]
fn a_row_that_ends_too_soon() {
    let row = rows::row();
    for (length, left, size) in [
        (123, "1 byte is", "61 or 66"),
        (125, "3 bytes are", "61 or 66"),
        (127, "5 bytes are", "61"),
        (182, "60 bytes are", "61"),
    ] {
        let reason = format!("{left} left, and a record takes {size}");
        is_bad(&format!("end-{length}"), &row[..length], 8, &reason);
    }
}

#[test]
fn a_wrong_length_or_kind() {
    for (name, first, field, reason) in [
        (
            "length",
            0,
            &[58][..],
            "its length field says 58, not 57 or 62",
        ),
        (
            "length-high",
            3,
            &[1],
            "its length field says 16,777,273, not 57 or 62",
        ),
        (
            "length-other",
            0,
            &[62],
            "its length field says 62, and a record of kind 1 has 57 there",
        ),
        (
            "kind-other",
            4,
            &[2],
            "its length field says 57, and a record of kind 2 has 62 there",
        ),
        ("kind", 4, &[3], "its kind is 3, and 1 and 2 are known"),
        (
            "kind-high",
            5,
            &[1],
            "its kind is 257, and 1 and 2 are known",
        ),
        (
            "both",
            0,
            &[0, 0, 0, 0, 9],
            "its length field says 0, not 57 or 62",
        ),
    ] {
        is_bad(name, &third(0, first, field), 8, reason);
    }
}

/// A double's bytes.
fn double(value: f64) -> [u8; 8] {
    value.to_bits().to_le_bytes()
}

#[test]
fn an_answer_that_ran_with_a_wrong_field() {
    for (first, field, reason) in [
        (
            6,
            &[8][..],
            "its answer number is 8, and 0 to 7 and 10 are given",
        ),
        (9, &[5], "its place is 5, and an answer of 0 has 0 there"),
        (16, &[1], "its C is 16,876,558, above its N, 199,937"),
        (
            24,
            &[1],
            "its longest run is 16,777,240, above its C, 99,342",
        ),
        (21, &[0], "its longest run is 0, and its C is 99,342"),
        (7, &[0, 0], "its k is 0, outside 1 to 256"),
        (7, &[1, 1], "its k is 257, outside 1 to 256"),
        (17, &[1, 0, 0, 8], "its N is 134,217,729, above 134,217,728"),
        (25, &[53, 4], "its number of rounds is 1,077, above 1,076"),
        (29, &double(f64::NAN), "its p_global is NaN, outside 0 to 1"),
        (37, &double(1.5), "its p_global' is 1.5, outside 0 to 1"),
        (
            45,
            &double(-0.5),
            "its p_local is -0.5, outside 0 to 1 and not -1.0",
        ),
        (
            53,
            &double(f64::INFINITY),
            "its min-entropy is inf, outside 0 to 8",
        ),
    ] {
        is_bad(
            &format!("ran-{first}-{}", field[0]),
            &third(0, first, field),
            9,
            reason,
        );
    }
}

#[test]
fn a_refusal_with_a_wrong_field() {
    for (of, first, field, reason) in [
        (7, 7, &[2][..], "its k is 2, and an answer of 6 has 0 there"),
        (7, 9, &[2], "its place is 2, and an answer of 6 has 0 there"),
        (7, 13, &[2], "its C is 2, and an answer of 6 has 0 there"),
        (7, 17, &[2], "its N is 2, and an answer of 6 has 0 there"),
        (
            7,
            21,
            &[2],
            "its longest run is 2, and an answer of 6 has 0 there",
        ),
        (8, 9, &[2], "its place is 2, and an answer of 7 has 0 there"),
        (
            8,
            45,
            &double(0.5),
            "its p_local is 0.5, and an answer of 7 has -1.0 there",
        ),
        (
            8,
            6,
            &[8],
            "its answer number is 8, and 0 to 7 and 10 are given",
        ),
        (
            8,
            6,
            &[11],
            "its answer number is 11, and 0 to 7 and 10 are given",
        ),
        (
            2,
            25,
            &[2],
            "its number of rounds is 2, and an answer of 1 has 0 there",
        ),
        (
            4,
            12,
            &[1],
            "its place is 16,781,537, and 16,777,215 is the last of a capture",
        ),
        (
            4,
            53,
            &double(-0.0),
            "its min-entropy is -0.0, and an answer of 3 has -1.0 there",
        ),
    ] {
        is_bad(
            &format!("refusal-{of}-{first}"),
            &third(of, first, field),
            9,
            reason,
        );
    }
}

#[test]
fn a_number_that_no_estimator_says() {
    let mut record = rows::row()[61 * 7..61 * 8].to_vec();
    record[6] = 10;
    let [table, json] = shown("ten", &record);
    let words = "a sample before a start, or a state that no start and samples could have left";
    assert_eq!((table.status, &*table.stderr), (0, ""));
    assert!(
        table
            .stdout
            .ends_with(&format!("  {words} (answer 10)\n\n"))
    );
    let answer = format!(
        r#"{{"byte":0,"kind":1,"number":10,"answer":"{words}","winner":null,"score":null}}"#
    );
    let object = format!(r#"{{"file":"a.rec","records":[{answer}],"bad":null}}"#);
    assert_eq!(json, good(format!("{object}\n")));
}

/// The value of a key that stands once in a text of JSON.
fn number(json: &str, key: &str) -> f64 {
    let (_, rest) = json.split_once(&format!("\"{key}\":")).expect("the key");
    let number = rest.split([',', '}']).next().expect("a value");
    number.parse().expect("it is a number")
}

#[test]
fn doubles_read_back_with_their_bits() {
    let below = 1.0 - f64::EPSILON / 2.0;
    for floats in [
        [0.1 + 0.2, 5e-324, -0.0, 7.0 + below],
        [below, 1e-7, f64::MIN_POSITIVE, -0.0],
        [-0.0, 0.0, 1.0 / 3.0, 8.0],
    ] {
        let bytes = floats.map(double).concat();
        let row = third(0, 29, &bytes)[122..183].to_vec();
        let [_, json] = shown(&format!("bits-{}", bytes[0]), &row);
        let keys = ["p_global", "p_global_prime", "p_local", "min_entropy"];
        let read = keys.map(|key| number(&json.stdout, key).to_bits());
        assert_eq!(read, floats.map(f64::to_bits));
    }
}

#[test]
fn a_bad_first_record_and_a_file_after_it() {
    let room = Room::new("show-first");
    room.file("a.rec", &rows::row());
    room.file("b.rec", b"no records\n");
    let both = room.run(&["show", "b.rec", "a.rec"]);
    let said = "abutfern: b.rec has a bad record at place 0, byte 0: its length field says \
                1,914,728,302, not 57 or 62 (answer 8); \
                get the file anew from where it was written\n";
    assert_eq!((both.status, &*both.stderr), (1, said));
    let none = "b.rec: no records before the first bad one\n\n";
    assert_eq!(both.stdout, format!("{none}{}", stored("records.txt")));
    let json = room.run(&["show", "a.rec", "b.rec", "gone.rec", "--json"]);
    let names = strict::read(&json.stdout).unwrap_or_default();
    assert!(names.is_empty() || names == ["a.rec", "b.rec", "gone.rec"]);
}

#[test]
fn files_that_cannot_be_read() {
    let room = Room::new("show-files");
    std::fs::create_dir(room.path("lot")).expect("a folder can be made");
    for (file, reason) in [
        ("gone.rec", "is not there: check the name and the folder"),
        ("lot", "is a folder: name the files of records in it"),
    ] {
        let plain = room.run(&["show", file]);
        let said = format!("abutfern: {file} {reason}\n");
        assert_eq!((plain.status, &*plain.stdout, plain.stderr), (1, "", said));
        let json = room.run(&["show", file, "--json"]);
        let failure = format!("{{\"file\":\"{file}\",\"error\":\"{reason}\"}}\n");
        assert_eq!((json.status, json.stdout), (1, failure));
    }
}

#[test]
fn a_dash_shows_standard_input_and_what_is_endless_ends() {
    let room = Room::new("show-dash");
    room.file("a.rec", &rows::row());
    let input = File::open(room.path("a.rec")).expect("it is there");
    let table = outcome(room.command(&["show", "-"]).stdin(input));
    let expected = stored("records.txt").replace("a.rec", "standard input");
    assert_eq!(table, good(expected));
    let endless = room.run(&["show", "/dev/zero"]);
    assert_eq!(endless.status, 1);
    assert!(
        endless
            .stderr
            .contains("its length field says 0, not 57 or 62")
    );
}

#[test]
fn more_records_than_are_read_at_once() {
    let mut bytes = rows::row().repeat(2500);
    let [table, _] = shown("many", &bytes);
    assert_eq!(table.status, 0);
    assert_eq!(table.stdout.lines().count(), 30_000 + 4);
    bytes.truncate(bytes.len() - 1);
    let room = Room::new("show-many-cut");
    room.file("a.rec", &bytes);
    let cut = room.shell(r#"cat a.rec | "$0" "$@""#, &["show", "-"]);
    let said = "abutfern: standard input has a bad record at place 29,999, byte 1,867,434: \
                65 bytes are left, and a record takes 66 (answer 8); \
                get the file anew from where it was written\n";
    assert_eq!((cut.status, &*cut.stderr), (1, said));
}

#[test]
fn output_that_cannot_be_printed_is_told() {
    let room = Room::new("show-full");
    room.file("a.rec", &rows::row());
    let full = File::options().write(true).open("/dev/full");
    let full = full.expect("/dev/full can be opened");
    let outcome = outcome(room.command(&["show", "a.rec"]).stdout(full));
    let said = "abutfern: standard output could not be written (No space left on device";
    assert_eq!(outcome.status, 1);
    assert!(outcome.stderr.starts_with(said), "{outcome:?}");
    let closed = room.shell(r#""$0" "$@" >&-"#, &["show", "a.rec"]);
    let said = "abutfern: standard output is closed: give it a file, a pipe or a terminal\n";
    assert_eq!((closed.status, &*closed.stderr), (1, said));
}
