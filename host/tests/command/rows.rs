//! The records of docs/RECORDS.md, and its reader in Python.

use crate::room::{Room, page, sample, told};
use crate::strict;
use abutfern::{
    NAMED_RECORD_KIND, multi_mcw, multi_mcw_literal, multi_mmc, prediction_estimate, read_record,
    read_records, write_record,
};
use std::io::Write;
use std::process::{Command, Stdio};

/// A record of the page: its bytes, and what the page says of it.
pub struct Example {
    pub bytes: Vec<u8>,
    pub answer: String,
}

impl Example {
    pub fn kind(&self) -> u64 {
        self.bytes[4].into()
    }
}

/// What stands between the fences of a word, one after the other.
fn fenced(word: &str) -> Vec<String> {
    let page = page("docs/RECORDS.md");
    let fence = format!("```{word}\n");
    let rest = page.split(&fence).skip(1);
    rest.map(|rest| rest.split("```").next().unwrap_or("").to_string())
        .collect()
}

/// The records of the page.
pub fn examples() -> Vec<Example> {
    let examples = fenced("record").into_iter().map(|text| {
        let lines: Vec<&str> = text.lines().collect();
        let [first, second, answer] = lines[..] else {
            panic!("two lines of bytes and an answer are not: {text}");
        };
        Example {
            bytes: bytes(&format!("{first} {second}")),
            answer: answer.to_string(),
        }
    });
    examples.collect()
}

/// Bytes from their hexadecimal digits, with spaces anywhere between two.
fn bytes(text: &str) -> Vec<u8> {
    let digits: String = text.split(' ').collect();
    let pairs = (0..digits.len()).step_by(2).map(|i| &digits[i..i + 2]);
    pairs
        .map(|pair| u8::from_str_radix(pair, 16).expect("it is hexadecimal"))
        .collect()
}

/// The page's records in a row.
pub fn row() -> Vec<u8> {
    examples()
        .into_iter()
        .flat_map(|example| example.bytes)
        .collect()
}

#[test]
fn the_library_reads_and_writes_the_records_of_the_page() {
    let row = row();
    let read = read_records(&row);
    assert_eq!((read.good, read.number), (12, 0));
    assert_eq!(read.byte as usize, row.len());
    let numbers = [0, 0, 1, 2, 3, 4, 5, 6, 7, 0, 0, 6];
    for (example, number) in examples().iter().zip(numbers) {
        let (kind, size) = (example.kind(), example.bytes.len());
        let reading = read_record(&example.bytes);
        assert_eq!((reading.number, reading.size as usize), (0, size));
        assert_eq!(reading.answer.number, number);
        let told = reading.winner().is_some();
        assert_eq!(told, kind == NAMED_RECORD_KIND);
        let mut again = vec![0; size];
        assert_eq!(
            write_record(&reading.answer, told, kind, &mut again).number,
            0
        );
        assert_eq!(again, example.bytes);
    }
}

#[test]
fn the_captures_of_the_page_have_its_records() {
    let room = Room::new("page-captures");
    let mut bits: Vec<u8> = sample().iter().map(|symbol| symbol % 2).collect();
    bits[4321] = 2;
    let examples = examples();
    for (name, symbols, width, estimator, places) in [
        ("board", sample(), "4", 0, &[0, 9][..]),
        ("zeros", vec![0; 4096], "8", 1, &[1]),
        ("long", vec![0; 16_777_217], "8", 3, &[2]),
        ("bits", bits, "1", 0, &[4]),
        ("none", vec![], "8", 2, &[7, 11]),
    ] {
        room.file(name, &symbols);
        for example in places.iter().map(|place: &usize| &examples[*place]) {
            let kind = example.kind().to_string();
            let out = format!("{name}-{kind}.rec");
            let words = ["rate", name, "--width", width, "--records", &out];
            room.run(&[&words[..], &["--kind", &kind]].concat());
            let records = std::fs::read(room.path(&out)).expect("the records are there");
            let record = records.chunks(example.bytes.len()).nth(estimator);
            assert_eq!(record, Some(&*example.bytes), "{out}");
        }
    }
}

/// The last has too few samples and counters as well, but 7 comes before 6 and 2.
#[test]
fn the_library_has_the_records_of_the_page_that_rate_never_has() {
    let examples = examples();
    for (answer, example) in [
        (multi_mcw_literal(&[0; 4096], &mut [0; 4095]), 3),
        (prediction_estimate(2, 1, 1, 2), 5),
        (prediction_estimate(5995, 49937, 6, 16), 10),
        (multi_mcw(&sample(), 0), 8),
        (multi_mcw(&[2; 4096], 9), 8),
        (multi_mmc(&[], 255, &mut []), 8),
    ] {
        let example = &examples[example];
        let mut record = vec![0; example.bytes.len()];
        let written = write_record(&answer, true, example.kind(), &mut record);
        assert_eq!(written.number, 0);
        assert_eq!(record, example.bytes, "{answer:?}");
    }
}

/// Runs the page's reader on a row: its status, what it prints and what it says.
fn in_python(row: &[u8]) -> (i32, String, String) {
    let mut python = Command::new("python3");
    python.args(["-c", &fenced("python")[0]]);
    let python = python.stdin(Stdio::piped()).stdout(Stdio::piped());
    let child = python.stderr(Stdio::piped()).spawn();
    let mut child = child.expect("python3 can be started");
    let mut input = child.stdin.take().expect("it is piped");
    input.write_all(row).expect("python3 reads");
    drop(input);
    let read = told(child.wait_with_output().expect("python3 ends"));
    (read.status, read.stdout, read.stderr)
}

#[test]
fn the_reader_of_the_page_says_what_the_page_says() {
    if !strict::at_hand() {
        let text = "the_reader_of_the_page_says_what_the_page_says: left out, there is no python3";
        let _ = writeln!(std::io::stderr(), "{text}");
        return;
    }
    let examples = examples();
    let answers = examples
        .iter()
        .map(|example| format!("{}\n", example.answer));
    let expected = (0, answers.collect(), String::new());
    assert_eq!(in_python(&row()), expected);
    assert_eq!(in_python(&[]), (0, String::new(), String::new()));
}

#[test]
fn the_reader_of_the_page_refuses_what_the_library_refuses() {
    if !strict::at_hand() {
        return;
    }
    let row = row();
    let changed = |byte: usize, value: u8| {
        let mut row = row.clone();
        row[byte] = value;
        row
    };
    for (bad, place, number) in [
        (row[..548].to_vec(), 8, 8),
        (row[..549 + 5].to_vec(), 9, 8),
        (row[..549 + 61].to_vec(), 9, 8),
        (row[..681 + 65].to_vec(), 11, 8),
        (changed(126, 2), 2, 8),
        (changed(122, 62), 2, 8),
        (changed(549, 57), 9, 8),
        (changed(549 + 4, 1), 9, 8),
        (changed(549 + 4, 3), 9, 8),
        (changed(6, 8), 0, 9),
        (changed(114 + 7, 191), 1, 9),
        (changed(61 * 7 + 6, 8), 7, 9),
        (changed(549 + 61, 17), 9, 9),
        (changed(549 + 64, 4), 9, 9),
        (changed(549 + 61, 0), 9, 9),
        (changed(615 + 62, 1), 10, 9),
        (changed(681 + 61, 1), 11, 9),
        (changed(681 + 62, 1), 11, 9),
    ] {
        let (status, printed, said) = in_python(&bad);
        let before = examples().into_iter().take(place);
        let byte: usize = before.map(|example| example.bytes.len()).sum();
        let expected = format!("record {place} at byte {byte} is refused with {number}\n");
        assert_eq!((status, said), (1, expected));
        assert_eq!(printed.lines().count(), place);
        let read = read_records(&bad);
        let found = (read.good as usize, read.number, read.byte as usize);
        assert_eq!(found, (place, number, byte));
    }
}
