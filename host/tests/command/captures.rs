//! Captures that are rated or refused, each against a stored table and stored JSON.

use crate::room::{Outcome, Room, sample, stored};

/// Rates a capture as a table and as JSON; tests/data/ has both under its name.
fn held_to_what_is_stored(name: &str, symbols: &[u8], width: &str, status: i32) {
    let room = Room::new(name);
    let file = format!("{name}.bin");
    room.file(&file, symbols);
    for (form, more) in [("txt", None), ("json", Some("--json"))] {
        let mut words = vec!["rate", &file, "--width", width];
        words.extend(more);
        let expected = Outcome {
            status,
            stdout: stored(&format!("{name}.{form}")),
            stderr: String::new(),
        };
        assert_eq!(room.run(&words), expected);
    }
}

#[test]
fn a_good_capture() {
    held_to_what_is_stored("board-17", &sample(), "4", 0);
}

#[test]
fn an_empty_file_has_no_figure() {
    held_to_what_is_stored("empty", &[], "8", 1);
}

#[test]
fn one_bit_has_no_figure() {
    held_to_what_is_stored("one-bit", &[1], "1", 1);
}

#[test]
fn three_bytes_of_a_bit_have_no_figure() {
    held_to_what_is_stored("three-bits", &[0, 1, 0], "1", 1);
}

#[test]
fn one_estimate_of_four_is_no_figure() {
    held_to_what_is_stored("three-bytes", &sample()[..3], "4", 1);
}

#[test]
fn three_estimates_of_four_are_no_figure() {
    held_to_what_is_stored("4095-bytes", &sample()[..4095], "4", 1);
}

#[test]
fn the_fewest_symbols_that_have_a_figure() {
    held_to_what_is_stored("4096-bytes", &sample()[..4096], "4", 0);
}

#[test]
fn one_symbol_of_eight_bits_too_few() {
    let pairs = sample();
    let symbols = pairs.chunks(2).map(|pair| pair[0] << 4 | pair[1]);
    let symbols: Vec<u8> = symbols.take(4095).collect();
    held_to_what_is_stored("4095-wide-bytes", &symbols, "8", 1);
}

/// 1,366 symbols have 4,098 bits, and 1,365 have 4,095.
#[test]
fn enough_bits_and_too_few_symbols_for_multi_mcw() {
    let symbols: Vec<u8> = sample().iter().map(|symbol| symbol % 8).collect();
    held_to_what_is_stored("1366-bytes", &symbols[..1366], "3", 1);
    held_to_what_is_stored("1365-bytes", &symbols[..1365], "3", 1);
}

#[test]
fn a_refusal_comes_before_what_did_not_run() {
    held_to_what_is_stored("a-two-of-ten", &[0, 1, 1, 0, 1, 2, 0, 1, 0, 0], "1", 1);
}

/// Two captures in one call have, in either order and with the same lent memory or not, what each
/// has alone.
#[test]
fn a_short_capture_has_nothing_of_the_one_beside_it() {
    let room = Room::new("beside");
    room.file("board-17.bin", &sample());
    room.file("4095-bytes.bin", &sample()[..4095]);
    for (form, more) in [("txt", "--"), ("json", "--json")] {
        let [good, short] =
            ["board-17", "4095-bytes"].map(|name| stored(&format!("{name}.{form}")));
        assert!(good.contains("2.33644") && !short.contains("2.33644"));
        for jobs in ["--jobs=1", "--jobs=2"] {
            let words = ["rate", "--width=4", jobs, more];
            let run = |files: [&str; 2]| room.run(&[&words[..], &files].concat());
            let after = run(["board-17.bin", "4095-bytes.bin"]);
            assert_eq!((after.status, after.stdout), (1, format!("{good}{short}")));
            let before = run(["4095-bytes.bin", "board-17.bin"]);
            assert_eq!(
                (before.status, before.stdout),
                (1, format!("{short}{good}"))
            );
        }
    }
}

#[test]
fn one_symbol_too_many() {
    held_to_what_is_stored("16777217-bytes", &vec![0; 16_777_217], "8", 1);
}

#[test]
fn a_two_at_width_1_is_refused_with_its_place() {
    let mut symbols: Vec<u8> = sample().iter().map(|symbol| symbol % 2).collect();
    symbols[4321] = 2;
    held_to_what_is_stored("a-two", &symbols, "1", 1);
}

#[test]
fn symbols_above_the_width_are_told() {
    held_to_what_is_stored("above-width", &sample()[..5000], "3", 0);
}
