//! Records of both kinds: what `rate` writes, and what `show` tells of who predicted.

use crate::room::{Room, sample, stored};
use crate::rows;
use crate::show::{is_bad, shown, third};
use abutfern::{NAMED_RECORD_SIZE, RECORD_SIZE};

/// A room with the sample's records of kind 1 in one.rec and of kind 2 in two.rec.
fn room(name: &str) -> Room {
    let room = Room::new(name);
    room.file("board-17.bin", &sample());
    for (kind, out) in [("1", "one.rec"), ("2", "two.rec")] {
        let words = ["rate", "board-17.bin", "--width=4", "--records", out];
        let rated = room.run(&[&words[..], &["--kind", kind]].concat());
        let said = format!(
            "abutfern: {out} has 4 records of kind {kind}, 4 of each capture in the order given\n"
        );
        assert_eq!((rated.status, rated.stderr), (0, said));
        assert_eq!(rated.stdout, stored("board-17.txt"));
    }
    room
}

fn bytes(room: &Room, name: &str) -> Vec<u8> {
    std::fs::read(room.path(name)).expect("the records are there")
}

#[test]
fn the_kinds_differ_in_their_heads_and_in_who_predicted() {
    let room = room("kinds-bytes");
    let (one, two) = (bytes(&room, "one.rec"), bytes(&room, "two.rec"));
    assert_eq!((one.len(), two.len()), (4 * 61, 4 * 66));
    for (one, two) in one.chunks(RECORD_SIZE).zip(two.chunks(NAMED_RECORD_SIZE)) {
        assert_eq!((&one[..6], &two[..6]), (&HEADS[0][..], &HEADS[1][..]));
        assert_eq!(one[6..], two[6..61]);
    }
}

/// The length and the kind of a record of each kind.
const HEADS: [[u8; 6]; 2] = [[57, 0, 0, 0, 1, 0], [62, 0, 0, 0, 2, 0]];

/// What stands after the min-entropy in each line of a table of records.
fn last_column(table: &str) -> Vec<&str> {
    let mut lines = table.lines().skip(2);
    let header = lines.next().expect("a header");
    let start = header.find("winner").expect("its last column");
    let records = lines.filter(|line| !line.is_empty());
    records.map(|line| &line[start..]).collect()
}

#[test]
fn who_predicted_is_a_dash_in_kind_1_and_told_in_kind_2() {
    let room = room("kinds-table");
    let [one, two] = ["one.rec", "two.rec"].map(|name| room.run(&["show", name]).stdout);
    assert_eq!(last_column(&one), ["-"; 4]);
    assert_eq!(
        last_column(&two),
        [
            "sub-predictor 3, right 99,364 times",
            "sub-predictor 1, right 6,002 times",
            "sub-predictor 6, right 122,109 times",
            "sub-predictor 1, right 9,672 times"
        ]
    );
    let rating = stored("board-17.txt");
    for told in [
        "MultiMCW bits     window 1023, right 99,364 times (49.6%)",
        "MultiMCW literal  window 63, right 6,002 times (12.0%)",
        "MultiMMC bits     prefix 6, right 122,109 times (61.0%)",
        "MultiMMC literal  prefix 1, right 9,672 times (19.3%)",
    ] {
        assert!(rating.contains(&format!("\n  {told}\n")), "{told}");
    }
}

#[test]
fn both_kinds_stand_in_one_file_in_any_order() {
    let room = room("kinds-mixed");
    let (one, two) = (bytes(&room, "one.rec"), bytes(&room, "two.rec"));
    let mixed = [&two[..66], &one, &two[66..]].concat();
    room.file("mixed.rec", &mixed);
    let json = room.run(&["show", "mixed.rec", "--json"]);
    assert_eq!((json.status, &*json.stderr), (0, ""));
    let records: Vec<&str> = json.stdout.split(r#"{"byte":"#).skip(1).collect();
    let absent = r#","winner":null,"score":null}"#;
    let told = [
        r#","winner":3,"score":99364}"#,
        absent,
        absent,
        absent,
        absent,
        r#","winner":1,"score":6002}"#,
        r#","winner":6,"score":122109}"#,
        r#","winner":1,"score":9672}"#,
    ];
    let kinds = [2, 1, 1, 1, 1, 2, 2, 2];
    let starts = [0, 66, 127, 188, 249, 310, 376, 442];
    assert_eq!(records.len(), told.len());
    for (i, record) in records.iter().enumerate() {
        let head = format!(r#"{},"kind":{},"number":0,"#, starts[i], kinds[i]);
        assert!(record.starts_with(&head), "{record}");
        assert!(record.contains(told[i]), "{record}");
    }
}

#[test]
fn counts_alone_and_refusals_have_no_winner() {
    let examples = rows::examples();
    let row = [&*examples[10].bytes, &*examples[11].bytes].concat();
    let [table, json] = shown("kinds-none", &row);
    assert_eq!((table.status, json.status), (0, 0));
    let winners = last_column(&table.stdout);
    assert_eq!(winners, ["none", "none  too few samples (answer 6)"]);
    assert!(json.stdout.contains(r#","winner":0,"score":0},"#));
    let refusal = r#"{"byte":66,"kind":2,"number":6,"answer":"not run: too few samples","winner":0,"score":0}"#;
    assert!(json.stdout.contains(refusal));
}

#[test]
fn a_record_of_kind_2_that_is_cut_short() {
    let row = third(9, 0, &[]);
    for (left, said, size) in [
        (1, "1 byte is", "61 or 66"),
        (3, "3 bytes are", "61 or 66"),
        (4, "4 bytes are", "66"),
        (6, "6 bytes are", "66"),
        (61, "61 bytes are", "66"),
        (65, "65 bytes are", "66"),
    ] {
        let reason = format!("{said} left, and a record takes {size}");
        let name = format!("kinds-cut-{left}");
        is_bad(&name, &row[..122 + left], 8, &reason);
    }
}

#[test]
fn a_record_of_kind_2_with_a_wrong_head_or_winner() {
    for (name, number, of, first, field, reason) in [
        (
            "length",
            8,
            9,
            0,
            &[57][..],
            "its length field says 57, and a record of kind 2 has 62 there",
        ),
        (
            "kind",
            8,
            9,
            4,
            &[1],
            "its length field says 62, and a record of kind 1 has 57 there",
        ),
        ("above", 9, 9, 61, &[17], "its winner is 17, above 16"),
        (
            "far-above",
            9,
            10,
            61,
            &[255],
            "its winner is 255, above 16",
        ),
        (
            "score",
            9,
            9,
            62,
            &[2, 13, 3, 0],
            "its score is 199,938, above its N, 199,937",
        ),
        (
            "alone",
            9,
            9,
            61,
            &[0],
            "its score is 99,364, and it has no winner",
        ),
        (
            "score-alone",
            9,
            10,
            62,
            &[1],
            "its score is 1, and it has no winner",
        ),
        (
            "winner-in-refusal",
            9,
            11,
            61,
            &[1],
            "its winner is 1, and an answer of 6 has 0 there",
        ),
        (
            "score-in-refusal",
            9,
            11,
            62,
            &[1],
            "its score is 1, and an answer of 6 has 0 there",
        ),
        (
            "before-winner",
            9,
            9,
            6,
            &[8],
            "its answer number is 8, and 0 to 7 and 10 are given",
        ),
    ] {
        let row = third(of, first, field);
        is_bad(&format!("kinds-{name}"), &row, number, reason);
    }
}

#[test]
fn a_winner_and_a_score_at_their_limits_are_good() {
    let mut row = Vec::new();
    for (winner, score) in [(1, 0), (16, 199_937), (3, 1)] {
        let mut record = rows::examples()[9].bytes.clone();
        record[61] = winner;
        record[62..].copy_from_slice(&u32::to_le_bytes(score));
        row.extend(record);
    }
    let [table, _] = shown("kinds-limits", &row);
    assert_eq!((table.status, &*table.stderr), (0, ""));
    assert_eq!(
        last_column(&table.stdout),
        [
            "sub-predictor 1, right 0 times",
            "sub-predictor 16, right 199,937 times",
            "sub-predictor 3, right 1 time"
        ]
    );
}

/// The command reads 1 MiB at a time. After 45, 19 or 0 records of kind 1, that ends when 61, 63 or
/// 34 bytes of a record of kind 2 are read.
#[test]
fn a_record_that_the_end_of_a_block_cuts_is_good() {
    let [one, two] = [0, 9].map(|place| rows::examples()[place].bytes.clone());
    for (count, left) in [(45, 61), (19, 63), (0, 34)] {
        assert_eq!((1_048_576 - 61 * count) % 66, left);
        let row = [one.repeat(count), two.repeat(16_000)].concat();
        let [table, _] = shown(&format!("kinds-block-{count}"), &row);
        assert_eq!((table.status, &*table.stderr), (0, ""));
        assert_eq!(table.stdout.lines().count(), count + 16_000 + 4);
    }
}
