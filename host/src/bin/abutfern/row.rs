//! A row of records, read by the library.

use crate::{files, reason};
use abutfern::numbers::meaning;
use abutfern::{
    Answer, NAMED_RECORD_KIND, NAMED_RECORD_SIZE, RECORD_KIND, Reading, Winner, read_record,
    read_records,
};
use std::io::Read;
use std::path::Path;

/// The functions of the library that are called.
pub const CALLED: [&str; 2] = ["read_records", "read_record"];

/// The records of a file up to the first bad one.
pub struct Row {
    pub records: Vec<Record>,
    pub bad: Option<Bad>,
}

/// A good record.
pub struct Record {
    /// The byte of the file that it begins at.
    pub byte: u64,
    pub kind: u64,
    pub answer: Answer,
    /// Who predicted, where its kind tells it.
    pub winner: Option<Winner>,
}

/// The first bad record.
pub struct Bad {
    /// Its place among the records, from 0.
    pub place: u64,
    pub byte: u64,
    pub number: u64,
    pub reason: String,
}

/// How much of a file is read before it is looked at: one that is no row of records may be endless.
const BLOCK: u64 = 1 << 20;

/// How many bytes the largest record takes. With fewer left, the end of a block may have cut it.
const LARGEST: usize = NAMED_RECORD_SIZE;

/// Reads a file of records, or standard input, no further than the block in which the first bad one
/// would end.
pub fn read(path: &Path) -> Result<Row, String> {
    let (mut file, _) = files::open(path, "files of records")?;
    let mut bytes = Vec::new();
    let mut row = read_records(&[]);
    loop {
        let block = file.by_ref().take(BLOCK).read_to_end(&mut bytes);
        let ended = block.map_err(files::advice)? == 0;
        let next = read_records(&bytes[row.byte as usize..]);
        row.good += next.good;
        row.byte += next.byte;
        row.number = next.number;
        let cut = bytes.len() - (row.byte as usize) < LARGEST;
        if ended || !cut {
            return Ok(told(&bytes, &row));
        }
    }
}

/// A row of which the library has said how far it is good.
fn told(bytes: &[u8], row: &abutfern::Row) -> Row {
    let mut records = Vec::new();
    let mut rest = bytes;
    for _ in 0..row.good {
        let reading = read_record(rest);
        records.push(Record {
            byte: (bytes.len() - rest.len()) as u64,
            kind: kind(&reading),
            answer: reading.answer,
            winner: reading.winner(),
        });
        rest = &rest[reading.size as usize..];
    }
    let bad = (row.number != 0).then(|| Bad {
        place: row.good,
        byte: row.byte,
        number: row.number,
        reason: reason::of(rest).unwrap_or(meaning(row.number).to_string()),
    });
    Row { records, bad }
}

/// The kind of a record that was read.
fn kind(reading: &Reading) -> u64 {
    match reading.winner() {
        Some(_) => NAMED_RECORD_KIND,
        None => RECORD_KIND,
    }
}
