//! Records in a row beside the plain codec.

use crate::answers::{disturbed, good};
use crate::codec;
use crate::reader::{LENGTHS, either_record, relabelled, rubbish, some_record};
use crate::records::{ASKED, outcome};
use crate::replies::{reading, same};
use crate::tally::{Clock, Tally};
use abutfern::random::Random;
use abutfern::{NAMED_RECORD_SIZE, RECORD_SIZE, exported};

/// Judges the readers of a row that exist; returns how many differ.
pub fn judge(clock: Clock, random: &mut Random) -> u64 {
    cut_rows(random) + long_rows(random) + random_rows(clock, random)
}

/// What was compared of rows, and of the places in them.
struct Tallies {
    rows: Tally,
    places: Tally,
}

impl Tallies {
    fn new(kind: &str) -> Self {
        Self {
            rows: Tally::new(&format!("read_records: {kind}")),
            places: Tally::new(&format!("record_at: every place, {kind}")),
        }
    }

    /// Compares what is said of the first `length` of some bytes, and of the places in them.
    fn compare(&mut self, bytes: &[u8], length: usize) {
        let lent = bytes.to_vec();
        let row = &bytes[..length];
        if exported("read_records") {
            let ours = abutfern::read_records(&lent[..length]);
            let expected = codec::row(row);
            self.rows.note(outcome(ours.number));
            self.rows.check(ours == expected && lent == bytes, || {
                format!("{}: {ours:?}, not {expected:?}", described(row))
            });
        }
        if exported("record_at") {
            for place in places_of(row) {
                let ours = abutfern::record_at(&lent[..length], place);
                let expected = reading(codec::at(row, place));
                let good = same(&ours, &expected) && lent == bytes;
                self.places.note(outcome(ours.number));
                self.places.check(good, || {
                    let row = described(row);
                    format!("place {place} of {row}: {ours:?}, not {expected:?}")
                });
            }
        }
    }

    fn close(self) -> u64 {
        self.rows.close() + self.places.close()
    }
}

/// Every place up to two past the end, or, in a long row, the first ones and those around where the
/// good ones and where the shortest would end; places whose first byte is past what a word can
/// number.
fn places_of(row: &[u8]) -> Vec<u64> {
    let shortest = (row.len() / RECORD_SIZE) as u64;
    let ends = [codec::row(row).good, shortest];
    let around = |place: &u64| ends.iter().any(|end| place.abs_diff(*end) < 3);
    let near = (0..shortest + 3).filter(|place| *place < 25 || around(place));
    let sizes = [RECORD_SIZE, NAMED_RECORD_SIZE].map(|size| u64::MAX / size as u64);
    let far = sizes.into_iter().flat_map(|place| [place, place + 1]);
    let ends = [1 << 32, 1 << 63, u64::MAX];
    near.chain(far).chain(ends).collect()
}

/// A row in words: whole if it is short.
fn described(row: &[u8]) -> String {
    if row.len() <= 3 * NAMED_RECORD_SIZE {
        return format!("{row:?}");
    }
    let first = &row[..NAMED_RECORD_SIZE];
    format!("{} bytes, of which the first are {first:?}", row.len())
}

/// Good records, each of either kind.
fn good_records(count: usize, random: &mut Random) -> Vec<Vec<u8>> {
    (0..count)
        .map(|_| either_record(&good(random), random))
        .collect()
}

/// The same in a row.
fn good_row(count: usize, random: &mut Random) -> Vec<u8> {
    good_records(count, random).concat()
}

/// Rows of up to four records of both kinds, cut to every length: all good, and with the kind or the
/// number of one of them changed.
fn cut_rows(random: &mut Random) -> u64 {
    let mut tallies = Tallies::new("0 to 4 records, cut to every length");
    for count in 0..=4 {
        for bad in 0..=count {
            for (field, value) in [(4, 1), (4, 2), (4, 3), (6, 7), (6, 8)] {
                let mut records = good_records(count, random);
                if let Some(record) = records.get_mut(bad) {
                    record[field] = value;
                }
                let bytes = records.concat();
                for length in 0..=bytes.len() {
                    tallies.compare(&bytes, length);
                }
            }
        }
    }
    tallies.close()
}

/// More records than two bytes can count, with the last one whole, then cut.
fn long_rows(random: &mut Random) -> u64 {
    let mut tallies = Tallies::new("70,000 records");
    let bytes = good_row(100, random).repeat(700);
    for length in [bytes.len(), bytes.len() - 1] {
        tallies.compare(&bytes, length);
    }
    tallies.close()
}

fn random_rows(clock: Clock, random: &mut Random) -> u64 {
    let mut tallies = Tallies::new("0 to 20 records");
    for () in clock.turns() {
        let bytes = some_row(random);
        tallies.compare(&bytes, bytes.len());
    }
    tallies.close()
}

/// Up to 20 good records, most rows with a bad one at some place and good ones or rubbish after it.
fn some_row(random: &mut Random) -> Vec<u8> {
    let count = random.index(21);
    if random.chance(1, 4) {
        return good_row(count, random);
    }
    let before = random.index(count + 1);
    let mut bytes = good_row(before, random);
    bytes.extend(bad_record(random));
    if random.chance(1, 3) {
        let length = random.index(200);
        bytes.extend(rubbish(length, random));
    } else {
        bytes.extend(good_row(count - before, random));
    }
    bytes
}

/// A record that is cut, of another kind or length, with a changed field, or damaged otherwise.
fn bad_record(random: &mut Random) -> Vec<u8> {
    let answer = good(random);
    let mut record = either_record(&answer, random);
    let (length, kind) = (record.len() as u32 - 4, u64::from(record[4]));
    match random.below(5) {
        0 => record.truncate(random.index(record.len())),
        1 => record = relabelled(record, length, random.one_of(&ASKED)),
        2 => record = relabelled(record, random.one_of(&LENGTHS), kind),
        3 => record = either_record(&disturbed(&answer, random), random),
        _ => record = some_record(&answer, random),
    }
    record
}
