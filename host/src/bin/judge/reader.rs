//! The reader of one record beside the plain codec.

use crate::answers::{disturbed, good, of_each_number, of_no_number, of_other_fields};
use crate::codec::{self, Held};
use crate::records::{ASKED, Bench, outcome};
use crate::replies::{reading, same};
use crate::tally::{Clock, Tally};
use crate::trip::again_fault;
use abutfern::random::Random;
use abutfern::{Answer, exported};

/// Length fields: beside the right ones, their digits at other places, and the ends.
pub const LENGTHS: [u32; 26] = [
    0,
    1,
    2,
    55,
    56,
    57,
    58,
    59,
    60,
    61,
    62,
    63,
    64,
    66,
    57 + (1 << 8),
    57 << 8,
    57 << 16,
    57 << 24,
    62 + (1 << 8),
    62 << 8,
    62 << 24,
    1 << 31,
    (1 << 31) + 57,
    (1 << 31) + 62,
    u32::MAX - 3,
    u32::MAX,
];

/// Gives a record another length field and kind.
pub fn relabelled(mut record: Vec<u8>, length: u32, kind: u64) -> Vec<u8> {
    record[..4].copy_from_slice(&length.to_le_bytes());
    record[4..6].copy_from_slice(&(kind as u16).to_le_bytes());
    record
}

/// The records of an answer: without who predicted, and with it.
pub fn both_records(answer: &Answer) -> [Vec<u8>; 2] {
    [false, true].map(|told| codec::laid_out(&Held::of(answer, told)))
}

/// A record of an answer in either kind.
pub fn either_record(answer: &Answer, random: &mut Random) -> Vec<u8> {
    codec::laid_out(&Held::of(answer, random.chance(1, 2)))
}

/// Random bytes.
pub fn rubbish(length: usize, random: &mut Random) -> Vec<u8> {
    std::iter::repeat_with(|| random.byte())
        .take(length)
        .collect()
}

impl Bench {
    /// Compares what is read from the first `length` of some bytes, which stay as they are, and
    /// writes it again.
    fn read(&mut self, bytes: &[u8], length: usize, random: &mut Random, tally: &mut Tally) {
        let skip = random.index(8);
        let lent = self.lent.lend(skip + bytes.len(), random);
        lent[skip..].copy_from_slice(bytes);
        let memory = lent.to_vec();
        let ours = abutfern::read_record(&lent[skip..skip + length]);
        let expected = reading(codec::decode(&bytes[..length]));
        let mut faults = Vec::new();
        if !same(&ours, &expected) {
            faults.push(format!("{ours:?}, not {expected:?}"));
        }
        if ours.number == 0 && exported("write_record") {
            faults.extend(again_fault(&ours, bytes));
        }
        faults.extend(self.lent.fault(&memory));
        tally.note(outcome(ours.number));
        tally.judge(faults, || {
            format!("the first {length} of {bytes:?}, {skip} past a start")
        });
    }

    /// Each byte of a record of each number changed to every value.
    pub fn read_bytes(&mut self, random: &mut Random) -> u64 {
        let mut tally = Tally::new("read_record: each byte of a record as every value");
        for record in of_each_number().iter().flat_map(both_records) {
            for place in 0..record.len() {
                for value in 0..=255 {
                    let mut record = record.clone();
                    record[place] = value;
                    self.read(&record, record.len(), random, &mut tally);
                }
            }
        }
        tally.close()
    }

    /// Good records and bad ones cut to every length, with the rest or other bytes behind the end.
    pub fn read_cut(&mut self, random: &mut Random) -> u64 {
        let mut tally = Tally::new("read_record: cut to every length, and longer");
        for answer in of_each_number().into_iter().chain(of_no_number()) {
            for mut bytes in both_records(&answer) {
                bytes.extend(either_record(&answer, random));
                bytes.extend(rubbish(8, random));
                for length in 0..=bytes.len() {
                    self.read(&bytes, length, random, &mut tally);
                    self.read(&bytes[..length], length, random, &mut tally);
                }
            }
        }
        tally.close()
    }

    /// Length fields and kinds of every sort, before good bodies and bad ones.
    pub fn read_envelopes(&mut self, random: &mut Random) -> u64 {
        let mut tally = Tally::new("read_record: length fields and kinds");
        let answers = of_each_number().into_iter().chain(of_no_number());
        for record in answers.flat_map(|answer| both_records(&answer)) {
            for length in LENGTHS {
                for kind in ASKED {
                    let mut bytes = relabelled(record.clone(), length, kind);
                    let more = random.one_of(&[0, 1, 5, 61, 200]);
                    bytes.extend(rubbish(more, random));
                    self.read(&bytes, bytes.len(), random, &mut tally);
                }
            }
        }
        tally.close()
    }

    /// Each field of each answer laid out as each mark, the floats by their bits.
    pub fn read_fields(&mut self, random: &mut Random) -> u64 {
        let mut tally = Tally::new("read_record: each field at and beside every limit");
        for record in of_other_fields().flat_map(|answer| both_records(&answer)) {
            self.read(&record, record.len(), random, &mut tally);
        }
        tally.close()
    }

    /// Random records: written, disturbed, damaged and of random bytes.
    pub fn read_random(&mut self, clock: Clock, random: &mut Random) -> u64 {
        let mut tally = Tally::new("read_record: random records, good and damaged");
        for () in clock.turns() {
            let given = good(random);
            for _ in 0..20 {
                let mut bytes = some_record(&given, random);
                let more = random.one_of(&[0, 0, 1, 5, 61, 100]);
                bytes.extend(rubbish(more, random));
                let cut = random.index(bytes.len() + 1);
                let all = bytes.len();
                let length = random.one_of(&[all, all, all, all, all, cut]);
                self.read(&bytes, length, random, &mut tally);
            }
        }
        tally.close()
    }
}

/// Some bytes to read: a record of an answer or of a disturbed one, with bits turned or bytes
/// changed, or random bytes with the length field and kind of a record or without.
pub fn some_record(answer: &Answer, random: &mut Random) -> Vec<u8> {
    let mut record = either_record(answer, random);
    let size = record.len();
    match random.below(8) {
        0 => {}
        1..=3 => record = either_record(&disturbed(answer, random), random),
        4 => record[random.index(size)] ^= 1 << random.below(8),
        5 => {
            for _ in 0..=random.below(3) {
                record[random.index(size)] = random.byte();
            }
        }
        6 => {
            record[6] = random.below(10) as u8;
            record[7..].copy_from_slice(&rubbish(size - 7, random));
        }
        _ => record = rubbish(size, random),
    }
    record
}
