//! Records of answers beside a second, plain codec: the writer. The readers stand in other files.

use crate::answers::{disturbed, good, of_each_number, of_no_number, of_other_fields};
use crate::codec::{self, Held};
use crate::lent::{Lent, bytes};
use crate::replies::{reading, same, written};
use crate::rows;
use crate::tally::{Clock, Tally};
use abutfern::random::Random;
use abutfern::{Answer, NAMED_RECORD_SIZE, Written, exported, ffi};

/// Kinds that are asked for.
pub const ASKED: [u64; 19] = [
    0,
    1,
    2,
    3,
    16,
    255,
    256,
    257,
    258,
    65_535,
    65_536,
    65_537,
    65_538,
    1 << 32,
    (1 << 32) + 1,
    (1 << 32) + 2,
    (1 << 63) + 1,
    (1 << 63) + 2,
    u64::MAX,
];

/// Numbers that say that winner and score are there: all but 0.
const TOLD: [u64; 5] = [1, 2, 1 << 8, 1 << 32, u64::MAX];

/// The longest buffer that the writer is lent.
const LONGEST: usize = 75;

/// Judges what of the family exists; returns how many differ.
pub fn judge(clock: Clock, random: &mut Random) -> u64 {
    let mut bench = Bench {
        lent: bytes(4096, random),
    };
    let mut differ = 0;
    if exported("write_record") {
        differ += bench.write_fields(random) + bench.write_kinds(random);
        differ += bench.write_random(clock.part(3), random);
    }
    if exported("read_record") {
        differ += bench.read_bytes(random) + bench.read_cut(random);
        differ += bench.read_envelopes(random) + bench.read_fields(random);
        differ += bench.read_random(clock.part(2), random);
    }
    differ + rows::judge(clock, random)
}

/// What is lent to the writer and the reader.
pub struct Bench {
    pub lent: Lent<u8>,
}

/// What the writer is asked for.
struct Asked {
    answer: Answer,
    /// 0 where the answer's winner and score are absent.
    told: u64,
    kind: u64,
}

impl Asked {
    fn held(&self) -> Held {
        Held::of(&self.answer, self.told != 0)
    }

    /// The writer as C calls it, which may say in any number but 0 that winner and score are there.
    fn write(&self, out: &mut [u8]) -> Written {
        let (out, length) = (out.as_mut_ptr(), out.len());
        // The pointer and the length are those of a slice that outlives the call.
        unsafe { ffi::abutfern_write_record(self.answer, self.told, self.kind, out, length) }
    }

    /// Whether a record just written reads as what it holds, if there is a reader.
    fn reads_again(&self, record: &[u8]) -> bool {
        let held = self.held().in_kind(self.kind);
        !exported("read_record") || same(&abutfern::read_record(record), &reading(Ok(held)))
    }
}

impl Bench {
    /// Compares one record and all of the memory that it is written into, at any alignment, and
    /// reads it again.
    fn write(&mut self, asked: &Asked, length: usize, random: &mut Random, tally: &mut Tally) {
        let skip = random.index(8);
        let lent = self.lent.lend(skip + length, random);
        let mut memory = lent[..skip].to_vec();
        let ours = asked.write(&mut lent[skip..]);
        let again = ours.number != 0 || asked.reads_again(&lent[skip..]);
        let expected = codec::encode(&asked.held(), asked.kind, length);
        let mut faults = Vec::new();
        if ours != written(&expected) {
            faults.push(format!("{ours:?}, not {expected:?}"));
        }
        if !again {
            faults.push("it reads as another answer".to_string());
        }
        memory.extend(expected.iter().flatten());
        faults.extend(self.lent.fault(&memory));
        tally.note(outcome(ours.number));
        tally.judge(faults, || {
            let Asked { answer, told, kind } = asked;
            format!("{answer:?}, told {told}, as kind {kind} into {length}, {skip} past a start")
        });
    }

    /// Each field of each answer changed to each mark, in both kinds, winner and score told or not.
    fn write_fields(&mut self, random: &mut Random) -> u64 {
        let mut tally = Tally::new("write_record: each field at and beside every limit");
        for answer in of_other_fields() {
            for (told, kind) in [(1, 1), (1, 2), (0, 1), (0, 2)] {
                let length = codec::size(kind) + random.index(2);
                let asked = Asked { answer, told, kind };
                self.write(&asked, length, random, &mut tally);
            }
        }
        tally.close()
    }

    /// Every kind and buffer, for answers of every number, winner and score told or not.
    fn write_kinds(&mut self, random: &mut Random) -> u64 {
        let mut tally = Tally::new("write_record: every kind, buffers of 0 to 75 bytes");
        for answer in of_each_number().into_iter().chain(of_no_number()) {
            for kind in ASKED {
                for told in [0, random.one_of(&TOLD)] {
                    let asked = Asked { answer, told, kind };
                    for length in 0..=LONGEST {
                        self.write(&asked, length, random, &mut tally);
                    }
                }
            }
        }
        tally.close()
    }

    /// Random answers as they are and with up to two fields changed.
    fn write_random(&mut self, clock: Clock, random: &mut Random) -> u64 {
        let mut tally = Tally::new("write_record: random answers, good and disturbed");
        for () in clock.turns() {
            let given = good(random);
            for _ in 0..20 {
                let mut answer = given;
                for _ in 0..random.below(3) {
                    answer = disturbed(&answer, random);
                }
                let asked = some_asked(answer, random);
                let enough = NAMED_RECORD_SIZE + random.index(LONGEST - NAMED_RECORD_SIZE + 1);
                let exact = codec::size(asked.kind);
                let any = random.index(LONGEST + 1);
                let length = random.one_of(&[enough, enough, exact, any]);
                self.write(&asked, length, random, &mut tally);
            }
        }
        tally.close()
    }
}

/// An answer asked for in some kind. Where its winner and score are absent, its fields for them are
/// anything at times.
fn some_asked(mut answer: Answer, random: &mut Random) -> Asked {
    let any = random.one_of(&ASKED);
    let kind = random.one_of(&[1, 1, 1, 2, 2, 2, any]);
    let said = random.one_of(&TOLD);
    let told = random.one_of(&[0, 1, said]);
    if told == 0 && random.chance(1, 2) {
        (answer.winner, answer.score) = (random.word(), random.word());
    }
    Asked { answer, told, kind }
}

/// What a number says of a record.
pub fn outcome(number: u64) -> &'static str {
    match number {
        0 => "done",
        2 => "refused by 2",
        8 => "refused by 8",
        9 => "refused by 9",
        _ => "with another number",
    }
}
