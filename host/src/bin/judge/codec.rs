//! Records of answers once more, as plainly as they can be said: a list of bytes, an answer, and who
//! predicted, which may be absent. A refusal is its number.

use crate::plain;
use abutfern::numbers::{LEVELS, ROUND_LIMIT, SYMBOL_LIMIT};
use abutfern::{Answer, Estimate, Row, Winner};

/// The kinds of records: without who predicted, and with it.
pub const KINDS: [u64; 2] = [1, 2];

/// What a record holds.
#[derive(Clone, Copy, Debug)]
pub struct Held {
    /// The answer; its own winner and score are not looked at.
    pub answer: Answer,
    /// Who predicted. Absent is not the same as nobody, which is 0 in both.
    pub who: Option<Winner>,
}

impl Held {
    /// An answer with its own winner and score, or without them.
    pub fn of(answer: &Answer, told: bool) -> Self {
        let Answer { winner, score, .. } = *answer;
        Self {
            answer: *answer,
            who: told.then_some(Winner { winner, score }),
        }
    }

    /// The same as a record of a kind holds it.
    pub fn in_kind(&self, kind: u64) -> Self {
        Self {
            answer: self.answer,
            who: self.who.filter(|_| kind != KINDS[0]),
        }
    }
}

/// The bytes of a record, its length field among them. A number that is no kind has the room of
/// the first asked for it.
pub fn size(kind: u64) -> usize {
    if kind == KINDS[1] { 66 } else { 61 }
}

/// The record of a kind in a buffer of `room` bytes.
pub fn encode(held: &Held, kind: u64, room: usize) -> Result<Vec<u8>, u64> {
    if room < size(kind) {
        return Err(2);
    }
    if !KINDS.contains(&kind) {
        return Err(8);
    }
    let absent = kind == KINDS[1] && held.who.is_none();
    if absent || !can_be(held) {
        return Err(9);
    }
    Ok(laid_out(&held.in_kind(kind)))
}

/// What the record at the start of some bytes holds.
pub fn decode(bytes: &[u8]) -> Result<Held, u64> {
    if bytes.len() < 6 {
        return Err(8);
    }
    let mut rest = bytes;
    let length = number(&mut rest, 4);
    let kind = number(&mut rest, 2);
    let size = size(kind);
    if !KINDS.contains(&kind) || length != size as u64 - 4 || bytes.len() < size {
        return Err(8);
    }
    let held = fields(&mut rest, kind);
    if !can_be(&held) {
        return Err(9);
    }
    Ok(held)
}

/// The bytes that the record of what was read takes.
pub fn taken(held: &Held) -> usize {
    size(KINDS[usize::from(held.who.is_some())])
}

/// What stands in a row of records.
pub fn row(bytes: &[u8]) -> Row {
    let (mut good, mut byte) = (0, 0);
    while byte < bytes.len() {
        match decode(&bytes[byte..]) {
            Ok(held) => byte += taken(&held),
            Err(number) => {
                let byte = byte as u64;
                return Row { good, number, byte };
            }
        }
        good += 1;
    }
    let byte = byte as u64;
    let number = 0;
    Row { good, number, byte }
}

/// What the record of a place in a row holds; where the row ends or is bad before it, the refusal.
pub fn at(bytes: &[u8], place: u64) -> Result<Held, u64> {
    let mut rest = bytes;
    let mut left = place;
    loop {
        let held = decode(rest)?;
        if left == 0 {
            return Ok(held);
        }
        left -= 1;
        rest = &rest[taken(&held)..];
    }
}

/// The fields in their order, whatever they are; of one too large for its bytes, the low bytes.
pub fn laid_out(held: &Held) -> Vec<u8> {
    let answer = &held.answer;
    let e = &answer.estimate;
    let size = taken(held);
    let mut record = Vec::with_capacity(size);
    record.extend((size as u32 - 4).to_le_bytes());
    record.extend(if held.who.is_some() { [2, 0] } else { [1, 0] });
    record.push(answer.number as u8);
    record.extend((answer.k as u16).to_le_bytes());
    for field in [answer.place, e.c, e.n, e.max_run_len, answer.rounds] {
        record.extend((field as u32).to_le_bytes());
    }
    for float in [e.p_global, e.p_global_prime, e.p_local, e.min_entropy] {
        record.extend(float.to_bits().to_le_bytes());
    }
    if let Some(Winner { winner, score }) = held.who {
        record.push(winner as u8);
        record.extend((score as u32).to_le_bytes());
    }
    record
}

/// The fields that follow the kind.
fn fields(rest: &mut &[u8], kind: u64) -> Held {
    let answer_number = number(rest, 1);
    let k = number(rest, 2);
    let [place, c, n, max_run_len, rounds] = [(); 5].map(|()| number(rest, 4));
    let floats = [(); 4].map(|()| f64::from_bits(number(rest, 8)));
    let [p_global, p_global_prime, p_local, min_entropy] = floats;
    let who = (kind == KINDS[1]).then(|| Winner {
        winner: number(rest, 1),
        score: number(rest, 4),
    });
    let answer = Answer {
        number: answer_number,
        place,
        k,
        rounds,
        winner: 0,
        score: 0,
        estimate: Estimate {
            c,
            n,
            max_run_len,
            p_global,
            p_global_prime,
            p_local,
            min_entropy,
        },
    };
    Held { answer, who }
}

/// The next number, of `size` bytes, the lowest first.
fn number(rest: &mut &[u8], size: usize) -> u64 {
    let (first, more) = rest.split_at(size);
    *rest = more;
    let higher = |number, byte: &u8| number * 256 + u64::from(*byte);
    first.iter().rev().fold(0, higher)
}

/// Whether an answer and who predicted may stand in a record.
fn can_be(held: &Held) -> bool {
    let answer = &held.answer;
    let fields = match answer.number {
        0 => ran(answer),
        3 => answer.place < SYMBOL_LIMIT as u64 && is_refusal(answer, answer.place),
        number => plain::GIVEN.contains(&number) && is_refusal(answer, 0),
    };
    fields && held.who.is_none_or(|who| can_predict(&who, answer))
}

/// Whether it can be who predicted: nobody in an answer other than 0, and nobody has a score.
fn can_predict(who: &Winner, answer: &Answer) -> bool {
    let last = if answer.number == 0 { LEVELS as u64 } else { 0 };
    let most = if who.winner == 0 {
        0
    } else {
        answer.estimate.n
    };
    who.winner <= last && who.score <= most
}

/// Whether the fields beside the number are a refusal's, but for who predicted.
fn is_refusal(answer: &Answer, place: u64) -> bool {
    let nobody = Answer {
        winner: 0,
        score: 0,
        ..*answer
    };
    nobody.words() == plain::refused((answer.number, place)).words()
}

/// Whether the fields beside the number 0 are those of an estimate. -0.0 is not below 0.0.
fn ran(answer: &Answer) -> bool {
    let e = &answer.estimate;
    let unit = 0.0..=1.0;
    answer.place == 0
        && !plain::impossible(e.c, e.n, e.max_run_len, answer.k)
        && answer.rounds <= ROUND_LIMIT
        && unit.contains(&e.p_global)
        && unit.contains(&e.p_global_prime)
        && (e.p_local == -1.0 || unit.contains(&e.p_local))
        && (0.0..=8.0).contains(&e.min_entropy)
}

#[cfg(test)]
mod tests {
    use super::*;
    use crate::replies::reading;

    const ANSWER: Answer = Answer {
        number: 0,
        place: 0,
        k: 256,
        rounds: 0x0434,
        winner: 16,
        score: 0x0506_0708,
        estimate: Estimate {
            c: 0x0102_0304,
            n: 0x0506_0708,
            max_run_len: 0x0009_0a0b,
            p_global: 0.5,
            p_global_prime: 1.0,
            p_local: -0.0,
            min_entropy: 8.0,
        },
    };

    /// The bytes after the kind, up to who predicted.
    const BODY: [u8; 55] = [
        0, 0, 1, 0, 0, 0, 0, 4, 3, 2, 1, 8, 7, 6, 5, 11, 10, 9, 0, 0x34, 4, 0, 0, 0, 0, 0, 0, 0, 0,
        0xe0, 0x3f, 0, 0, 0, 0, 0, 0, 0xf0, 0x3f, 0, 0, 0, 0, 0, 0, 0, 0x80, 0, 0, 0, 0, 0, 0,
        0x20, 0x40,
    ];

    fn unnamed() -> Vec<u8> {
        [&[57, 0, 0, 0, 1, 0], &BODY[..]].concat()
    }

    fn named() -> Vec<u8> {
        [&[62, 0, 0, 0, 2, 0], &BODY[..], &[16, 8, 7, 6, 5]].concat()
    }

    #[test]
    fn records_by_hand() {
        let [with, without] = [true, false].map(|told| Held::of(&ANSWER, told));
        assert_eq!(encode(&with, 1, 61), Ok(unnamed()));
        assert_eq!(encode(&without, 1, 61), Ok(unnamed()));
        assert_eq!(encode(&with, 2, 66), Ok(named()));
        assert_eq!(encode(&without, 2, 66), Err(9));
        let read = reading(decode(&named()));
        assert_eq!((read.number, read.size, read.told), (0, 66, 1));
        assert_eq!(read.answer.words(), ANSWER.words());
        let read = reading(decode(&unnamed()));
        assert_eq!((read.number, read.size, read.told), (0, 61, 0));
        assert!(read.winner().is_none());
        let words = Answer {
            winner: 0,
            score: 0,
            ..ANSWER
        };
        assert_eq!(read.answer.words(), words.words());
    }

    #[test]
    fn refusals_in_their_order() {
        let held = Held::of(&ANSWER, true);
        for (kind, room, number) in [
            (2, 65, 2),
            (1, 60, 2),
            (3, 60, 2),
            (3, 61, 8),
            (0, 100, 8),
            (258, 61, 8),
        ] {
            assert_eq!(encode(&held, kind, room), Err(number), "{kind}, {room}");
        }
        assert_eq!(decode(&named()[..65]).map(|_| ()), Err(8));
        let mut other = named();
        other[0] = 57;
        assert_eq!(decode(&other).map(|_| ()), Err(8));
        assert_eq!(decode(&[&other[..], &[0; 9]].concat()).map(|_| ()), Err(8));
    }

    #[test]
    fn who_can_have_predicted() {
        let n = ANSWER.estimate.n;
        for (winner, score, good) in [
            (0, 0, true),
            (0, 1, false),
            (1, 0, true),
            (1, n, true),
            (4, n + 1, false),
            (16, 1 << 32, false),
            (17, 0, false),
            (256, 0, false),
        ] {
            let answer = Answer {
                winner,
                score,
                ..ANSWER
            };
            for kind in KINDS {
                let written = encode(&Held::of(&answer, true), kind, 66);
                assert_eq!(written.is_ok(), good, "{winner}, {score} in {kind}");
            }
            assert!(encode(&Held::of(&answer, false), 1, 61).is_ok());
        }
        for (winner, score, good) in [(0, 0, true), (1, 0, false), (0, 1, false)] {
            let answer = Answer {
                winner,
                score,
                ..plain::refused((6, 0))
            };
            let written = encode(&Held::of(&answer, true), 2, 66);
            assert_eq!(written.is_ok(), good, "{winner}, {score} beside a refusal");
        }
    }

    #[test]
    fn rows_of_both_kinds() {
        let bytes = [named(), unnamed(), named()].concat();
        let found = row(&bytes);
        assert_eq!((found.good, found.number, found.byte), (3, 0, 193));
        let found = row(&bytes[..192]);
        assert_eq!((found.good, found.number, found.byte), (2, 8, 127));
        let told = [0, 1, 2].map(|place| at(&bytes, place).map(|held| held.who.is_some()));
        assert_eq!(told, [Ok(true), Ok(false), Ok(true)]);
        assert_eq!(at(&bytes, 3).map(|_| ()), Err(8));
    }
}
