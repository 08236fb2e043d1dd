//! What is wrong with a bad record, in words. Whether it is bad the library has said.

use crate::table::grouped;
use abutfern::numbers::{LEVELS, PREDICTION_LIMIT, ROUND_LIMIT, SYMBOL_LIMIT};
use abutfern::{NAMED_RECORD_KIND, NAMED_RECORD_SIZE, RECORD_KIND, RECORD_SIZE};

/// A kind of record, and how many bytes it takes.
struct Kind {
    number: u64,
    size: u64,
}

impl Kind {
    /// What the length field says: the bytes that follow it.
    fn length(&self) -> u64 {
        self.size - 4
    }
}

/// The kinds that are known.
const KINDS: [Kind; 2] = [
    Kind {
        number: RECORD_KIND,
        size: RECORD_SIZE as u64,
    },
    Kind {
        number: NAMED_RECORD_KIND,
        size: NAMED_RECORD_SIZE as u64,
    },
];

/// The answer numbers that are given: up to the first of these, and the second.
const GIVEN: [u64; 2] = [7, 10];

/// The first thing that is wrong with the record at the start of some bytes, if anything is.
pub fn of(bytes: &[u8]) -> Option<String> {
    envelope(bytes).or_else(|| {
        let fields = Fields::read(bytes);
        let [last, other] = GIVEN;
        match fields.number {
            0 => ran(&fields),
            number if number <= last || number == other => refused(&fields),
            number => Some(format!(
                "its answer number is {number}, and 0 to {last} and {other} are given"
            )),
        }
    })
}

/// The little-endian number in some bytes, if they are there.
fn number(bytes: &[u8], first: usize, size: usize) -> Option<u64> {
    let bytes = bytes.get(first..first + size)?;
    let digits = bytes.iter().rev();
    Some(digits.fold(0, |number, byte| number << 8 | u64::from(*byte)))
}

/// What is wrong with the length, the kind or the end.
fn envelope(bytes: &[u8]) -> Option<String> {
    let (length, kind) = (number(bytes, 0, 4), number(bytes, 4, 2));
    let of_length = KINDS.iter().find(|known| Some(known.length()) == length);
    let of_kind = KINDS.iter().find(|known| Some(known.number) == kind);
    match (length, of_length, kind, of_kind) {
        (Some(length), None, _, _) => Some(no_length(length)),
        (_, _, Some(kind), None) => Some(no_kind(kind)),
        (_, Some(one), _, Some(other)) if one.number != other.number => Some(format!(
            "its length field says {}, and a record of kind {} has {} there",
            one.length(),
            other.number,
            other.length()
        )),
        (_, known, _, _) => cut(bytes.len() as u64, known),
    }
}

fn no_length(length: u64) -> String {
    let [first, second] = KINDS.map(|known| known.length());
    let length = grouped(length);
    format!("its length field says {length}, not {first} or {second}")
}

fn no_kind(kind: u64) -> String {
    let [first, second] = KINDS.map(|known| known.number);
    let kind = grouped(kind);
    format!("its kind is {kind}, and {first} and {second} are known")
}

/// What is said where fewer bytes are left than a record takes, of a kind if it is known.
fn cut(left: u64, known: Option<&Kind>) -> Option<String> {
    let [first, second] = KINDS.map(|known| known.size);
    let takes = match known {
        Some(known) if left < known.size => known.size.to_string(),
        None if left < first => format!("{first} or {second}"),
        _ => return None,
    };
    let left = match left {
        1 => "1 byte is".to_string(),
        left => format!("{left} bytes are"),
    };
    Some(format!("{left} left, and a record takes {takes}"))
}

/// The fields of a whole record.
struct Fields {
    number: u64,
    k: u64,
    place: u64,
    c: u64,
    n: u64,
    run: u64,
    rounds: u64,
    /// p_global, p_global', p_local, min-entropy.
    floats: [f64; 4],
    /// Of a kind that does not tell who predicted, this and the next are 0, as where there is none.
    winner: u64,
    score: u64,
}

const FLOATS: [&str; 4] = ["p_global", "p_global'", "p_local", "min-entropy"];

impl Fields {
    fn read(bytes: &[u8]) -> Self {
        let field = |first, size| number(bytes, first, size).unwrap_or(0);
        let told = |first, size| match field(4, 2) {
            NAMED_RECORD_KIND => field(first, size),
            _ => 0,
        };
        Self {
            number: field(6, 1),
            k: field(7, 2),
            place: field(9, 4),
            c: field(13, 4),
            n: field(17, 4),
            run: field(21, 4),
            rounds: field(25, 4),
            floats: [29, 37, 45, 53].map(|first| f64::from_bits(field(first, 8))),
            winner: told(61, 1),
            score: told(62, 4),
        }
    }
}

/// What an answer other than 0 has that it cannot have.
fn refused(fields: &Fields) -> Option<String> {
    let number = fields.number;
    if number == 3 && fields.place >= SYMBOL_LIMIT as u64 {
        let most = grouped(SYMBOL_LIMIT as u64 - 1);
        let place = grouped(fields.place);
        return Some(format!(
            "its place is {place}, and {most} is the last of a capture"
        ));
    }
    let place = if number == 3 { 0 } else { fields.place };
    let wholes = [
        ("k", fields.k),
        ("place", place),
        ("C", fields.c),
        ("N", fields.n),
        ("longest run", fields.run),
        ("number of rounds", fields.rounds),
        ("winner", fields.winner),
        ("score", fields.score),
    ];
    let whole = wholes.iter().find(|(_, value)| *value != 0);
    if let Some((name, value)) = whole {
        let value = grouped(*value);
        return Some(format!(
            "its {name} is {value}, and an answer of {number} has 0 there"
        ));
    }
    let mut floats = FLOATS.iter().zip(fields.floats);
    let (name, value) = floats.find(|(_, value)| *value != -1.0)?;
    Some(format!(
        "its {name} is {value:?}, and an answer of {number} has -1.0 there"
    ))
}

/// What an answer of 0 has that it cannot have.
fn ran(fields: &Fields) -> Option<String> {
    let (place, rounds) = (grouped(fields.place), grouped(fields.rounds));
    if fields.place != 0 {
        return Some(format!(
            "its place is {place}, and an answer of 0 has 0 there"
        ));
    }
    let after = || {
        let most = grouped(ROUND_LIMIT);
        let wrong = fields.rounds > ROUND_LIMIT;
        wrong.then(|| format!("its number of rounds is {rounds}, above {most}"))
    };
    let floats = || floats(fields);
    let predicted = || predicted(fields);
    counts(fields)
        .or_else(after)
        .or_else(floats)
        .or_else(predicted)
}

/// Counts that cannot be.
fn counts(fields: &Fields) -> Option<String> {
    let [k, c, n, run] = [fields.k, fields.c, fields.n, fields.run].map(grouped);
    if fields.c > fields.n {
        Some(format!("its C is {c}, above its N, {n}"))
    } else if fields.run > fields.c {
        Some(format!("its longest run is {run}, above its C, {c}"))
    } else if fields.c > 0 && fields.run == 0 {
        Some(format!("its longest run is 0, and its C is {c}"))
    } else if !(1..=256).contains(&fields.k) {
        Some(format!("its k is {k}, outside 1 to 256"))
    } else if fields.n > PREDICTION_LIMIT {
        let most = grouped(PREDICTION_LIMIT);
        Some(format!("its N is {n}, above {most}"))
    } else {
        None
    }
}

/// The first float of an answer of 0 that is outside its range.
fn floats(fields: &Fields) -> Option<String> {
    let ranges = [
        ("0 to 1", 1.0),
        ("0 to 1", 1.0),
        ("0 to 1 and not -1.0", 1.0),
        ("0 to 8", 8.0),
    ];
    let unsolved = |name: &str, value: f64| name == "p_local" && value == -1.0;
    let mut floats = FLOATS.iter().zip(fields.floats).zip(ranges);
    let ((name, value), (range, _)) = floats.find(|((name, value), (_, most))| {
        !(0.0..=*most).contains(value) && !unsolved(name, *value)
    })?;
    Some(format!("its {name} is {value:?}, outside {range}"))
}

/// Who predicted, where that cannot be.
fn predicted(fields: &Fields) -> Option<String> {
    let [winner, score, n] = [fields.winner, fields.score, fields.n].map(grouped);
    if fields.winner > LEVELS as u64 {
        Some(format!("its winner is {winner}, above {LEVELS}"))
    } else if fields.winner == 0 && fields.score > 0 {
        Some(format!("its score is {score}, and it has no winner"))
    } else if fields.score > fields.n {
        Some(format!("its score is {score}, above its N, {n}"))
    } else {
        None
    }
}

#[cfg(test)]
mod tests {
    use super::*;
    use abutfern::{Answer, prediction_estimate, read_record, write_record};

    /// Every record that is one byte away from a good one.
    fn near(good: &[u8], look: impl Fn(&[u8])) {
        for byte in 0..good.len() {
            for value in 0..=255 {
                let mut record = good.to_vec();
                record[byte] = value;
                look(&record);
            }
            look(&good[..byte]);
        }
    }

    /// Answers that ran, with a winner and without, and answers that did not.
    fn answers() -> [Answer; 4] {
        let counted = prediction_estimate(99_342, 199_937, 24, 2);
        let refused = prediction_estimate(2, 1, 1, 2);
        let (mut won, mut wide) = (counted, refused);
        (won.winner, won.score) = (2, 99_000);
        (wide.number, wide.place) = (3, 4321);
        [counted, won, refused, wide]
    }

    #[test]
    fn there_is_a_reason_where_the_library_refuses() {
        for answer in answers() {
            for Kind { number: kind, size } in KINDS {
                let mut good = vec![0; size as usize];
                assert_eq!(write_record(&answer, true, kind, &mut good).number, 0);
                near(&good, |record| {
                    let number = read_record(record).number;
                    assert_eq!(of(record).is_some(), number != 0, "{record:?}");
                    assert_eq!(envelope(record).is_some(), number == 8, "{record:?}");
                });
            }
        }
    }

    /// A record of kind 1 has an end of its own: what follows it is the next one's.
    #[test]
    fn what_follows_a_record_is_no_winner() {
        let mut row = [255; RECORD_SIZE + 5];
        let written = write_record(&answers()[0], true, RECORD_KIND, &mut row);
        assert_eq!((written.number, of(&row)), (0, None));
    }
}
