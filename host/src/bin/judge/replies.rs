//! What the writer and the readers of records have to say of what the plain codec finds.

use crate::codec::{self, Held};
use crate::plain;
use abutfern::{Answer, Reading, Winner, Written};

/// What the writer has to say.
pub fn written(record: &Result<Vec<u8>, u64>) -> Written {
    match record {
        Ok(record) => Written {
            number: 0,
            size: record.len() as u64,
        },
        Err(number) => Written {
            number: *number,
            size: 0,
        },
    }
}

/// What a reader has to say.
pub fn reading(read: Result<Held, u64>) -> Reading {
    match read {
        Ok(held) => {
            let nobody = Winner {
                winner: 0,
                score: 0,
            };
            let Winner { winner, score } = held.who.unwrap_or(nobody);
            Reading {
                number: 0,
                size: codec::taken(&held) as u64,
                told: held.who.is_some().into(),
                answer: Answer {
                    winner,
                    score,
                    ..held.answer
                },
            }
        }
        Err(number) => Reading {
            number,
            size: 0,
            told: 0,
            answer: plain::refused((number, 0)),
        },
    }
}

/// Whether two readings are the same, floats by their bits; 0 stands beside the flag where winner
/// and score are absent.
pub fn same(a: &Reading, b: &Reading) -> bool {
    let words = |reading: &Reading| {
        let Reading {
            number, size, told, ..
        } = *reading;
        ([number, size, told], reading.answer.words())
    };
    words(a) == words(b)
}
