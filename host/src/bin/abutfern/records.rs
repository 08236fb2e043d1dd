//! The records of rated captures, on their way to a file.

use crate::rate::{ESTIMATORS, Rated};
use crate::{names, streams, whole};
use abutfern::{Answer, NAMED_RECORD_SIZE};
use std::path::Path;

/// A row of records without a name in it: each is known by its place alone.
pub struct Records<'a> {
    out: &'a Path,
    /// The kind of each.
    kind: u64,
    count: u64,
    bytes: Vec<u8>,
    /// The first reason not to write them.
    gap: Option<String>,
}

impl<'a> Records<'a> {
    /// Records of a kind for a file that can be made; where it cannot, it says so.
    pub fn to(out: &'a Path, kind: u64) -> Option<Self> {
        if let Err(error) = whole::can_be(out) {
            streams::say(&format!("{} {error}", names::shown(out)));
            return None;
        }
        Some(Self {
            out,
            kind,
            count: 0,
            bytes: Vec::new(),
            gap: None,
        })
    }

    /// Takes the records of the next capture.
    pub fn add(&mut self, capture: &Path, rated: &Rated) {
        let added = match rated {
            Ok(rating) => rating
                .answers
                .iter()
                .try_for_each(|answer| self.push(answer)),
            Err(_) => Err(
                "could not be read, and records are told apart by their order alone; \
                           mend that or leave it out, and rate again"
                    .to_string(),
            ),
        };
        if let Err(reason) = added {
            let reason = format!("{} {reason}", names::shown(capture));
            self.gap.get_or_insert(reason);
        }
    }

    fn push(&mut self, answer: &Answer) -> Result<(), String> {
        let mut record = [0; NAMED_RECORD_SIZE];
        let written = abutfern::write_record(answer, true, self.kind, &mut record);
        match written.number {
            0 => self.bytes.extend(&record[..written.size as usize]),
            number => return Err(format!("{NO_RECORD} (answer {number}): {ANEW}")),
        }
        self.count += 1;
        Ok(())
    }

    /// Writes them; says where they are, or why they are not.
    pub fn keep(self) -> bool {
        let out = names::shown(self.out);
        if let Some(gap) = self.gap {
            streams::say(&format!("{out} is not written: {gap}"));
            return false;
        }
        let written = whole::write(self.out, &self.bytes);
        match &written {
            Ok(()) => streams::say(&format!(
                "{out} has {} records of kind {}, {} of each capture in the order given",
                self.count,
                self.kind,
                ESTIMATORS.len()
            )),
            Err(error) => streams::say(&format!("{out} {error}")),
        }
        written.is_ok()
    }
}

const NO_RECORD: &str = "has an answer that the library does not write";
const ANEW: &str = "build the command anew, from its sources";
