//! Every answer of the library goes into a record of each kind and comes back.

use crate::codec::{self, Held};
use crate::replies::{reading, same, written};
use abutfern::{Answer, NAMED_RECORD_SIZE, Reading, exported};

/// The bytes lent to the writer: two more than the longer record.
const LENT: usize = NAMED_RECORD_SIZE + 2;

type Buffer = [u8; LENT];

/// The fault of an answer whose record of a kind is not the plain one, or does not read as the same
/// answer: in kind 2 all of it, in kind 1 all but who predicted.
pub fn fault(answer: &Answer) -> Option<String> {
    if !exported("write_record") || !exported("read_record") {
        return None;
    }
    let fault = codec::KINDS.iter().find_map(|kind| {
        let (record, fault) = written_fault(answer, true, *kind);
        fault.or_else(|| read_fault(answer, *kind, &record[..codec::size(*kind)]))
    });
    fault.map(|fault| format!("{answer:?} {fault}"))
}

/// A buffer with the record of an answer, and its fault if that, what is said of it or a byte beyond
/// it is not as the plain codec has it.
fn written_fault(answer: &Answer, told: bool, kind: u64) -> (Buffer, Option<String>) {
    let mut record = [170; LENT];
    let ours = abutfern::write_record(answer, told, kind, &mut record);
    let expected = codec::encode(&Held::of(answer, told), kind, LENT);
    let mut memory = expected.clone().unwrap_or_default();
    memory.resize(LENT, 170);
    let good = ours == written(&expected) && memory == record;
    let fault = || format!("in kind {kind} written as {record:?} with {ours:?}, not {expected:?}");
    (record, (!good).then(fault))
}

fn read_fault(answer: &Answer, kind: u64, record: &[u8]) -> Option<String> {
    let read = abutfern::read_record(record);
    if !same(
        &read,
        &reading(Ok(Held::of(answer, kind == codec::KINDS[1]))),
    ) {
        return Some(format!("in kind {kind} reads as {read:?}"));
    }
    again_fault(&read, record)
}

/// The fault if what was read is not written in its own kind as the same bytes, or not in the other
/// as the plain codec has it: in kind 1 without who predicted, in kind 2 refused where that is absent.
pub fn again_fault(read: &Reading, bytes: &[u8]) -> Option<String> {
    codec::KINDS.iter().find_map(|kind| {
        let (record, fault) = written_fault(&read.answer, read.told != 0, *kind);
        let size = codec::size(*kind);
        let own = size as u64 == read.size;
        let changed = own && !bytes.starts_with(&record[..size]);
        let changed = changed.then(|| format!("in kind {kind} is now {record:?}"));
        let fault = fault.or(changed)?;
        Some(format!("what was read and written again: {fault}"))
    })
}
