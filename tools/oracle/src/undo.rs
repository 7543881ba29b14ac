//! a check that fills an undo record, and taking it back.

use crate::layout::*;
use crate::model::{self, CheckArgs, Checked};
use crate::wide::{self, WideArgs};

/// Bytes of a record before its two yards.
pub const RECORD_HEADER: usize = 16;

/// The record of a check: bytes filled, S, offsets of both yards; the old yard, and the one written.
pub fn record_of(old: &[u8], written: &[u8]) -> Vec<u8> {
    let filled = RECORD_HEADER + old.len() + written.len();
    let head = [filled, u32_at(old, 4) as usize, RECORD_HEADER, RECORD_HEADER + old.len()];
    let mut record: Vec<u8> = head.into_iter().flat_map(|n| (n as u32).to_le_bytes()).collect();
    record.extend(old);
    record.extend(written);
    record
}

/// Has the buffer room for the record of a check of this yard? Else it is 20.
pub fn has_room(record: &[u8], yard: &[u8]) -> bool {
    let needs = RECORD_HEADER as u64 + 2 * yard.len() as u64;
    record.len() as u64 >= needs && needs <= u32::MAX as u64
}

/// A check between the copies of the yard before it and after it: 20, then the check's own refusals.
fn recorded(yard: &mut [u8], record: &mut [u8], check: impl FnOnce(&mut [u8]) -> Checked) -> Checked {
    if !has_room(record, yard) {
        return Checked::Refused(refusal(20));
    }
    let old = yard.to_vec();
    let checked = check(yard);
    if !matches!(checked, Checked::Refused(_)) {
        let filled = record_of(&old, yard);
        record[..filled.len()].copy_from_slice(&filled);
    }
    checked
}

pub fn check_recorded(yard: &mut [u8], a: &CheckArgs, report: &mut [u8], record: &mut [u8]) -> Checked {
    recorded(yard, record, |yard| model::check(yard, a, report))
}

pub fn check_recorded_wide(yard: &mut [u8], a: &WideArgs, report: &mut [u8], record: &mut [u8]) -> Checked {
    recorded(yard, record, |yard| wide::check(yard, a, report))
}

/// The old yard of a record that some check may have filled and whose written yard is this one.
fn old_yard<'a>(yard: &[u8], record: &'a [u8]) -> Option<&'a [u8]> {
    let (y, header) = (yard.len(), record.get(..RECORD_HEADER)?);
    let fields: Vec<u64> = header.chunks_exact(4).map(|b| u32_at(b, 0) as u64).collect();
    let second = RECORD_HEADER as u64 + y as u64;
    if fields[2] != RECORD_HEADER as u64 || fields[3] != second || fields[0] != second + y as u64 {
        return None;
    }
    let (old, rest) = record[RECORD_HEADER..].split_at_checked(y)?;
    let written = rest.get(..y)?;
    let slots = read_yard(old)?.len() as u64;
    (slots == fields[1] && written == yard).then_some(old)
}

pub fn undo(yard: &mut [u8], record: &[u8]) -> Result<(), Refusal> {
    let old = old_yard(yard, record).ok_or(refusal(21))?;
    yard.copy_from_slice(old);
    Ok(())
}
