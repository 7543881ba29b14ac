//! Checks that can be taken back: an undo record, the checks that fill one, and the undo.

use crate::layout::*;
use crate::{checked_of, Checked, Move, Refusal, WideMove};

/// How many bytes the undo record of a check takes, for a yard of so many.
pub fn undo_record_size(yard_len: usize) -> usize {
    UNDO_RECORD_HEADER + 2 * yard_len
}

/// What a check filled, by which it can be taken back: the yard that it was given and the one that it wrote.
///
/// It serves as often as the yard is what the check wrote, so that the last check is taken back first.
#[derive(Clone, Debug, PartialEq, Eq)]
pub struct UndoRecord(pub(crate) Vec<u8>);

impl UndoRecord {
    /// The record in bytes that were kept. Whether they undo a check is asked by [`UndoRecord::undo`].
    pub fn from_bytes(bytes: &[u8]) -> UndoRecord {
        UndoRecord(bytes.to_vec())
    }

    /// Its bytes, as docs/LAYOUTS.md has them.
    pub fn bytes(&self) -> &[u8] {
        &self.0
    }

    /// Takes its check back: [`undo`] of its bytes.
    pub fn undo(&self, yard: &mut [u8]) -> Result<(), Refusal> {
        undo(yard, &self.0)
    }

    /// Takes its check back beside an index: [`undo_indexed`](crate::undo_indexed) of its bytes.
    pub fn undo_indexed(&self, yard: &mut [u8], index: &mut [u64]) -> Result<(), Refusal> {
        crate::undo_indexed(yard, &self.0, index)
    }
}

/// [`check`](crate::check) with an undo record.
pub fn check_recorded(yard: &mut [u8], m: Move, begin: u16, report: &mut [u8]) -> Result<(Checked, UndoRecord), Refusal> {
    let (mut words, mut record) = ([0; CHECK_WORDS], vec![0; undo_record_size(yard.len())]);
    check_recorded_into(yard, m, begin, report, &mut record, &mut words)?;
    Ok((checked_of(words), UndoRecord(record)))
}

/// [`check_wide`](crate::check_wide) with an undo record.
pub fn check_recorded_wide(yard: &mut [u8], m: WideMove, begin: u16, report: &mut [u8]) -> Result<(Checked, UndoRecord), Refusal> {
    let (mut words, mut record) = ([0; CHECK_WORDS], vec![0; undo_record_size(yard.len())]);
    check_recorded_wide_into(yard, m, begin, report, &mut record, &mut words)?;
    Ok((checked_of(words), UndoRecord(record)))
}

/// [`check_recorded`] with its record in a buffer of at least [`undo_record_size`] bytes, whose bytes beyond stay, and its answer in
/// words. Refused by 20, a shorter buffer, before the check's own refusals; a refused check changes nothing.
pub fn check_recorded_into(
    yard: &mut [u8],
    m: Move,
    begin: u16,
    report: &mut [u8],
    record: &mut [u8],
    answer: &mut [u64],
) -> Result<(), Refusal> {
    Refusal::of(call!(
        lavtoeu_check_recorded,
        &mut yard,
        &m.occupancy,
        &m.blocking,
        m.moved,
        begin,
        m.local as u32,
        m.limit,
        &mut report,
        &mut record,
        &mut answer
    ))
}

/// [`check_recorded_into`] over trains of 32 bits, of a yard with images of either width.
pub fn check_recorded_wide_into(
    yard: &mut [u8],
    m: WideMove,
    begin: u16,
    report: &mut [u8],
    record: &mut [u8],
    answer: &mut [u64],
) -> Result<(), Refusal> {
    Refusal::of(call!(
        lavtoeu_check_recorded_wide,
        &mut yard,
        &m.occupancy,
        &m.blocking,
        m.moved,
        begin,
        m.local as u32,
        m.limit,
        &mut report,
        &mut record,
        &mut answer
    ))
}

/// Gives the yard back that the record's check was given, while the yard is what that check wrote. The occupancy and the report are
/// not rewound. Refused by 21, a malformed record or a yard that is another; then nothing is changed.
pub fn undo(yard: &mut [u8], record: &[u8]) -> Result<(), Refusal> {
    Refusal::of(call!(lavtoeu_undo, &mut yard, &record))
}
