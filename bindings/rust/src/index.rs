//! Which trains run over a link: an index beside the yard, and the calls that keep it (change request Q-10).

use crate::layout::*;
use crate::{checked_of, undo_record_size, Checked, Move, Order, Refusal, UndoRecord, WideMove};

/// The slots whose path arrives at a link, by its entry of an index: slot t is bit t.
pub fn slots_on(entry: u64) -> impl Iterator<Item = u16> {
    (1..=MAX_SLOTS as u16).filter(move |slot| entry >> slot & 1 == 1)
}

/// Writes the index of a yard, an entry for each link: bit t is set exactly if the path of slot t has an Arrive on it, in an image of either
/// width; a slot with a refused image sets none. Refused by 25, fewer than 2 entries or more than 4,000, then by 14.
///
/// ```
/// use lavtoeu::*;
///
/// let mut image = vec![0; image_size(1, 2)];
/// let est = est_bytes(&[Est { est_type: EstType::Arrive, link: 2, ..Est::default() }]);
/// lay_out(&est, Order { train: 1, search: 0.0, fixed: 0.0, room: 2, links: 3 }, &mut image)?;
/// let mut index = [9; 3];
/// build_index(&yard(&[&image]), &mut index)?;
/// assert_eq!(index, [0, 0, 2]);
/// assert_eq!(slots_on(index[2]).collect::<Vec<_>>(), [1]);
/// # Ok::<(), Refusal>(())
/// ```
pub fn build_index(yard: &[u8], index: &mut [u64]) -> Result<(), Refusal> {
    Refusal::of(call!(lavtoeu_index, &yard, &mut index))
}

/// [`check`](crate::check) beside an index: the bits of the slots whose image changes are written as [`build_index`] would, all others
/// stay, so that a right index stays right. Refused as the check is, and by 25, an index that has not an entry for each link, after 2.
pub fn check_indexed(yard: &mut [u8], m: Move, begin: u16, report: &mut [u8], index: &mut [u64]) -> Result<Checked, Refusal> {
    let mut words = [0; CHECK_WORDS];
    check_indexed_into(yard, m, begin, report, index, &mut words)?;
    Ok(checked_of(words))
}

/// [`check_indexed`] over trains of 32 bits, of a yard with images of either width.
pub fn check_wide_indexed(yard: &mut [u8], m: WideMove, begin: u16, report: &mut [u8], index: &mut [u64]) -> Result<Checked, Refusal> {
    let mut words = [0; CHECK_WORDS];
    check_wide_indexed_into(yard, m, begin, report, index, &mut words)?;
    Ok(checked_of(words))
}

/// [`check_indexed`] with an undo record.
pub fn check_recorded_indexed(
    yard: &mut [u8],
    m: Move,
    begin: u16,
    report: &mut [u8],
    index: &mut [u64],
) -> Result<(Checked, UndoRecord), Refusal> {
    let (mut words, mut record) = ([0; CHECK_WORDS], vec![0; undo_record_size(yard.len())]);
    check_recorded_indexed_into(yard, m, begin, report, &mut record, index, &mut words)?;
    Ok((checked_of(words), UndoRecord(record)))
}

/// [`check_wide_indexed`] with an undo record.
pub fn check_recorded_wide_indexed(
    yard: &mut [u8],
    m: WideMove,
    begin: u16,
    report: &mut [u8],
    index: &mut [u64],
) -> Result<(Checked, UndoRecord), Refusal> {
    let (mut words, mut record) = ([0; CHECK_WORDS], vec![0; undo_record_size(yard.len())]);
    check_recorded_wide_indexed_into(yard, m, begin, report, &mut record, index, &mut words)?;
    Ok((checked_of(words), UndoRecord(record)))
}

/// [`check_indexed`] with its answer in words, as many as there is room for. A refused check leaves `answer` as it was.
pub fn check_indexed_into(
    yard: &mut [u8],
    m: Move,
    begin: u16,
    report: &mut [u8],
    index: &mut [u64],
    answer: &mut [u64],
) -> Result<(), Refusal> {
    Refusal::of(call!(
        lavtoeu_check_indexed,
        &mut yard,
        &m.occupancy,
        &m.blocking,
        m.moved,
        begin,
        m.local as u32,
        m.limit,
        &mut report,
        &mut index,
        &mut answer
    ))
}

/// [`check_wide_indexed`] with its answer in words.
pub fn check_wide_indexed_into(
    yard: &mut [u8],
    m: WideMove,
    begin: u16,
    report: &mut [u8],
    index: &mut [u64],
    answer: &mut [u64],
) -> Result<(), Refusal> {
    Refusal::of(call!(
        lavtoeu_check_indexed_wide,
        &mut yard,
        &m.occupancy,
        &m.blocking,
        m.moved,
        begin,
        m.local as u32,
        m.limit,
        &mut report,
        &mut index,
        &mut answer
    ))
}

/// [`check_recorded_indexed`] with its record in a buffer of at least [`undo_record_size`] bytes, whose bytes beyond stay, and its answer
/// in words. Refused by 20, a shorter buffer, before all else.
pub fn check_recorded_indexed_into(
    yard: &mut [u8],
    m: Move,
    begin: u16,
    report: &mut [u8],
    record: &mut [u8],
    index: &mut [u64],
    answer: &mut [u64],
) -> Result<(), Refusal> {
    Refusal::of(call!(
        lavtoeu_check_recorded_indexed,
        &mut yard,
        &m.occupancy,
        &m.blocking,
        m.moved,
        begin,
        m.local as u32,
        m.limit,
        &mut report,
        &mut record,
        &mut index,
        &mut answer
    ))
}

/// [`check_recorded_indexed_into`] over trains of 32 bits, of a yard with images of either width.
pub fn check_recorded_wide_indexed_into(
    yard: &mut [u8],
    m: WideMove,
    begin: u16,
    report: &mut [u8],
    record: &mut [u8],
    index: &mut [u64],
    answer: &mut [u64],
) -> Result<(), Refusal> {
    Refusal::of(call!(
        lavtoeu_check_recorded_indexed_wide,
        &mut yard,
        &m.occupancy,
        &m.blocking,
        m.moved,
        begin,
        m.local as u32,
        m.limit,
        &mut report,
        &mut record,
        &mut index,
        &mut answer
    ))
}

/// [`lay_out`](crate::lay_out) beside an index: where the bytes of `image` change, the bits of the order's train are written. Refused by
/// 5, a train of 0 or above 63, 6, 25, an index that has not an entry for each link, 7, 8, 9, 11.
pub fn lay_out_indexed(est: &[u8], order: Order, image: &mut [u8], index: &mut [u64]) -> Result<(), Refusal> {
    let o = order;
    Refusal::of(call!(lavtoeu_lay_out_indexed, &est, o.train, o.search, o.fixed, o.room, o.links, &mut image, &mut index))
}

/// [`undo`](crate::undo) beside an index, whose bits of the slots that change are written; a slot that only one of the two yards has
/// changes too. Refused by 25, fewer than 2 entries or more than 4,000, then by 21.
pub fn undo_indexed(yard: &mut [u8], record: &[u8], index: &mut [u64]) -> Result<(), Refusal> {
    Refusal::of(call!(lavtoeu_undo_indexed, &mut yard, &record, &mut index))
}
