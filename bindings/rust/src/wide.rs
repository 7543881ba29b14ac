//! Trains of six digits: the calls over occupancies of 32 bits, for images of either width, and the conversions.

use crate::layout::*;
use crate::{checked_of, image_size, parts, updated_of, Checked, Refusal, Updated};

/// Is it a wide image? By the header's byte for its width.
pub fn is_wide(image: &[u8]) -> bool {
    image.get(WIDTH_AT) == Some(&1)
}

/// How long a wide image is: e est records, room for q diverge nodes.
pub fn wide_image_size(e: usize, q: usize) -> usize {
    image_size(e, q) + (WIDE_DIVERGE_RECORD - DIVERGE_RECORD) * q
}

/// [`mark`](crate::mark) over trains of 32 bits. Refused by 1, 2, 3, then by 22, a train above 999,999.
pub fn mark_wide(table: &[u8], occupancy: &mut [u32], link: u32, train: u32) -> Result<(), Refusal> {
    Refusal::of(call!(lavtoeu_mark_wide, &table, &mut occupancy, link, train))
}

/// What a wide update and a wide check are told besides the image or the yard: a [`Move`](crate::Move) with trains of 32 bits.
#[derive(Clone, Copy, Debug)]
pub struct WideMove<'a> {
    pub occupancy: &'a [u32],
    pub blocking: &'a [u32],
    pub moved: u32,
    pub local: bool,
    /// The round limit.
    pub limit: u16,
}

/// [`update`](crate::update) over trains of 32 bits, of an image of either width.
pub fn update_wide(image: &mut [u8], m: WideMove) -> Updated {
    let mut words = [0; UPDATE_WORDS];
    let answer = update_wide_into(image, m, &mut words);
    updated_of(answer, words)
}

/// [`update_wide`] with its answer in words, as many as there is room for.
pub fn update_wide_into(image: &mut [u8], m: WideMove, answer: &mut [u64]) -> Result<(), Refusal> {
    Refusal::of(call!(lavtoeu_update_wide, &mut image, &m.occupancy, &m.blocking, m.moved, m.local as u32, m.limit, &mut answer))
}

/// The bytes of a slot's row in the report of a wide check of this yard: [`WIDE_REPORT_RECORD`] where an image of it is wide,
/// else [`REPORT_RECORD`].
pub fn report_record(yard: &[u8]) -> usize {
    if parts(yard).is_ok_and(|images| images.into_iter().any(is_wide)) {
        WIDE_REPORT_RECORD
    } else {
        REPORT_RECORD
    }
}

/// [`check`](crate::check) over trains of 32 bits, of a yard with images of either width. `report` has [`report_record`] bytes for
/// each slot; [`wide_rows`] reads it where these are [`WIDE_REPORT_RECORD`], else [`rows`](crate::rows).
pub fn check_wide(yard: &mut [u8], m: WideMove, begin: u16, report: &mut [u8]) -> Result<Checked, Refusal> {
    let mut words = [0; CHECK_WORDS];
    check_wide_into(yard, m, begin, report, &mut words)?;
    Ok(checked_of(words))
}

/// [`check_wide`] with its answer in words, as many as there is room for. A refused check leaves `answer` as it was.
pub fn check_wide_into(yard: &mut [u8], m: WideMove, begin: u16, report: &mut [u8], answer: &mut [u64]) -> Result<(), Refusal> {
    Refusal::of(call!(
        lavtoeu_check_wide,
        &mut yard,
        &m.occupancy,
        &m.blocking,
        m.moved,
        begin,
        m.local as u32,
        m.limit,
        &mut report,
        &mut answer
    ))
}

/// What a wide check found in a slot: a [`Slot`](crate::Slot) with a holder of 32 bits.
#[derive(Clone, Copy, Debug, PartialEq, Eq)]
pub enum WideSlot {
    Unvisited,
    Finished,
    Moved,
    Success,
    /// By this train.
    Blocked(u32),
    /// With this many errors of the free path.
    Faulty(u32),
    Refused(Refusal),
}

/// A record of a wide report.
#[derive(Clone, Copy, Debug, PartialEq, Eq)]
pub struct WideRow {
    pub slot: WideSlot,
    pub rounds: u16,
    pub strays: u32,
    pub met: u32,
}

/// The records of a report whose rows are wide, in the order of the slots.
pub fn wide_rows(report: &[u8]) -> Vec<WideRow> {
    let row = |b: &[u8]| {
        let slot = match half(b, 0) {
            0 => WideSlot::Unvisited,
            1 => WideSlot::Finished,
            2 => WideSlot::Moved,
            3 => WideSlot::Success,
            4 => WideSlot::Blocked(word(b, 16)),
            5 => WideSlot::Faulty(word(b, 12)),
            code => WideSlot::Refused(Refusal { number: code.saturating_sub(16), place: half(b, 2) }),
        };
        WideRow { slot, rounds: half(b, 4), strays: word(b, 8), met: word(b, 20) }
    };
    report.chunks_exact(WIDE_REPORT_RECORD).map(row).collect()
}

/// Writes a narrow image wide; `out` has [`wide_image_size`] bytes. Refused by 6, also where the image is wide already or `out` has
/// another length, 7, 22, 8, 9 over 4,000 links.
pub fn widen(image: &[u8], out: &mut [u8]) -> Result<(), Refusal> {
    Refusal::of(call!(lavtoeu_widen, &image, &mut out))
}

/// Writes a wide image narrow; `out` has [`image_size`] bytes. Refused as [`widen`] is, the widths changed over, then by 23, a train
/// above 65,535.
pub fn narrow(image: &[u8], out: &mut [u8]) -> Result<(), Refusal> {
    Refusal::of(call!(lavtoeu_narrow, &image, &mut out))
}
