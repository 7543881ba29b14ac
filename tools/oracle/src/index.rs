//! the index of which trains run over a link, built, and kept beside layouts, checks and undo.

use crate::layout::*;
use crate::model::{self, CheckArgs, Checked};
use crate::undo;
use crate::wide::{self, WideArgs};

/// The links that an image's path arrives at, over L links; none where the image is refused.
fn arrived(image: &[u8], l: usize) -> Vec<usize> {
    let Ok(t) = read_any(image, l) else { return vec![] };
    t.path.iter().filter(|x| x.kind == ARRIVE).map(|x| x.link as usize).collect()
}

/// The bits of one slot as in an index built afresh; those of others stay.
fn put_slot(index: &mut [u64], slot: usize, image: &[u8]) {
    let bit = 1u64 << slot;
    index.iter_mut().for_each(|x| *x &= !bit);
    for link in arrived(image, index.len()) {
        index[link] |= bit;
    }
}

/// A u32 of a yard's header; bytes beyond the end are 0.
fn header_u32(yard: &[u8], at: usize) -> usize {
    (0..4).map(|i| (*yard.get(at + i).unwrap_or(&0) as usize) << (8 * i)).sum()
}

/// The image of a slot, no bytes where the yard has none: the part that the offsets say, cut off at the yard's end. An undo asks it of a yard that no build
/// has judged.
fn image_of_slot(yard: &[u8], slot: usize) -> &[u8] {
    let slots = header_u32(yard, 4);
    if slots < slot {
        return &[];
    }
    let begin = header_u32(yard, 4 + 4 * slot);
    let end = if slot < slots { header_u32(yard, 8 + 4 * slot) } else { yard.len() };
    let begin = begin.min(yard.len());
    &yard[begin..end.min(yard.len()).max(begin)]
}

/// The bits of the slots whose image changed.
fn follow(index: &mut [u64], before: &[u8], after: &[u8]) {
    for slot in 1..64 {
        let image = image_of_slot(after, slot);
        if image_of_slot(before, slot) != image {
            put_slot(index, slot, image);
        }
    }
}

pub fn build(yard: &[u8], index: &mut [u64]) -> Result<(), Refusal> {
    if !link_count_ok(index.len()) {
        return Err(refusal(25));
    }
    read_yard(yard).ok_or(refusal(14))?;
    index.fill(0);
    (1..64).for_each(|slot| put_slot(index, slot, image_of_slot(yard, slot)));
    Ok(())
}

/// A check beside an index over L links: 2, 25, then the check's own refusals.
fn beside(yard: &mut [u8], index: &mut [u64], l: usize, check: impl FnOnce(&mut [u8]) -> Checked) -> Checked {
    if !link_count_ok(l) {
        return Checked::Refused(refusal(2));
    }
    if index.len() != l {
        return Checked::Refused(refusal(25));
    }
    let before = yard.to_vec();
    let checked = check(yard);
    follow(index, &before, yard);
    checked
}

pub fn check(yard: &mut [u8], a: &CheckArgs, report: &mut [u8], index: &mut [u64]) -> Checked {
    beside(yard, index, a.occ.len(), |yard| model::check(yard, a, report))
}

pub fn check_wide(yard: &mut [u8], a: &WideArgs, report: &mut [u8], index: &mut [u64]) -> Checked {
    beside(yard, index, a.occ.len(), |yard| wide::check(yard, a, report))
}

/// 20 stays first; the index is asked before the check's other refusals.
pub fn check_recorded(
    yard: &mut [u8],
    a: &CheckArgs,
    report: &mut [u8],
    record: &mut [u8],
    index: &mut [u64],
) -> Checked {
    if !undo::has_room(record, yard) {
        return Checked::Refused(refusal(20));
    }
    beside(yard, index, a.occ.len(), |yard| undo::check_recorded(yard, a, report, record))
}

pub fn check_recorded_wide(
    yard: &mut [u8],
    a: &WideArgs,
    report: &mut [u8],
    record: &mut [u8],
    index: &mut [u64],
) -> Checked {
    if !undo::has_room(record, yard) {
        return Checked::Refused(refusal(20));
    }
    beside(yard, index, a.occ.len(), |yard| undo::check_recorded_wide(yard, a, report, record))
}

/// What a layout is told besides its buffers.
#[derive(Clone, Copy, Debug)]
pub struct Order {
    pub train: u16,
    pub search: f64,
    pub fixed_max: f64,
    pub room: u32,
    pub links: u32,
}

/// 5 (also a train above 63), 6, 25, then 7, 8, 9, 11.
pub fn lay_out(est: &[u8], o: &Order, image: &mut [u8], index: &mut [u64]) -> Result<(), Refusal> {
    if o.train == 0 || o.train > 63 {
        return Err(refusal(5));
    }
    let mut laid = image.to_vec();
    let done = model::lay_out(est, o.train, o.search, o.fixed_max, o.room, o.links, &mut laid);
    if done == Err(refusal(6)) {
        return done;
    }
    if index.len() != o.links as usize {
        return Err(refusal(25));
    }
    done?;
    if laid != image {
        put_slot(index, o.train as usize, &laid);
        image.copy_from_slice(&laid);
    }
    Ok(())
}

pub fn undo(yard: &mut [u8], record: &[u8], index: &mut [u64]) -> Result<(), Refusal> {
    if !link_count_ok(index.len()) {
        return Err(refusal(25));
    }
    let before = yard.to_vec();
    undo::undo(yard, record)?;
    follow(index, &before, yard);
    Ok(())
}
