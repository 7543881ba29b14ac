//! Calls beside an index of which trains run over a link: lists of them, each held against the oracle's; where the index was right before a
//! call it must be right after it.

use crate::library::{answered, numbers, order_of, put_check, told_check, wide_told};
use crate::tally::Tally;
use oracle::cases::*;
use oracle::index_calls;
use oracle::layout::{link_count_ok, read_yard, u16s, u32s, u64_bytes, u64s};
use oracle::rng::Rng;
use oracle::trials::index::{fresh, links};

pub fn index(case: &mut Case) {
    let mut index = u64s(&case.ins[1]);
    (case.answer[0], case.answer[1]) = numbers(lavtoeu::build_index(&case.ins[0], &mut index));
    case.outs = [u64_bytes(&index), vec![]];
}

/// The record is lent with zeros, and stands behind the yard; the index stands behind the report.
pub fn check(case: &mut Case) {
    let (mut yard, blocking) = (case.ins[0].clone(), u32s(&case.ins[2]));
    let (mut report, mut index) = case.report_and_index(&case.ins[3]);
    let (mut record, mut answer) = (vec![0; case.args[4] as usize], vec![u64::MAX; 3]);
    let (narrow, wide) = (u16s(&case.ins[1]), u32s(&case.ins[1]));
    let (n, begin) = told_check(&case.check_args(&narrow, &blocking));
    let w = wide_told(&case.wide_args(&wide, &blocking));
    let (y, r, i, a) = (&mut yard, &mut report, &mut index, &mut answer);
    let done = match case.op {
        INDEXED_CHECK => lavtoeu::check_indexed_into(y, n, begin, r, i, a),
        WIDE_INDEXED_CHECK => lavtoeu::check_wide_indexed_into(y, w, begin, r, i, a),
        RECORDED_INDEXED_CHECK => lavtoeu::check_recorded_indexed_into(y, n, begin, r, &mut record, i, a),
        _ => lavtoeu::check_recorded_wide_indexed_into(y, w, begin, r, &mut record, i, a),
    };
    let left = [[yard, record].concat(), [report, u64_bytes(&index)].concat()];
    put_check(case, done, answer, left);
}

pub fn lay_out(case: &mut Case) {
    let (mut image, mut index) = (case.ins[1].clone(), u64s(&case.ins[2]));
    let done = lavtoeu::lay_out_indexed(&case.ins[0], order_of(case), &mut image, &mut index);
    (case.answer[0], case.answer[1]) = numbers(done);
    case.outs = [image, u64_bytes(&index)];
}

pub fn undo(case: &mut Case) {
    let (mut yard, mut index) = (case.ins[0].clone(), u64s(&case.ins[2]));
    (case.answer[0], case.answer[1]) = numbers(lavtoeu::undo_indexed(&mut yard, &case.ins[1], &mut index));
    case.outs = [yard, u64_bytes(&index)];
}

/// Has the index the bits of the yard's slots, and no others? An index or a yard that is none has not.
fn is_right(yard: &[u8], index: &[u64]) -> bool {
    link_count_ok(index.len()) && read_yard(yard).is_some() && fresh(yard, index.len()) == index
}

/// Has the index the bits of this image in the slot's?
fn has_image(slot: u32, image: &[u8], index: &[u64]) -> bool {
    let on = links(image, index.len());
    index.iter().enumerate().all(|(x, bits)| (bits >> slot & 1 == 1) == on.contains(&x))
}

/// Was the index right before the call, is it after it, and how many slots have changed? None of a call that has no index or builds one.
fn kept(case: &Case) -> Option<(bool, bool, usize)> {
    let (was, is, old, new) = match case.op {
        INDEXED_LAY_OUT => {
            let (slot, was, is) = (case.args[0] % 64, u64s(&case.ins[2]), u64s(&case.outs[1]));
            let right = has_image(slot, &case.ins[1], &was);
            return Some((
                right,
                has_image(slot, &case.outs[0], &is),
                (case.ins[1] != case.outs[0]) as usize,
            ));
        }
        INDEXED_UNDO => (u64s(&case.ins[2]), u64s(&case.outs[1]), &case.ins[0], case.outs[0].clone()),
        INDEXED_CHECK | WIDE_INDEXED_CHECK | RECORDED_INDEXED_CHECK | WIDE_RECORDED_INDEXED_CHECK => {
            let [was, is] = [&case.ins[3], &case.outs[1]].map(|b| case.report_and_index(b).1);
            (was, is, &case.ins[0], case.recorded_left().0)
        }
        _ => return None,
    };
    let part = |yard: &[u8], slot: usize| read_yard(yard)?.get(slot - 1).map(|p| yard[p.clone()].to_vec());
    let changed = if *old == new { 0 } else { (1..64).filter(|&t| part(old, t) != part(&new, t)).count() };
    Some((is_right(old, &was), is_right(&new, &is), changed))
}

/// Builds, checks, layouts and undos beside an index, with marks between them.
pub fn list(rng: &mut Rng, tally: &mut Tally) {
    for case in index_calls::list(rng) {
        tally.add_named(&case);
        if let Some((was, is, changed)) = kept(&answered(&case)) {
            tally.add_kept(was, is, changed, &case);
        }
    }
}
