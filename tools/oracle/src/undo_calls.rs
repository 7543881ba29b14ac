//! Random checks that fill an undo record, and undos, as cases without answers.

use crate::calls;
use crate::cases::*;
use crate::demand3;
use crate::layout::*;
use crate::rng::Rng;
use crate::trials::wide::{run_wide, wide_call, wide_start};
use crate::undo::RECORD_HEADER;
use crate::wide::WideArgs;
use crate::wide_calls::{self, report_len};

/// How long the record of a check is.
fn takes(check: &Case) -> usize {
    RECORD_HEADER + 2 * check.ins[0].len()
}

/// A check that is lent a record of the bytes that it takes, of more, or of too few.
fn with_record(rng: &mut Rng, check: Case) -> Case {
    let takes = takes(&check);
    let room = match rng.below(12) {
        0 => takes - 1,
        1 => rng.below(takes),
        2..=4 => takes + rng.from(1, 40),
        _ => takes,
    };
    Case::recorded(check, room)
}

pub fn recorded(rng: &mut Rng) -> Case {
    let check = if rng.chance(20) { calls::tidy(rng) } else { calls::check(rng) };
    with_record(rng, check)
}

pub fn recorded_wide(rng: &mut Rng) -> Case {
    let check = wide_calls::check(rng);
    with_record(rng, check)
}

/// A yard and a record, one of them with a number, some bits or its length changed.
pub fn damaged(rng: &mut Rng, yard: &[u8], record: &[u8]) -> (Vec<u8>, Vec<u8>) {
    let (mut yard, mut record) = (yard.to_vec(), record.to_vec());
    let n = record.len();
    match rng.below(6) {
        0 if n >= RECORD_HEADER => {
            put_u32(&mut record, 4 * rng.below(4), rng.pick(&[0, 1, 16, 17, n as u32, u32::MAX]))
        }
        1 => record.truncate(rng.below(n + 1)),
        2 if !yard.is_empty() => {
            let at = rng.below(yard.len());
            yard[at] ^= 1 << rng.below(8);
        }
        3 if n >= RECORD_HEADER + 12 => {
            put_u32(&mut record, RECORD_HEADER + 4 * rng.below(3), rng.below(70) as u32)
        }
        4 => yard.push(0),
        _ if n > 0 => {
            let at = rng.below(n);
            record[at] ^= 1 << rng.below(8);
        }
        _ => record.push(0),
    }
    (yard, record)
}

/// An undo by the record that a check filled, some refused: whole, damaged, when the check was taken back already, or after the
/// same check was made again.
pub fn undo(rng: &mut Rng) -> Case {
    let check = if rng.chance(50) { recorded(rng) } else { recorded_wide(rng) }.answered();
    let (yard, record) = check.recorded_left();
    let (yard, record) = match rng.below(10) {
        0..=3 => (yard, record),
        4 => (check.ins[0].clone(), record),
        5 => {
            let mut again = check.clone();
            again.ins[0] = yard;
            (again.answered().recorded_left().0, record)
        }
        _ => damaged(rng, &yard, &record),
    };
    Case::undo(&yard, &record)
}

/// A recorded check that changes the yard, over narrow images; marks and releases may come before it.
fn changing(rng: &mut Rng, y: &mut crate::yards::Yard) -> Option<Case> {
    for _ in 0..20 {
        let call = demand3::call_of(rng, y, &demand3::BEGIN);
        let mut case = call.case();
        if case.op == CHECK {
            (case.ins[0], case.ins[1]) = (y.yard.clone(), u16_bytes(&y.occ));
            let room = takes(&case);
            let done = Case::recorded(case, room).answered();
            let left = done.recorded_left().0;
            if left != y.yard {
                y.yard = left;
                return Some(done);
            }
        } else {
            demand3::run(y, &call);
        }
    }
    None
}

/// The same over images of either width.
fn changing_wide(rng: &mut Rng, y: &mut wide_calls::WideYard) -> Option<Case> {
    for _ in 0..20 {
        let (call, train) = wide_call(rng, y);
        if let demand3::Call::Check { blocking, begin, local, limit, .. } = &call {
            let (begin, local, limit) = (*begin, *local, *limit);
            let a = WideArgs { occ: &y.occ, blocking, moved: train, begin, local, limit };
            let case = Case::wide_check(&y.yard, &a, &vec![0xA5; report_len(&y.yard)]);
            let room = takes(&case);
            let done = Case::recorded(case, room).answered();
            let left = done.recorded_left().0;
            if left != y.yard {
                y.yard = left;
                return Some(done);
            }
        } else {
            run_wide(y, &call, train);
        }
    }
    None
}

/// Check A, check B, undo A out of turn, undo B, undo A, each on what the one before it left; both checks change the yard.
fn taken_back(first: Case, second: Case) -> Vec<Case> {
    let ((between, a), (last, b)) = (first.recorded_left(), second.recorded_left());
    vec![first, second, Case::undo(&last, &a), Case::undo(&last, &b), Case::undo(&between, &a)]
}

/// Two checks taken back, over narrow images and over either width.
pub fn two_checks(rng: &mut Rng, wide: bool) -> Vec<Case> {
    loop {
        let (first, second) = if wide {
            let mut y = wide_start(rng);
            (changing_wide(rng, &mut y), changing_wide(rng, &mut y))
        } else {
            let mut y = demand3::start(rng);
            (changing(rng, &mut y), changing(rng, &mut y))
        };
        if let (Some(a), Some(b)) = (first, second) {
            return taken_back(a, b);
        }
    }
}
