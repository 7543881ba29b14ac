//! Checks that fill an undo record, and taking them back.

#[allow(dead_code)]
mod yards;

use lavtoeu::layout::*;
use lavtoeu::*;
use std::ptr::{null, null_mut};
use yards::*;

fn refused<T>(number: u16) -> Result<T, Refusal> {
    Err(Refusal { number, place: 0 })
}

/// Train 1 has moved to link 1, which leads train 2 round.
const BACK: Move = Move { occupancy: &[0, 1, 0, 0], moved: 1, ..MOVE };

fn recorded(yard: &mut [u8], m: Move) -> UndoRecord {
    let mut report = [0; 2 * REPORT_RECORD];
    let (checked, record) = check_recorded(yard, m, 1, &mut report).unwrap();
    assert_eq!(checked, Checked::Done { deadlock: false, next: 1 });
    record
}

fn word(b: &[u8], at: usize) -> usize {
    u32::from_le_bytes(b[at..at + 4].try_into().unwrap()) as usize
}

#[test]
fn a_recorded_check_answers_as_the_check_and_fills_the_record() {
    for m in [MOVE, BACK, Move { occupancy: &[0, 2, 9, 0], blocking: &[1, 2], ..MOVE }, Move { occupancy: &[0; 2], ..MOVE }] {
        let old = two_trains();
        let (mut first, mut second) = (old.clone(), old.clone());
        let (mut report, mut again) = ([0xaa; 2 * REPORT_RECORD], [0xaa; 2 * REPORT_RECORD]);
        let checked = check(&mut first, m, 1, &mut report).unwrap();
        let (answer, record) = check_recorded(&mut second, m, 1, &mut again).unwrap();
        assert_eq!((answer, &second, again), (checked, &first, report));
        let y = old.len();
        let head = [0, 4, 8, 12].map(|at| word(record.bytes(), at));
        assert_eq!(head, [undo_record_size(y), 2, 16, 16 + y]);
        assert_eq!(record.bytes()[16..], [&old[..], &first].concat());
    }
}

#[test]
fn a_check_is_taken_back_while_the_yard_is_what_it_wrote() {
    let mut yard = two_trains();
    let record = recorded(&mut yard, MOVE);
    let written = yard.clone();
    assert_ne!(written, two_trains());
    assert_eq!(record.undo(&mut yard), Ok(()));
    assert_eq!(yard, two_trains());
    // The yard is not the written one any more.
    assert_eq!(record.undo(&mut yard), refused(21));
    assert_eq!(yard, two_trains());
    // The same check writes the same yard, and the record serves again.
    assert_eq!(recorded(&mut yard, MOVE), record);
    assert_eq!(UndoRecord::from_bytes(record.bytes()).undo(&mut yard), Ok(()));
    assert_eq!(yard, two_trains());
    for at in 0..written.len() {
        let mut other = written.clone();
        other[at] ^= 1;
        let kept = other.clone();
        assert_eq!((record.undo(&mut other), other), (refused(21), kept), "byte {at}");
    }
}

#[test]
fn two_checks_are_taken_back_in_the_opposite_order() {
    let mut yard = two_trains();
    let first = recorded(&mut yard, MOVE);
    let between = yard.clone();
    let second = recorded(&mut yard, BACK);
    let last = yard.clone();
    assert_eq!((first.undo(&mut yard), &yard), (refused(21), &last));
    assert_eq!((second.undo(&mut yard), &yard), (Ok(()), &between));
    assert_eq!((first.undo(&mut yard), &yard), (Ok(()), &two_trains()));
    // A check that changed nothing, for it visits no slot, stands in nobody's way.
    let first = recorded(&mut yard, MOVE);
    assert!(check_recorded(&mut yard, BACK, 3, &mut [0; 2 * REPORT_RECORD]).is_ok());
    assert_eq!((first.undo(&mut yard), &yard), (Ok(()), &two_trains()));
}

#[test]
fn a_short_record_is_refused_before_all_else() {
    let need = undo_record_size(two_trains().len());
    let asked = |m, begin, rows: usize, room: usize| {
        let (mut yard, mut report, mut record, mut answer) = (two_trains(), vec![0xaa; rows], vec![0xbb; room], [9; 3]);
        let told = check_recorded_into(&mut yard, m, begin, &mut report, &mut record, &mut answer);
        assert_eq!((yard, report, record, answer), (two_trains(), vec![0xaa; rows], vec![0xbb; room], [9; 3]));
        told
    };
    for room in [0, 1, 15, 16, 17, need - 1] {
        assert_eq!(asked(MOVE, 1, 2 * REPORT_RECORD, room), refused(20), "{room} bytes");
        assert_eq!(asked(Move { occupancy: &[], moved: 0, ..MOVE }, 0, 0, room), refused(20), "{room} bytes");
    }
    // The check's own refusals leave the record.
    for room in [need, need + 1] {
        assert_eq!(asked(Move { occupancy: &[0], ..MOVE }, 1, 2 * REPORT_RECORD, room), refused(2));
        assert_eq!(asked(Move { moved: 0, ..MOVE }, 1, 2 * REPORT_RECORD, room), refused(5));
        assert_eq!(asked(MOVE, 0, 2 * REPORT_RECORD, room), refused(15));
        assert_eq!(asked(MOVE, 1, 2 * REPORT_RECORD - 1, room), refused(16));
    }
    assert_eq!(Refusal { number: 20, place: 0 }.to_string(), "refused 20 (undo record too short) at 0");
    assert_eq!(Refusal { number: 21, place: 0 }.to_string(), "refused 21 (nothing to take back) at 0");
}

#[test]
fn bytes_beyond_the_record_stay_and_go_unread() {
    let (mut yard, mut report, mut answer) = (two_trains(), [0; 2 * REPORT_RECORD], [0; 3]);
    let need = undo_record_size(yard.len());
    let mut record = vec![0xbb; need + 9];
    assert_eq!(check_recorded_into(&mut yard, MOVE, 1, &mut report, &mut record, &mut answer), Ok(()));
    assert_eq!(record[need..], [0xbb; 9]);
    assert_eq!(record[..need], *recorded(&mut two_trains(), MOVE).bytes());
    record[need..].fill(0xcc);
    assert_eq!((undo(&mut yard, &record), yard), (Ok(()), two_trains()));
}

#[test]
fn a_damaged_record_is_refused() {
    let mut yard = two_trains();
    let (record, y) = (recorded(&mut yard, MOVE), two_trains().len());
    let asked = |record: &[u8]| {
        let mut left = yard.clone();
        let answer = undo(&mut left, record);
        let expected = if answer.is_ok() { &record[16..16 + y] } else { &yard[..] };
        assert_eq!(left, expected);
        answer
    };
    for n in 0..record.bytes().len() {
        assert_eq!(asked(&record.bytes()[..n]), refused(21), "{n} bytes");
    }
    // Of the old yard only the header and the slots' trains are judged, by 14.
    let trains = [16 + 16 + 32, 16 + 16 + laid_out(1, 4).len() + 32];
    for at in 0..record.bytes().len() {
        let mut other = record.bytes().to_vec();
        other[at] ^= 0xff;
        let judged = at < 16 + 16 || at >= 16 + y || trains.iter().any(|&train| (train..train + 2).contains(&at));
        assert_eq!(asked(&other), if judged { refused(21) } else { Ok(()) }, "byte {at}");
    }
    assert_eq!(undo(&mut [], record.bytes()), refused(21));
    // SAFETY: no pointer is read, for each goes with length 0.
    unsafe {
        assert_eq!(raw::lavtoeu_undo(null_mut(), 0, null(), 0), 21);
        let none = null_mut::<u8>();
        let nothing = raw::lavtoeu_check_recorded(none, 0, null(), 0, null(), 0, 1, 1, 0, 1, none, 0, none, 0, null_mut(), 0);
        let wide = raw::lavtoeu_check_recorded_wide(none, 0, null(), 0, null(), 0, 1, 1, 0, 1, none, 0, none, 0, null_mut(), 0);
        assert_eq!((nothing, wide), (20, 20));
    }
}

#[test]
fn wide_checks_are_taken_back_too() {
    let mut first = vec![0; wide_image_size(5, 4)];
    assert_eq!(widen(&laid_out(1, 4), &mut first), Ok(()));
    for (second, top, held) in [(laid_out(2, 4), 65_535, 65_536), (first_as_second(&first), 999_999, 1_000_000)] {
        let old = lavtoeu::yard(&[&first, &second]);
        let occupancy = [0, top, 0, 0];
        let m = WideMove { occupancy: &occupancy, blocking: &[1], moved: 2, local: false, limit: 5 };
        let (mut yard, mut report) = (old.clone(), [0; 2 * WIDE_REPORT_RECORD]);
        let (checked, record) = check_recorded_wide(&mut yard, m, 1, &mut report).unwrap();
        let (mut plain, mut rows) = (old.clone(), [0; 2 * WIDE_REPORT_RECORD]);
        assert_eq!((check_wide(&mut plain, m, 1, &mut rows), &plain, rows), (Ok(checked), &yard, report));
        assert_eq!(wide_rows(&report)[0].met, top);
        assert_eq!(record.bytes()[16..], [&old[..], &yard].concat());
        assert_ne!(yard, old);
        assert_eq!((record.undo(&mut yard), &yard), (Ok(()), &old));
        // 22 comes after 20 and leaves the record.
        let large = [0, held, 0, 0];
        let m = WideMove { occupancy: &large, ..m };
        let mut bytes = vec![0xbb; undo_record_size(old.len())];
        let asked = |record: &mut [u8]| check_recorded_wide_into(&mut old.clone(), m, 1, &mut report.clone(), record, &mut []);
        assert_eq!((asked(&mut bytes[1..]), asked(&mut bytes)), (refused(20), refused(22)));
        assert!(bytes.iter().all(|&b| b == 0xbb));
    }
}

/// The wide image with train 2 in its header.
fn first_as_second(image: &[u8]) -> Vec<u8> {
    let mut image = image.to_vec();
    image[32] = 2;
    image
}
