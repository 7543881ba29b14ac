//! An index of which trains run over a link: built, and kept beside checks, layouts and undos.

#[allow(dead_code)]
mod yards;

use lavtoeu::layout::*;
use lavtoeu::*;
use std::ptr::{null, null_mut};
use yards::*;

fn refused<T>(number: u16) -> Result<T, Refusal> {
    Err(Refusal { number, place: 0 })
}

fn built(yard: &[u8]) -> [u64; 4] {
    let mut index = [u64::MAX; 4];
    assert_eq!(build_index(yard, &mut index), Ok(()));
    index
}

/// All bits set, which no build leaves.
const WRONG: [u64; 4] = [u64::MAX; 4];

/// The index with slot 1 led round over link 2, all else as it was.
fn led_round(index: [u64; 4]) -> [u64; 4] {
    [index[0] & !2, index[1] & !2, index[2] | 2, index[3] | 2]
}

fn widened(image: &[u8]) -> Vec<u8> {
    let mut wide = vec![0; wide_image_size(5, 4)];
    assert_eq!(widen(image, &mut wide), Ok(()));
    wide
}

#[test]
fn bit_t_is_set_where_slot_t_arrives() {
    assert_eq!(built(&two_trains()), [0, 6, 0, 6]);
    assert_eq!(slots_on(6).collect::<Vec<_>>(), [1, 2]);
    assert_eq!(slots_on(u64::MAX).count(), 63);
    // Images of both widths count, a refused one does not.
    assert_eq!(built(&yard(&[&widened(&laid_out(1, 4)), &laid_out(2, 4)])), [0, 6, 0, 6]);
    let mut spoilt = laid_out(1, 4);
    spoilt[43] = 1;
    assert_eq!(built(&yard(&[&spoilt, &laid_out(2, 4)])), [0, 4, 0, 4]);
    // An image is judged over as many links as the index has.
    let mut short = [9; 3];
    assert_eq!((build_index(&two_trains(), &mut short), short), (Ok(()), [0; 3]));
    let mut long = vec![9; MAX_LINKS];
    assert_eq!(build_index(&two_trains(), &mut long), Ok(()));
    assert_eq!((&long[..4], long[4..].iter().all(|&x| x == 0)), (&[0, 6, 0, 6][..], true));
}

#[test]
fn the_last_slot_has_the_last_bit() {
    let images: Vec<Vec<u8>> = (1..=63).map(|t| laid_out(t, 4)).collect();
    let images: Vec<&[u8]> = images.iter().map(Vec::as_slice).collect();
    assert_eq!(built(&yard(&images)), [0, u64::MAX - 1, 0, u64::MAX - 1]);
}

#[test]
fn a_build_refuses_the_length_before_the_yard() {
    for (n, number) in [(0, 25), (1, 25), (4_001, 25), (2, 14), (4_000, 14)] {
        let mut index = vec![9; n];
        assert_eq!(build_index(&[], &mut index), refused(number), "{n} entries");
        assert!(index.iter().all(|&x| x == 9));
    }
    assert_eq!(Refusal { number: 25, place: 0 }.to_string(), "refused 25 (index of a wrong length) at 0");
}

/// A check of a yard of two slots, the index and a report lent to it.
type Beside = fn(&mut [u8], &[u16], &mut [u8], &mut [u64]) -> Result<Checked, Refusal>;

fn wide_of(occupancy: &[u16]) -> Vec<u32> {
    occupancy.iter().map(|&train| train as u32).collect()
}

const CHECKS: [Beside; 4] = [
    |yard, occupancy, report, index| check_indexed(yard, Move { occupancy, ..MOVE }, 1, report, index),
    |yard, occupancy, report, index| {
        let m = WideMove { occupancy: &wide_of(occupancy), blocking: &[1], moved: 2, local: false, limit: 5 };
        check_wide_indexed(yard, m, 1, report, index)
    },
    |yard, occupancy, report, index| {
        check_recorded_indexed(yard, Move { occupancy, ..MOVE }, 1, report, index).map(|(checked, _)| checked)
    },
    |yard, occupancy, report, index| {
        let m = WideMove { occupancy: &wide_of(occupancy), blocking: &[1], moved: 2, local: false, limit: 5 };
        check_recorded_wide_indexed(yard, m, 1, report, index).map(|(checked, _)| checked)
    },
];

#[test]
fn a_check_mends_the_bits_of_the_slots_that_change() {
    let (mut plain, mut rows) = (two_trains(), [0; 2 * REPORT_RECORD]);
    let checked = check(&mut plain, MOVE, 1, &mut rows);
    for beside in CHECKS {
        for start in [built(&two_trains()), WRONG, [0; 4]] {
            let (mut yard, mut report, mut index) = (two_trains(), [0; 2 * REPORT_RECORD], start);
            assert_eq!(beside(&mut yard, MOVE.occupancy, &mut report, &mut index), checked);
            assert_eq!((&yard, report), (&plain, rows));
            // Slot 2 is the moved one and stays.
            assert_eq!(index, led_round(start));
        }
        let (mut yard, mut index) = (two_trains(), built(&two_trains()));
        assert!(beside(&mut yard, MOVE.occupancy, &mut [0; 2 * REPORT_RECORD], &mut index).is_ok());
        assert_eq!(index, built(&yard));
        // Once more nothing changes, and wrong bits stay.
        let mut index = WRONG;
        assert!(beside(&mut yard, MOVE.occupancy, &mut [0; 2 * REPORT_RECORD], &mut index).is_ok());
        assert_eq!(index, WRONG);
    }
}

#[test]
fn a_check_refuses_the_index_behind_the_occupancy() {
    for beside in CHECKS {
        for (links, n, rows, number) in [
            (1, 1, 40, 2),
            (1, 2, 40, 2),
            (4_001, 4_001, 40, 2),
            (4, 3, 40, 25),
            (4, 5, 40, 25),
            (4, 0, 0, 25),
            (2, 4, 40, 25),
            // Link 1 is a blocking link still; the report is of a wrong length.
            (2, 2, 39, 16),
            (4, 4, 41, 16),
        ] {
            let (mut yard, mut report, mut index) = (two_trains(), vec![0xaa; rows], vec![9; n]);
            assert_eq!(beside(&mut yard, &vec![0; links], &mut report, &mut index), refused(number), "{links} links, {n} entries");
            assert_eq!((yard, report, index), (two_trains(), vec![0xaa; rows], vec![9; n]));
        }
        let (mut cut, mut index) = (two_trains(), [9; 4]);
        cut.pop();
        assert_eq!(beside(&mut cut, MOVE.occupancy, &mut [0; 40], &mut index), refused(14));
        assert_eq!(beside(&mut cut, MOVE.occupancy, &mut [0; 40], &mut index[..3]), refused(25));
        assert_eq!(index, [9; 4]);
    }
}

#[test]
fn a_short_record_comes_first_and_a_refusal_leaves_all() {
    let need = undo_record_size(two_trains().len());
    for (room, entries, number) in [(need - 1, 3, 20), (need, 3, 25), (0, 0, 20)] {
        let (mut yard, mut report, mut record) = (two_trains(), [0xaa; 40], vec![0xbb; room]);
        let (mut index, mut answer) = (vec![9; entries], [9; 3]);
        let told = check_recorded_indexed_into(&mut yard, MOVE, 1, &mut report, &mut record, &mut index, &mut answer);
        assert_eq!(told, refused(number));
        assert_eq!((yard, report, record), (two_trains(), [0xaa; 40], vec![0xbb; room]));
        assert_eq!((index, answer), (vec![9; entries], [9; 3]));
    }
}

#[test]
fn six_digits_are_refused_between_14_and_15() {
    let occupancy = [0, 65_536, 0, 0];
    let m = WideMove { occupancy: &occupancy, blocking: &[1], moved: 3, local: false, limit: 5 };
    let (mut yard, mut index) = (two_trains(), WRONG);
    assert_eq!(check_wide_indexed(&mut yard, m, 1, &mut [0; 40], &mut index), refused(22));
    assert_eq!(check_wide_indexed(&mut yard, m, 1, &mut [0; 40], &mut index[1..]), refused(25));
    let m = WideMove { occupancy: &[0; 4], ..m };
    assert_eq!(check_wide_indexed(&mut yard, m, 1, &mut [0; 40], &mut index), refused(15));
    assert_eq!((yard, index), (two_trains(), WRONG));
}

#[test]
fn a_layout_writes_the_bits_of_its_train() {
    let mut image = vec![0xaa; image_size(5, 4)];
    let mut index = WRONG;
    assert_eq!(lay_out_indexed(&siding(), order(2, 4), &mut image, &mut index), Ok(()));
    assert_eq!(image, laid_out(2, 4));
    assert_eq!(index, [!4, !0, !4, !0]);
    // The same bytes again: wrong bits stay.
    let mut index = [0; 4];
    assert_eq!(lay_out_indexed(&siding(), order(2, 4), &mut image, &mut index), Ok(()));
    assert_eq!((&image, index), (&laid_out(2, 4), [0; 4]));
    assert_eq!(lay_out_indexed(&siding(), order(63, 4), &mut image, &mut index), Ok(()));
    assert_eq!(index, [0, 1 << 63, 0, 1 << 63]);
}

#[test]
fn a_layout_refuses_trains_above_63_and_the_index_behind_6() {
    let asked = |est: &[u8], o: Order, room: usize, entries: usize| {
        let (mut image, mut index) = (vec![0xaa; room], vec![9; entries]);
        let told = lay_out_indexed(est, o, &mut image, &mut index);
        assert_eq!((image, index), (vec![0xaa; room], vec![9; entries]));
        told
    };
    let size = image_size(5, 4);
    for train in [0, 64, u16::MAX] {
        assert_eq!(asked(&siding(), order(train, 4), size - 1, 3), refused(5), "train {train}");
    }
    assert_eq!(asked(&siding(), order(1, 4), size - 1, 3), refused(6));
    for entries in [0, 2, 3, 5] {
        assert_eq!(asked(&siding(), order(1, 4), size, entries), refused(25), "{entries} entries");
        let bad = Order { search: -1.0, ..order(1, 4) };
        assert_eq!(asked(&siding(), bad, size, entries), refused(25), "{entries} entries");
    }
    assert_eq!(asked(&siding(), Order { search: -1.0, ..order(1, 4) }, size, 4), refused(7));
}

#[test]
fn an_undo_mends_the_bits_of_the_slots_that_change_back() {
    let (mut yard, mut index) = (two_trains(), built(&two_trains()));
    let (checked, record) = check_recorded_indexed(&mut yard, MOVE, 1, &mut [0; 40], &mut index).unwrap();
    assert_eq!((checked, index), (Checked::Done { deadlock: false, next: 1 }, led_round([0, 6, 0, 6])));
    let mut wrong = WRONG;
    assert_eq!(undo_indexed(&mut yard.clone(), record.bytes(), &mut wrong), Ok(()));
    assert_eq!(wrong, [!2, !0, !2, !0]);
    assert_eq!(record.undo_indexed(&mut yard, &mut index), Ok(()));
    assert_eq!((&yard, index), (&two_trains(), [0, 6, 0, 6]));
    // It is taken back, and so it is 21; a length outside 2 to 4,000 comes before that.
    for (n, number) in [(0, 25), (1, 25), (4_001, 25), (2, 21), (3, 21), (4_000, 21)] {
        let mut index = vec![9; n];
        assert_eq!(record.undo_indexed(&mut yard, &mut index), refused(number), "{n} entries");
        assert!(yard == two_trains() && index.iter().all(|&x| x == 9));
    }
}

#[test]
fn a_slot_that_an_undo_takes_away_has_no_bits() {
    // One slot in as many bytes as the yard of two: its image is cut off, 6.
    let two = two_trains();
    let mut one = two.clone();
    one[4..8].copy_from_slice(&1u32.to_le_bytes());
    one[8..12].copy_from_slice(&12u32.to_le_bytes());
    one[12 + 32..12 + 34].copy_from_slice(&1u16.to_le_bytes());
    assert_eq!(parts(&one).map(|parts| parts.len()), Ok(1));
    let record = |old: &[u8], slots: u32, written: &[u8]| {
        let y = old.len() as u32;
        let head: Vec<u8> = [16 + 2 * y, slots, 16, 16 + y].iter().flat_map(|n| n.to_le_bytes()).collect();
        [&head, old, written].concat()
    };
    let (mut yard, mut index) = (two.clone(), [0x11, 0x17, 0x11, 0x17]);
    assert_eq!(undo_indexed(&mut yard, &record(&one, 1, &two), &mut index), Ok(()));
    // Slots 1 and 2 have changed; bits 0 and 4 stay.
    assert_eq!((&yard, index), (&one, [0x11; 4]));
    assert_eq!(undo_indexed(&mut yard, &record(&two, 2, &one), &mut index), Ok(()));
    assert_eq!((&yard, index), (&two, [0x11, 0x17, 0x11, 0x17]));
}

#[test]
fn a_pointer_with_length_0_may_be_null() {
    let (b, w) = (null_mut::<u8>(), null_mut::<u64>());
    // SAFETY: with length 0 no pointer is read.
    unsafe {
        assert_eq!(raw::lavtoeu_index(null(), 0, w, 0), 25);
        assert_eq!(raw::lavtoeu_undo_indexed(b, 0, null(), 0, w, 0), 25);
        assert_eq!(raw::lavtoeu_lay_out_indexed(null(), 0, 1, 0.0, 0.0, 2, 2, b, 0, w, 0), 6);
        assert_eq!(raw::lavtoeu_check_indexed(b, 0, null(), 0, null(), 0, 1, 1, 0, 1, b, 0, w, 0, w, 0), 2);
        assert_eq!(raw::lavtoeu_check_indexed_wide(b, 0, null(), 0, null(), 0, 1, 1, 0, 1, b, 0, w, 0, w, 0), 2);
        assert_eq!(raw::lavtoeu_check_recorded_indexed(b, 0, null(), 0, null(), 0, 1, 1, 0, 1, b, 0, b, 0, w, 0, w, 0), 20);
        assert_eq!(raw::lavtoeu_check_recorded_indexed_wide(b, 0, null(), 0, null(), 0, 1, 1, 0, 1, b, 0, b, 0, w, 0, w, 0), 20);
    }
}
