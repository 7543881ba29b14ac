//! A sitting that is carried from narrow images to wide ones, with marks and checks between the steps.

#[allow(dead_code)]
#[path = "../examples/carry.rs"]
mod example;
#[allow(dead_code)]
mod yards;

use lavtoeu::layout::*;
use lavtoeu::*;
use std::ptr::{null, null_mut};
use yards::*;

fn refused<T>(number: u16) -> Result<T, Refusal> {
    Err(Refusal { number, place: 0 })
}

fn widened(image: &[u8]) -> Vec<u8> {
    let mut wide = vec![0; wide_image_size(5, 4)];
    assert_eq!(widen(image, &mut wide), Ok(()));
    wide
}

fn three_trains() -> Vec<u8> {
    yard(&[&laid_out(1, 4), &laid_out(2, 4), &laid_out(3, 4)])
}

/// The second yard and the wide occupancy after so many steps.
fn carried(count: u32) -> (Vec<u8>, Vec<u32>) {
    let (narrow, mut wide, mut occupancy) = (three_trains(), vec![0xaa; wide_yard_size(&three_trains()).unwrap()], vec![9; 4]);
    for n in 0..count {
        assert_eq!(carry(&narrow, MOVE.occupancy, n, &mut wide, &mut occupancy), Ok(()));
    }
    (wide, occupancy)
}

const CHECK: Check = Check { blocking: &[1], moved: 2, begin: 1, local: false, limit: 5 };

#[test]
fn each_step_carries_the_next_slot() {
    let images: Vec<Vec<u8>> = (1..=3).map(|t| laid_out(t, 4)).collect();
    let wide: Vec<Vec<u8>> = images.iter().map(|image| widened(image)).collect();
    let full = yard(&[&wide[0], &wide[1], &wide[2]]);
    assert_eq!(wide_yard_size(&three_trains()), Ok(full.len()));
    for count in 1..=3 {
        let (mut expected, from) = (full.clone(), 8 + 4 * 3 + count * wide[0].len());
        expected[from..].fill(0);
        assert_eq!(carried(count as u32), (expected, vec![0, 2, 0, 0]), "{count} slots");
    }
}

#[test]
fn a_later_step_writes_one_part() {
    let (mut wide, mut occupancy) = carried(1);
    occupancy[3] = 7;
    // An image that is carried is the sitting's own by now.
    wide[8 + 4 * 3 + 60] ^= 1;
    let mut expected = wide.clone();
    let part = widened(&laid_out(2, 4));
    expected[20 + part.len()..20 + 2 * part.len()].copy_from_slice(&part);
    assert_eq!(carry(&three_trains(), &[0; 4], 1, &mut wide, &mut occupancy), Ok(()));
    assert_eq!((wide, occupancy), (expected, vec![0, 2, 0, 7]));
}

#[test]
fn a_sitting_goes_on_while_it_is_carried() {
    let (mut narrow, mut report) = (three_trains(), [0; 3 * REPORT_RECORD]);
    let checked = check(&mut narrow, MOVE, 1, &mut report);
    assert_eq!(rows(&report)[0].slot, Slot::Success);
    for steps in 1..=2 {
        let mut yard = three_trains();
        let mut sitting = Carrying::begin(&mut yard, &[0; 4]).unwrap();
        (1..steps).for_each(|_| sitting.step().unwrap());
        assert_eq!(sitting.count(), steps);
        assert_eq!(sitting.mark(&table(&[0, 2, 1, 0].map(|flip| Link { flip, lockouts: vec![] })), 2, 2), Ok(()));
        assert_eq!(sitting.occupancy(), [0, 2, 0, 0]);
        let mut wide_report = [0xaa; 3 * WIDE_REPORT_RECORD];
        assert_eq!(sitting.check(CHECK, &mut wide_report), checked);
        for (row, wide) in rows(&report).iter().zip(wide_rows(&wide_report)) {
            assert_eq!((row.rounds, row.strays, row.met), (wide.rounds, wide.strays, wide.met));
        }
        assert_eq!(wide_rows(&wide_report)[0].slot, WideSlot::Success);
        // Each slot is the all-narrow yard's, in its own width.
        for (slot, image) in (1..).zip(parts(&narrow).unwrap()) {
            let expected = if u32::from(slot) <= steps { widened(image) } else { image.to_vec() };
            assert_eq!(sitting.image(slot), Some(&expected[..]), "slot {slot}");
        }
        assert_eq!((sitting.image(0), sitting.image(4)), (None, None));
        let mut sitting = sitting.finish().expect_err("slots are left");
        (steps..3).for_each(|_| sitting.step().unwrap());
        assert_eq!((sitting.step(), sitting.check(CHECK, &mut wide_report)), (refused(24), refused(24)));
        let (wide, occupancy) = sitting.finish().unwrap();
        let images: Vec<Vec<u8>> = parts(&narrow).unwrap().into_iter().map(widened).collect();
        assert_eq!(wide, lavtoeu::yard(&[&images[0], &images[1], &images[2]]));
        assert_eq!(occupancy, [0, 2, 0, 0]);
    }
}

#[test]
fn a_step_refuses_in_its_order() {
    let (second, occupancy) = carried(1);
    let asked = |yard: &[u8], links: usize, count: u32, second: &[u8], wide: usize| {
        let (mut left, mut held) = (second.to_vec(), vec![9; wide]);
        let told = carry(yard, &vec![0; links], count, &mut left, &mut held);
        if told.is_err() {
            assert_eq!((&left[..], held), (second, vec![9; wide]));
        }
        told
    };
    let good = three_trains();
    assert_eq!(asked(&good, 4, 1, &second, occupancy.len()), Ok(()));
    for (links, wide) in [(0, 0), (1, 1), (4_001, 4_001), (4, 5), (4, 3), (1, 4), (4, 0)] {
        assert_eq!(asked(&[], links, 9, &[], wide), refused(2), "{links} and {wide} entries");
    }
    assert_eq!(asked(&[], 4, 9, &[], 4), refused(14));
    // The first image still to carry that fails, with its own place; one that is carried is not asked any more.
    let spoilt = |slot: usize, at: usize, byte: u8| {
        let mut yard = good.clone();
        yard[20 + (slot - 1) * laid_out(1, 4).len() + at] = byte;
        yard
    };
    assert_eq!(asked(&spoilt(3, WIDTH_AT, 1), 4, 1, &[], 4), refused(6));
    assert_eq!(asked(&spoilt(1, WIDTH_AT, 1), 4, 1, &second, 4), Ok(()));
    assert_eq!(asked(&spoilt(2, 64 + 3 * 32 + 24, 9), 4, 1, &[], 4), Err(Refusal { number: 7, place: 3 }));
    assert_eq!(asked(&spoilt(3, 64 + 4 * 32 + 8, 4), 4, 1, &[], 4), Err(Refusal { number: 8, place: 4 }));
    assert_eq!(asked(&good, 2, 1, &[], 2), Err(Refusal { number: 7, place: 3 }));
    for count in [3, 4, u32::MAX] {
        assert_eq!(asked(&good, 4, count, &second, 4), refused(24), "count {count}");
    }
    for n in [0, second.len() - 1, second.len() + 1] {
        assert_eq!(asked(&good, 4, 1, &vec![0; n], 4), refused(24), "{n} bytes");
        assert_eq!(asked(&good, 4, 0, &vec![0; n], 4), refused(24), "{n} bytes");
    }
    assert_eq!(Refusal { number: 24, place: 0 }.to_string(), "refused 24 (a count that the sitting belies) at 0");
}

#[test]
fn a_second_yard_that_belies_the_count_is_refused() {
    let (second, _) = carried(2);
    let (header, part) = (8 + 4 * 3, widened(&laid_out(1, 4)).len());
    for at in 0..second.len() {
        let mut other = second.clone();
        other[at] ^= 2;
        let in_part = (at.max(header) - header) % part;
        let seen = at < header || at >= header + 2 * part || [32, 33, WIDTH_AT].contains(&in_part);
        let (kept, mut report) = (other.clone(), [0xaa; 3 * WIDE_REPORT_RECORD]);
        let told = carry(&three_trains(), &[0; 4], 2, &mut other.clone(), &mut [0; 4]);
        assert_eq!(told, if seen { refused(24) } else { Ok(()) }, "byte {at}");
        let m = WideMove { occupancy: &[0; 4], blocking: &[1], moved: 2, local: false, limit: 5 };
        let (mut yard, mut answer) = (three_trains(), [9; 3]);
        let told = check_half_into(&mut yard, &mut other, 2, m, 1, &mut report, &mut answer);
        assert_eq!(told, if seen { refused(24) } else { Ok(()) }, "byte {at}");
        if seen {
            assert_eq!((yard, other, report, answer), (three_trains(), kept, [0xaa; 3 * WIDE_REPORT_RECORD], [9; 3]));
        }
    }
}

#[test]
fn a_half_check_refuses_in_its_order() {
    let (second, _) = carried(1);
    let told = WideMove { occupancy: &[0, 65_536, 0, 0], blocking: &[4], moved: 0, local: false, limit: 5 };
    let asked = |yard: &[u8], second: &[u8], count, m: WideMove, begin, rows: usize| {
        let (mut first, mut other, mut report, mut answer) = (yard.to_vec(), second.to_vec(), vec![0xaa; rows], [9; 3]);
        let told = check_half_into(&mut first, &mut other, count, m, begin, &mut report, &mut answer);
        if told.is_err() {
            assert_eq!((&first[..], &other[..], report, answer), (yard, second, vec![0xaa; rows], [9; 3]));
        }
        told
    };
    let good = three_trains();
    assert_eq!(asked(&[], &[], 0, WideMove { occupancy: &[0], ..told }, 0, 0), refused(2));
    assert_eq!(asked(&[], &[], 0, told, 0, 0), refused(4));
    let told = WideMove { blocking: &[1], ..told };
    assert_eq!(asked(&[], &[], 0, told, 0, 0), refused(5));
    let told = WideMove { moved: 9, ..told };
    assert_eq!(asked(&[], &[], 0, told, 0, 0), refused(14));
    for count in [0, 3, u32::MAX] {
        assert_eq!(asked(&good, &second, count, told, 0, 0), refused(24), "count {count}");
    }
    assert_eq!(asked(&good, &second[1..], 1, told, 0, 0), refused(24));
    assert_eq!(asked(&good, &second, 1, told, 0, 0), refused(22));
    let told = WideMove { occupancy: &[0, 65_535, 0, 0], ..told };
    assert_eq!(asked(&good, &second, 1, told, 0, 0), refused(15));
    let told = WideMove { moved: 2, ..told };
    assert_eq!(asked(&good, &second, 1, told, 5, 0), refused(15));
    for rows in [0, 3 * REPORT_RECORD, 71, 73] {
        assert_eq!(asked(&good, &second, 1, told, 1, rows), refused(16), "{rows} bytes");
    }
    assert_eq!(asked(&good, &second, 1, told, 1, 72), Ok(()));
}

#[test]
fn a_sitting_that_is_none_is_not_begun() {
    assert_eq!(Carrying::begin(&mut three_trains(), &[0]).err(), Some(Refusal { number: 2, place: 0 }));
    assert_eq!(Carrying::begin(&mut [], &[0; 4]).err(), Some(Refusal { number: 14, place: 0 }));
    // Room that no image has is refused, and not asked for.
    let mut yard = three_trains();
    yard[20 + 16..20 + 20].fill(0xff);
    assert_eq!(Carrying::begin(&mut yard, &[0; 4]).err(), Some(Refusal { number: 6, place: 0 }));
    // A train of six digits waits for the last step.
    let mut yard = three_trains();
    let mut sitting = Carrying::begin(&mut yard, &[0; 4]).unwrap();
    let table = table(&[0, 2, 1, 0].map(|flip| Link { flip, lockouts: vec![] }));
    assert_eq!(sitting.mark(&table, 2, 999_999), Ok(()));
    assert_eq!(sitting.check(CHECK, &mut [0; 3 * WIDE_REPORT_RECORD]), refused(22));
    (0..2).for_each(|_| sitting.step().unwrap());
    let (mut wide, occupancy) = sitting.finish().unwrap();
    let m = WideMove { occupancy: &occupancy, blocking: &[1], moved: 2, local: false, limit: 5 };
    assert!(check_wide(&mut wide, m, 1, &mut [0; 3 * WIDE_REPORT_RECORD]).is_ok());
}

#[test]
fn a_pointer_with_length_0_may_be_null() {
    let (b, w) = (null_mut::<u8>(), null_mut::<u64>());
    // SAFETY: with length 0 no pointer is read.
    unsafe {
        assert_eq!(raw::lavtoeu_carry(null(), 0, null(), 0, 0, b, 0, null_mut(), 0), 2);
        assert_eq!(raw::lavtoeu_check_half(b, 0, b, 0, 1, null(), 0, null(), 0, 1, 1, 0, 1, b, 0, w, 0), 2);
    }
}

#[test]
fn the_example_prints_what_stands_beside_it() {
    assert_eq!(example::told().as_deref(), Ok(include_str!("../examples/carry.out")));
}
