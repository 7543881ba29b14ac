//! Trains of six digits: wide images beside narrow ones, and the conversions.

#[allow(dead_code)]
mod yards;

use lavtoeu::layout::*;
use lavtoeu::*;
use yards::*;

fn refused(number: u16, place: u16) -> Refusal {
    Refusal { number, place }
}

fn widened(image: &[u8]) -> Vec<u8> {
    let header = Image::from_bytes(image).unwrap();
    let mut out = vec![0xaa; wide_image_size(header.ests.len(), header.room as usize)];
    assert_eq!(widen(image, &mut out), Ok(()));
    out
}

fn narrowed(image: &[u8]) -> Result<Vec<u8>, Refusal> {
    let (e, q) = (word(image, 4), word(image, 16));
    let mut out = vec![0xaa; image_size(e, q)];
    narrow(image, &mut out).map(|()| out)
}

fn word(b: &[u8], at: usize) -> usize {
    u32::from_le_bytes(b[at..at + 4].try_into().unwrap()) as usize
}

/// The siding's train, wide, with this train at its inner diverge node.
fn led_round(train: u32) -> Vec<u8> {
    let mut image = laid_out(1, 4);
    assert_eq!(update(&mut image, MOVE).status, Ok(Status::Success));
    let mut image = widened(&image);
    let at = word(&image, 28) + WIDE_DIVERGE_RECORD;
    assert_eq!(word(&image, at), 2);
    image[at..at + 4].copy_from_slice(&train.to_le_bytes());
    image
}

const WIDE: WideMove = WideMove { occupancy: &[0, 2, 0, 0], blocking: &[1], moved: 2, local: false, limit: 5 };

#[test]
fn a_narrow_image_goes_wide_and_back_to_the_same_bytes() {
    let narrow = laid_out(1, 4);
    let wide = widened(&narrow);
    assert!(is_wide(&wide) && !is_wide(&narrow));
    assert_eq!(wide.len(), narrow.len() + 4 * 4);
    // The size, the width and the diverge records; all else is as it was.
    let diverges = word(&narrow, 28);
    let kept = |b: &[u8]| [&b[4..42], &b[43..diverges]].concat();
    assert_eq!(kept(&wide), kept(&narrow));
    assert_eq!((word(&wide, 0), wide[42]), (wide.len(), 1));
    assert_eq!(wide[diverges..diverges + 16], [0, 0, 0, 0, 0, 0, 0, 0, 0, 0, 0, 0, 3, 0, 0, 0]);
    assert_eq!(narrowed(&wide), Ok(narrow));
}

#[test]
fn a_train_above_65_535_does_not_go_narrow() {
    for (train, answer) in [(65_535, Ok(())), (65_536, Err(refused(23, 0))), (999_999, Err(refused(23, 0))), (1_000_000, Err(refused(22, 1)))] {
        assert_eq!(narrowed(&led_round(train)).map(|_| ()), answer, "{train}");
    }
}

#[test]
fn a_conversion_asks_for_the_other_width_and_the_right_size() {
    let (narrow_image, wide_image) = (laid_out(1, 4), widened(&laid_out(1, 4)));
    for n in [0, narrow_image.len(), wide_image.len() - 1, wide_image.len() + 1] {
        let mut out = vec![0xaa; n];
        assert_eq!(widen(&narrow_image, &mut out), Err(refused(6, 0)), "{n} bytes");
        assert!(out.iter().all(|&b| b == 0xaa));
    }
    let mut out = vec![0xaa; wide_image.len()];
    assert_eq!(widen(&wide_image, &mut out), Err(refused(6, 0)));
    assert_eq!(narrow(&wide_image, &mut out), Err(refused(6, 0)));
    let mut out = vec![0xaa; narrow_image.len()];
    assert_eq!(narrow(&narrow_image, &mut out), Err(refused(6, 0)));
    assert_eq!(refused(23, 0).to_string(), "refused 23 (a train that has no room in a narrow image) at 0");
}

#[test]
fn an_update_says_the_same_over_both_widths() {
    for (occupancy, blocking) in [([0, 2, 0, 0], vec![1]), ([0, 2, 9, 0], vec![1, 2]), ([0, 0, 0, 0], vec![1]), ([0, 7, 0, 9], vec![])] {
        let m = Move { occupancy: &occupancy, blocking: &blocking, ..MOVE };
        let wide = occupancy.map(u32::from);
        let w = WideMove { occupancy: &wide, blocking: &blocking, ..WIDE };
        let (mut first, mut second, mut third) = (laid_out(1, 4), laid_out(1, 4), widened(&laid_out(1, 4)));
        let updated = update(&mut first, m);
        assert_eq!((update_wide(&mut second, w), update_wide(&mut third, w)), (updated, updated));
        assert_eq!((&second, narrowed(&third)), (&first, Ok(first.clone())));
    }
}

#[test]
fn six_digits_are_held_and_met_beside_a_wide_image() {
    let m = WideMove { occupancy: &[0, 765_432, 999_999, 0], blocking: &[1, 2], moved: 123_456, ..WIDE };
    let updated = update_wide(&mut widened(&laid_out(1, 4)), m);
    assert_eq!((updated.status, updated.holder, updated.met), (Ok(Status::Blocked), 999_999, 765_432));
    // The train that led it round stands among the diverge nodes.
    let mut image = widened(&laid_out(1, 4));
    let m = WideMove { occupancy: &[0, 999_999, 0, 0], moved: 999_999, ..WIDE };
    assert_eq!(update_wide(&mut image, m).status, Ok(Status::Success));
    let after = Image::from_bytes(&image).unwrap();
    assert!(after.wide && after.to_bytes() == Ok(image));
    assert_eq!(after.diverges.iter().map(|d| (d.train, d.node)).collect::<Vec<_>>(), [(0, 0), (999_999, 1), (999_999, 4)]);
}

#[test]
fn a_larger_train_is_refused_between_6_and_7() {
    for (image, top) in [(laid_out(1, 4), 65_535), (widened(&laid_out(1, 4)), 999_999)] {
        for (train, number) in [(top, None), (top + 1, Some(22)), (u32::MAX, Some(22))] {
            let status = |m: WideMove| update_wide(&mut image.clone(), m).status.err().map(|r| r.number);
            assert_eq!(status(WideMove { occupancy: &[train, 2, 0, 0], ..WIDE }), number, "{train} of {top}");
            assert_eq!(status(WideMove { moved: train, blocking: &[], ..WIDE }), number, "{train} of {top}");
            // Over three links it has a link that there is not, which is 7.
            let three = status(WideMove { occupancy: &[train, 2, 0], ..WIDE });
            assert_eq!(three, Some(number.unwrap_or(7)), "{train} of {top}");
        }
    }
    assert_eq!(update_wide(&mut led_round(1_000_000), WIDE).status, Err(refused(22, 1)));
}

#[test]
fn a_mark_takes_six_digits_and_no_more() {
    let table = table(&[0, 2, 1].map(|flip| Link { flip, lockouts: vec![] }));
    let mut occupancy = [0; 3];
    assert_eq!(mark_wide(&table, &mut occupancy, 1, 999_999), Ok(()));
    assert_eq!(occupancy, [0, 0, 999_999]);
    assert_eq!(mark_wide(&table, &mut occupancy, 1, 1_000_000), Err(refused(22, 0)));
    assert_eq!(mark_wide(&table, &mut occupancy, 3, 1_000_000), Err(refused(3, 0)));
    assert_eq!(mark_wide(&table, &mut [0, 0, 1_000_000], 1, 0), Err(refused(22, 0)));
}

#[test]
fn a_report_is_wide_where_an_image_is() {
    let (one, two) = (laid_out(1, 4), laid_out(2, 4));
    let m = WideMove { occupancy: &[0, 2, 9, 0], blocking: &[1, 2], ..WIDE };
    let mut narrow_yard = yard(&[&one, &two]);
    assert_eq!(report_record(&narrow_yard), REPORT_RECORD);
    let mut report = [0xaa; 2 * REPORT_RECORD];
    assert_eq!(check_wide(&mut narrow_yard, m, 1, &mut report), Ok(Checked::Done { deadlock: true, next: 1 }));
    assert_eq!(rows(&report)[0], Row { slot: Slot::Blocked(9), rounds: 1, strays: 0, met: 2 });
    for images in [[one.clone(), widened(&two)], [widened(&one), two.clone()], [widened(&one), widened(&two)]] {
        let mut yard = yard(&[&images[0], &images[1]]);
        assert_eq!(report_record(&yard), WIDE_REPORT_RECORD);
        let mut narrow_report = [0xaa; 2 * REPORT_RECORD];
        assert_eq!(check_wide(&mut yard, m, 1, &mut narrow_report), Err(refused(16, 0)));
        let mut report = [0xaa; 2 * WIDE_REPORT_RECORD];
        assert_eq!(check_wide(&mut yard, m, 1, &mut report), Ok(Checked::Done { deadlock: true, next: 1 }));
        let row = |slot, rounds, met| WideRow { slot, rounds, strays: 0, met };
        assert_eq!(wide_rows(&report), [row(WideSlot::Blocked(9), 1, 2), row(WideSlot::Moved, 0, 0)]);
        assert_eq!(report[6..8], [0, 0]);
    }
}

#[test]
fn six_digits_stand_in_a_check_where_every_image_is_wide() {
    let (one, two) = (widened(&laid_out(1, 4)), widened(&laid_out(2, 4)));
    let m = WideMove { occupancy: &[0, 2, 999_999, 0], blocking: &[1, 2], ..WIDE };
    let mut report = [0; 2 * WIDE_REPORT_RECORD];
    assert_eq!(check_wide(&mut yard(&[&one, &two]), m, 1, &mut report), Ok(Checked::Done { deadlock: true, next: 1 }));
    assert_eq!(wide_rows(&report)[0].slot, WideSlot::Blocked(999_999));
    // Slot 2 is not visited, and narrow all the same.
    let mut mixed = yard(&[&one, &laid_out(2, 4)]);
    assert_eq!(check_wide(&mut mixed, m, 1, &mut report), Err(refused(22, 0)));
    let larger = WideMove { occupancy: &[0, 2, 1_000_000, 0], ..m };
    assert_eq!(check_wide(&mut yard(&[&one, &two]), larger, 9, &mut []), Err(refused(22, 0)));
}

#[test]
fn the_narrow_calls_refuse_a_wide_image_by_6() {
    let mut wide = widened(&laid_out(1, 4));
    assert_eq!(update(&mut wide, MOVE).status, Err(refused(6, 0)));
    let mut report = [0; 40];
    assert_eq!(check(&mut yard(&[&wide, &laid_out(2, 4)]), MOVE, 1, &mut report), Ok(Checked::Erred(1)));
    assert_eq!(rows(&report)[0].slot, Slot::Refused(refused(6, 0)));
    assert_eq!(sheet(&bundle(&yard(&[&wide, &laid_out(2, 4)]), MOVE, 1)).lines().nth(1), Some("1 refused-6 0 0 0 0 0 0"));
    // Those without an occupancy take it.
    assert_eq!((judge(&wide, 4), profile(&wide), ceiling(&wide)), (Ok(()), Ok(()), Ok(16)));
    assert_eq!(judge(&led_round(1_000_000), 4), Err(refused(22, 1)));
    let (mut one, mut other) = ([0; 120], [0; 120]);
    assert_eq!((page(&wide, &mut one), page(&laid_out(1, 4), &mut other)), (Ok(()), Ok(())));
    assert_eq!(one, other);
    assert_eq!(yard_ceiling(&yard(&[&wide, &laid_out(2, 4)]), 1), Ok(32));
}

#[test]
fn every_other_length_of_a_wide_image_is_refused_by_6() {
    let wide = led_round(9);
    let mut narrow_room = vec![0xaa; laid_out(1, 4).len()];
    for n in (0..wide.len()).chain([wide.len() + 1, wide.len() + 8]) {
        let mut cut = wide.clone();
        cut.resize(n, 0);
        let cut = cut.into_boxed_slice();
        assert_eq!(update_wide(&mut cut.clone(), WIDE).status, Err(refused(6, 0)), "{n} bytes");
        assert_eq!(narrow(&cut, &mut narrow_room), Err(refused(6, 0)), "{n} bytes");
    }
    assert!(narrow_room.iter().all(|&b| b == 0xaa));
}

#[test]
fn the_largest_wide_train_is_widened_updated_and_narrowed() {
    let record = |i: u32| Est { next: (i + 1) % 512, prev: i.saturating_sub(1), ..Est::default() };
    let ests: Vec<Est> = (0..512).map(record).collect();
    let order = Order { train: u16::MAX, links: 4_000, room: 1_024, search: 1e12, fixed: 1e12 };
    let image = Image::new(&ests, order).unwrap().to_bytes().unwrap();
    let mut wide = widened(&image);
    let m = WideMove { occupancy: &[999_999; 4_000], blocking: &[3_999; 4_000], moved: 999_999, local: true, limit: u16::MAX };
    assert_eq!(narrowed(&wide), Ok(image));
    assert_eq!(update_wide(&mut wide, m).status, Ok(Status::Success));
    // The moved train stands at the end of the diverge nodes now.
    assert_eq!(narrowed(&wide), Err(refused(23, 0)));
    let longer = WideMove { occupancy: &[0; 4_001], ..m };
    assert_eq!(update_wide(&mut wide, longer).status, Err(refused(2, 0)));
}

#[test]
fn an_answer_gets_as_many_words_as_it_has_room_for() {
    let m = WideMove { occupancy: &[0, 765_432, 999_999, 0], blocking: &[1, 2], moved: 765_432, ..WIDE };
    let image = widened(&laid_out(1, 4));
    let mut whole = [7; UPDATE_WORDS];
    assert_eq!(update_wide_into(&mut image.clone(), m, &mut whole), Ok(()));
    assert_eq!((whole[0], whole[5], whole[6]), (4, 999_999, 765_432));
    for n in 0..=UPDATE_WORDS + 1 {
        let mut words = vec![7; n];
        assert_eq!(update_wide_into(&mut image.clone(), m, &mut words), Ok(()));
        assert_eq!(words, [&whole[..], &[7]].concat()[..n], "{n} words");
    }
}
