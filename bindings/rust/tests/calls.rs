//! The calls over small yards: what they answer, and that a refusal leaves every buffer.

mod yards;

use lavtoeu::*;
use yards::*;

fn u32_at(b: &[u8], at: usize) -> u32 {
    u32::from_le_bytes(b[at..at + 4].try_into().unwrap())
}

/// The est record of each node of an image's path.
fn path(image: &[u8]) -> Vec<u32> {
    let e = u32_at(image, 4) as usize;
    (0..u32_at(image, 8) as usize).map(|i| u32_at(image, 64 + 32 * e + 32 * i + 20)).collect()
}

#[test]
fn a_layout_runs_along_next_and_is_accepted() {
    let image = laid_out(1, 4);
    assert_eq!(path(&image), [0, 1, 4]);
    assert_eq!(judge(&image, 4), Ok(()));
    assert_eq!(judge(&image, 3), Err(Refusal { number: 7, place: 4 }));
}

/// The image with another float at a place.
fn with_float(image: &[u8], at: usize, x: f64) -> Vec<u8> {
    let mut image = image.to_vec();
    image[at..at + 8].copy_from_slice(&x.to_le_bytes());
    image
}

#[test]
fn the_profile_asks_each_distance_and_offset_and_no_time() {
    let image = laid_out(1, 4);
    assert_eq!(profile(&image), Ok(()));
    let last_offset = 64 + 5 * 32 + 2 * 32;
    // Both distances of the header, an est record's, and an offset.
    for at in [48, 56, 64 + 4 * 32, last_offset] {
        for x in [0.0, -0.0, 1.0 / 1024.0, 100.125, 40_000.0 - 1.0 / 1024.0, 40_000.0] {
            assert_eq!(profile(&with_float(&image, at, x)), Ok(()), "{x} at {at}");
        }
        for x in [1.0 / 2048.0, 5e-324, 100.1, 40_000.0 + 1.0 / 1024.0, 1e12] {
            assert_eq!(profile(&with_float(&image, at, x)), Err(Refusal { number: 29, place: 0 }), "{x} at {at}");
        }
    }
    assert_eq!(profile(&with_float(&image, last_offset, -1.0)), Err(Refusal { number: 29, place: 0 }));
    assert_eq!(profile(&with_float(&image, last_offset + 8, 0.1)), Ok(()));
}

#[test]
fn the_profile_takes_a_multiple_and_neither_float_beside_it() {
    let image = laid_out(1, 4);
    let asked = |bits| profile(&with_float(&image, 64, f64::from_bits(bits)));
    for k in (1..=40_960_000u32).step_by(1_999).chain([40_960_000]) {
        let bits = (k as f64 / 1024.0).to_bits();
        assert_eq!(asked(bits), Ok(()), "{k}");
        for beside in [bits - 1, bits + 1] {
            assert_eq!(asked(beside), Err(Refusal { number: 29, place: 0 }), "beside {k}");
        }
    }
}

#[test]
fn the_image_is_judged_before_its_profile() {
    let image = with_float(&laid_out(1, 4), 64, 0.1);
    assert_eq!(profile(&image).unwrap_err().to_string(), "refused 29 (outside the training track profile) at 0");
    assert_eq!(profile(&with_float(&image, 64 + 32, f64::NAN)), Err(Refusal { number: 7, place: 1 }));
    assert_eq!(profile(&image[1..]), Err(Refusal { number: 6, place: 0 }));
    assert_eq!(profile(&[]), Err(Refusal { number: 6, place: 0 }));
}

#[test]
fn a_ceiling_is_three_steps_for_each_est_record_and_one() {
    let image = laid_out(1, 4);
    assert_eq!(ceiling(&image), Ok(16));
    assert_eq!(ceiling(&with_float(&image, 64 + 32, f64::NAN)), Err(Refusal { number: 7, place: 1 }));
    assert_eq!(ceiling(&[]), Err(Refusal { number: 6, place: 0 }));
}

#[test]
fn a_yards_ceiling_is_the_sum_of_its_slots_for_every_round() {
    let mut yard = two_trains();
    assert_eq!(yard_ceiling(&yard, 1), Ok(32));
    assert_eq!(yard_ceiling(&yard, u16::MAX), Ok(32 * 65_535));
    assert_eq!(yard_ceiling(&[], 0), Err(Refusal { number: 5, place: 0 }));
    assert_eq!(yard_ceiling(&[], 1), Err(Refusal { number: 14, place: 0 }));
    // A spare byte of the first image: it is refused, and adds nothing.
    yard[16 + 43] = 1;
    assert_eq!(yard_ceiling(&yard, 3), Ok(48));
}

#[test]
fn the_steps_of_an_update_keep_to_its_ceiling() {
    for (occupancy, blocking) in [([0, 2, 0, 0], vec![1]), ([0, 2, 2, 0], vec![1, 2]), ([0, 0, 0, 0], vec![1])] {
        let image = laid_out(1, 4);
        let updated = update(&mut image.clone(), Move { occupancy: &occupancy, blocking: &blocking, ..MOVE });
        assert!(updated.steps > 0);
        assert!(updated.steps <= ceiling(&image).unwrap() * u64::from(updated.rounds));
    }
}

#[test]
fn a_refused_layout_leaves_the_buffer() {
    let mut image = vec![0xaa; image_size(5, 4)];
    let refusal = lay_out(&siding(), order(0, 4), &mut image).unwrap_err();
    assert_eq!(refusal.to_string(), "refused 5 (train, moved train or round limit 0) at 0");
    assert!(image.iter().all(|&b| b == 0xaa));
}

#[test]
fn an_update_takes_the_siding() {
    let mut image = laid_out(1, 4);
    assert_eq!(update(&mut image, MOVE), Updated { status: Ok(Status::Success), rounds: 2, strays: 0, steps: 3, holder: 0, met: 2 });
    assert_eq!(path(&image), [0, 2, 3, 4]);
    assert_eq!(judge(&image, 4), Ok(()));
}

#[test]
fn a_blocked_update_keeps_its_path() {
    let mut image = laid_out(1, 4);
    let m = Move { occupancy: &[0, 2, 2, 0], blocking: &[1, 2], ..MOVE };
    assert_eq!(update(&mut image, m), Updated { status: Ok(Status::Blocked), rounds: 1, strays: 0, steps: 3, holder: 2, met: 2 });
    assert_eq!(path(&image), [0, 1, 4]);
}

#[test]
fn refused_updates_leave_the_image_and_say_how_far_they_came() {
    for (room, limit, number, rounds, steps) in [(2, 5, 11, 1, 3), (4, 1, 12, 1, 3), (4, 0, 5, 0, 0)] {
        let mut image = laid_out(1, room);
        let before = image.clone();
        let m = Move { limit, ..MOVE };
        let status = Err(Refusal { number, place: 0 });
        assert_eq!(update(&mut image, m), Updated { status, rounds, strays: 0, steps, holder: 0, met: 0 });
        assert_eq!(image, before);
    }
}

#[test]
fn no_bytes_and_any_bytes_get_an_answer() {
    let m = Move { occupancy: &[], blocking: &[], moved: 1, local: true, limit: 1 };
    assert_eq!(update(&mut [], m).status, Err(Refusal { number: 2, place: 0 }));
    assert_eq!(mark(&[], &mut [], 0, 0), Err(Refusal { number: 1, place: 0 }));
    assert_eq!(judge(&[], 2), Err(Refusal { number: 6, place: 0 }));
    let m = Move { occupancy: &[0; 2], ..m };
    for seed in 0u32..2000 {
        let mut image: Vec<u8> = (0..seed % 300).map(|i| (seed.wrapping_mul(2654435761).rotate_left(i) >> 7) as u8).collect();
        let before = image.clone();
        assert_eq!(update(&mut image, m).status, Err(Refusal { number: 6, place: 0 }));
        assert_eq!(image, before);
    }
}

#[test]
fn a_check_works_every_slot_but_the_moved_train() {
    let mut yard = two_trains();
    let mut report = [0xaa; 40];
    assert_eq!(check(&mut yard, MOVE, 1, &mut report), Ok(Checked::Done { deadlock: false, next: 1 }));
    let row = |slot, rounds, met| Row { slot, rounds, strays: 0, met };
    assert_eq!(rows(&report), [row(Slot::Success, 2, 2), row(Slot::Moved, 0, 0)]);
    assert_eq!(path(&yard[16..16 + 400]), [0, 2, 3, 4]);
}

#[test]
fn a_blocked_slot_is_a_deadlock_and_names_its_holder() {
    let mut yard = two_trains();
    let mut report = [0; 40];
    let m = Move { occupancy: &[0, 2, 2, 0], blocking: &[1, 2], ..MOVE };
    assert_eq!(check(&mut yard, m, 1, &mut report), Ok(Checked::Done { deadlock: true, next: 1 }));
    assert_eq!(rows(&report)[0].slot, Slot::Blocked(2));
}

#[test]
fn a_blocked_train_may_be_held_by_another_than_the_moved_one() {
    // Train 9 stands on the siding: the view of both begins with it, since it lies at the end of the pool.
    let m = Move { occupancy: &[0, 2, 9, 0], blocking: &[1, 2], ..MOVE };
    let updated = update(&mut laid_out(1, 4), m);
    assert_eq!((updated.status, updated.holder, updated.met), (Ok(Status::Blocked), 9, 2));
    let mut report = vec![0; 2 * layout::REPORT_RECORD];
    assert_eq!(check(&mut two_trains(), m, 1, &mut report), Ok(Checked::Done { deadlock: true, next: 1 }));
    assert_eq!(rows(&report)[0], Row { slot: Slot::Blocked(9), rounds: 1, strays: 0, met: 2 });
}

#[test]
fn the_train_met_is_the_one_on_the_link_where_the_search_stops() {
    // Links 1 and 3 are a range: the first of them that is held. Twice link 3: link 1 lies outside. Link 2 is not on the path.
    for (occupancy, blocking, met) in [
        ([0, 7, 0, 9], vec![1, 3], 7),
        ([0, 0, 0, 9], vec![1, 3], 9),
        ([0, 7, 0, 9], vec![3, 3], 9),
        ([0, 7, 0, 9], vec![2], 0),
        ([0, 7, 0, 9], vec![], 0),
    ] {
        let m = Move { occupancy: &occupancy, blocking: &blocking, ..MOVE };
        let updated = update(&mut laid_out(1, 4), m);
        assert!(updated.status.is_ok());
        assert_eq!(updated.met, met, "{occupancy:?} {blocking:?}");
        let mut report = [0; 40];
        assert!(check(&mut two_trains(), m, 1, &mut report).is_ok());
        assert_eq!((rows(&report)[0].met, rows(&report)[1].met), (met, 0), "{occupancy:?} {blocking:?}");
    }
}

#[test]
fn a_single_link_stops_the_search_though_it_is_empty_and_nobody_is_met() {
    let m = Move { occupancy: &[0; 4], ..MOVE };
    let updated = update(&mut laid_out(1, 4), m);
    assert_eq!((updated.status, updated.met), (Err(Refusal { number: 12, place: 0 }), 0));
    let mut report = [0xaa; 40];
    assert_eq!(check(&mut two_trains(), m, 1, &mut report), Ok(Checked::Erred(1)));
    assert_eq!(rows(&report)[0].met, 0);
}

#[test]
fn a_refused_slot_errs_and_the_others_are_worked() {
    let mut yard = two_trains();
    yard[16 + 42] = 1;
    let before = yard.clone();
    let mut report = [0; 40];
    let m = Move { moved: 1, occupancy: &[0; 4], blocking: &[], ..MOVE };
    assert_eq!(check(&mut yard, m, 1, &mut report), Ok(Checked::Erred(1)));
    assert_eq!(rows(&report)[0].slot, Slot::Refused(Refusal { number: 6, place: 0 }));
    assert_eq!(yard[16..416], before[16..416]);
}

#[test]
fn refused_checks_change_nothing() {
    for (yard_byte, begin, len, number) in [(4, 1, 40, 14), (0, 4, 40, 15), (0, 1, 39, 16), (0, 1, 32, 16)] {
        let mut yard = two_trains();
        if yard_byte != 0 {
            yard[yard_byte] = 64;
        }
        let before = yard.clone();
        let mut report = vec![0xaa; len];
        assert_eq!(check(&mut yard, MOVE, begin, &mut report), Err(Refusal { number, place: 0 }));
        assert_eq!(yard, before);
        assert!(report.iter().all(|&b| b == 0xaa));
    }
}

#[test]
fn a_page_has_a_line_of_forty_bytes_for_each_node() {
    let image = laid_out(1, 4);
    let mut text = [b'.'; 121];
    assert_eq!(page(&image, &mut text), Ok(()));
    let lines = "    0     0 Fake       0              0\n    1     1 Arrive     1              0\n    2     4 Arrive     3            100\n.";
    assert_eq!(std::str::from_utf8(&text), Ok(lines));
}

#[test]
fn a_refused_page_leaves_the_buffer() {
    let mut image = laid_out(1, 4);
    let mut text = [b'.'; 119];
    let refusal = page(&image, &mut text).unwrap_err();
    assert_eq!(refusal.to_string(), "refused 18 (page too short) at 0");
    image[42] = 1;
    assert_eq!(page(&image, &mut text), Err(Refusal { number: 6, place: 0 }));
    assert_eq!(text, [b'.'; 119]);
}

#[test]
fn a_sheet_is_text_for_any_bytes() {
    assert_eq!(sheet(&[]), "refused 17\n");
    assert_eq!(sheet(&vec![0; 70_000]), "refused 17\n");
    let bundle = include_bytes!("../../../examples/two-slots.bundle");
    assert_eq!(sheet(bundle), include_str!("../../../examples/two-slots.sheet"));
}

/// A recording: kind, link or first blocking link's index, count, then train or moved, begin, limit, local of each step; the links.
fn recording(steps: &[(u32, u32, u32, [u16; 4])], links: &[u32]) -> Vec<u8> {
    let size = 12 + 20 * steps.len() + 4 * links.len();
    let mut b: Vec<u8> = [size, steps.len(), links.len()].iter().flat_map(|n| (*n as u32).to_le_bytes()).collect();
    for (kind, first, count, rest) in steps {
        b.extend([kind, first, count].iter().flat_map(|n| n.to_le_bytes()));
        b.extend(rest.iter().flat_map(|n| n.to_le_bytes()));
    }
    b.extend(links.iter().flat_map(|n| n.to_le_bytes()));
    b
}

#[test]
fn a_replay_leaves_what_its_calls_leave_one_by_one() {
    let table = table(&[0, 2, 1, 0].map(|flip| Link { flip, lockouts: vec![] }));
    let steps = [(0, 2, 0, [2, 0, 0, 0]), (0, 4, 0, [2, 0, 0, 0]), (1, 0, 1, [2, 0, 5, 0]), (1, 0, 1, [2, 1, 5, 0]), (0, 2, 0, [0; 4])];
    let recorded = recording(&steps, &[1]);
    let (mut yard, mut occupancy, mut list) = (two_trains(), [0; 4], [9; 5]);
    assert_eq!(replay(&recorded, &table, &mut yard, &mut occupancy, &mut list), Ok(()));
    assert_eq!((list, occupancy), ([0, 3, 15, 0, 0], [0; 4]));
    let (mut one, mut report) = (two_trains(), vec![0; 2 * layout::REPORT_RECORD]);
    check(&mut one, MOVE, 1, &mut report).unwrap();
    assert!(yard == one && one != two_trains());
}

#[test]
fn a_malformed_recording_is_refused_before_any_step() {
    let (table, refused) = (table(&[0, 2, 1, 0].map(|flip| Link { flip, lockouts: vec![] })), Err(Refusal { number: 19, place: 0 }));
    let step = (0, 2, 0, [2, 0, 0, 0]);
    let bad = [(2, 2, 0, [2, 0, 0, 0]), (0, 2, 1, [2, 0, 0, 0]), (0, 2, 0, [2, 0, 0, 1]), (1, 0, 0, [2, 1, 5, 2]), (1, 1, u32::MAX, [2, 1, 5, 0])];
    for b in bad.map(|b| recording(&[step, b], &[1])).into_iter().chain([vec![], recording(&[step], &[]), [recording(&[step, step], &[]), vec![0]].concat()]) {
        let (mut yard, mut occupancy, mut list) = (two_trains(), [0; 4], [9; 2]);
        assert_eq!(replay(&b, &table, &mut yard, &mut occupancy, &mut list), refused);
        assert_eq!((yard, occupancy, list), (two_trains(), [0; 4], [9; 2]));
    }
}
