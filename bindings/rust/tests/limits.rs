//! The limits that docs/LAYOUTS.md states of an image and a bundle: values at them are accepted, values beyond them are
//! refused with the number and the place that stand there.

mod yards;

use lavtoeu::layout::*;
use lavtoeu::*;
use yards::*;

/// A train that has taken the siding: E = 5, N = 4, M = 3, Q = 4, over four links.
fn image() -> Image {
    let mut bytes = laid_out(1, 4);
    assert_eq!(update(&mut bytes, MOVE).status, Ok(Status::Success));
    Image::from_bytes(&bytes).unwrap()
}

/// What the core says of the image with a change.
fn changed(change: impl FnOnce(&mut Image)) -> Result<(), Refusal> {
    let mut image = image();
    change(&mut image);
    judge(&image.to_bytes().unwrap(), 4)
}

fn refused(number: u16, place: u16) -> Result<(), Refusal> {
    Err(Refusal { number, place })
}

const FAR: f64 = 1e12;

#[test]
fn of_the_header() {
    assert_eq!(changed(|_| ()), Ok(()));
    for (at, beyond) in [(4, 5), (0, 65_535)] {
        assert_eq!(changed(|x| (x.fixed, x.free) = (at, at)), Ok(()));
        assert_eq!(changed(|x| x.fixed = beyond), refused(7, 0));
        assert_eq!(changed(|x| x.free = beyond), refused(7, 0));
    }
    assert_eq!(changed(|x| (x.front, x.back) = (3, 3)), Ok(()));
    assert_eq!(changed(|x| x.front = 4), refused(7, 0));
    assert_eq!(changed(|x| x.back = 4), refused(7, 0));
    for at in [0.0, -0.0, f64::MIN_POSITIVE, FAR] {
        assert_eq!(changed(|x| (x.search, x.fixed_max) = (at, at)), Ok(()));
    }
    for beyond in [-f64::MIN_POSITIVE, -1.0, FAR * 1.0000001, f64::INFINITY, f64::NAN] {
        assert_eq!(changed(|x| x.search = beyond), refused(7, 0));
        assert_eq!(changed(|x| x.fixed_max = beyond), refused(7, 0));
    }
}

#[test]
fn of_an_est_record() {
    for at in [-FAR, -0.0, FAR] {
        assert_eq!(changed(|x| x.ests[3].dist_to_next = at), Ok(()));
    }
    for beyond in [-FAR * 1.0000001, f64::INFINITY, f64::NAN] {
        assert_eq!(changed(|x| x.ests[3].dist_to_next = beyond), refused(7, 3));
    }
    assert_eq!(changed(|x| (x.ests[3].prev, x.ests[3].prev_alt) = (4, 4)), Ok(()));
    let beyond: [fn(&mut Est); 4] = [|x| x.next = 5, |x| x.alt = 5, |x| x.prev = 5, |x| x.prev_alt = 5];
    for change in beyond {
        assert_eq!(changed(|x| change(&mut x.ests[1])), refused(7, 1));
    }
    assert_eq!(changed(|x| x.ests[1].link = 4), refused(7, 1));
    assert_eq!(changed(|x| x.ests[1].link = 0), refused(7, 1));
    assert_eq!(changed(|x| x.ests[1] = Est { link: 0, est_type: EstType::Clear, ..x.ests[1] }), Ok(()));
    assert_eq!(changed(|x| x.ests[3].next = 2), refused(8, 2));
    assert_eq!(changed(|x| x.ests[4].alt = 4), refused(8, 4));
}

#[test]
fn of_a_path_record() {
    for at in [-FAR, -0.0, FAR] {
        assert_eq!(changed(|x| (x.path[2].offset, x.path[2].time_pass) = (at, at)), Ok(()));
    }
    assert_eq!(changed(|x| x.path[2].time_pass = f64::INFINITY), Ok(()));
    for beyond in [FAR * 1.0000001, f64::NEG_INFINITY, f64::NAN] {
        assert_eq!(changed(|x| x.path[2].offset = beyond), refused(7, 2));
        assert_eq!(changed(|x| x.path[2].time_pass = beyond), refused(7, 2));
    }
    assert_eq!(changed(|x| x.path[2].offset = f64::INFINITY), refused(7, 2));
    assert_eq!(changed(|x| x.path[2].link = 4), refused(7, 2));
    assert_eq!(changed(|x| x.path[2].link = 0), refused(7, 2));
    assert_eq!(changed(|x| x.path[2].est = 5), refused(7, 2));
    // Link, type and auth are the node's own.
    assert_eq!(changed(|x| x.path[2] = Node { link: 1, est_type: EstType::Clear, auth: u16::MAX, ..x.path[2] }), Ok(()));
    assert_eq!(changed(|x| x.path[0].est = 1), refused(9, 0));
    assert_eq!(changed(|x| x.path[1].est = 0), refused(9, 1));
    assert_eq!(changed(|x| x.path[2].est = 1), refused(9, 2));
    assert_eq!(changed(|x| x.path.truncate(3)), refused(9, 2));
    assert_eq!(changed(|x| x.path[3].link = 2), refused(9, 3));
}

#[test]
fn of_the_diverge_nodes() {
    let at = |train, node| Diverge { train, node };
    assert_eq!(changed(|x| x.diverges[0] = at(1, 0)), refused(9, 0));
    assert_eq!(changed(|x| x.diverges[0] = at(0, 1)), refused(9, 0));
    for train in [0, 9, 65_535] {
        assert_eq!(changed(|x| x.diverges[2] = at(train, 4)), Ok(()));
        assert_eq!(changed(|x| x.diverges[2] = at(train, 3)), refused(9, 2));
    }
    // A wide image has room for six digits.
    for (train, answer) in [(0, Ok(())), (999_999, Ok(())), (1_000_000, refused(22, 2)), (u32::MAX, refused(22, 2))] {
        assert_eq!(changed(|x| (x.wide, x.diverges[2]) = (true, at(train, 4))), answer);
    }
    for node in 1..4 {
        assert_eq!(changed(|x| x.diverges[1] = at(9, node)), Ok(()));
    }
    for wrong in [at(0, 1), at(9, 0), at(9, 4)] {
        assert_eq!(changed(|x| x.diverges[1] = wrong), refused(9, 1));
    }
    assert_eq!(changed(|x| x.diverges.insert(1, at(9, 1))), Ok(()));
    assert_eq!(changed(|x| x.diverges.insert(1, at(9, 2))), refused(9, 2));
}

#[test]
fn est_records_come_before_path_records_before_the_header() {
    let spoilt = |x: &mut Image| {
        x.search = -1.0;
        x.path[3].offset = f64::NAN;
    };
    assert_eq!(changed(spoilt), refused(7, 3));
    let more = |x: &mut Image| {
        spoilt(x);
        x.ests[4].dist_to_next = f64::NAN;
    };
    assert_eq!(changed(more), refused(7, 4));
}

/// The first line of the sheet of a bundle with a u16 or u32 number changed.
fn sheet_with(at: usize, number: &[u8]) -> String {
    let mut bytes = bundle(&two_trains(), MOVE, 1);
    bytes[at..at + number.len()].copy_from_slice(number);
    sheet(&bytes).lines().next().unwrap().to_string()
}

#[test]
fn of_a_bundle() {
    let size = bundle(&two_trains(), MOVE, 1).len() as u32;
    for (at, right) in [(0, size), (4, 32), (8, 4), (12, 40), (16, 1), (20, 44)] {
        assert_eq!(sheet_with(at, &right.to_le_bytes()), "yard 2 deadlock no next 1", "at {at}");
        for wrong in [0, right - 1, right + 1, u32::MAX].into_iter().filter(|&n| n != right) {
            assert_eq!(sheet_with(at, &wrong.to_le_bytes()), "refused 17", "{wrong} at {at}");
        }
    }
    for (at, number, first) in [
        (24, 0, "refused 5"),
        (24, 3, "refused 15"),
        (26, 0, "refused 15"),
        (26, 3, "yard 2 deadlock no next 3"),
        (26, 4, "refused 15"),
        (28, 0, "refused 5"),
        (28, u16::MAX, "yard 2 deadlock no next 1"),
        (30, 1, "yard 2 deadlock no next 1"),
        (30, 2, "refused 17"),
    ] {
        assert_eq!(sheet_with(at, &number.to_le_bytes()), first, "{number} at {at}");
    }
    fn of(yard: &[u8], m: Move) -> String {
        sheet(&bundle(yard, m, 1)).lines().next().unwrap().to_string()
    }
    for n in [0, 1, MAX_LINKS + 1] {
        assert_eq!(of(&two_trains(), Move { occupancy: &vec![0; n], blocking: &[], ..MOVE }), "refused 2", "{n} entries");
    }
    assert_eq!(of(&two_trains(), Move { blocking: &[4], ..MOVE }), "refused 4");
    assert_eq!(of(&two_trains(), Move { blocking: &[1; 4_001], ..MOVE }), "refused 4");
    assert_eq!(of(&[], MOVE), "refused 14");
    let longest = MAX_BUNDLE - bundle(&[], MOVE, 1).len();
    assert_eq!(of(&vec![0; longest], MOVE), "refused 14");
    assert_eq!(of(&vec![0; longest + 1], MOVE), "refused 17");
}
