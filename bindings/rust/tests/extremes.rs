//! Every call with null pointers of length 0, and those of 0.1.0, the page and the ceilings at the ends of their
//! arguments: lengths of 0, cut short and one too long, the largest numbers, and the largest
//! table, image and lists. A refusal leaves every buffer.

mod yards;

use lavtoeu::*;
use yards::*;

fn refused(number: u16) -> Result<(), Refusal> {
    Err(Refusal { number, place: 0 })
}

fn bytes(words: &[u32]) -> Vec<u8> {
    words.iter().flat_map(|w| w.to_le_bytes()).collect()
}

/// A table of l links that are their own flips, the first of which has k lockouts.
fn table(l: u32, k: u32) -> Vec<u8> {
    let lockouts = 16 + 12 * l;
    let mut words = vec![lockouts + 4 * k, l, k, lockouts];
    (0..l).for_each(|i| words.extend([i, 0, if i == 1 { k } else { 0 }]));
    words.extend((0..k).map(|i| i % l));
    bytes(&words)
}

/// The bytes cut to every shorter length, and with one more; each in an allocation of just its length.
fn other_lengths(bytes: &[u8]) -> impl Iterator<Item = Box<[u8]>> + '_ {
    let of_length = |n| bytes.iter().copied().chain([0]).take(n).collect();
    (0..=bytes.len() + 1).filter(|&n| n != bytes.len()).map(of_length)
}

/// A call that leaves the buffer, which it gets in an allocation of just its length.
fn leaves<T: Copy + PartialEq + std::fmt::Debug, R>(buffer: &[T], call: impl FnOnce(&mut [T]) -> R) -> R {
    let mut lent = buffer.to_vec();
    let answer = call(&mut lent);
    assert_eq!(lent, buffer);
    answer
}

const OCCUPANCIES: [usize; 8] = [0, 1, 2, 3, 4, 5, 4_000, 4_001];

#[test]
fn mark_refuses_cut_tables_other_occupancies_and_links() {
    let t = table(4, 3);
    for cut in other_lengths(&t) {
        assert_eq!(leaves(&[9; 4], |occ| mark(&cut, occ, 1, 1)), refused(1), "{} bytes", cut.len());
    }
    for n in OCCUPANCIES.into_iter().filter(|&n| n != 4) {
        assert_eq!(leaves(&vec![9; n], |occ| mark(&t, occ, 1, 1)), refused(2), "{n} entries");
    }
    for link in [0, 4, 5, 65_536, u32::MAX] {
        assert_eq!(leaves(&[9; 4], |occ| mark(&t, occ, link, u16::MAX)), refused(3), "link {link}");
    }
    for at in 0..t.len() / 4 {
        let mut wrong = t.clone();
        wrong[4 * at..4 * at + 4].fill(0xff);
        assert_eq!(leaves(&[9; 4], |occ| mark(&wrong, occ, 1, 1)), refused(1), "word {at}");
    }
}

#[test]
fn mark_takes_the_largest_table_and_no_larger() {
    let mut occ = vec![0; 4_000];
    assert_eq!(mark(&table(4_000, 4_096), &mut occ, 1, u16::MAX), Ok(()));
    assert_eq!(occ, [u16::MAX; 4_000]);
    assert_eq!(mark(&table(4_000, 4_096), &mut occ, 1, 0), Ok(()));
    assert_eq!(mark(&table(4_000, 0), &mut occ, 3_999, 7), Ok(()));
    assert_eq!(occ[3_999], 7);
    assert_eq!(leaves(&[9; 4_001], |occ| mark(&table(4_001, 0), occ, 1, 1)), refused(1));
    assert_eq!(leaves(&[9; 4_000], |occ| mark(&table(4_000, 4_097), occ, 1, 1)), refused(1));
}

#[test]
fn page_refuses_other_images_and_short_pages() {
    let image = laid_out(1, 4);
    for cut in other_lengths(&image) {
        assert_eq!(leaves(&[9; 200], |text| page(&cut, text)), refused(6), "{} bytes", cut.len());
    }
    for n in 0..120 {
        assert_eq!(leaves(&vec![9; n], |text| page(&image, text)), refused(18), "{n} bytes");
    }
    for n in 120..130 {
        let mut text = vec![9; n];
        assert_eq!(page(&image, &mut text), Ok(()));
        assert!(text[120..].iter().all(|&b| b == 9) && text[119] == b'\n', "{n} bytes");
    }
}

#[test]
fn judge_refuses_every_other_length_and_number_of_links() {
    let image = laid_out(1, 4);
    for cut in other_lengths(&image) {
        assert_eq!(judge(&cut, 4), refused(6), "{} bytes", cut.len());
    }
    for links in [0, 1, 4_001, u32::MAX] {
        assert_eq!(judge(&image, links), refused(2), "{links} links");
    }
    assert_eq!(judge(&image, 2), Err(Refusal { number: 7, place: 3 }));
    assert_eq!(judge(&image, 4_000), Ok(()));
}

#[test]
fn lay_out_refuses_wrong_lengths_and_numbers() {
    let (est, size) = (siding(), image_size(5, 4));
    let blank = vec![0xaa; size];
    for cut in other_lengths(&est) {
        assert_eq!(leaves(&blank, |image| lay_out(&cut, order(1, 4), image)), refused(6), "{} bytes", cut.len());
    }
    for n in [0, 1, 63, 64, size - 1, size + 1, size + 16] {
        assert_eq!(leaves(&vec![0xaa; n], |image| lay_out(&est, order(1, 4), image)), refused(6), "{n} bytes");
    }
    for room in [0, 1, 3, 5, 1_025, u32::MAX] {
        assert_eq!(leaves(&blank, |image| lay_out(&est, order(1, room), image)), refused(6), "room {room}");
    }
    for links in [0, 1, 4_001, u32::MAX] {
        let o = Order { links, ..order(1, 4) };
        assert_eq!(leaves(&blank, |image| lay_out(&est, o, image)), refused(6), "{links} links");
    }
    for x in [f64::NAN, f64::INFINITY, f64::NEG_INFINITY, f64::MAX, -1.0, -f64::MIN_POSITIVE] {
        for o in [Order { search: x, ..order(1, 4) }, Order { fixed: x, ..order(1, 4) }] {
            assert_eq!(leaves(&blank, |image| lay_out(&est, o, image)), refused(7), "{x}");
        }
    }
}

/// A chain of e records that clears link 0.
fn chain(e: u32) -> Vec<u8> {
    let record = |i| Est { next: (i + 1) % e, prev: if i == 0 { 0 } else { i - 1 }, ..Est::default() };
    est_bytes(&(0..e).map(record).collect::<Vec<_>>())
}

#[test]
fn the_largest_train_is_laid_out_and_updated_and_no_larger() {
    let o = Order { train: u16::MAX, links: 4_000, room: 1_024, search: 1e12, fixed: 1e12 };
    let mut image = vec![0; image_size(512, 1_024)];
    assert_eq!(lay_out(&chain(512), o, &mut image), Ok(()));
    assert_eq!(judge(&image, 4_000), Ok(()));
    let m = Move { occupancy: &[u16::MAX; 4_000], blocking: &[3_999; 4_000], moved: u16::MAX, local: true, limit: u16::MAX };
    assert_eq!(update(&mut image, m), Updated { status: Ok(Status::Success), rounds: 1, strays: 0, steps: 0, holder: 0, met: 0 });
    let larger = vec![0; image_size(513, 1_024)];
    assert_eq!(leaves(&larger, |image| lay_out(&chain(513), o, image)), refused(6));
    let larger = vec![0; image_size(512, 1_025)];
    assert_eq!(leaves(&larger, |image| lay_out(&chain(512), Order { room: 1_025, ..o }, image)), refused(6));
}

/// Moves that an update and a check refuse, and the number.
fn wrong_moves() -> Vec<(Move<'static>, u16)> {
    const LISTS: ([u16; 4_001], [u32; 4_001]) = ([0; 4_001], [1; 4_001]);
    vec![
        (Move { occupancy: &[], ..MOVE }, 2),
        (Move { occupancy: &[0], ..MOVE }, 2),
        (Move { occupancy: &LISTS.0, ..MOVE }, 2),
        (Move { occupancy: &[], blocking: &[], moved: 0, local: true, limit: 0 }, 2),
        (Move { blocking: &LISTS.1, ..MOVE }, 4),
        (Move { blocking: &[1, 4], ..MOVE }, 4),
        (Move { blocking: &[u32::MAX], ..MOVE }, 4),
        (Move { moved: 0, ..MOVE }, 5),
        (Move { limit: 0, ..MOVE }, 5),
    ]
}

#[test]
fn update_refuses_wrong_moves_and_lengths() {
    let image = laid_out(1, 4);
    for (m, number) in wrong_moves() {
        let answer = leaves(&image, |image| update(image, m));
        assert_eq!(answer, Updated { status: Err(Refusal { number, place: 0 }), rounds: 0, strays: 0, steps: 0, holder: 0, met: 0 });
    }
    for cut in other_lengths(&image) {
        assert_eq!(leaves(&cut, |image| update_into(image, MOVE, &mut [])), refused(6), "{} bytes", cut.len());
    }
    for (n, place) in [(2, 3), (3, 4)] {
        let m = Move { occupancy: &vec![0; n], ..MOVE };
        assert_eq!(leaves(&image, |image| update_into(image, m, &mut [])), Err(Refusal { number: 7, place }));
    }
}

#[test]
fn update_takes_the_longest_lists_and_the_largest_numbers() {
    let mut occupancy = vec![0; 4_000];
    occupancy[1] = 2;
    let m = Move { occupancy: &occupancy, blocking: &[1; 4_000], moved: u16::MAX, local: true, limit: u16::MAX };
    let mut image = laid_out(u16::MAX, 4);
    assert_eq!(update(&mut image, m), Updated { status: Ok(Status::Success), rounds: 2, strays: 0, steps: 3, holder: 0, met: 2 });
    let m = Move { blocking: &[], ..m };
    assert_eq!(update(&mut laid_out(1, 4), m), Updated { status: Ok(Status::Faulty(1)), rounds: 1, strays: 2, steps: 0, holder: 0, met: 0 });
}

/// Link 3 follows link 1 and is held; the only way round it leaves before link 1, farther back than a local search goes.
fn far_back() -> Vec<u8> {
    let arrive = |link, next, prev| Est { est_type: EstType::Arrive, link, dist_to_next: 100.0, next, prev, ..Est::default() };
    let fake = |next, alt| Est { next, alt, ..Est::default() };
    let end = Est { prev_alt: 3, ..arrive(4, 0, 4) };
    let est = est_bytes(&[fake(1, 2), arrive(1, 4, 0), fake(3, 0), arrive(2, 5, 2), arrive(3, 5, 1), end]);
    let mut image = vec![0; image_size(6, 4)];
    assert_eq!(lay_out(&est, Order { fixed: 1e12, links: 5, ..order(1, 4) }, &mut image), Ok(()));
    image
}

#[test]
fn local_is_every_number_but_0() {
    let (occ, blocking) = ([0, 0, 0, 2, 0], [3, 3]);
    for (local, code) in [(0, 3), (1, 4), (2, 4), (256, 4), (65_536, 4), (1 << 31, 4), (u32::MAX, 4)] {
        let (mut image, mut answer) = (far_back(), vec![0; 4]);
        // SAFETY: each pointer goes with its own length.
        let word = unsafe {
            let (image, n, occ, k) = (image.as_mut_ptr(), image.len(), occ.as_ptr(), occ.len());
            raw::lavtoeu_update(image, n, occ, k, blocking.as_ptr(), 2, 2, local, 5, answer.as_mut_ptr(), 4)
        };
        assert_eq!((word, answer[0]), (0, code), "local {local}");
    }
}

#[test]
fn a_pointer_with_length_0_may_be_null() {
    use std::ptr::{null, null_mut};
    // SAFETY: with length 0 no pointer is read.
    unsafe {
        assert_eq!(raw::lavtoeu_mark(null(), 0, null_mut(), 0, 1, 1), 1);
        assert_eq!(raw::lavtoeu_image_fault(null(), 0, 2), 6);
        assert_eq!(raw::lavtoeu_profile(null(), 0), 6);
        assert_eq!(raw::lavtoeu_lay_out(null(), 0, 1, 0.0, 0.0, 2, 2, null_mut(), 0), 6);
        assert_eq!(raw::lavtoeu_update(null_mut(), 0, null(), 0, null(), 0, 1, 0, 1, null_mut(), 0), 2);
        assert_eq!(raw::lavtoeu_check(null_mut(), 0, null(), 0, null(), 0, 1, 1, 0, 1, null_mut(), 0, null_mut(), 0), 2);
        assert_eq!(raw::lavtoeu_sheet(null(), 0, null_mut(), 0), 0);
        assert_eq!(raw::lavtoeu_page(null(), 0, null_mut(), 0), 6);
        assert_eq!(raw::lavtoeu_replay(null(), 0, null(), 0, null_mut(), 0, null_mut(), 0, null_mut(), 0), 19);
        assert_eq!(raw::lavtoeu_closer_can_force(null(), 0, null(), 0, 1, 0, 1, null(), 0, 0, null_mut(), 0), 2);
        assert_eq!(raw::lavtoeu_mark_wide(null(), 0, null_mut(), 0, 1, 1), 1);
        assert_eq!(raw::lavtoeu_update_wide(null_mut(), 0, null(), 0, null(), 0, 1, 0, 1, null_mut(), 0), 2);
        assert_eq!(raw::lavtoeu_check_wide(null_mut(), 0, null(), 0, null(), 0, 1, 1, 0, 1, null_mut(), 0, null_mut(), 0), 2);
        assert_eq!(raw::lavtoeu_widen(null(), 0, null_mut(), 0), 6);
        assert_eq!(raw::lavtoeu_narrow(null(), 0, null_mut(), 0), 6);
        assert_eq!(raw::lavtoeu_ceiling(null(), 0, null_mut(), 0), 6);
        assert_eq!(raw::lavtoeu_yard_ceiling(null(), 0, 1, null_mut(), 0), 14);
        assert_eq!(raw::lavtoeu_view(null(), 0, null(), 0, null(), 0, 1, 0, null_mut(), 0, null_mut(), 0), 1);
        assert_eq!(raw::lavtoeu_act(null(), 0, null_mut(), 0, null(), 0, 1, 1, 1), 1);
    }
}

#[test]
fn a_null_record_index_or_second_yard_is_refused() {
    use std::ptr::{null, null_mut};
    // SAFETY: with length 0 no pointer is read.
    unsafe {
        let (y, o, w, b, r, x, a) = (null_mut(), null(), null(), null(), null_mut(), null_mut(), null_mut());
        assert_eq!(raw::lavtoeu_check_recorded(y, 0, o, 0, b, 0, 1, 1, 0, 1, r, 0, r, 0, a, 0), 20);
        assert_eq!(raw::lavtoeu_check_recorded_wide(y, 0, w, 0, b, 0, 1, 1, 0, 1, r, 0, r, 0, a, 0), 20);
        assert_eq!(raw::lavtoeu_undo(y, 0, null(), 0), 21);
        assert_eq!(raw::lavtoeu_index(null(), 0, x, 0), 25);
        assert_eq!(raw::lavtoeu_check_indexed(y, 0, o, 0, b, 0, 1, 1, 0, 1, r, 0, x, 0, a, 0), 2);
        assert_eq!(raw::lavtoeu_check_indexed_wide(y, 0, w, 0, b, 0, 1, 1, 0, 1, r, 0, x, 0, a, 0), 2);
        assert_eq!(raw::lavtoeu_check_recorded_indexed(y, 0, o, 0, b, 0, 1, 1, 0, 1, r, 0, r, 0, x, 0, a, 0), 20);
        assert_eq!(raw::lavtoeu_check_recorded_indexed_wide(y, 0, w, 0, b, 0, 1, 1, 0, 1, r, 0, r, 0, x, 0, a, 0), 20);
        assert_eq!(raw::lavtoeu_lay_out_indexed(null(), 0, 1, 0.0, 0.0, 2, 2, null_mut(), 0, x, 0), 6);
        assert_eq!(raw::lavtoeu_undo_indexed(y, 0, null(), 0, x, 0), 25);
        assert_eq!(raw::lavtoeu_carry(null(), 0, o, 0, 0, y, 0, null_mut(), 0), 2);
        assert_eq!(raw::lavtoeu_check_half(y, 0, y, 0, 1, w, 0, b, 0, 1, 1, 0, 1, r, 0, a, 0), 2);
    }
}

#[test]
fn an_answer_gets_as_many_words_as_it_has_room_for() {
    for room in 0..=8 {
        let mut answer = vec![9; room];
        assert_eq!(update_into(&mut laid_out(1, 4), MOVE, &mut answer), Ok(()));
        assert_eq!(answer, [3, 0, 2, 0, 3, 0, 2, 9][..room]);
        let (mut report, mut answer) = (vec![0; 40], vec![9; room]);
        assert_eq!(check_into(&mut two_trains(), MOVE, 1, &mut report, &mut answer), Ok(()));
        assert_eq!(answer, [0, 0, 1, 9, 9, 9, 9, 9][..room]);
    }
}

#[test]
fn ceilings_refuse_every_other_length_and_leave_the_answer() {
    let asked = |call: &dyn Fn(*mut u64, usize) -> u32| {
        let mut answer = [9; 2];
        let word = call(answer.as_mut_ptr(), answer.len());
        assert_eq!(answer[1], 9);
        (word, answer[0])
    };
    let image = |b: &[u8]| {
        // SAFETY: each pointer goes with its own length.
        asked(&|answer, n| unsafe { raw::lavtoeu_ceiling(b.as_ptr(), b.len(), answer, n) })
    };
    let yard = |b: &[u8], limit| {
        // SAFETY: each pointer goes with its own length.
        asked(&|answer, n| unsafe { raw::lavtoeu_yard_ceiling(b.as_ptr(), b.len(), limit, answer, n) })
    };
    assert_eq!((image(&laid_out(1, 4)), yard(&two_trains(), u16::MAX)), ((0, 16), (0, 32 * 65_535)));
    for cut in other_lengths(&laid_out(1, 4)) {
        assert_eq!(image(&cut), (6, 9), "{} bytes", cut.len());
    }
    for cut in other_lengths(&two_trains()) {
        assert_eq!(yard(&cut, 1), (14, 9), "{} bytes", cut.len());
        assert_eq!(yard(&cut, 0), (5, 9), "{} bytes", cut.len());
    }
}

#[test]
fn check_refuses_wrong_moves_slots_and_lengths() {
    let yard = two_trains();
    let asked = |yard: &[u8], m, begin, rows: usize| {
        let mut answer = [9; 3];
        let told = leaves(yard, |yard| leaves(&vec![0xaa; rows], |report| check_into(yard, m, begin, report, &mut answer)));
        assert_eq!(answer, [9; 3]);
        told
    };
    for (m, number) in wrong_moves() {
        assert_eq!(asked(&yard, m, 1, 40), refused(number));
    }
    for cut in other_lengths(&yard) {
        assert_eq!(asked(&cut, MOVE, 1, 40), refused(14), "{} bytes", cut.len());
    }
    for begin in [0, 4, u16::MAX] {
        assert_eq!(asked(&yard, MOVE, begin, 40), refused(15), "begin {begin}");
    }
    for moved in [3, u16::MAX] {
        assert_eq!(asked(&yard, Move { moved, ..MOVE }, 1, 40), refused(15), "moved {moved}");
    }
    for rows in [0, 1, 19, 20, 21, 32, 39, 41, 60, 1_008, 1_260] {
        assert_eq!(asked(&yard, MOVE, 1, rows), refused(16), "{rows} bytes");
    }
}

#[test]
fn check_takes_the_shortest_and_the_longest_occupancy() {
    let mut report = vec![0xaa; 40];
    let m = Move { occupancy: &[0; 2], ..MOVE };
    assert_eq!(leaves(&two_trains(), |yard| check(yard, m, 1, &mut report)), Ok(Checked::Erred(2)));
    let row = Row { slot: Slot::Refused(Refusal { number: 7, place: 3 }), rounds: 0, strays: 0, met: 0 };
    assert_eq!(rows(&report), [row, row]);
    let m = Move { occupancy: &[0; 4_000], blocking: &[3_999; 4_000], ..MOVE };
    assert_eq!(check(&mut two_trains(), m, 1, &mut report), Ok(Checked::Done { deadlock: false, next: 1 }));
    assert_eq!(rows(&report)[0].slot, Slot::Success);
}

#[test]
fn check_takes_63_slots_and_no_more() {
    let images: Vec<Vec<u8>> = (1..=64).map(|t| laid_out(t, 4)).collect();
    let images: Vec<&[u8]> = images.iter().map(Vec::as_slice).collect();
    let mut report = vec![0xaa; 63 * layout::REPORT_RECORD];
    let m = Move { moved: 63, limit: u16::MAX, ..MOVE };
    assert_eq!(check(&mut yard(&images[..63]), m, 1, &mut report), Ok(Checked::Done { deadlock: false, next: 1 }));
    assert!(rows(&report)[..62].iter().all(|r| *r == Row { slot: Slot::Success, rounds: 2, strays: 0, met: 2 }));
    assert_eq!(check(&mut yard(&images[..63]), m, 64, &mut report), Ok(Checked::Done { deadlock: false, next: 64 }));
    assert!(rows(&report).iter().all(|r| r.slot == Slot::Unvisited));
    let answer = leaves(&yard(&images), |yard| check(yard, m, 1, &mut vec![0; 64 * layout::REPORT_RECORD]));
    assert_eq!(answer, Err(Refusal { number: 14, place: 0 }));
}

#[test]
fn a_sheet_fills_the_room_it_has() {
    let bundle = include_bytes!("../../../examples/two-slots.bundle");
    let text = include_bytes!("../../../examples/two-slots.sheet");
    for room in 0..text.len() + 2 {
        let mut into = vec![0xaa; room];
        let n = room.min(text.len());
        assert_eq!(sheet_into(bundle, &mut into), n);
        assert_eq!((&into[..n], &into[n..]), (&text[..n], &vec![0xaa; room - n][..]));
    }
    for cut in other_lengths(bundle) {
        assert_eq!(sheet(&cut), "refused 17\n", "{} bytes", cut.len());
    }
    for n in [65_535, 65_536, 65_537] {
        assert_eq!(sheet(&vec![0xff; n]), "refused 17\n");
    }
}
