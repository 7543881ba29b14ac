//! What bindings/README.md promises a caller: bytes at any address, calls from any thread.

mod yards;

use lavtoeu::*;
use yards::*;

/// The answer of a call over the bytes at each of 16 addresses that follow one another, and what it leaves there.
fn at_each_address<R>(bytes: &[u8], mut call: impl FnMut(&mut [u8]) -> R) -> Vec<(R, Vec<u8>)> {
    let mut room = vec![0xaa; bytes.len() + 16];
    let mut at = |i: usize| {
        let place = &mut room[i..i + bytes.len()];
        place.copy_from_slice(bytes);
        (call(place), place.to_vec())
    };
    (0..16).map(&mut at).collect()
}

fn same<R: PartialEq + std::fmt::Debug>(answers: Vec<R>) {
    assert!(answers.windows(2).all(|w| w[0] == w[1]), "{answers:?}");
}

#[test]
fn bytes_may_begin_at_any_address() {
    let table = table(&[0, 2, 1, 0].map(|flip| Link { flip, lockouts: vec![3] }));
    same(at_each_address(&table, |table| mark(table, &mut [0; 4], 1, 9)));
    same(at_each_address(&laid_out(1, 4), |image| judge(image, 4)));
    same(at_each_address(&siding(), |est| lay_out(est, order(1, 4), &mut vec![0; image_size(5, 4)])));
    same(at_each_address(&vec![0; image_size(5, 4)], |image| lay_out(&siding(), order(1, 4), image)));
    same(at_each_address(&laid_out(1, 4), |image| update(image, MOVE)));
    same(at_each_address(&two_trains(), |yard| check(yard, MOVE, 1, &mut [0; 40])));
    same(at_each_address(&[0; 40], |report| check(&mut two_trains(), MOVE, 1, report)));
    same(at_each_address(&bundle(&two_trains(), MOVE, 1), |bundle| sheet(bundle)));
    same(at_each_address(&[0; 4_096], |text| sheet_into(&bundle(&two_trains(), MOVE, 1), text)));
}

#[test]
fn a_recording_and_its_yard_may_begin_at_any_address() {
    let table = table(&[0, 2, 1, 0].map(|flip| Link { flip, lockouts: vec![3] }));
    let asked = Check { blocking: MOVE.blocking, moved: 2, begin: 1, local: false, limit: 5 };
    let sitting = Recording::new().mark(2, 2).check(asked).to_bytes().unwrap();
    same(at_each_address(&sitting, |sitting| replay(sitting, &table, &mut two_trains(), &mut [0; 4], &mut [9; 2])));
    same(at_each_address(&two_trains(), |yard| replay(&sitting, &table, yard, &mut [0; 4], &mut [9; 2])));
    same(at_each_address(&table, |table| replay(&sitting, table, &mut two_trains(), &mut [0; 4], &mut [9; 2])));
}

#[test]
fn threads_may_call_at_once() {
    let once = || {
        let (mut yard, mut report) = (two_trains(), [0; 40]);
        let answer = check(&mut yard, MOVE, 1, &mut report);
        (answer, sheet(&bundle(&yard, MOVE, 1)), yard, report)
    };
    let expected = once();
    std::thread::scope(|scope| {
        for _ in 0..8 {
            scope.spawn(|| (0..200).for_each(|_| assert_eq!(once(), expected)));
        }
    });
}
