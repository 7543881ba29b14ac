//! The replay of a sitting beside its calls made one by one, and recordings that are refused.

mod yards;

use lavtoeu::layout::*;
use lavtoeu::*;
use yards::*;

/// Links 1 and 2 lock link 3 out, and 3 is 2 in the other direction.
fn links() -> Vec<u8> {
    table(&[(0, vec![]), (2, vec![3]), (1, vec![3]), (2, vec![1, 2])].map(|(flip, lockouts)| Link { flip, lockouts }))
}

const ASKED: Check = Check { blocking: MOVE.blocking, moved: 2, begin: 1, local: false, limit: 5 };

#[derive(Clone, Copy)]
enum Step<'a> {
    Mark(u32, u16),
    Check(Check<'a>),
}

/// The calls one by one: each one's refusal.
fn one_by_one(steps: &[Step], table: &[u8], yard: &mut [u8], occupancy: &mut [u16]) -> Vec<u16> {
    let call = |step: &Step| {
        let answer = match *step {
            Step::Mark(link, train) => mark(table, occupancy, link, train),
            Step::Check(c) => {
                let m = Move { occupancy, blocking: c.blocking, moved: c.moved, local: c.local, limit: c.limit };
                check(yard, m, c.begin, &mut [0; 2 * REPORT_RECORD]).map(|_| ())
            }
        };
        answer.err().map_or(0, |refusal| refusal.number)
    };
    steps.iter().map(call).collect()
}

fn recorded(steps: &[Step]) -> Recording {
    let mut sitting = Recording::new();
    for step in steps {
        match *step {
            Step::Mark(link, 0) => sitting.release(link),
            Step::Mark(link, train) => sitting.mark(link, train),
            Step::Check(c) => sitting.check(c),
        };
    }
    sitting
}

/// Steps of which some are refused, each by another number.
fn steps() -> [Step<'static>; 11] {
    use Step::*;
    [
        Mark(2, 2),
        Check(ASKED),
        Mark(0, 9),
        Check(lavtoeu::Check { blocking: &[4], ..ASKED }),
        Mark(3, 9),
        Check(lavtoeu::Check { blocking: &[1, 2], ..ASKED }),
        Check(lavtoeu::Check { limit: 0, ..ASKED }),
        Mark(2, 0),
        Check(lavtoeu::Check { begin: 0, ..ASKED }),
        Check(lavtoeu::Check { blocking: &[], local: true, begin: 3, ..ASKED }),
        Mark(3, 0),
    ]
}

#[test]
fn a_replay_leaves_what_the_calls_leave_one_by_one() {
    let steps = steps();
    for n in 0..=steps.len() {
        let (mut yard, mut occupancy) = (two_trains(), [0; 4]);
        let numbers = one_by_one(&steps[..n], &links(), &mut yard, &mut occupancy);
        let (mut replayed, mut held) = (two_trains(), [0; 4]);
        assert_eq!(recorded(&steps[..n]).replay(&links(), &mut replayed, &mut held), Ok(numbers), "{n} steps");
        assert_eq!((replayed, held), (yard, occupancy), "{n} steps");
    }
    assert_eq!(one_by_one(&steps, &links(), &mut two_trains(), &mut [0; 4]), [0, 0, 3, 4, 0, 0, 5, 0, 15, 0, 0]);
}

#[test]
fn a_bad_table_yard_or_occupancy_refuses_each_of_its_steps() {
    let sitting = recorded(&[Step::Mark(2, 2), Step::Check(ASKED), Step::Mark(2, 0)]);
    let (mut yard, mut occupancy) = (two_trains(), [0; 4]);
    assert_eq!(sitting.replay(&[], &mut yard, &mut occupancy), Ok(vec![1, 0, 1]));
    assert_eq!(occupancy, [0; 4]);
    assert_eq!(sitting.replay(&links(), &mut [], &mut occupancy), Ok(vec![0, 14, 0]));
    assert_eq!(sitting.replay(&links(), &mut yard, &mut []), Ok(vec![2, 2, 2]));
    assert_eq!(sitting.replay(&links(), &mut yard, &mut [0; 5]), Ok(vec![2, 0, 2]));
}

#[test]
fn no_steps_are_a_recording() {
    let (mut yard, mut occupancy) = (two_trains(), [7; 4]);
    assert_eq!(Recording::new().to_bytes(), Ok(vec![12, 0, 0, 0, 0, 0, 0, 0, 0, 0, 0, 0]));
    assert_eq!(Recording::new().replay(&[], &mut yard, &mut occupancy), Ok(vec![]));
    assert_eq!((yard, occupancy), (two_trains(), [7; 4]));
}

/// Is the recording refused by 19, with a list of n, and is all left as it was?
fn refused(bytes: &[u8], n: usize) -> bool {
    let (mut yard, mut occupancy, mut list) = (two_trains(), [0; 4], vec![9; n]);
    match replay(bytes, &links(), &mut yard, &mut occupancy, &mut list) {
        Ok(()) => false,
        Err(refusal) => {
            assert_eq!(refusal.to_string(), "refused 19 (malformed recording, or a list of another length) at 0");
            assert_eq!((yard, occupancy, list), (two_trains(), [0; 4], vec![9; n]));
            true
        }
    }
}

/// The bytes with another number at a place, in as many bytes as it has.
fn with<const W: usize>(bytes: &[u8], at: usize, number: [u8; W]) -> Vec<u8> {
    let mut bytes = bytes.to_vec();
    bytes[at..at + W].copy_from_slice(&number);
    bytes
}

#[test]
fn a_recording_of_another_size_or_list_is_refused_before_any_step() {
    let bytes = recorded(&steps()).to_bytes().unwrap();
    let n = steps().len();
    assert!(!refused(&bytes, n));
    for other in [0, n - 1, n + 1] {
        assert!(refused(&bytes, other), "a list of {other}");
    }
    for cut in 0..bytes.len() {
        assert!(refused(&bytes[..cut], n), "{cut} bytes");
    }
    assert!(refused(&[&bytes[..], &[0]].concat(), n));
    for at in [0, 4, 8] {
        for number in [0, 1, u32::MAX, 1 << 30] {
            assert!(refused(&with(&bytes, at, number.to_le_bytes()), n), "{number} at {at}");
        }
    }
}

#[test]
fn a_step_uses_what_its_kind_does_and_the_rest_is_0() {
    let bytes = recorded(&[Step::Mark(2, 2), Step::Check(Check { blocking: &[1, 2], ..ASKED })]).to_bytes().unwrap();
    let (mark, check) = (RECORDING_HEADER, RECORDING_HEADER + STEP_RECORD);
    for (at, right) in [(mark, 0), (check, 1)] {
        for kind in [2, 256, u32::MAX] {
            assert!(refused(&with(&bytes, at, kind.to_le_bytes()), 2), "kind {kind} for {right}");
        }
    }
    // The count, begin, limit and local of a mark.
    assert!(refused(&with(&bytes, mark + 8, 1u32.to_le_bytes()), 2));
    for at in [14, 16, 18] {
        assert!(refused(&with(&bytes, mark + at, 1u16.to_le_bytes()), 2), "{at}");
    }
    // Two links are recorded: a check may begin at any of them, or behind the last where it has none.
    for (first, count, fits) in [(0, 2, true), (1, 1, true), (2, 0, true), (0, 0, true), (1, 2, false), (2, 1, false), (3, 0, false)] {
        let bytes = with(&with(&bytes, check + 4, u32::to_le_bytes(first)), check + 8, u32::to_le_bytes(count));
        assert_eq!(refused(&bytes, 2), !fits, "{count} links from {first}");
    }
    for (first, count) in [(u32::MAX, 2), (2, u32::MAX), (u32::MAX, 1), (1, u32::MAX)] {
        let bytes = with(&with(&bytes, check + 4, first.to_le_bytes()), check + 8, count.to_le_bytes());
        assert!(refused(&bytes, 2), "{count} links from {first}");
    }
    assert!(!refused(&with(&bytes, check + 18, 1u16.to_le_bytes()), 2));
    assert!(refused(&with(&bytes, check + 18, 2u16.to_le_bytes()), 2));
}

#[test]
fn any_bytes_get_an_answer() {
    let bytes = recorded(&steps()).to_bytes().unwrap();
    let n = steps().len();
    for at in 0..bytes.len() {
        for value in [0, 1, 2, 0x7f, 0xff] {
            let (mut yard, mut occupancy, mut list) = (two_trains(), [0; 4], vec![9; n]);
            let answer = replay(&with(&bytes, at, [value]), &links(), &mut yard, &mut occupancy, &mut list);
            assert!(matches!(answer, Ok(()) | Err(Refusal { number: 19, place: 0 })));
        }
    }
}
