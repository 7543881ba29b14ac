//! Replays of recordings: beside the oracle's, and beside the same calls made one by one through the library.

use crate::clock::best;
use lavtoeu::{layout, Link, Move, Recording};
use oracle::cases::Case;
use oracle::layout::{read_yard, u16_bytes, u16s};
use oracle::replay::{self, Step};
use std::hint::black_box;

/// What a replay leaves, and its refusal's number and place.
#[derive(Clone, PartialEq)]
struct Left {
    refusal: (u32, u32),
    yard: Vec<u8>,
    occ: Vec<u16>,
    list: Vec<u16>,
}

fn start(case: &Case) -> Left {
    let list = vec![0; case.args[0] as usize];
    Left { refusal: (0, 0), yard: case.ins[3].clone(), occ: u16s(&case.ins[2]), list }
}

/// One recorded call by the library: the number of its refusal, or 0.
fn call(s: &Step, table: &[u8], yard: &mut [u8], occ: &mut [u16]) -> u16 {
    let answer = match s {
        Step::Mark { link, train } => lavtoeu::mark(table, occ, *link, *train),
        Step::Check { blocking, moved, begin, limit, local } => {
            let told = Move { occupancy: occ, blocking, moved: *moved, local: *local, limit: *limit };
            let slots = read_yard(yard).map_or(0, |parts| parts.len());
            lavtoeu::check(yard, told, *begin, &mut vec![0; layout::REPORT_RECORD * slots]).map(|_| ())
        }
    };
    answer.err().map_or(0, |refusal| refusal.number)
}

/// The calls of a recording that the oracle takes, one by one.
fn one_by_one(case: &Case) -> Left {
    let mut left = start(case);
    match replay::read(&case.ins[0]).filter(|steps| steps.len() == left.list.len()) {
        Some(steps) => {
            let Left { yard, occ, list, .. } = &mut left;
            list.iter_mut().zip(&steps).for_each(|(n, s)| *n = call(s, &case.ins[1], yard, occ));
        }
        None => left.refusal = (19, 0),
    }
    left
}

/// The answer as the oracle writes it; one that the calls one by one do not give becomes a number that no answer has.
pub fn answer(case: &mut Case) {
    let mut left = start(case);
    let done = lavtoeu::replay(&case.ins[0], &case.ins[1], &mut left.yard, &mut left.occ, &mut left.list);
    left.refusal = crate::library::numbers(done);
    let same = left == one_by_one(case);
    (case.answer[0], case.answer[1]) = if same { left.refusal } else { (u32::MAX, 0) };
    case.outs = [left.yard, u16_bytes(&[left.occ, left.list].concat())];
}

const MARKS: usize = 1_000;
pub const LINKS: usize = 4_000;

/// A table of the most links, each with a flip and the lockout beside it.
pub fn table() -> Vec<u8> {
    let link = |l: usize| Link { flip: (l ^ 1) as u32, lockouts: vec![((l + 2) % LINKS) as u32] };
    lavtoeu::table(&(0..LINKS).map(link).collect::<Vec<_>>())
}

/// 1,000 marks on a table of 4,000 links in one replay, and the same marks in as many calls, each of which reads the whole table.
pub fn time(_seed: u64) {
    let table = table();
    let marks: Vec<(u32, u16)> = (0..MARKS).map(|i| (1 + (i * 7) as u32 % 3_999, 1 + i as u16)).collect();
    let mut sitting = Recording::new();
    marks.iter().for_each(|&(link, train)| {
        sitting.mark(link, train);
    });
    let recording = sitting.to_bytes().expect("a recording");
    let starts = vec![(vec![0u16; LINKS], vec![0u16; MARKS])];
    let by_replay = |occ: &mut [u16], list: &mut [u16]| {
        lavtoeu::replay(black_box(&recording), black_box(&table), &mut [], occ, list)
            .expect("a whole recording");
    };
    let by_calls = |occ: &mut [u16], list: &mut [u16]| {
        for (n, &(link, train)) in list.iter_mut().zip(&marks) {
            *n = lavtoeu::mark(black_box(&table), occ, link, train).err().map_or(0, |r| r.number);
        }
    };
    let (mut one, mut other) = (starts[0].clone(), starts[0].clone());
    by_replay(&mut one.0, &mut one.1);
    by_calls(&mut other.0, &mut other.1);
    assert!(one == other && one.1 == [0; MARKS], "the occupancies or the refusals differ");
    let replayed = best(&starts, 50, |_, (occ, list)| by_replay(occ, list));
    let called = best(&starts, 50, |_, (occ, list)| by_calls(occ, list));
    println!(
        "{MARKS} marks on a table of {LINKS} links: one replay {replayed:.1} us, {MARKS} calls {called:.1} us, {:.1} times as long",
        called / replayed
    );
}
