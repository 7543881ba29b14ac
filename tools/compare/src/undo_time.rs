//! Times of a recorded check beside the check and beside copying the yard twice, and of an undo, by the library alone.

use crate::check_time::full_yard;
use crate::clock::best;
use crate::library::told_check;
use crate::updates::open_chain;
use lavtoeu::layout::{REPORT_RECORD, UNDO_RECORD_HEADER};
use oracle::gen;
use oracle::rng::Rng;
use oracle::yards::CheckCase;
use std::hint::black_box;

fn print(name: &str, c: &CheckCase) {
    let (m, begin) = told_check(&c.args());
    let y = c.yard.len();
    let mut report = vec![0; REPORT_RECORD * lavtoeu::parts(&c.yard).expect("a yard").len()];
    let yards = vec![c.yard.clone()];
    let plain = best(&yards, 300, |_, yard| {
        black_box(lavtoeu::check(black_box(yard), m, begin, &mut report)).expect("a check");
    });
    let mut record = vec![0; lavtoeu::undo_record_size(y)];
    let recorded = best(&yards, 300, |_, yard| {
        lavtoeu::check_recorded_into(black_box(yard), m, begin, &mut report, black_box(&mut record), &mut [])
            .expect("a check");
    });
    let mut room = record.clone();
    let copies = best(&yards, 300, |_, yard| {
        room[UNDO_RECORD_HEADER..][..y].copy_from_slice(black_box(yard));
        black_box(&mut room)[UNDO_RECORD_HEADER + y..].copy_from_slice(black_box(yard));
    });
    let written = vec![record[UNDO_RECORD_HEADER + y..].to_vec()];
    let undone = best(&written, 300, |_, yard| {
        lavtoeu::undo(black_box(yard), black_box(&record)).expect("an undo");
    });
    println!(
        "{name}, {y} bytes: check {plain:.0} us, recorded {recorded:.0} us ({:.3} times), two copies {copies:.0} us, undo {undone:.0} us",
        recorded / plain
    );
}

pub fn run(seed: u64) {
    let mut rng = Rng::new(seed);
    let rng = &mut rng;
    print("check, 63 slots, chain, end free, E = 512", &full_yard(|| open_chain(rng, 512)));
    print("check, 63 slots, chain, end held, E = 512", &full_yard(|| gen::chain_update(rng, 511, false)));
    print("check, 63 slots, dense, E = 512", &full_yard(|| gen::dense_update(rng, 512, 1_024)));
}
