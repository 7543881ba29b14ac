//! Times of a check beside an index, right before it, and of a build, beside the check without one, by the library alone.

use crate::check_time::full_yard;
use crate::clock::best;
use crate::library::told_check;
use crate::updates::open_chain;
use lavtoeu::layout::REPORT_RECORD;
use oracle::gen;
use oracle::rng::Rng;
use oracle::yards::CheckCase;
use std::hint::black_box;

fn print(name: &str, c: &CheckCase) {
    let (m, begin) = told_check(&c.args());
    let mut report = vec![0; REPORT_RECORD * lavtoeu::parts(&c.yard).expect("a yard").len()];
    let yards = vec![c.yard.clone()];
    let plain = best(&yards, 300, |_, yard| {
        black_box(lavtoeu::check(black_box(yard), m, begin, &mut report)).expect("a check");
    });
    let mut index = vec![0; c.args().occ.len()];
    let built = best(&yards, 300, |_, yard| {
        lavtoeu::build_index(black_box(yard), black_box(&mut index)).expect("an index");
    });
    let right = index.clone();
    let indexed = best(&yards, 300, |_, yard| {
        index.copy_from_slice(&right);
        lavtoeu::check_indexed_into(black_box(yard), m, begin, &mut report, black_box(&mut index), &mut [])
            .expect("a check");
    });
    println!(
        "{name}, {} bytes, {} links: check {plain:.0} us, beside an index {indexed:.0} us ({:.3} times), a build {built:.0} us",
        c.yard.len(),
        right.len(),
        indexed / plain
    );
}

pub fn run(seed: u64) {
    let mut rng = Rng::new(seed);
    let rng = &mut rng;
    print("check, 63 slots, chain, end free, E = 512", &full_yard(|| open_chain(rng, 512)));
    print("check, 63 slots, chain, end held, E = 512", &full_yard(|| gen::chain_update(rng, 511, false)));
    print("check, 63 slots, dense, E = 512", &full_yard(|| gen::dense_update(rng, 512, 1_024)));
}
