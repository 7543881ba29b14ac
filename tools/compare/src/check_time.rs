//! Times of a check, on the same bytes in one run: the library's call, and check_deadlock of the Rust built as for release,
//! over bytes. Full yards of 63 slots with 512 est records each, and small tidy ones.

use crate::clock::best;
use crate::library::told_check;
use crate::updates::{open_chain, tidy_checks};
use lavtoeu::Checked;
use oracle::calls;
use oracle::gen::{self, UpdateCase};
use oracle::layout::{put_u16, u32_at, yard_of};
use oracle::model::{self, Outcome};
use oracle::rng::Rng;
use oracle::yards::CheckCase;
use release::model::{check_plain, CheckArgs};
use std::hint::black_box;

const SLOTS: usize = 63;
const ESTS: usize = 512;

/// A yard of trains of one kind over the first one's arguments, none of which is refused.
pub fn full_yard(mut make: impl FnMut() -> UpdateCase) -> CheckCase {
    let first = make();
    let mut images = vec![];
    while images.len() < SLOTS {
        let slot = images.len() as u16 + 1;
        let mut image = make().image;
        put_u16(&mut image, 32, slot);
        let mut trial = image.clone();
        let asked = |b: &mut [u8]| {
            model::update(b, &first.occ, &first.blocking, first.moved, first.local, u16::MAX).outcome
        };
        if slot == first.moved || !matches!(asked(&mut trial), Outcome::Refused(_)) {
            images.push(image);
        }
    }
    CheckCase {
        yard: yard_of(&images),
        occ: first.occ,
        blocking: first.blocking,
        moved: first.moved,
        begin: 1,
        local: first.local,
        limit: u16::MAX,
    }
}

fn plain(c: &CheckCase) -> CheckArgs<'_> {
    CheckArgs {
        occ: &c.occ,
        blocking: &c.blocking,
        moved: c.moved,
        begin: c.begin,
        local: c.local,
        limit: c.limit,
    }
}

/// The library's check of a yard, its report thrown away. None where it is refused.
fn ours(c: &CheckCase, yard: &mut [u8], report: &mut [u8]) -> Option<Checked> {
    let (told, begin) = told_check(&c.args());
    lavtoeu::check(yard, told, begin, &mut report[..model::ROW * u32_at(&c.yard, 4) as usize]).ok()
}

/// Both leave the same yard, and neither refuses it.
fn same(c: &CheckCase, report: &mut [u8]) -> bool {
    let (mut one, mut other) = (c.yard.clone(), c.yard.clone());
    let both = ours(c, &mut one, report).is_some() && check_plain(&mut other, &plain(c)).is_some();
    assert!(!both || one == other, "the yards differ");
    both
}

/// The mean time of a check of these.
fn print(name: &str, cases: &[CheckCase], turns: usize) {
    let mut report = [0; model::ROW * SLOTS];
    assert!(cases.iter().all(|c| same(c, &mut report)), "a check that is refused");
    let yards: Vec<Vec<u8>> = cases.iter().map(|c| c.yard.clone()).collect();
    let library = best(&yards, turns, |i, yard| {
        black_box(ours(&cases[i], black_box(yard), &mut report));
    });
    let rust = best(&yards, turns, |i, yard| {
        black_box(check_plain(black_box(yard), &plain(&cases[i])));
    });
    println!(
        "check, {name}: library {library:.2} us, Rust over bytes {rust:.2} us, ratio {:.2}",
        library / rust
    );
}

/// A full yard, and how its slots end.
fn print_full(kind: &str, c: CheckCase) {
    let [_, _, _, erred, deadlock, ..] = calls::of_check(&c, &[0; model::ROW * SLOTS]).answered().answer;
    let name = format!("{SLOTS} slots, {kind}, E = {ESTS} ({erred} slots erred, deadlock {deadlock})");
    print(&name, &[c], 300);
}

/// So many checks of tidy yards of 1 to 4 trains.
fn tidy(rng: &mut Rng, most: usize, count: usize) -> Vec<CheckCase> {
    let mut report = [0; model::ROW * SLOTS];
    let mut cases = vec![];
    while cases.len() < count {
        cases.extend(tidy_checks(rng, most).into_iter().filter(|c| same(c, &mut report)));
    }
    cases.truncate(count);
    cases
}

pub fn run(seed: u64) {
    let mut rng = Rng::new(seed);
    let rng = &mut rng;
    print_full("chain, end free", full_yard(|| open_chain(rng, ESTS)));
    print_full("chain, end held", full_yard(|| gen::chain_update(rng, ESTS - 1, false)));
    print_full("dense", full_yard(|| gen::dense_update(rng, ESTS, 2 * ESTS)));
    print("1 to 4 slots, tidy, to 7 sections", &tidy(rng, 7, 200), 300);
    print("1 to 4 slots, tidy, to 30 sections", &tidy(rng, 30, 200), 300);
}
