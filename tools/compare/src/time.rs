//! Times of the proved library and of the oracle on the same bytes, in one run.

use crate::candidates;
use crate::check_time;
use crate::clock::best;
use crate::library;
use crate::page_time;
use crate::replays;
use crate::update_time;
use oracle::cases::{Case, LAY_OUT, MARK};
use oracle::layout::{read_image, read_table, u16s};
use oracle::model::Kept;
use oracle::rng::Rng;
use oracle::{calls, gen};
use std::hint::black_box;

fn print(name: &str, n: usize, library: f64, oracle: f64) {
    println!(
        "{name}: {n} items, library {library:.2} us, oracle {oracle:.2} us, ratio {:.2}",
        library / oracle
    );
}

/// Accepted images with this many est records or more.
fn images(rng: &mut Rng, least: usize, count: usize) -> Vec<(Vec<u8>, usize)> {
    let mut found = vec![];
    while found.len() < count {
        let c = if least > 100 { gen::large_update(rng) } else { gen::odd_update(rng) };
        let l = c.occ.len();
        if read_image(&c.image, l).is_ok_and(|t| t.est.len() >= least) {
            found.push((c.image, l));
        }
    }
    found
}

fn of_op(rng: &mut Rng, kind: &str, op: u32, count: usize) -> Vec<Case> {
    let mut found = vec![];
    while found.len() < count {
        let c = calls::by_name(kind, rng).expect("a kind of case");
        if c.op == op && c.clone().answered().answer[0] == 0 {
            found.push(c);
        }
    }
    found
}

/// The library's mark on its buffers beside update_links_blocked on structs that are kept: nothing is read or copied
/// for the Rust.
fn mark_alone(rng: &mut Rng) {
    let cases = of_op(rng, "mark", MARK, 1000);
    let items: Vec<&Case> = cases.iter().collect();
    let mut occs: Vec<Vec<u16>> = items.iter().map(|c| u16s(&c.ins[1])).collect();
    let table = |c: &Case| read_table(&c.ins[0]).expect("an accepted table");
    let mut kept: Vec<Kept> = items.iter().zip(&occs).map(|(c, occ)| Kept::new(&table(c), occ)).collect();
    let ours = best(&items, 200, |i, c| {
        let marked = lavtoeu::mark(black_box(&c.ins[0]), &mut occs[i], c.args[0], c.args[1] as u16);
        black_box(marked).expect("a mark that is not refused");
    });
    let theirs = best(&items, 200, |i, c| {
        black_box(&mut kept[i]).mark(black_box(c.args[0]), c.args[1] as u16);
    });
    let links: usize = items.iter().map(|c| c.ins[1].len() / 2).sum();
    println!(
        "mark alone: {} items of {} links on average, library {ours:.3} us, Rust on kept structs {theirs:.3} us, ratio {:.1}",
        items.len(),
        links / items.len(),
        ours / theirs
    );
}

pub fn run(seed: u64) {
    let mut rng = Rng::new(seed);
    for (name, least) in [("refusals 6 to 9, any size", 1), ("refusals 6 to 9, E = 512", 512)] {
        let images = images(&mut rng, least, 200);
        let items: Vec<_> = images.iter().collect();
        let ours = best(&items, 50, |_, (b, l)| {
            black_box(lavtoeu::judge(black_box(b), *l as u32).is_ok());
        });
        let theirs = best(&items, 50, |_, (b, l)| {
            black_box(read_image(black_box(b), *l).is_ok());
        });
        print(name, items.len(), ours, theirs);
    }
    for (name, kind, op) in [("mark or release", "mark", MARK), ("lay out", "layout", LAY_OUT)] {
        let cases = of_op(&mut rng, kind, op, 1000);
        let items: Vec<&Case> = cases.iter().collect();
        let ours = best(&items, 20, |_, c| {
            black_box(library::answered(black_box(c)));
        });
        let theirs = best(&items, 20, |_, c| {
            black_box(Case::clone(black_box(c)).answered());
        });
        print(name, items.len(), ours, theirs);
    }
    mark_alone(&mut rng);
    update_time::run(seed);
    check_time::run(seed);
    page_time::run(seed);
    replays::time(seed);
    candidates::time(seed);
}
