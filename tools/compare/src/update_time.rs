//! Times of an update, on the same bytes in one run: the library's call, and the Rust built as for release, without overflow
//! checks and without hooks, once over bytes and once on structs that are kept.

use crate::clock::best;
use crate::library::told;
use crate::updates;
use oracle::cases::Case;
use oracle::gen::{self, UpdateCase};
use oracle::layout::u32_at;
use oracle::rng::Rng;
use oracle::yards::CheckCase;
use oracle::{calls, hook};
use release::model::{update_plain, KeptTrain};
use std::hint::black_box;

/// Updates of one kind, and what they do on average.
struct Family {
    name: String,
    items: Vec<UpdateCase>,
    ests: f64,
    nodes: f64,
    rounds: f64,
    steps: f64,
}

/// The answer, where the update is not refused.
fn accepted(c: &UpdateCase) -> Option<Case> {
    let case = calls::of_update(c).answered();
    (case.answer[1] == 0).then_some(case)
}

/// A family of updates that are not refused and that some test takes, which is given rounds and search steps.
fn family(
    name: String,
    count: usize,
    mut make: impl FnMut() -> UpdateCase,
    takes: impl Fn(u32, usize) -> bool,
) -> Family {
    let mut f = Family { name, items: vec![], ests: 0.0, nodes: 0.0, rounds: 0.0, steps: 0.0 };
    for _ in 0..200 * count {
        if f.items.len() == count {
            break;
        }
        let c = make();
        let Some(case) = accepted(&c) else { continue };
        let steps = hook::state().entries_all;
        if !takes(case.answer[4], steps) {
            continue;
        }
        f.ests += u32_at(&c.image, 4) as f64;
        f.nodes += u32_at(&c.image, 8) as f64;
        f.rounds += case.answer[4] as f64;
        f.steps += steps as f64;
        f.items.push(c);
    }
    f
}

fn print(f: &Family, turns: usize) {
    if f.items.is_empty() {
        return println!("{:<34}no update of this kind was found", f.name);
    }
    let images: Vec<Vec<u8>> = f.items.iter().map(|c| c.image.clone()).collect();
    let kept: Vec<KeptTrain> = f
        .items
        .iter()
        .map(|c| KeptTrain::new(&c.image, &c.occ, &c.blocking, c.moved, c.local).expect("an accepted image"))
        .collect();
    let ours = best(&images, turns, |i, image| {
        black_box(lavtoeu::update(black_box(image), told(&f.items[i])));
    });
    let bytes = best(&images, turns, |i, image| {
        let c = &f.items[i];
        black_box(update_plain(black_box(image), &c.occ, &c.blocking, c.moved, c.local));
    });
    let alone = best(&kept, turns, |_, train| {
        black_box(black_box(train).update());
    });
    let n = f.items.len() as f64;
    println!(
        "{:<34}{:>6}{:>7.0}{:>7.0}{:>7.1}{:>8.0}{:>10.2}{:>10.2}{:>10.2}{:>7.2}{:>7.2}",
        f.name,
        f.items.len(),
        f.ests / n,
        f.nodes / n,
        f.rounds / n,
        f.steps / n,
        ours,
        bytes,
        alone,
        ours / bytes,
        ours / alone
    );
}

/// A small train of the odd generator.
fn small(rng: &mut Rng) -> Family {
    family("odd, small".into(), 500, || gen::odd_update(rng), |_, _| true)
}

/// Slots of tidy yards with at most so many sections.
fn tidy(rng: &mut Rng, name: &str, most: usize, count: usize, takes: impl Fn(u32, usize) -> bool) -> Family {
    let mut waiting = vec![];
    let make = || loop {
        match waiting.pop() {
            Some(c) => return c,
            None => waiting = updates::tidy_checks(rng, most).iter().flat_map(CheckCase::slots).collect(),
        }
    };
    family(name.into(), count, make, takes)
}

/// A chain of E nodes whose end is held: the search goes along all of it.
fn chain(rng: &mut Rng, e: usize) -> Family {
    family(format!("chain, end held, E = {e}"), 50, || gen::chain_update(rng, e - 1, false), |_, n| n > 0)
}

/// The same chain with nothing held: no search.
fn open_chain(rng: &mut Rng, e: usize) -> Family {
    family(format!("chain, end free, E = {e}"), 50, || updates::open_chain(rng, e), |_, n| n == 0)
}

/// Two chains of E / 2 nodes, the first of which is held at its end.
fn twin(rng: &mut Rng, e: usize) -> Family {
    family(format!("two chains, E = {e}"), 50, || gen::chain_update(rng, (e - 1) / 2, true), |_, n| n > 0)
}

/// A net with alternates at most nodes.
fn dense(rng: &mut Rng, e: usize) -> Family {
    family(format!("dense, E = {e}"), 50, || gen::dense_update(rng, e, 2 * e), |_, n| n > 0)
}

/// A comb: the pool grows with the square of its depth.
fn comb(rng: &mut Rng, depth: usize) -> Family {
    family(format!("comb, depth {depth}"), 50, || gen::comb(rng, depth, 1_024, 0), |_, n| n > 0)
}

/// Nodes behind the join.
const TAIL: usize = 400;

/// Joins by what they do to the length of the path: how many nodes are replaced, and by how many.
pub const JOINS: [(&str, (usize, usize)); 3] =
    [("grows", (2, 40)), ("shrinks", (40, 2)), ("stays", (20, 20))];

/// An update that joins a siding near the start of a long path, and the image that it leaves: by the oracle a success
/// that changes the length of the path by just the nodes of the join.
fn join_update((main, siding): (usize, usize)) -> (UpdateCase, Vec<u8>) {
    let c = gen::siding_update(main, siding, TAIL);
    let case = calls::of_update(&c).answered();
    let nodes = |image: &[u8]| u32_at(image, 8) as usize;
    assert!(case.answer[0] == 0, "an update that is no success");
    assert!(nodes(&c.image) == 2 + main + TAIL && nodes(&case.outs[0]) == 2 + siding + TAIL, "no join");
    (c, case.outs[0].clone())
}

/// A join near the start of a path that grows, shrinks or stays as long.
fn join(name: &str, nodes: (usize, usize)) -> Family {
    family(format!("join, path {name}"), 50, || join_update(nodes).0, |_, n| n > 0)
}

/// The library alone, one join so many times, for a count of its instructions.
pub fn joins(nodes: (usize, usize), count: u64) {
    let (c, left) = join_update(nodes);
    let mut image = c.image.clone();
    for _ in 0..count {
        image.copy_from_slice(&c.image);
        black_box(lavtoeu::update(black_box(&mut image), told(&c)));
    }
    assert!(count == 0 || image == left, "the images differ");
    println!("{count} joins, {} nodes before and {} after", u32_at(&c.image, 8), u32_at(&left, 8));
}

pub fn run(seed: u64) {
    let mut rng = Rng::new(seed);
    let rng = &mut rng;
    println!(
        "{:<34}{:>6}{:>7}{:>7}{:>7}{:>8}{:>10}{:>10}{:>10}{:>7}{:>7}",
        "update", "items", "E", "N", "rounds", "steps", "library", "Rust,", "Rust,", "ratio", "ratio"
    );
    println!("{:>79}{:>10}{:>10}{:>14}", "us", "bytes", "alone", "");
    print(&small(rng), 100);
    print(&tidy(rng, "tidy, to 7 sections, no search", 7, 500, |_, n| n == 0), 100);
    print(&tidy(rng, "tidy, to 7 sections, search", 7, 500, |_, n| n > 0), 100);
    print(&tidy(rng, "tidy, to 30 sections, no search", 30, 200, |_, n| n == 0), 100);
    print(&tidy(rng, "tidy, to 30 sections, search", 30, 200, |_, n| n > 0), 100);
    for e in [16, 64, 128, 256, 512] {
        print(&open_chain(rng, e), 50);
    }
    for e in [16, 64, 128, 256, 512] {
        print(&chain(rng, e), 50);
    }
    for e in [16, 64, 128, 256, 511] {
        print(&twin(rng, e), 50);
    }
    for e in [16, 64, 128, 256, 512] {
        print(&dense(rng, e), 50);
    }
    for depth in [10, 20, 40, 60] {
        print(&comb(rng, depth), 50);
    }
    for (name, nodes) in JOINS {
        print(&join(name, nodes), 50);
    }
}
