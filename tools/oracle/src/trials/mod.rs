//! Trials at scale of what the change requests claim, over random calls: what was met is counted, and each claim that fails.

pub mod candidate;
pub mod carry;
mod game;
mod holder;
pub mod index;
mod met;
pub mod replay;
mod steps;
mod undo;
pub mod wide;

use crate::calls;
use crate::gen::*;
use crate::layout::*;
use crate::model::ROW;
use crate::rng::Rng;
use crate::yards::*;

/// The requests with their trials, each of which takes a seed and a number of calls and is true where every claim held.
const TRIALS: &[(&str, fn(u64, u64) -> bool)] = &[
    ("Q-2", replay::run),
    ("Q-3", holder::run),
    ("Q-5", undo::run),
    ("Q-6", wide::run),
    ("Q-7", carry::run),
    ("Q-9", steps::run),
    ("Q-10", index::run),
    ("Q-11", candidate::run),
    ("Q-12", game::run),
    ("Q-14", met::run),
];

/// None where there is no trial of this name.
pub fn run(request: &str, seed: u64, count: u64) -> Option<bool> {
    TRIALS.iter().find(|(name, _)| *name == request).map(|(_, run)| run(seed, count))
}

pub fn names() -> Vec<&'static str> {
    TRIALS.iter().map(|(name, _)| *name).collect()
}

/// Claims that failed; the first of them is printed.
#[derive(Default)]
struct Failed(u64);

impl Failed {
    fn unless(&mut self, claim: &str, holds: bool, of: impl FnOnce() -> String) {
        if !holds {
            if self.0 == 0 {
                println!("failed: {claim}: {}", of());
            }
            self.0 += 1;
        }
    }

    /// The last line of a trial.
    fn print(&self) -> bool {
        println!("claims that failed: {}", self.0);
        self.0 == 0
    }
}

/// The largest share of a bound that was met.
#[derive(Default)]
struct Share(u64, u64);

impl Share {
    fn see(&mut self, n: u64, bound: u64) {
        if n as u128 * self.1.max(1) as u128 > self.0 as u128 * bound as u128 {
            *self = Share(n, bound);
        }
    }
}

impl std::fmt::Display for Share {
    fn fmt(&self, f: &mut std::fmt::Formatter) -> std::fmt::Result {
        write!(f, "{} of {}, {:.1}%", self.0, self.1, 100.0 * self.0 as f64 / self.1.max(1) as f64)
    }
}

/// Some updates, one after the other, of every generator; most are small.
fn updates(rng: &mut Rng) -> Vec<UpdateCase> {
    match rng.below(400) {
        0 => {
            let (sections, trains) = (rng.from(1, 7), rng.from(1, 4));
            tidy_run(rng, sections, trains, 20).iter().flat_map(CheckCase::slots).collect()
        }
        1..=3 => vec![large_update(rng)],
        4 => vec![large_update(rng).changed(rng)],
        5 => vec![long_update(rng)],
        6..=60 => changed_updates(rng),
        61..=230 => vec![odd_update(rng)],
        231..=290 => vec![twin_update(rng)],
        291..=330 => vec![views_update(rng)],
        331..=370 => vec![calls::dense(rng)],
        371..=390 => vec![odd_update(rng).damaged(rng)],
        _ => {
            let mut c = odd_update(rng);
            calls::wrong_arguments(rng, &mut c);
            vec![c]
        }
    }
}

/// The same odd train some times, changed between, with other trains about.
fn changed_updates(rng: &mut Rng) -> Vec<UpdateCase> {
    let mut c = odd_update(rng);
    (0..rng.from(2, 5))
        .map(|_| {
            let before = c.clone();
            c.image = before.clone().changed(rng).image;
            c.others_move(rng);
            before
        })
        .collect()
}

/// A check of a few odd trains, of a tidy run, or of up to 63 trains.
fn checks(rng: &mut Rng) -> CheckCase {
    match rng.below(40) {
        0..=9 => {
            let (sections, trains, moves) = (rng.from(1, 6), rng.from(1, 4), rng.from(1, 25));
            tidy_run(rng, sections, trains, moves).pop().unwrap_or_else(|| odd_check(rng))
        }
        10 => {
            let (slots, l) = (rng.from(20, 63), rng.pick(&[24, 60]));
            let y = odd_yard(rng, slots, 14, l);
            let c = odd_check(rng);
            let blocking = y.train(1).map_or(vec![], |t| odd_blocking(rng, &t, &y.occ));
            CheckCase { yard: y.yard, occ: y.occ, blocking, moved: rng.from(1, slots) as u16, begin: 1, ..c }
        }
        11 => damaged_check(rng).0,
        _ => odd_check(rng),
    }
}

/// A report of the right length for a yard, or none where it has no slots to count.
fn report_of(yard: &[u8]) -> Vec<u8> {
    vec![0xA5; read_yard(yard).map_or(0, |parts| ROW * parts.len())]
}
