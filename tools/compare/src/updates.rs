//! Updates of every generator of the oracle, one after the other.

use oracle::cases::Case;
use oracle::gen::{self, UpdateCase};
use oracle::rng::Rng;
use oracle::yards::{tidy_run, CheckCase};
use oracle::{calls, model};
use Source::*;

/// Where an update comes from, for the counts.
#[derive(Clone, Copy, Debug, PartialEq, Eq, PartialOrd, Ord)]
pub enum Source {
    Mix,
    Odd,
    Changed,
    Twin,
    Views,
    Dense,
    Damaged,
    Tidy,
    Comb,
    Deposit,
    Long,
    Large,
}

pub struct Updates {
    rng: Rng,
    waiting: Vec<(Source, Case)>,
}

impl Updates {
    pub fn new(rng: Rng) -> Updates {
        Updates { rng, waiting: vec![] }
    }

    /// The next update and its source. Most are small.
    pub fn next(&mut self) -> (Source, Case) {
        while self.waiting.is_empty() {
            match self.rng.below(1_000) {
                0 => self.tidy(),
                1..=150 => self.odd_steps(),
                _ => self.small(),
            }
        }
        self.waiting.pop().expect("a case")
    }

    /// The next large update and its source.
    pub fn next_large(&mut self) -> (Source, Case) {
        let rng = &mut self.rng;
        let (source, c) = match rng.below(10) {
            0..=1 => {
                let (depth, q) = (rng.from(50, 66), rng.pick(&[40, 80, 1_024]));
                let stored = rng.pick(&[0, 0, 5]);
                (Comb, gen::comb(rng, depth, q, stored))
            }
            2..=3 => {
                let stored = rng.pick(&[1, 20, 500, 1_020, 1_021, 1_022]);
                let q = (stored + rng.from(2, 6)).min(1_024);
                (Deposit, gen::deposit(rng, stored, q))
            }
            4 => (Long, gen::long_update(rng)),
            5 => (Damaged, gen::large_update(rng).damaged(rng)),
            6 => (Changed, gen::large_update(rng).changed(rng)),
            _ => (Large, gen::large_update(rng)),
        };
        (source, calls::of_update(&c))
    }

    fn push(&mut self, source: Source, c: &UpdateCase) {
        self.waiting.push((source, calls::of_update(c)));
    }

    fn small(&mut self) {
        let rng = &mut self.rng;
        let (source, c) = match rng.below(100) {
            0..=39 => {
                let case = calls::update(rng);
                return self.waiting.push((Mix, case));
            }
            40..=54 => (Odd, gen::odd_update(rng)),
            55..=69 => (Twin, gen::twin_update(rng)),
            70..=79 => (Views, gen::views_update(rng)),
            80..=89 => (Dense, calls::dense(rng)),
            _ => {
                let c = if rng.chance(50) { gen::twin_update(rng) } else { calls::dense(rng) };
                (Damaged, c.damaged(rng))
            }
        };
        self.push(source, &c);
    }

    /// An odd train updated some times, changed between, with other trains about.
    fn odd_steps(&mut self) {
        let mut c = gen::odd_update(&mut self.rng);
        for _ in 0..self.rng.from(2, 5) {
            self.push(Changed, &c);
            model::update(&mut c.image, &c.occ, &c.blocking, c.moved, c.local, c.limit);
            c = c.changed(&mut self.rng);
            c.others_move(&mut self.rng);
        }
    }

    /// The slots of the checks of a tidy run, each updated alone, as it is and changed.
    fn tidy(&mut self) {
        for c in tidy_checks(&mut self.rng, 7) {
            for mut u in c.slots() {
                self.push(Tidy, &u);
                for _ in 0..2 {
                    u = u.changed(&mut self.rng);
                    self.push(Tidy, &u);
                }
            }
        }
    }
}

/// An update of a chain of e nodes with nothing held.
pub fn open_chain(rng: &mut Rng, e: usize) -> UpdateCase {
    let mut c = gen::chain_update(rng, e - 1, false);
    c.occ[1] = 0;
    c
}

/// The checks of a run of a tidy yard with at most so many sections.
pub fn tidy_checks(rng: &mut Rng, most: usize) -> Vec<CheckCase> {
    let (sections, trains) = (rng.from(1, most), rng.from(1, 4));
    tidy_run(rng, sections, trains, 30)
}
