//! in every update that ends Blocked the view last given is that of the rewind, line 437, and its first train is a train.
//! The holder is also found without the hooks at the four lines: by the est node that is blocked last.

use super::{updates, Failed};
use crate::gen::UpdateCase;
use crate::hook;
use crate::layout::{read_image, Train};
use crate::model::{self, Outcome};
use crate::rng::Rng;
use std::collections::BTreeMap;

#[derive(Default)]
struct Holders {
    updates: u64,
    blocked: u64,
    /// Blocked updates by the line that gave the last view.
    lines: BTreeMap<u32, u64>,
    others: u64,
    failed: Failed,
}

impl Holders {
    fn update(&mut self, c: &UpdateCase) {
        let u = model::update(&mut c.image.clone(), &c.occ, &c.blocking, c.moved, c.local, c.limit);
        let told = || format!("{u:?}");
        self.updates += 1;
        if u.outcome != Outcome::Blocked {
            self.failed.unless("only a blocked train is held", u.holder == 0, told);
            return;
        }
        self.blocked += 1;
        let line = hook::state().given.map_or(0, |(line, _)| line);
        *self.lines.entry(line).or_default() += 1;
        self.failed.unless("the rewind gives the last view", line == 437, told);
        self.failed.unless("a holder is a train", u.holder != 0, told);
        self.failed.unless(
            "the last node's view is the last given",
            u.holder == hook::state().last_blocked as u32,
            told,
        );
        self.others += (u.holder != c.moved as u32) as u64;
        self.failed.unless("a holder is about", known(c, u.holder), told);
    }
}

/// Does this train hold a link, or stand among the diverge nodes of the image?
fn known(c: &UpdateCase, train: u32) -> bool {
    let stored = |t: Train| t.div.iter().any(|d| d.train == train);
    c.occ.iter().any(|&t| t as u32 == train) || read_image(&c.image, c.occ.len()).is_ok_and(stored)
}

pub fn run(seed: u64, count: u64) -> bool {
    let (mut rng, mut h) = (Rng::new(seed), Holders::default());
    while h.updates < count {
        updates(&mut rng).iter().for_each(|c| h.update(c));
    }
    println!("updates {}, blocked {}", h.updates, h.blocked);
    println!("held by another than the moved train {}", h.others);
    for (line, n) in &h.lines {
        println!("last view given at line {line}: {n}");
    }
    h.failed.print()
}
