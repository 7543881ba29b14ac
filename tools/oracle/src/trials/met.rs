//! the train met is also found by a walk of its own over the starting path, from document 01's words on the classes:
//! the first node from the split on, before the straighten point, that the class stops at.

use super::{updates, Failed};
use crate::gen::UpdateCase;
use crate::hook;
use crate::layout::*;
use crate::model::{self, Outcome};
use crate::rng::Rng;

#[derive(Default)]
struct Met {
    updates: u64,
    stored: u64,
    searched: u64,
    met: u64,
    others: u64,
    /// A Single that stops at its empty link.
    empty: u64,
    /// A Check that stops at a node which is no Arrive, since entry 0 is held.
    at_no_arrive: u64,
    failed: Failed,
}

/// Where the class of a blocking list stops.
enum Class {
    None,
    Single(u32),
    Range(u32, u32),
    Check,
}

/// Over the listed links that are on the path, repeats counted.
fn class(t: &Train, blocking: &[u32]) -> Class {
    let on_path = |b: &u32| t.path.iter().any(|x| x.kind == ARRIVE && x.link == *b);
    let listed: Vec<u32> = blocking.iter().copied().filter(on_path).collect();
    match (listed.len(), listed.iter().min(), listed.iter().max()) {
        (1, Some(&link), _) => Class::Single(link),
        (_, Some(&low), Some(&high)) if high - low <= 16 => Class::Range(low, high - low),
        (_, Some(_), _) => Class::Check,
        _ => Class::None,
    }
}

/// The node at which the first round's search stops; none where none runs or it goes on to the straighten point.
fn meeting(t: &Train, c: &UpdateCase) -> Option<usize> {
    let (n, class) = (t.path.len(), class(t, &c.blocking));
    if n == 1 || matches!(class, Class::None) {
        return None;
    }
    // the first diverge node of the moved train; the last one, at N, is made one
    let last = t.div.len() - 1;
    let straighten = (1..=last)
        .find(|&i| i == last || t.div[i].train == c.moved as u32)
        .map(|i| t.div[i].node as usize)?;
    let from = 1.max((t.free as usize).min(straighten));
    (from..straighten).find(|&i| {
        let link = if t.path[i].kind == ARRIVE { t.path[i].link } else { 0 };
        let held = c.occ[link as usize] != 0;
        match class {
            Class::Single(x) => link == x,
            Class::Range(low, span) => link >= low && link - low <= span && held,
            Class::Check => held,
            Class::None => false,
        }
    })
}

impl Met {
    fn update(&mut self, c: &UpdateCase) {
        let u = model::update(&mut c.image.clone(), &c.occ, &c.blocking, c.moved, c.local, c.limit);
        let told = || format!("{u:?}");
        self.updates += 1;
        if matches!(u.outcome, Outcome::Refused(_)) {
            self.failed.unless("a refused update met nobody", u.met == 0, told);
            return;
        }
        self.stored += 1;
        self.searched += hook::state().met.is_some() as u64;
        let t = read_image(&c.image, c.occ.len()).expect("an accepted image");
        let at = meeting(&t, c);
        let link = |i: usize| if t.path[i].kind == ARRIVE { t.path[i].link as usize } else { 0 };
        let train = at.map_or(0, |i| c.occ[link(i)]);
        self.failed.unless("the walk meets the same train", train as u32 == u.met, told);
        self.met += (u.met != 0) as u64;
        self.others += (u.met != 0 && u.met != c.moved as u32) as u64;
        self.empty += at.is_some_and(|i| c.occ[link(i)] == 0) as u64;
        self.at_no_arrive += at.is_some_and(|i| t.path[i].kind != ARRIVE) as u64;
    }
}

pub fn run(seed: u64, count: u64) -> bool {
    let (mut rng, mut m) = (Rng::new(seed), Met::default());
    while m.updates < count {
        updates(&mut rng).iter().for_each(|c| m.update(c));
    }
    println!(
        "updates {}, not refused {}, with a search in the first round {}",
        m.updates, m.stored, m.searched
    );
    println!("met a train {}, another than the moved one {}", m.met, m.others);
    println!("stopped at an empty link {}, at a node that is no Arrive {}", m.empty, m.at_no_arrive);
    m.failed.print()
}
