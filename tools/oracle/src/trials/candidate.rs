//! two yards over one table that agree on the candidate's image and on which of its Arrive links are taken give the same
//! views and the same refusals, whatever else differs: S, the other slots, offsets, who holds a link, all other links. A mark
//! keeps the agreement; a release need not.

use super::wide::wide_start;
use super::Failed;
use crate::candidate::{act, view};
use crate::layout::*;
use crate::rng::Rng;
use crate::wide_calls::{damaged_wide, WideYard};
use std::collections::BTreeMap;

#[derive(Default)]
struct Candidates {
    pairs: u64,
    views: u64,
    acts: u64,
    refused: BTreeMap<u8, u64>,
    marks_agree: u64,
    releases_agree: u64,
    releases_part: u64,
    failed: Failed,
}

/// The Arrive links of an image, if it is accepted.
pub fn arrive_links(image: &[u8], l: usize) -> Vec<u32> {
    let path = read_any(image, l).map_or(vec![], |t| t.path);
    path.iter().filter(|x| x.kind == ARRIVE).map(|x| x.link).collect()
}

pub fn images(yard: &[u8]) -> Vec<Vec<u8>> {
    read_yard(yard).expect("a yard").into_iter().map(|p| yard[p].to_vec()).collect()
}

/// Another yard that agrees with this one on the slot's image and on which of its links are taken.
pub fn other(rng: &mut Rng, y: &WideYard, slot: usize) -> WideYard {
    let mine = &images(&y.yard)[slot - 1];
    let mut theirs = images(&wide_start(rng).yard);
    while theirs.len() < slot || rng.chance(30) && theirs.len() < 60 {
        let mut image = theirs[rng.below(theirs.len())].clone();
        put_u16(&mut image, 32, theirs.len() as u16 + 1);
        theirs.push(image);
    }
    theirs[slot - 1] = mine.clone();
    let seen = arrive_links(mine, y.occ.len());
    let occ = (0..y.occ.len())
        .map(|i| {
            let (held, any) = (y.occ[i] != 0, rng.from(1, 999_999) as u32);
            match (seen.contains(&(i as u32)), rng.chance(50)) {
                (true, _) if held => any,
                (true, _) => 0,
                (false, true) => any,
                (false, false) => 0,
            }
        })
        .collect();
    WideYard { table: y.table.clone(), occ, yard: yard_of(&theirs) }
}

/// A sitting of a candidate, and their slot: of a part of the sittings an image, the table, the occupancy, the header of the
/// yard or the slot is damaged.
pub fn some_sitting(rng: &mut Rng) -> (WideYard, u16) {
    let mut y = wide_start(rng);
    let mut parts = images(&y.yard);
    let mut slot = rng.from(1, parts.len()) as u16;
    if rng.chance(25) {
        // mostly the candidate's own image
        let i = if rng.chance(70) { slot as usize - 1 } else { rng.below(parts.len()) };
        parts[i] = damaged_wide(rng, &parts[i]);
        y.yard = yard_of(&parts);
    }
    let (l, at) = (y.occ.len(), rng.below(y.occ.len()));
    match rng.below(40) {
        0 => {
            let word = 4 * rng.below(y.table.len() / 4);
            put_u32(&mut y.table, word, rng.pick(&[0, 1, l as u32, 4_097, u32::MAX]));
        }
        1 => y.table.truncate(rng.below(y.table.len())),
        2 => y.occ.resize(rng.pick(&[0, l - 1, l + 1]), 0),
        3 | 4 => y.occ[at] = rng.pick(&[65_536, 999_999, 1_000_000, u32::MAX]),
        5 => put_u32(&mut y.yard, 4 * rng.below(3), rng.pick(&[0, 1, 64, u32::MAX])),
        6 => y.yard.truncate(rng.below(y.yard.len())),
        7 | 8 => slot = rng.pick(&[0, parts.len() as u16 + 1, 64, u16::MAX]),
        _ => {}
    }
    (y, slot)
}

/// The image of a candidate's slot, where the yard has one that can be found.
fn image_of_slot(y: &WideYard, slot: u16) -> Vec<u8> {
    let part = read_yard(&y.yard).and_then(|p| p.get((slot as usize).wrapping_sub(1)).cloned());
    part.map_or(vec![], |p| y.yard[p].to_vec())
}

/// A node of the candidate's path, or one beyond it.
pub fn some_node(rng: &mut Rng, y: &WideYard, slot: u16) -> u32 {
    let image = image_of_slot(y, slot);
    let nodes = if image.len() < HEADER { 1 } else { u32_at(&image, 8).clamp(1, 512) };
    match rng.below(8) {
        0 => rng.pick(&[nodes, u32::MAX]),
        _ => rng.below(nodes as usize) as u32,
    }
}

/// A link at which the candidate's path arrives, or another.
pub fn some_link(rng: &mut Rng, y: &WideYard, slot: u16) -> u32 {
    let l = y.occ.len() as u32;
    match arrive_links(&image_of_slot(y, slot), y.occ.len()) {
        links if !links.is_empty() && rng.chance(75) => rng.pick(&links),
        _ => rng.pick(&[0, 1, l.wrapping_sub(1), l, u32::MAX]),
    }
}

pub fn agree(a: &WideYard, b: &WideYard, links: &[u32]) -> bool {
    links.iter().all(|&x| (a.occ[x as usize] != 0) == (b.occ[x as usize] != 0))
}

impl Candidates {
    fn pair(&mut self, rng: &mut Rng) {
        let mut a = wide_start(rng);
        let slots = images(&a.yard).len();
        let slot = rng.from(1, slots);
        if rng.chance(8) {
            // the candidate's own image is refused
            let part = read_yard(&a.yard).expect("a yard")[slot - 1].clone();
            a.yard[part.start + 43] = 1;
        }
        let mut b = other(rng, &a, slot);
        let l = a.occ.len();
        let links = arrive_links(&images(&a.yard)[slot - 1], l);
        let nodes = u32_at(&images(&a.yard)[slot - 1], 8);
        self.pairs += 1;
        for _ in 0..4 {
            let node = match rng.below(8) {
                0 => rng.pick(&[nodes, u32::MAX]),
                _ => rng.below(nodes as usize) as u32,
            };
            let (x, y) = (
                view(&a.table, &a.occ, &a.yard, slot as u16, node),
                view(&b.table, &b.occ, &b.yard, slot as u16, node),
            );
            self.views += 1;
            self.count(x.map(|_| ()));
            self.failed.unless("the same view", x == y, || format!("{x:?} {y:?}"));
        }
        for _ in 0..4 {
            let listed = !links.is_empty() && rng.chance(75);
            let link =
                if listed { rng.pick(&links) } else { rng.pick(&[0, 1, l as u32 - 1, l as u32, u32::MAX]) };
            let marks = rng.chance(50);
            let agreed = agree(&a, &b, &links);
            let x = act(&a.table, &mut a.occ, &a.yard, slot as u16, link, marks);
            let y = act(&b.table, &mut b.occ, &b.yard, slot as u16, link, marks);
            self.acts += 1;
            self.count(x);
            self.failed.unless("the same refusal", x == y, || format!("{x:?} {y:?}"));
            if !agreed || x.is_err() {
                continue;
            }
            let still = agree(&a, &b, &links);
            match marks {
                true => {
                    self.marks_agree += 1;
                    self.failed.unless("a mark keeps the agreement", still, String::new);
                }
                false if still => self.releases_agree += 1,
                false => self.releases_part += 1,
            }
        }
        self.wrong(rng, &a);
    }

    /// The order of refusals: faults put in one after the other from the last to the first.
    fn wrong(&mut self, rng: &mut Rng, y: &WideYard) {
        let (mut table, mut occ, mut yard) = (y.table.clone(), y.occ.clone(), y.yard.clone());
        let asked = |table: &[u8], occ: &[u32], yard: &[u8], slot| {
            let seen = view(table, occ, yard, slot, u32::MAX).map(|_| ());
            let done = act(table, &mut occ.to_vec(), yard, slot, u32::MAX, true);
            (seen, done)
        };
        let mut expect = |number, got| {
            let both = (Err(refusal(number)), Err(refusal(number)));
            self.failed.unless("the order of refusals", got == both, || format!("{number} {got:?}"));
        };
        expect(26, asked(&table, &occ, &yard, rng.pick(&[0, 64, u16::MAX])));
        yard[4] ^= 64;
        expect(14, asked(&table, &occ, &yard, 0));
        let at = rng.below(occ.len());
        occ[at] = 1_000_000;
        expect(22, asked(&table, &occ, &yard, 0));
        occ.push(0);
        expect(2, asked(&table, &occ, &yard, 0));
        table.pop();
        expect(1, asked(&table, &occ, &yard, 0));
    }

    fn count(&mut self, r: Result<(), Refusal>) {
        *self.refused.entry(r.err().map_or(0, |r| r.number)).or_default() += 1;
    }
}

pub fn run(seed: u64, count: u64) -> bool {
    let (mut rng, mut c) = (Rng::new(seed), Candidates::default());
    while c.pairs < count {
        c.pair(&mut rng);
    }
    println!("pairs of yards {}, views {}, acts {}", c.pairs, c.views, c.acts);
    for (number, n) in &c.refused {
        println!("{} {number}: {n}", if *number == 0 { "done, not refused" } else { "refused" });
    }
    println!("marks that keep the agreement {}", c.marks_agree);
    println!("releases that keep it {}, that do not {}", c.releases_agree, c.releases_part);
    c.failed.print()
}
