//! the closer against the dispatcher, over one train.

use crate::layout::*;
use crate::model::{self, Outcome};
use crate::wide;

/// What the closer and the dispatcher play over, besides the image.
#[derive(Clone, Copy, Debug)]
pub struct Game<'a> {
    pub occ: &'a [u32],
    pub moved: u32,
    pub local: bool,
    pub limit: u16,
    pub links: &'a [u32],
    pub turns: u32,
}

pub const MOST_LINKS: usize = 8;
pub const MOST_TURNS: u32 = 6;

/// 2, 5, 6, 22, 7, 22, 8, 9, 10 of an update with no blocking list, then 28.
fn refused(image: &[u8], g: &Game) -> Result<(), Refusal> {
    model::arguments(g.occ.len(), &[], g.moved, g.limit)?;
    let t = laid_out(image)?;
    let top = if t.wide { MOST_TRAIN } else { wide::NARROW_TRAIN };
    if g.moved > top || g.occ.iter().any(|&n| n > top) {
        return Err(refusal(22));
    }
    judged(&t, g.occ.len())?;
    if t.free as usize == t.path.len() {
        return Err(refusal(10));
    }
    let wrong = |&x: &u32| x == 0 || x as usize >= g.occ.len();
    let repeated = (1..g.links.len()).any(|i| g.links[..i].contains(&g.links[i]));
    let many = g.links.len() > MOST_LINKS || g.turns > MOST_TURNS;
    if many || repeated || g.links.iter().any(wrong) {
        return Err(refusal(28));
    }
    Ok(())
}

/// Does the train end Blocked with these links closed? Link i of the list is closed where bit i is set.
pub fn blocked(image: &[u8], g: &Game, closed: usize) -> bool {
    let list: Vec<u32> = (0..g.links.len()).filter(|i| closed >> i & 1 == 1).map(|i| g.links[i]).collect();
    let mut occ = g.occ.to_vec();
    list.iter().for_each(|&x| occ[x as usize] = g.moved);
    wide::update(&mut image.to_vec(), &occ, &list, g.moved, g.local, g.limit).outcome == Outcome::Blocked
}

/// The sets of at most two of n links.
pub fn closings(n: usize) -> Vec<usize> {
    let one = (0..n).map(|i| 1 << i);
    let two = (0..n).flat_map(|i| (0..i).map(move |j| 1 << i | 1 << j));
    std::iter::once(0).chain(one).chain(two).collect()
}

/// What the dispatcher may make of the closed links: all stay, or one is opened.
fn openings(closed: usize) -> impl Iterator<Item = usize> {
    let one = (0..MOST_LINKS).filter(move |i| closed >> i & 1 == 1).map(move |i| closed & !(1 << i));
    std::iter::once(closed).chain(one)
}

/// Can the closer force it from these closed links with so many turns left?
fn forces(closed: usize, turns: u32, n: usize, won: &[bool]) -> bool {
    if turns == 0 {
        return won[closed];
    }
    closings(n).iter().any(|c| openings(closed | c).all(|left| forces(left, turns - 1, n, won)))
}

/// The verdicts of all positions, one turn earlier at a time: `forces` without asking a position twice.
fn verdicts(turns: u32, n: usize, won: Vec<bool>) -> Vec<bool> {
    (0..turns).fold(won, |later, _| {
        (0..1 << n)
            .map(|closed| closings(n).iter().any(|c| openings(closed | c).all(|left| later[left])))
            .collect()
    })
}

pub fn closer_can_force(image: &[u8], g: &Game) -> Result<bool, Refusal> {
    refused(image, g)?;
    let n = g.links.len();
    let won = (0..1 << n).map(|closed| blocked(image, g, closed)).collect();
    Ok(verdicts(g.turns, n, won)[0])
}

/// The same by recursion from the start, for small games.
pub fn by_recursion(image: &[u8], g: &Game) -> bool {
    let n = g.links.len();
    let won: Vec<bool> = (0..1 << n).map(|closed| blocked(image, g, closed)).collect();
    forces(0, g.turns, n, &won)
}
