//! a replay leaves the yard, the occupancy and the refusals of making the calls one by one; a malformed recording is
//! refused by 19 and changes nothing.

use super::Failed;
use crate::demand3::{self, Call, BEGIN};
use crate::layout::*;
use crate::replay::{call, read, recording_of, replay, Step};
use crate::rng::Rng;
use crate::yards::Yard;
use std::collections::BTreeMap;

#[derive(Default)]
struct Replays {
    recordings: u64,
    steps: u64,
    /// Steps by the number of their refusal, 0 for none.
    numbers: BTreeMap<u16, u64>,
    changed: u64,
    damaged: u64,
    damaged_played: u64,
    failed: Failed,
}

fn step_of(c: &Call) -> Step {
    match c {
        Call::Mark { link, train } => Step::Mark { link: *link, train: *train },
        Call::Check { blocking, moved, begin, local, limit, .. } => {
            let (moved, begin, limit, local) = (*moved, *begin as u16, *limit, *local);
            Step::Check { blocking: blocking.clone(), moved, begin, limit, local }
        }
    }
}

impl Replays {
    fn recording(&mut self, rng: &mut Rng) {
        let start = damaged_start(rng);
        let mut one = start.clone();
        let (mut steps, mut should) = (vec![], vec![]);
        for _ in 0..rng.below(9) {
            let s = if rng.chance(97) { step_of(&call_for(rng, &one)) } else { odd(rng) };
            should.push(call(&s, &one.table, &mut one.yard, &mut one.occ));
            steps.push(s);
        }
        let recording = recording_of(&steps);
        self.failed.unless("read as recorded", read(&recording).as_ref() == Some(&steps), String::new);
        let (mut yard, mut occ) = (start.yard.clone(), start.occ.clone());
        let mut list = vec![0xA5A5; steps.len()];
        let done = replay(&recording, &start.table, &mut yard, &mut occ, &mut list);
        let same = done.is_ok() && yard == one.yard && occ == one.occ && list == should;
        self.failed.unless("the calls one by one", same, || format!("{list:?} {should:?}"));
        self.recordings += 1;
        self.steps += steps.len() as u64;
        self.changed += (yard != start.yard) as u64;
        should.iter().for_each(|&n| *self.numbers.entry(n).or_default() += 1);
        for _ in 0..3 {
            self.damage(rng, &recording, &start, steps.len());
        }
    }

    /// A damaged recording is played just where it is the recording of what is read in it, but for where links lie.
    fn damage(&mut self, rng: &mut Rng, recording: &[u8], y: &Yard, n: usize) {
        let (b, room) = damaged(rng, recording, n);
        let (mut yard, mut occ, mut list) = (y.yard.clone(), y.occ.clone(), vec![0xA5A5; room]);
        let done = replay(&b, &y.table, &mut yard, &mut occ, &mut list);
        self.damaged += 1;
        self.damaged_played += done.is_ok() as u64;
        let kept = yard == y.yard && occ == y.occ && list.iter().all(|&n| n == 0xA5A5);
        self.failed.unless(
            "19 changes nothing",
            done.is_ok() || done == Err(refusal(19)) && kept,
            String::new,
        );
        if let (Ok(()), Some(steps)) = (done, read(&b)) {
            // written anew it is as long as its steps and their links, and plays the same
            let again = recording_of(&steps);
            let (mut yard2, mut occ2, mut list2) = (y.yard.clone(), y.occ.clone(), vec![0; room]);
            let played = replay(&again, &y.table, &mut yard2, &mut occ2, &mut list2);
            let same = played.is_ok() && (yard, occ, list) == (yard2, occ2, list2);
            self.failed.unless("written anew", same, String::new);
        }
    }
}

/// A recording of n steps damaged, and how long a list is lent to it.
fn damaged(rng: &mut Rng, recording: &[u8], n: usize) -> (Vec<u8>, usize) {
    let mut b = recording.to_vec();
    let mut room = n;
    match rng.below(5) {
        0 => put_u32(&mut b, 4 * rng.below(3), rng.pick(&[0, 1, n as u32 + 1, u32::MAX, 1 << 30])),
        1 => b.truncate(rng.below(b.len())),
        2 if n > 0 => {
            let at = 12 + 20 * rng.below(n);
            let field = rng.below(7);
            let value = rng.pick(&[0, 1, 2, 65_535]);
            if field < 3 {
                put_u32(&mut b, at + 4 * field, rng.pick(&[value, u32::MAX]));
            } else {
                put_u16(&mut b, at + 12 + 2 * (field - 3), value as u16);
            }
        }
        3 => room += rng.pick(&[1, 2]),
        _ => b.push(0),
    }
    (b, room)
}

/// A yard, a recording for it, some of them damaged, and how long a list is lent to it.
pub fn some_recording(rng: &mut Rng) -> (Yard, Vec<u8>, usize) {
    let start = damaged_start(rng);
    let (mut now, mut steps) = (start.clone(), vec![]);
    for _ in 0..rng.below(9) {
        let s = if rng.chance(97) { step_of(&call_for(rng, &now)) } else { odd(rng) };
        call(&s, &now.table, &mut now.yard, &mut now.occ);
        steps.push(s);
    }
    let recording = recording_of(&steps);
    if rng.chance(33) {
        let (b, room) = damaged(rng, &recording, steps.len());
        return (start, b, room);
    }
    (start, recording, steps.len())
}

/// A yard, some with a header, a table or an occupancy that is refused.
fn damaged_start(rng: &mut Rng) -> Yard {
    let mut y = demand3::start(rng);
    match rng.below(40) {
        0 => y.yard[4] ^= BROKEN,
        1 => y.table[4] ^= BROKEN,
        2 => y.occ.push(0),
        3 => y.occ.truncate(1),
        _ => {}
    }
    y
}

/// What is changed in the number of slots or links to break a header.
const BROKEN: u8 = 64;

/// A call for a yard; for one with a broken header as if it were whole.
fn call_for(rng: &mut Rng, y: &Yard) -> Call {
    let mut whole = y.clone();
    if read_yard(&whole.yard).is_none() {
        whole.yard[4] ^= BROKEN;
    }
    whole.occ.resize(whole.occ.len().max(2), 0);
    demand3::call_of(rng, &whole, &BEGIN)
}

/// A step with numbers at the ends of their fields.
fn odd(rng: &mut Rng) -> Step {
    if rng.chance(50) {
        return Step::Mark { link: rng.pick(&[0, 1, u32::MAX]), train: rng.pick(&[0, 1, u16::MAX]) };
    }
    let number = |rng: &mut Rng| rng.pick(&[0, 1, 2, u16::MAX]);
    let blocking = vec![rng.pick(&[0, 1, u32::MAX]); rng.pick(&[0, 1, 4_001])];
    let (moved, begin, limit) = (number(rng), number(rng), number(rng));
    Step::Check { blocking, moved, begin, limit, local: rng.chance(50) }
}

pub fn run(seed: u64, count: u64) -> bool {
    let (mut rng, mut r) = (Rng::new(seed), Replays::default());
    while r.recordings < count {
        r.recording(&mut rng);
    }
    println!("recordings {}, steps {}, yards changed {}", r.recordings, r.steps, r.changed);
    for (number, n) in &r.numbers {
        println!("steps {} {number}: {n}", if *number == 0 { "done, not refused" } else { "refused" });
    }
    println!("damaged recordings {}, played all the same {}", r.damaged, r.damaged_played);
    r.failed.print()
}
