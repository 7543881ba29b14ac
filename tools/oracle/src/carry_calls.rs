//! Random sittings that are carried to the end, as cases with answers: steps, with marks, releases and half checks between them. Beside
//! these stand calls on damaged buffers, with a wrong count or lengths, which change nothing for those after them.

use crate::carry::wide_offsets;
use crate::cases::*;
use crate::demand3::{self, About, Call};
use crate::gen::damaged;
use crate::layout::*;
use crate::rng::Rng;
use crate::trials::carry::wide_size;
use crate::wide::{WideArgs, WIDE_ROW};
use crate::wide_calls::{beside_top, damaged_wide};
use crate::yards::{damaged_yard, many_trains};

/// A sitting of which so many slots are carried.
#[derive(Clone)]
struct Sitting {
    table: Vec<u8>,
    yard: Vec<u8>,
    occ: Vec<u16>,
    second: Vec<u8>,
    wide_occ: Vec<u32>,
    count: u32,
    slots: usize,
}

/// What a half check is told besides.
struct Told {
    blocking: Vec<u32>,
    moved: u32,
    begin: u32,
    local: bool,
    limit: u16,
    report: usize,
}

impl Sitting {
    fn start(rng: &mut Rng) -> Sitting {
        let mut y = demand3::start(rng);
        while y.slots() == 1 && rng.chance(80) {
            y = demand3::start(rng);
        }
        if rng.below(200) == 0 {
            y = many_trains(rng);
        }
        let second = (0..wide_size(&y.yard)).map(|_| rng.below(256) as u8).collect();
        let wide_occ = y.occ.iter().map(|_| rng.next() as u32).collect();
        let slots = y.slots();
        Sitting { table: y.table, yard: y.yard, occ: y.occ, second, wide_occ, count: 0, slots }
    }

    fn carry(&self) -> Case {
        Case::carry(&self.yard, &self.occ, self.count, &self.second, &self.wide_occ).answered()
    }

    fn half_check(&self, t: &Told) -> Case {
        let Told { blocking, moved, begin, local, limit, report } = t;
        let (begin, local, limit) = (*begin, *local, *limit);
        let a = WideArgs { occ: &self.wide_occ, blocking, moved: *moved, begin, local, limit };
        Case::half_check(&self.yard, &self.second, self.count, &a, &vec![0xA5; *report]).answered()
    }

    fn some_call(&self, rng: &mut Rng) -> Call {
        let held = |i: usize| self.wide_occ[i] != 0;
        demand3::call_about(rng, &About { l: self.occ.len(), s: self.slots, held: &held })
    }

    fn some_check(&self, rng: &mut Rng) -> Told {
        loop {
            let call = self.some_call(rng);
            if let Some(told) = self.told(rng, call) {
                return told;
            }
        }
    }

    /// Half of the limits that are 0 stay so.
    fn told(&self, rng: &mut Rng, call: Call) -> Option<Told> {
        let Call::Check { blocking, moved, begin, local, limit, .. } = call else { return None };
        let limit = if rng.chance(50) { limit.max(1) } else { limit };
        Some(Told { blocking, moved: moved as u32, begin, local, limit, report: WIDE_ROW * self.slots })
    }

    /// A step, which is done.
    fn step(&mut self) -> Case {
        let case = self.carry();
        (self.second, self.wide_occ) = (case.outs[0].clone(), u32s(&case.outs[1]));
        self.count += 1;
        case
    }

    /// A mark, a release or a half check between two steps. After a mark by a train of six digits 22 refuses the half checks.
    fn call(&mut self, rng: &mut Rng) -> Case {
        let call = self.some_call(rng);
        if let Call::Mark { link, train } = call {
            let train = if rng.chance(2) { beside_top(rng) } else { train as u32 };
            let case = Case::wide_mark(&self.table, &self.wide_occ, link, train).answered();
            self.wide_occ = u32s(&case.outs[0]);
            return case;
        }
        let told = self.told(rng, call).expect("a check");
        let case = self.half_check(&told);
        (self.yard, self.second) = case.both_yards(&case.outs[0]);
        case
    }

    /// A slot, counted from 0, of those that are carried, or of those that are not.
    fn some_slot(&self, rng: &mut Rng, carried: bool) -> Option<usize> {
        let count = self.count as usize;
        let (from, to) = if carried { (0, count.min(self.slots)) } else { (count, self.slots) };
        (from < to).then(|| rng.from(from, to - 1))
    }

    /// Damages the yards, the count or an occupancy.
    fn damage(&mut self, rng: &mut Rng) {
        let (slots, parts) = (self.slots as u32, read_yard(&self.yard).unwrap_or_default());
        let offsets = wide_offsets(&self.yard, &parts);
        let in_second = |slot: usize| offsets[slot] as usize..offsets[slot + 1] as usize;
        let whole = !parts.is_empty() && self.second.len() as u64 == offsets[parts.len()];
        let (carried, left) = (self.some_slot(rng, true), self.some_slot(rng, false));
        match (rng.below(15), carried.filter(|_| whole), left.filter(|_| !parts.is_empty())) {
            (0, ..) => self.count = rng.pick(&[0, slots, slots + 1, u32::MAX]),
            (1, ..) => self.count = rng.pick(&[self.count.wrapping_sub(1), self.count.wrapping_add(1)]),
            (2, ..) => {
                let n = self.second.len();
                self.second.resize(rng.pick(&[0, n.saturating_sub(1), n + 1, self.yard.len()]), 0);
            }
            (3, Some(slot), _) => {
                let at = in_second(slot).start + rng.pick(&[32, 33, 42]);
                self.second[at] ^= rng.pick(&[1, 2]);
            }
            (4, Some(_), Some(slot)) => {
                let part = in_second(slot);
                let within = part.start + rng.below(part.len());
                let at = rng.pick(&[part.start, within, part.end - 1]);
                self.second[at] = 1;
            }
            (5, Some(_), _) => {
                let at = rng.below(8 + 4 * self.slots);
                self.second[at] ^= 1 << rng.below(8);
            }
            (6, Some(slot), _) => {
                // an image that is refused, though the count is not belied
                let part = in_second(slot);
                let mut b = damaged_wide(rng, &self.second[part.clone()]);
                if b.len() == part.len() {
                    b[32..34].copy_from_slice(&self.second[part.start + 32..part.start + 34]);
                    b[WIDE] = 1;
                    self.second[part].copy_from_slice(&b);
                }
            }
            (7, Some(slot), _) => {
                // what the first buffer still has of a carried slot
                let part = parts[slot].clone();
                let within = rng.below(part.len());
                let at = part.start + rng.pick(&[0, 16, 42, within]);
                self.yard[at] ^= 1 << rng.below(8);
            }
            (8 | 9, _, Some(slot)) => {
                let part = parts[slot].clone();
                let mut b = damaged(rng, &self.yard[part.clone()], self.occ.len().max(1));
                if b.len() == part.len() {
                    put_u16(&mut b, 32, slot as u16 + 1);
                    self.yard[part].copy_from_slice(&b);
                }
            }
            (10, _, Some(slot)) => self.yard[parts[slot].start + WIDE] = 1,
            (11, _, Some(slot)) => {
                // an est record whose next is itself
                let (e, at) =
                    (u32_at(&self.yard, parts[slot].start + 4) as usize, parts[slot].start + HEADER);
                let i = rng.below(e.clamp(1, parts[slot].len() / (2 * RECORD)));
                put_u32(&mut self.yard, at + RECORD * i + 8, i as u32);
            }
            (12, ..) if !parts.is_empty() => {
                let way = rng.below(3);
                damaged_yard(rng, &mut self.yard, way);
            }
            (13, ..) => self.wide_occ.resize(rng.pick(&[0, 1, self.occ.len() + 1, 4_000, 4_001]), 0),
            _ => {
                let l = rng.pick(&[0, 1, self.occ.len() + 1, 4_001]);
                self.occ.resize(l, 0);
                if rng.chance(50) {
                    self.wide_occ.resize(l, 0);
                }
            }
        }
    }

    /// A step or a half check with one thing or more damaged.
    fn damaged(&self, rng: &mut Rng) -> Case {
        let (mut other, mut told) = (self.clone(), self.some_check(rng));
        (0..rng.pick(&[1, 1, 1, 2])).for_each(|_| other.damage(rng));
        if rng.chance(50) {
            return other.carry();
        }
        if rng.chance(40) {
            told.damage(rng, &mut other);
        }
        other.half_check(&told)
    }

    /// A half check with its own arguments damaged alone.
    fn wrong_check(&self, rng: &mut Rng) -> Case {
        let (mut other, mut told) = (self.clone(), self.some_check(rng));
        (0..rng.pick(&[1, 1, 2])).for_each(|_| told.damage(rng, &mut other));
        other.half_check(&told)
    }
}

impl Told {
    fn damage(&mut self, rng: &mut Rng, s: &mut Sitting) {
        let l = s.wide_occ.len();
        match rng.below(7) {
            0 => self.blocking.push(rng.pick(&[l as u32, u32::MAX])),
            1 => self.limit = 0,
            2 => self.moved = rng.pick(&[0, s.slots as u32 + 1, 65_536, u32::MAX]),
            3 => self.begin = rng.pick(&[0, s.slots as u32 + 2, 65_535]),
            4 => self.report = rng.pick(&[0, self.report + 1, 20 * s.slots]),
            5 if l > 0 => s.wide_occ[rng.below(l)] = rng.pick(&[65_535, 65_536, 999_999, 1_000_000]),
            _ => s.wide_occ.resize(rng.pick(&[0, 1, 4_001]), 0),
        }
    }
}

/// A sitting of S steps, and a check of the yard that is left, which is wide.
pub fn sitting(rng: &mut Rng) -> Vec<Case> {
    let (mut s, mut cases) = (Sitting::start(rng), vec![]);
    while (s.count as usize) < s.slots {
        let between = if s.count == 0 { 0 } else { rng.from(1, 6) };
        cases.extend((0..between).map(|_| s.call(rng)));
        if rng.chance(40) {
            cases.push(s.damaged(rng));
        }
        if s.count > 0 && rng.chance(15) {
            cases.push(s.wrong_check(rng));
        }
        cases.push(s.step());
    }
    if rng.chance(10) {
        cases.push(s.damaged(rng));
    }
    let told = s.some_check(rng);
    let Told { blocking, moved, begin, local, limit, report } = &told;
    let a =
        WideArgs { occ: &s.wide_occ, blocking, moved: *moved, begin: *begin, local: *local, limit: *limit };
    cases.push(Case::wide_check(&s.second, &a, &vec![0xA5; *report]).answered());
    cases
}

/// One call of such a sitting.
pub fn any(rng: &mut Rng) -> Case {
    let mut cases = sitting(rng);
    cases.swap_remove(rng.below(cases.len()))
}
