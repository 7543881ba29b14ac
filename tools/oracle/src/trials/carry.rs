//! a sitting goes on while it is carried. Beside it the same calls are made over the all-narrow yard: a half-carried check gives
//! its numbers in the wide report, every image keeps its bytes but for the width, and after S steps no narrow image is left.

use super::Failed;
use crate::carry::{carry, check_half};
use crate::demand3::{self, Call, ALL};
use crate::layout::*;
use crate::model::{self, CheckArgs, Checked};
use crate::rng::Rng;
use crate::wide::{self, WideArgs, NARROW_TRAIN, WIDE_ROW};
use crate::yards::Yard;

#[derive(Default)]
struct Sittings {
    sittings: u64,
    steps: u64,
    marks: u64,
    half_checks: u64,
    half_refused: u64,
    belied: u64,
    stopped: u64,
    failed: Failed,
}

/// A sitting that is carried, and the same sitting all narrow.
struct Sitting {
    narrow: Yard,
    yard: Vec<u8>,
    second: Vec<u8>,
    occ: Vec<u32>,
    count: u32,
}

/// The image in the narrow width; none where it is not laid out as one, or has a train that does not fit.
pub fn narrowed(image: &[u8]) -> Option<Vec<u8>> {
    let t = laid_out(image).ok().filter(|t| t.div.iter().all(|d| d.train <= NARROW_TRAIN))?;
    Some(image_of(&Train { wide: false, ..t }))
}

/// The size of the second buffer, from the images.
pub fn wide_size(yard: &[u8]) -> usize {
    let parts = read_yard(yard).expect("a yard");
    let images = parts.iter().map(|p| p.len() + 4 * u32_at(yard, p.start + 16) as usize);
    8 + 4 * parts.len() + images.sum::<usize>()
}

impl Sittings {
    fn sitting(&mut self, rng: &mut Rng) {
        let narrow = demand3::start(rng);
        let size = wide_size(&narrow.yard);
        let mut s = Sitting {
            yard: narrow.yard.clone(),
            second: (0..size).map(|_| rng.below(256) as u8).collect(),
            occ: vec![7; narrow.occ.len()],
            count: 0,
            narrow,
        };
        let slots = s.narrow.slots() as u32;
        self.sittings += 1;
        while s.count < slots {
            if s.count > 0 {
                for _ in 0..rng.below(4) {
                    self.call(rng, &mut s);
                }
            }
            if rng.chance(15) {
                self.belied(rng, &s);
            }
            self.step(&mut s);
        }
        let parts = read_yard(&s.second).expect("a carried yard passes 14");
        let all_wide = parts.iter().all(|p| is_wide(&s.second[p.clone()]));
        self.failed.unless("no narrow image is left", all_wide && parts.len() == slots as usize, String::new);
        self.compare(&s, "at the end");
    }

    fn step(&mut self, s: &mut Sitting) {
        let (before, occ_before) = (s.second.clone(), s.occ.clone());
        // after the first step the first buffer's occupancy is not read any more
        let done = carry(&s.yard, &s.narrow.occ, s.count, &mut s.second, &mut s.occ);
        self.failed.unless("a step is done", done.is_ok(), || format!("{done:?}"));
        if s.count > 0 {
            let only = (0..before.len()).filter(|&i| before[i] != s.second[i]).all(|i| {
                let part = read_part(&s.second, s.count as usize);
                part.contains(&i)
            });
            self.failed.unless("a later step writes one part", only && s.occ == occ_before, String::new);
        }
        s.count += 1;
        self.steps += 1;
        self.compare(s, "after a step");
    }

    /// Each slot is that of the all-narrow yard, in its width and its buffer.
    fn compare(&mut self, s: &Sitting, when: &str) {
        let parts = read_yard(&s.narrow.yard).expect("a yard");
        let same = parts.iter().enumerate().all(|(i, p)| {
            if i < s.count as usize {
                narrowed(&s.second[read_part(&s.second, i)]).as_deref() == Some(&s.narrow.yard[p.clone()])
            } else {
                s.yard[p.clone()] == s.narrow.yard[p.clone()]
            }
        });
        let occ: Vec<u32> = s.narrow.occ.iter().map(|&t| t as u32).collect();
        self.failed.unless("the sitting is the narrow one", same && occ == s.occ, || when.to_string());
    }

    fn call(&mut self, rng: &mut Rng, s: &mut Sitting) {
        match demand3::call_of(rng, &s.narrow, &ALL) {
            Call::Mark { link, train } => {
                let one = model::mark(&s.narrow.table, &mut s.narrow.occ, link, train);
                let other = wide::mark(&s.narrow.table, &mut s.occ, link, train as u32);
                self.marks += 1;
                self.failed.unless("a mark between steps", one == other, || format!("{one:?} {other:?}"));
            }
            Call::Check { blocking, moved, begin, local, limit, .. } => {
                let slots = s.narrow.slots();
                let mut report = vec![0; model::ROW * slots];
                let a = CheckArgs { occ: &s.narrow.occ, blocking: &blocking, moved, begin, local, limit };
                let (checked, visits) = model::check_visits(&mut s.narrow.yard, &a, &mut report);
                let mut wide_report = vec![0; WIDE_ROW * slots];
                let a =
                    WideArgs { occ: &s.occ, blocking: &blocking, moved: moved as u32, begin, local, limit };
                let half = check_half(&mut s.yard, &mut s.second, s.count, &a, &mut wide_report);
                let rows =
                    visits.iter().enumerate().all(|(i, v)| wide::row_at(&wide_report, i, true) == v.row);
                self.failed
                    .unless("a half check", half == checked && rows, || format!("{checked:?} {half:?}"));
                self.half_checks += !matches!(checked, Checked::Refused(_)) as u64;
                self.half_refused += matches!(checked, Checked::Refused(_)) as u64;
            }
        }
        self.compare(s, "after a call");
    }

    /// A wrong count, a second buffer that belies it, an image that stops the carrying: refused, and nothing is written.
    fn belied(&mut self, rng: &mut Rng, s: &Sitting) {
        let (mut yard, mut second, mut count) = (s.yard.clone(), s.second.clone(), s.count);
        let slots = s.narrow.slots();
        let mut number = 24;
        match rng.below(6) {
            0 => count = rng.pick(&[slots as u32, slots as u32 + 1, u32::MAX]),
            1 => second.push(0),
            2 if count > 0 => {
                let carried = read_part(&second, rng.below(count as usize));
                let at = carried.start + rng.pick(&[32, 33, 42]);
                second[at] ^= 2;
            }
            3 if count > 0 => {
                let zero = read_part(&second, rng.from(count as usize, slots - 1));
                let at = zero.start + rng.below(zero.len());
                second[at] = 1;
            }
            4 if count > 0 => second[rng.below(8 + 4 * slots)] ^= 1,
            _ => {
                let part = read_yard(&yard).expect("a yard")[rng.from(count as usize, slots - 1)].clone();
                yard[part.start + WIDE + rng.below(6)] = 1;
                number = 6;
            }
        }
        let (was, mut occ) = (second.clone(), s.occ.clone());
        let done = carry(&yard, &s.narrow.occ, count, &mut second, &mut occ);
        self.belied += (number == 24) as u64;
        self.stopped += (number == 6) as u64;
        let kept = second == was && occ == s.occ;
        self.failed.unless("refused as it should be", done == Err(refusal(number)) && kept, || {
            format!("{number} {done:?}")
        });
        if number == 24 && count > 0 {
            let a = WideArgs { occ: &s.occ, blocking: &[], moved: 1, begin: 1, local: false, limit: 1 };
            let checked = check_half(&mut yard, &mut second, count, &a, &mut []);
            self.failed.unless("24 of a half check", checked == Checked::Refused(refusal(24)), || {
                format!("{checked:?}")
            });
        }
    }
}

/// The part of a slot, counted from 0, by the offsets of a buffer's header.
fn read_part(yard: &[u8], slot: usize) -> std::ops::Range<usize> {
    let at = |i: usize| u32_at(yard, 8 + 4 * i) as usize;
    let end = if slot + 1 < u32_at(yard, 4) as usize { at(slot + 1) } else { yard.len() };
    at(slot)..end
}

pub fn run(seed: u64, count: u64) -> bool {
    let (mut rng, mut s) = (Rng::new(seed), Sittings::default());
    while s.sittings < count {
        s.sitting(&mut rng);
    }
    println!("sittings {}, steps {}, marks between them {}", s.sittings, s.steps, s.marks);
    println!("half checks {}, refused as the narrow ones {}", s.half_checks, s.half_refused);
    println!("counts and buffers refused by 24: {}, carrying stopped by an image: {}", s.belied, s.stopped);
    s.failed.print()
}
