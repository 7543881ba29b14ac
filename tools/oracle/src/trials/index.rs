//! after a layout, a check or an undo a right index is the one built afresh, and of a wrong one just the bits of the slots
//! whose bytes changed are mended. The fresh bits are also read from the path records by hand.

use super::wide::{wide_call, wide_start};
use super::Failed;
use crate::calls;
use crate::demand3::Call;
use crate::index::{self, Order};
use crate::layout::*;
use crate::model::{self, Checked};
use crate::rng::Rng;
use crate::undo;
use crate::wide::{self, WideArgs};
use crate::wide_calls::{report_len, WideYard};

#[derive(Default)]
struct Indexes {
    lists: u64,
    calls: u64,
    undone: u64,
    changed: u64,
    kept: u64,
    layouts: u64,
    laid: u64,
    refused_layouts: u64,
    failed: Failed,
}

/// The links at which the path of an image arrives, by the bytes of its path records; none where it is refused.
pub fn links(b: &[u8], l: usize) -> Vec<usize> {
    if read_any(b, l).is_err() {
        return vec![];
    }
    let (e, n) = (u32_at(b, 4) as usize, u32_at(b, 8) as usize);
    let path = b[path_offset(e)..].chunks(RECORD).take(n);
    path.filter(|r| r[26] == ARRIVE).map(|r| u32_at(r, 16) as usize).collect()
}

/// Bit t of link x: the image of slot t is accepted and its path arrives at the link.
pub fn fresh(yard: &[u8], l: usize) -> Vec<u64> {
    let mut bits = vec![0; l];
    for (i, part) in read_yard(yard).expect("a yard").into_iter().enumerate() {
        links(&yard[part], l).into_iter().for_each(|x| bits[x] |= 2u64 << i);
    }
    bits
}

/// For each slot its part of the yard.
fn parts(yard: &[u8]) -> Vec<Vec<u8>> {
    read_yard(yard).expect("a yard").into_iter().map(|p| yard[p].to_vec()).collect()
}

impl Indexes {
    /// A right index and a wrong one beside the same list of calls.
    fn list(&mut self, rng: &mut Rng) {
        let mut y = wide_start(rng);
        let l = y.occ.len();
        if rng.chance(10) {
            // a slot that is refused sets no bits
            let part = read_yard(&y.yard).expect("a yard")[0].clone();
            y.yard[part.start + 43] = 1;
        }
        let mut right = vec![rng.next(); l];
        let built = index::build(&y.yard, &mut right);
        self.failed.unless("an index built", built.is_ok() && right == fresh(&y.yard, l), String::new);
        let mut wrong: Vec<u64> =
            right.iter().map(|x| x ^ if rng.chance(30) { rng.next() } else { 0 }).collect();
        let mut records: Vec<Vec<u8>> = vec![];
        self.lists += 1;
        for _ in 0..rng.from(1, 6) {
            let (before, was) = (parts(&y.yard), wrong.clone());
            if !records.is_empty() && rng.chance(30) {
                let k = rng.below(records.len());
                let (mut yard, mut plain) = (y.yard.clone(), y.yard.clone());
                let done = index::undo(&mut yard, &records[k], &mut right);
                let again = index::undo(&mut y.yard, &records[k], &mut wrong);
                let same = done == again && done == undo::undo(&mut plain, &records[k]) && plain == y.yard;
                self.failed.unless("an undo beside an index", same, || format!("{done:?} {again:?}"));
                self.undone += done.is_ok() as u64;
            } else {
                self.call(rng, &mut y, &mut right, &mut wrong, &mut records);
            }
            self.calls += 1;
            self.compare(&y, &before, &was, &right, &wrong);
        }
    }

    fn call(
        &mut self,
        rng: &mut Rng,
        y: &mut WideYard,
        right: &mut [u64],
        wrong: &mut [u64],
        records: &mut Vec<Vec<u8>>,
    ) {
        let (call, train) = wide_call(rng, y);
        let Call::Check { blocking, begin, local, limit, .. } = call else {
            return;
        };
        let WideYard { occ, yard, .. } = y;
        let a = WideArgs { occ, blocking: &blocking, moved: train, begin, local, limit };
        let len = report_len(yard);
        let (mut plain, mut first) = (yard.clone(), yard.clone());
        let (mut report, mut beside) = (vec![0; len], vec![0; len]);
        let checked = wide::check(&mut plain, &a, &mut report);
        let mut record = vec![0; undo::RECORD_HEADER + 2 * yard.len()];
        let one = index::check_wide(&mut first, &a, &mut beside, right);
        let other = index::check_recorded_wide(yard, &a, &mut beside, &mut record, wrong);
        let same = one == checked && other == checked && *yard == plain && first == plain && report == beside;
        self.failed.unless("a check beside an index", same, || format!("{checked:?} {one:?} {other:?}"));
        if !matches!(checked, Checked::Refused(_)) {
            records.push(record);
        }
    }

    fn compare(&mut self, y: &WideYard, before: &[Vec<u8>], was: &[u64], right: &[u64], wrong: &[u64]) {
        let (after, fresh) = (parts(&y.yard), fresh(&y.yard, y.occ.len()));
        self.failed.unless("a right index stays right", *right == fresh, String::new);
        let mut changed = 0u64;
        for (i, (a, b)) in before.iter().zip(&after).enumerate() {
            changed |= ((a != b) as u64) << (i + 1);
        }
        self.changed += changed.count_ones() as u64;
        self.kept += (after.len() as u32 - changed.count_ones()) as u64;
        let mended = |x: usize| was[x] & !changed | fresh[x] & changed;
        let same = (0..wrong.len()).all(|x| wrong[x] == mended(x));
        self.failed.unless("of a wrong index just the changed slots", same, String::new);
    }

    fn lay_out(&mut self, rng: &mut Rng) {
        let c = calls::lay_out(rng);
        let a = c.args;
        let train = if rng.chance(90) { (a[0] % 64) as u16 } else { rng.pick(&[63, 64, 65_535]) };
        let o = Order { train, search: c.float(3), fixed_max: c.float(5), room: a[1], links: a[2] };
        let l = if rng.chance(8) { rng.pick(&[0, 1, 59, 61, 4_001]) } else { (a[2] as usize).min(5_000) };
        let mut index: Vec<u64> = (0..l).map(|_| rng.next()).collect();
        let (was, mut image, mut plain) = (index.clone(), c.ins[1].clone(), c.ins[1].clone());
        let done = index::lay_out(&c.ins[0], &o, &mut image, &mut index);
        let alone = model::lay_out(&c.ins[0], train, o.search, o.fixed_max, o.room, o.links, &mut plain);
        let should = match alone {
            _ if train == 0 || train > 63 => Err(refusal(5)),
            Err(r) if r.number == 6 => alone,
            _ if l != o.links as usize => Err(refusal(25)),
            _ => alone,
        };
        self.layouts += 1;
        self.failed.unless("a layout beside an index", done == should, || format!("{done:?} {should:?}"));
        if done.is_err() {
            self.refused_layouts += 1;
            self.failed.unless(
                "a refused layout changes nothing",
                image == c.ins[1] && index == was,
                String::new,
            );
            return;
        }
        self.laid += 1;
        let bit = 1u64 << train;
        let path = links(&image, l);
        let right = (0..l).all(|x| index[x] == was[x] & !bit | if path.contains(&x) { bit } else { 0 });
        self.failed.unless("the bits of the laid out train", right && image == plain, String::new);
    }
}

pub fn run(seed: u64, count: u64) -> bool {
    let (mut rng, mut x) = (Rng::new(seed), Indexes::default());
    while x.lists < count {
        x.list(&mut rng);
        x.lay_out(&mut rng);
    }
    println!("lists {}, calls {}, undone {}", x.lists, x.calls, x.undone);
    println!("slots changed {}, not changed {}", x.changed, x.kept);
    println!("layouts {}, done {}, refused {}", x.layouts, x.laid, x.refused_layouts);
    x.failed.print()
}
