//! conversions there and back give the same bytes; where no train exceeds 65,535 a call over 16 bits, over 32 bits and
//! of the widened image agree; six digits change nothing but the numbers; and lists of wide calls match under renumbering,
//! over 1 to 999,999 where every image is wide, else over 1 to 65,535.

use super::{checks, report_of, updates, Failed};
use crate::demand3::{self, match_updates, Call, Renumbering};
use crate::gen::UpdateCase;
use crate::layout::*;
use crate::model::{self, Checked, Updated, Visit};
use crate::rng::Rng;
use crate::wide::{self, WideArgs, NARROW_TRAIN};
use crate::wide_calls::*;
use crate::yards::{CheckCase, Yard};

#[derive(Default)]
struct Wide {
    updates: u64,
    there_and_back: u64,
    back_and_there: u64,
    too_large: u64,
    agreed: u64,
    six: u64,
    checks: u64,
    lists: u64,
    lists_wide: u64,
    calls: u64,
    checks_matched: u64,
    failed: Failed,
}

fn converted(image: &[u8], to_wide: bool) -> Result<Vec<u8>, Refusal> {
    let t = laid_out(image)?;
    let mut out = vec![0xA5; size_of_image(t.est.len(), t.div_room, to_wide)];
    let convert = if to_wide { wide::widen } else { wide::narrow };
    convert(image, &mut out).map(|()| out)
}

fn over(image: &mut [u8], c: &UpdateCase, turn: &Turn) -> Updated {
    let moved = if c.moved == 0 { 0 } else { turn.train(c.moved as u32) };
    wide::update(image, &turn.all(&c.occ), &c.blocking, moved, c.local, c.limit)
}

impl Wide {
    /// An accepted image there and back, and one with six digits to the narrow width.
    fn conversions(&mut self, rng: &mut Rng, image: &[u8]) {
        let wide = converted(image, true).expect("an accepted image is widened");
        self.there_and_back += 1;
        self.failed.unless(
            "narrow after widen",
            converted(&wide, false).as_deref() == Ok(image),
            String::new,
        );
        self.failed.unless("a widened image is accepted", read_any(&wide, 4_000).is_ok(), String::new);
        let six = Turn::new(rng, 0, MOST_TRAIN).image(image, true);
        match converted(&six, false) {
            Ok(narrow) => {
                self.back_and_there += 1;
                self.failed.unless("widen after narrow", converted(&narrow, true) == Ok(six), String::new);
            }
            Err(r) => {
                self.too_large += 1;
                let large = laid_out(&six).is_ok_and(|t| t.div.iter().any(|d| d.train > NARROW_TRAIN));
                self.failed.unless("23 for a large train", r == refusal(23) && large, String::new);
            }
        }
    }

    fn update(&mut self, rng: &mut Rng, c: &UpdateCase) {
        self.updates += 1;
        let accepted = read_image(&c.image, 4_000).is_ok();
        if accepted {
            self.conversions(rng, &c.image);
        }
        let mut image = c.image.clone();
        let u = model::update(&mut image, &c.occ, &c.blocking, c.moved, c.local, c.limit);
        let (same, six) = (Turn::new(rng, u16::MAX as usize, MOST_TRAIN), Turn::new(rng, 0, MOST_TRAIN));
        let mut by32 = c.image.clone();
        let told = || format!("{u:?}");
        self.failed.unless("over 32 bits", over(&mut by32, c, &same) == u && by32 == image, told);
        if !accepted {
            return;
        }
        self.agreed += 1;
        let mut widened = converted(&c.image, true).expect("an accepted image");
        let after = same.image(&image, true);
        self.failed.unless("the widened image", over(&mut widened, c, &same) == u && widened == after, told);
        let mut large = six.image(&c.image, true);
        let turned = Updated { holder: six.train(u.holder), met: six.train(u.met), ..u };
        let (got, after) = (over(&mut large, c, &six), six.image(&image, true));
        self.six += 1;
        self.failed.unless("six digits", got == turned && large == after, || format!("{u:?} {got:?}"));
    }

    /// A narrow check over 16 and over 32 bits, and of the yard with every image widened.
    fn check(&mut self, c: &CheckCase) {
        if wide::Slots::read(&c.yard).is_ok_and(|slots| slots.any_wide) {
            // a damaged byte makes an image wide, and the report with it
            return;
        }
        let (mut yard, mut report) = (c.yard.clone(), report_of(&c.yard));
        let (checked, visits) = model::check_visits(&mut yard, &c.args(), &mut report);
        let occ: Vec<u32> = c.occ.iter().map(|&t| t as u32).collect();
        let a = wide::widened_args(&c.args(), &occ);
        let (mut by32, mut report32) = (c.yard.clone(), report_of(&c.yard));
        let (checked32, visits32) = wide::check_visits(&mut by32, &a, &mut report32);
        let same = (checked32, &visits32, &by32, &report32) == (checked, &visits, &yard, &report);
        self.failed.unless("a check over 32 bits", same, || format!("{checked:?} {checked32:?}"));
        self.checks += !matches!(checked, Checked::Refused(_)) as u64;
        let Ok(slots) = wide::Slots::read(&c.yard) else { return };
        let images: Vec<_> = slots.images.iter().map(|b| converted(b, true)).collect();
        let Ok(images) = images.into_iter().collect::<Result<Vec<_>, _>>() else { return };
        let mut wide_yard = yard_of(&images);
        let mut wide_report = vec![0; report_len(&wide_yard)];
        let (checked_wide, wide_visits) = wide::check_visits(&mut wide_yard, &a, &mut wide_report);
        let same = checked_wide == checked && wide_visits == visits;
        self.failed.unless("a check of the widened yard", same, || format!("{checked:?} {checked_wide:?}"));
        if matches!(checked, Checked::Refused(_)) {
            return;
        }
        for (i, visit) in visits.iter().enumerate() {
            self.failed.unless("a wide row", wide::row_at(&wide_report, i, true) == visit.row, String::new);
            self.failed.unless(
                "no holder in its old spot",
                u16_at(&wide_report, wide::WIDE_ROW * i + 6) == 0,
                String::new,
            );
        }
    }
}

// ---- demand 3 over lists of wide calls

#[derive(Debug, PartialEq)]
pub enum Answer {
    Marked(Result<(), Refusal>),
    Checked(Checked, Vec<Visit>),
}

fn start(rng: &mut Rng) -> Yard {
    let mut y = demand3::start(rng);
    if rng.chance(98) {
        y.occ[0] = 0;
    }
    y
}

pub fn wide_start(rng: &mut Rng) -> WideYard {
    let y = start(rng);
    let (yard, occ) = widened_yard(rng, &y.yard, &y.occ);
    WideYard { table: y.table, occ, yard }
}

/// A yard of narrow images.
pub fn narrow_start(rng: &mut Rng) -> WideYard {
    let y = start(rng);
    WideYard { table: y.table, occ: y.occ.iter().map(|&train| train as u32).collect(), yard: y.yard }
}

/// A call of the narrow lists, its trains above the slots up to six digits or somewhat above.
pub fn wide_call(rng: &mut Rng, y: &WideYard) -> (Call, u32) {
    let slots = read_yard(&y.yard).expect("a yard that is accepted").len() as u32;
    let about = demand3::About { l: y.occ.len(), s: slots as usize, held: &|i| y.occ[i] != 0 };
    let call = demand3::call_about(rng, &about);
    let train = match call {
        Call::Mark { train, .. } if train as u32 > slots => {
            let far = rng.from(slots as usize + 1, 999_999) as u32;
            rng.pick(&[train as u32, far, far, y.occ[y.occ.len() - 1], 1_000_000])
        }
        Call::Mark { train, .. } => train as u32,
        Call::Check { moved, .. } => moved as u32,
    };
    (call, train)
}

pub fn run_wide(y: &mut WideYard, c: &Call, train: u32) -> Answer {
    match c {
        Call::Mark { link, .. } => Answer::Marked(wide::mark(&y.table, &mut y.occ, *link, train)),
        Call::Check { blocking, begin, local, limit, .. } => {
            let mut report = vec![0; report_len(&y.yard)];
            let (begin, local, limit) = (*begin, *local, *limit);
            let a = WideArgs { occ: &y.occ, blocking, moved: train, begin, local, limit };
            let (checked, visits) = wide::check_visits(&mut y.yard, &a, &mut report);
            Answer::Checked(checked, visits)
        }
    }
}

pub fn renumbered(rng: &mut Rng, r: &Renumbering, c: &Call) -> Call {
    match c {
        Call::Mark { link, .. } => Call::Mark { link: r.link(*link), train: 0 },
        Call::Check { blocking, begin, local, limit, report, .. } => {
            let mut blocking: Vec<u32> = blocking.iter().map(|&b| r.link(b)).collect();
            rng.shuffle(&mut blocking);
            Call::Check { blocking, moved: 0, begin: *begin, local: *local, limit: *limit, report: *report }
        }
    }
}

pub fn match_answers(r: &Renumbering, a: &Answer, b: &Answer) -> bool {
    let (Answer::Checked(x, visits), Answer::Checked(y, others)) = (a, b) else { return a == b };
    let same = match (x, y) {
        (Checked::Done { deadlock: p, .. }, Checked::Done { deadlock: q, .. }) => p == q,
        _ => x == y,
    };
    same && visits.iter().enumerate().all(|(i, v)| {
        let other = &others[r.train(i as u32 + 1) as usize - 1];
        let row = model::Row { holder: r.train(v.row.holder), met: r.train(v.row.met), ..v.row };
        row == other.row && match_updates(r, &v.updated, &other.updated)
    })
}

pub fn match_states(r: &Renumbering, a: &WideYard, b: &WideYard) -> bool {
    let mut occ = vec![0; a.occ.len()];
    a.occ.iter().enumerate().for_each(|(i, &t)| occ[r.link(i as u32) as usize] = r.train(t));
    occ == b.occ && yard_of(&r.images(&a.yard, a.occ.len())) == b.yard
}

pub fn renumbered_yard(r: &Renumbering, y: &WideYard) -> WideYard {
    let mut occ = vec![0; y.occ.len()];
    y.occ.iter().enumerate().for_each(|(i, &t)| occ[r.link(i as u32) as usize] = r.train(t));
    WideYard { table: r.table(&y.table), occ, yard: yard_of(&r.images(&y.yard, y.occ.len())) }
}

/// Begin 1, entry 0 empty, no strays, as in demand 3.
pub fn premises_met(c: &Call, a: &Answer, occ: &[u32]) -> bool {
    let (Call::Check { begin, .. }, Answer::Checked(x, visits)) = (c, a) else { return true };
    let strays = visits.iter().any(|v| v.row.strays != 0);
    matches!(x, Checked::Refused(_)) || *begin == 1 && occ[0] == 0 && !strays
}

impl Wide {
    fn list(&mut self, rng: &mut Rng) {
        let mut first = wide_start(rng);
        let slots = wide::Slots::read(&first.yard).expect("a yard that is accepted");
        let r = Renumbering::new(rng, first.occ.len(), slots.images.len(), slots.top());
        let mut second = renumbered_yard(&r, &first);
        self.lists += 1;
        self.lists_wide += slots.all_wide as u64;
        for _ in 0..rng.from(1, 6) {
            let before = first.occ.clone();
            let (call, train) = wide_call(rng, &first);
            let other = renumbered(rng, &r, &call);
            let a = run_wide(&mut first, &call, train);
            let b = run_wide(&mut second, &other, r.train(train));
            if !premises_met(&call, &a, &before) {
                return;
            }
            self.calls += 1;
            self.checks_matched +=
                matches!(&a, Answer::Checked(x, _) if !matches!(x, Checked::Refused(_))) as u64;
            let same = match_answers(&r, &a, &b) && match_states(&r, &first, &second);
            self.failed.unless("a list under renumbering", same, || format!("{call:?} {a:?} {b:?}"));
            // a mark beyond the top of a mixed yard is done and leaves an occupancy that its checks refuse by 22
            if !same {
                return;
            }
        }
    }
}

/// So many updates; after every eighth a check and a list.
pub fn run(seed: u64, count: u64) -> bool {
    let (mut rng, mut w) = (Rng::new(seed), Wide::default());
    while w.updates < count {
        for c in updates(&mut rng) {
            w.update(&mut rng, &c);
        }
        if rng.below(4) == 0 {
            w.check(&checks(&mut rng));
            w.list(&mut rng);
        }
    }
    println!(
        "updates {}, over 16, over 32 bits and widened {}, with six digits {}",
        w.updates, w.agreed, w.six
    );
    println!(
        "narrow after widen {}, widen after narrow {}, 23 {}",
        w.there_and_back, w.back_and_there, w.too_large
    );
    println!("checks not refused {}", w.checks);
    println!(
        "lists {}, all wide {}, calls {}, of them checks {}",
        w.lists, w.lists_wide, w.calls, w.checks_matched
    );
    w.failed.print()
}
