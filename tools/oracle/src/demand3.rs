//! A fuzz of demand 3: lists of calls over a yard and over the same yard with
//! links and trains renumbered, compared as document 01's Matching says.

use crate::cases::Case;
use crate::gen::odd_blocking;
use crate::layout::*;
use crate::model::{self, CheckArgs, Checked, Outcome, Updated, Visit};
use crate::rng::Rng;
use crate::yards::*;
use std::fmt::Write;

/// Which premises are asked of a check that is not refused.
#[derive(Clone, Copy)]
pub struct Premises {
    pub begin: bool,
    pub entry_zero: bool,
    pub strays: bool,
}

pub const ALL: Premises = Premises { begin: true, entry_zero: true, strays: true };
pub const BEGIN: Premises = Premises { begin: true, entry_zero: false, strays: false };

/// Links permuted within 1 to L - 1; trains 1 to S among themselves, the others turned round up to the largest train.
pub struct Renumbering {
    pub links: Vec<u32>,
    pub slots: Vec<u32>,
    turn: u32,
    top: u32,
}

impl Renumbering {
    pub fn new(rng: &mut Rng, l: usize, s: usize, top: u32) -> Self {
        let mut links: Vec<u32> = (0..l as u32).collect();
        let mut slots: Vec<u32> = (0..=s as u32).collect();
        match rng.below(3) {
            0 => {
                let (a, b) = (rng.from(1, l - 1), rng.from(1, l - 1));
                links.swap(a, b);
            }
            _ => rng.shuffle(&mut links[1..]),
        }
        if rng.chance(70) {
            rng.shuffle(&mut slots[1..]);
        }
        let turn = if rng.chance(50) { 0 } else { rng.below(top as usize - s) as u32 };
        Renumbering { links, slots, turn, top }
    }
    pub fn link(&self, n: u32) -> u32 {
        self.links.get(n as usize).copied().unwrap_or(n)
    }
    /// A number above the largest train stays itself.
    pub fn train(&self, n: u32) -> u32 {
        let s = self.slots.len() as u32 - 1;
        match self.slots.get(n as usize) {
            Some(&m) => m,
            None if n > self.top => n,
            None => s + 1 + (n - s - 1 + self.turn) % (self.top - s),
        }
    }
    fn narrow(&self, n: u16) -> u16 {
        u16::try_from(self.train(n as u32)).expect("a train of 16 bits")
    }

    pub fn table(&self, table: &[u8]) -> Vec<u8> {
        let old = read_table(table).unwrap();
        let mut new = vec![LinkRecord::default(); old.len()];
        for (i, x) in old.iter().enumerate() {
            new[self.link(i as u32) as usize] = LinkRecord {
                flip: self.link(x.flip),
                lockouts: x.lockouts.iter().map(|&y| self.link(y)).collect(),
            };
        }
        table_of(&new)
    }

    fn occupancy(&self, occ: &[u16]) -> Vec<u16> {
        let mut new = vec![0; occ.len()];
        for (i, &t) in occ.iter().enumerate() {
            new[self.link(i as u32) as usize] = self.narrow(t);
        }
        new
    }

    fn image(&self, image: &[u8], l: usize) -> Vec<u8> {
        let mut t = read_any(image, l).expect("an accepted yard stays accepted");
        t.train = self.narrow(t.train);
        t.est.iter_mut().for_each(|x| x.link = self.link(x.link));
        t.path.iter_mut().for_each(|x| x.link = self.link(x.link));
        t.div.iter_mut().for_each(|d| d.train = self.train(d.train));
        image_of(&t)
    }

    /// The images of the renumbered yard, by slot.
    pub fn images(&self, yard: &[u8], l: usize) -> Vec<Vec<u8>> {
        let parts = read_yard(yard).unwrap();
        let mut images = vec![vec![]; parts.len()];
        for (i, part) in parts.into_iter().enumerate() {
            images[self.train(i as u32 + 1) as usize - 1] = self.image(&yard[part], l);
        }
        images
    }

    fn yard(&self, y: &Yard) -> Yard {
        Yard {
            table: self.table(&y.table),
            occ: self.occupancy(&y.occ),
            yard: yard_of(&self.images(&y.yard, y.occ.len())),
        }
    }
}

#[derive(Clone, Debug)]
pub enum Call {
    Mark { link: u32, train: u16 },
    Check { blocking: Vec<u32>, moved: u16, begin: u32, local: bool, limit: u16, report: usize },
}

impl Call {
    /// The call as a case of a list.
    pub fn case(&self) -> Case {
        match self {
            Call::Mark { link, train } => Case::mark(&[], &[], *link, *train),
            Call::Check { blocking, moved, begin, local, limit, report } => {
                let (moved, begin, local, limit) = (*moved, *begin, *local, *limit);
                let args = CheckArgs { occ: &[], blocking, moved, begin, local, limit };
                Case::check(&[], &args, &vec![0xA5; *report])
            }
        }
    }
}

/// What a call is made for: the number of links and slots, which links are held, and blocking links of a train.
pub struct About<'a> {
    pub l: usize,
    pub s: usize,
    pub held: &'a dyn Fn(usize) -> bool,
}

/// A call for a yard of any width: the blocking links are those held and some others.
pub fn call_about(rng: &mut Rng, y: &About) -> Call {
    call_with(rng, y, &ALL, |_| vec![])
}

pub fn call_of(rng: &mut Rng, y: &Yard, premises: &Premises) -> Call {
    let (l, s) = (y.occ.len(), y.slots());
    let about = About { l, s, held: &|i| y.occ[i] != 0 };
    call_with(rng, &about, premises, |rng| {
        y.train(rng.from(1, s)).map_or(vec![], |t| odd_blocking(rng, &t, &y.occ))
    })
}

fn call_with(rng: &mut Rng, y: &About, premises: &Premises, of_train: impl Fn(&mut Rng) -> Vec<u32>) -> Call {
    let (l, s) = (y.l, y.s);
    if rng.chance(55) {
        let link = if rng.chance(3) { rng.pick(&[0, l as u32, u32::MAX]) } else { rng.from(1, l - 1) as u32 };
        let train = match rng.below(10) {
            0..=3 => 0,
            4..=8 => rng.from(1, s + 2) as u16,
            _ => rng.from(1, 65_535) as u16,
        };
        return Call::Mark { link, train };
    }
    let mut blocking: Vec<u32> = match rng.below(10) {
        0 => of_train(rng),
        1 if !premises.strays => vec![],
        _ => (1..l as u32).filter(|&i| (y.held)(i as usize)).collect(),
    };
    for _ in 0..rng.pick(&[0, 0, 1, 2]) {
        blocking.push(rng.below(l) as u32);
    }
    if rng.chance(2) {
        blocking.push(l as u32 + rng.below(3) as u32);
    }
    rng.shuffle(&mut blocking);
    Call::Check {
        blocking,
        moved: if rng.chance(3) { rng.pick(&[0, s as u16 + 1, 60_000]) } else { rng.from(1, s) as u16 },
        begin: if premises.begin && !rng.chance(2) { 1 } else { rng.from(0, s + 2) as u32 },
        local: rng.chance(50),
        limit: rng.pick(&[0, 1, 3, 20, 20, 20, 20, 20, 20, 20]),
        report: model::ROW * s + rng.chance(1) as usize,
    }
}

fn renumbered(rng: &mut Rng, r: &Renumbering, c: &Call) -> Call {
    match c {
        Call::Mark { link, train } => Call::Mark { link: r.link(*link), train: r.narrow(*train) },
        Call::Check { blocking, moved, begin, local, limit, report } => {
            let mut blocking: Vec<u32> = blocking.iter().map(|&b| r.link(b)).collect();
            rng.shuffle(&mut blocking);
            Call::Check {
                blocking,
                moved: r.narrow(*moved),
                begin: *begin,
                local: *local,
                limit: *limit,
                report: *report,
            }
        }
    }
}

#[derive(Debug, PartialEq)]
pub enum Answer {
    Marked(Result<(), Refusal>),
    Checked(Checked, Vec<u8>, Vec<Visit>),
}

pub fn run(y: &mut Yard, c: &Call) -> Answer {
    match c {
        Call::Mark { link, train } => Answer::Marked(model::mark(&y.table, &mut y.occ, *link, *train)),
        Call::Check { blocking, moved, begin, local, limit, report } => {
            let mut report = vec![0; *report];
            let args = CheckArgs {
                occ: &y.occ,
                blocking,
                moved: *moved,
                begin: *begin,
                local: *local,
                limit: *limit,
            };
            let (checked, visits) = model::check_visits(&mut y.yard, &args, &mut report);
            Answer::Checked(checked, report, visits)
        }
    }
}

/// Does the second answer match the first? The next begin is not compared.
fn match_answers(r: &Renumbering, a: &Answer, b: &Answer) -> bool {
    let (Answer::Checked(x, rows, visits), Answer::Checked(y, other, others)) = (a, b) else { return a == b };
    let same = match (x, y) {
        (Checked::Done { deadlock: p, .. }, Checked::Done { deadlock: q, .. }) => p == q,
        _ => x == y,
    };
    if !same || matches!(x, Checked::Refused(_)) {
        return same;
    }
    (0..rows.len() / model::ROW).all(|i| {
        let mut row = model::row_at(rows, i);
        (row.holder, row.met) = (r.train(row.holder), r.train(row.met));
        let j = r.train(i as u32 + 1) as usize - 1;
        row == model::row_at(other, j) && match_updates(r, &visits[i].updated, &others[j].updated)
    })
}

/// What an update tells beside the record of its slot: the steps, the holder, the train met.
pub fn match_updates(r: &Renumbering, a: &Option<Updated>, b: &Option<Updated>) -> bool {
    match (a, b) {
        (Some(a), Some(b)) => a.steps == b.steps && r.train(a.holder) == b.holder && r.train(a.met) == b.met,
        _ => a.is_none() && b.is_none(),
    }
}

fn match_states(r: &Renumbering, a: &Yard, b: &Yard) -> bool {
    let parts = read_yard(&b.yard).unwrap();
    let images = r.images(&a.yard, a.occ.len());
    r.occupancy(&a.occ) == b.occ && parts.iter().zip(&images).all(|(p, i)| &b.yard[p.clone()] == &i[..])
}

/// Are the premises met at this check? `occ` is what the check found.
fn premises_met(p: &Premises, c: &Call, a: &Answer, occ: &[u16]) -> bool {
    let (Call::Check { begin, .. }, Answer::Checked(x, rows, _)) = (c, a) else { return true };
    if matches!(x, Checked::Refused(_)) {
        return true;
    }
    let strays = (0..rows.len() / model::ROW).any(|i| model::row_at(rows, i).strays != 0);
    (!p.begin || *begin == 1) && (!p.entry_zero || occ[0] == 0) && (!p.strays || !strays)
}

pub fn start(rng: &mut Rng) -> Yard {
    if rng.chance(15) {
        let (sections, slots) = (rng.from(2, 5), rng.from(2, 4));
        let mut y = tidy_yard(rng, sections, slots);
        for _ in 0..rng.from(1, 12) {
            let slot = rng.from(1, slots);
            y.advance(rng, slot);
        }
        return y;
    }
    loop {
        let small = rng.chance(40);
        let (slots, l) = (rng.from(1, if small { 2 } else { 4 }), rng.pick(&[4, 8, 24, 40, 60]));
        let mut y = odd_yard(rng, slots, if small { 5 } else { 14 }, l);
        if rng.chance(95) {
            let mut links = read_table(&y.table).unwrap();
            for x in &mut links {
                x.flip = x.flip.max(1);
                x.lockouts.iter_mut().for_each(|k| *k = (*k).max(1));
            }
            y.table = table_of(&links);
        }
        if (1..=slots).all(|s| y.train(s).is_some()) {
            return y;
        }
    }
}

#[derive(Default)]
pub struct Tally {
    pub lists: u64,
    pub calls: u64,
    pub checks: u64,
    /// Slots of these checks that are blocked, and those held by another than the moved train.
    pub blocked: u64,
    pub others: u64,
    /// Slots in which a train was met, and those in which it is not the moved one.
    pub met: u64,
    pub met_others: u64,
    pub counterexamples: u64,
    pub smallest: Option<(usize, String)>,
}

/// One list of calls. It ends where a premise is not met, or at a counterexample.
fn list(rng: &mut Rng, p: &Premises, tally: &mut Tally) {
    let mut first = start(rng);
    match p.entry_zero {
        true if rng.chance(98) => first.occ[0] = 0,
        false if rng.chance(50) => first.occ[0] = 5,
        _ => {}
    }
    let r = Renumbering::new(rng, first.occ.len(), first.slots(), u16::MAX as u32);
    let mut second = r.yard(&first);
    tally.lists += 1;
    for _ in 0..rng.from(1, 6) {
        let before = first.clone();
        let call = call_of(rng, &first, p);
        let other = renumbered(rng, &r, &call);
        let (a, b) = (run(&mut first, &call), run(&mut second, &other));
        if !premises_met(p, &call, &a, &before.occ) {
            return;
        }
        tally.calls += 1;
        tally.see(&call, &a);
        if !match_answers(&r, &a, &b) || !match_states(&r, &first, &second) {
            counterexample(tally, &before, &r, &call, &a, &b);
            return;
        }
    }
}

fn counterexample(tally: &mut Tally, y: &Yard, r: &Renumbering, c: &Call, a: &Answer, b: &Answer) {
    tally.counterexamples += 1;
    let size = y.yard.len() + y.occ.len();
    if tally.smallest.as_ref().is_some_and(|(s, _)| *s <= size) {
        return;
    }
    let mut text = String::new();
    for slot in 1..=y.slots() {
        let t = y.train(slot).unwrap();
        let path: Vec<String> = t
            .path
            .iter()
            .map(|x| format!("{}{}", ["Arrive ", "Clear ", "Fake "][x.kind as usize], x.link))
            .collect();
        let _ = writeln!(text, "  slot {slot}: path {}; fixed {} free {}", path.join(", "), t.fixed, t.free);
    }
    let held: Vec<String> =
        (0..y.occ.len()).filter(|&i| y.occ[i] != 0).map(|i| format!("{i}:{}", y.occ[i])).collect();
    let _ = writeln!(text, "  L {}; held {}", y.occ.len(), held.join(" "));
    let moved: Vec<String> = (0..r.links.len())
        .filter(|&i| r.links[i] != i as u32)
        .map(|i| format!("{i}>{}", r.links[i]))
        .collect();
    let _ = writeln!(text, "  links {}; slots {:?}; {c:?}", moved.join(" "), &r.slots[1..]);
    let _ = writeln!(text, "  answers {a:?}\n      and {b:?}");
    tally.smallest = Some((size, text));
}

pub fn fuzz(seed: u64, lists: u64, p: &Premises) -> Tally {
    let mut rng = Rng::new(seed);
    let mut tally = Tally::default();
    while tally.lists < lists {
        list(&mut rng, p, &mut tally);
    }
    tally
}

impl Tally {
    fn see(&mut self, c: &Call, a: &Answer) {
        let (Call::Check { moved, .. }, Answer::Checked(x, _, visits)) = (c, a) else { return };
        self.checks += !matches!(x, Checked::Refused(_)) as u64;
        for u in visits.iter().filter_map(|v| v.updated) {
            let blocked = u.outcome == Outcome::Blocked;
            self.blocked += blocked as u64;
            self.others += (blocked && u.holder != *moved as u32) as u64;
            self.met += (u.met != 0) as u64;
            self.met_others += (u.met != 0 && u.met != *moved as u32) as u64;
        }
    }

    pub fn print(&self, name: &str) {
        println!(
            "{name}: {} lists, {} calls and of them {} checks compared, {} counterexamples",
            self.lists, self.calls, self.checks, self.counterexamples
        );
        println!(
            "  {} blocked slots, {} of them held by another than the moved train",
            self.blocked, self.others
        );
        println!(
            "  {} slots that met a train, {} of them another than the moved one",
            self.met, self.met_others
        );
        if let Some((_, text)) = &self.smallest {
            print!("the smallest:\n{text}");
        }
    }
}
