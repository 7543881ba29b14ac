//! The leaves of update_free_path, each called alone: their cases, the answers of the original text, generators.

use crate::cases::*;
use crate::hook;
use crate::layout::*;
use crate::model;
use crate::rng::Rng;
use crate::shims::{si, utils, IntSet};
use crate::text::hooked;
use crate::text::plain::free_path::{
    calc_idx_sentinels, concat_train_idx_views, find_train_intersect, LinkOptType,
};
use crate::text::plain::train_disp::TrainDisp;
use crate::text::structs::*;
use std::num::NonZeroU16;

// ---- cases

type View = (u32, u32);

impl Case {
    pub fn class(path: &[u32], blocking: &[u32]) -> Case {
        let ins = [u32_bytes(path), u32_bytes(blocking), vec![], vec![]];
        Case { op: CLASS, ins, ..Case::default() }
    }

    pub fn sentinels(index: u32, moved: u16, nodes: &[(u16, u16)]) -> Case {
        let numbers: Vec<u16> = nodes.iter().flat_map(|&(train, node)| [train, node]).collect();
        let ins = [u16_bytes(&numbers), vec![], vec![], vec![]];
        Case { op: SENTINELS, args: [index, moved as u32, 0, 0, 0, 0, 0, 0], ins, ..Case::default() }
    }

    pub fn intersect(split: u32, sentinel: u32, class: [u32; 3], path: &[u32], occ: &[u16]) -> Case {
        let args = [split, sentinel, class[0], class[1], class[2], 0, 0, 0];
        let ins = [u32_bytes(path), u16_bytes(occ), vec![], vec![]];
        Case { op: INTERSECT, args, ins, ..Case::default() }
    }

    pub fn union(pool: &[u16], v: View, w: View) -> Case {
        let ins = [u16_bytes(pool), vec![], vec![], vec![]];
        Case { op: UNION, args: [v.0, v.1, w.0, w.1, 0, 0, 0, 0], ins, ..Case::default() }
    }

    pub fn near(a: f64, b: f64) -> Case {
        let [a, b] = [a, b].map(f64::to_bits);
        let args = [a as u32, (a >> 32) as u32, b as u32, (b >> 32) as u32, 0, 0, 0, 0];
        Case { op: NEAR, args, ..Case::default() }
    }

    /// From a node of est record a to one of est record b; where these are the same, so are the records.
    pub fn step(a: u32, b: u32, offsets: [f64; 2], est: &[Est; 2]) -> Case {
        let bytes = offsets.iter().flat_map(|x| x.to_le_bytes()).collect();
        let ins = [bytes, est_bytes(est), vec![], vec![]];
        Case { op: STEP, args: [a, b, 0, 0, 0, 0, 0, 0], ins, ..Case::default() }
    }
}

// ---- answers

/// What the text gives, or the number that refuses: 13 where it panics.
fn tried<T>(f: impl FnOnce() -> T) -> Result<T, u32> {
    let refused = |p: Box<dyn std::any::Any + Send>| p.downcast::<hook::Refused>().map_or(13, |r| r.0 as u32);
    model::caught(f).map_err(refused)
}

pub fn answer(c: &mut Case) {
    let answer = match c.op {
        CLASS => Ok(class_answer(c)),
        SENTINELS => sentinels_answer(c),
        INTERSECT => intersect_answer(c),
        UNION => union_answer(c),
        NEAR => Ok([near_answer(c), 0, 0]),
        STEP => Ok([step_answer(c), 0, 0]),
        op => panic!("no operation {op}"),
    };
    c.line = if answer == Err(13) { model::panic_line() } else { 0 };
    let numbers = answer.unwrap_or_else(|number| [number, 0, 0]);
    c.answer[..3].copy_from_slice(&numbers);
}

fn links(bytes: &[u8]) -> Vec<LinkIdx> {
    u32s(bytes).into_iter().map(LinkIdx::new).collect()
}

fn trains(bytes: &[u8]) -> Vec<TrainIdx> {
    u16s(bytes).into_iter().map(NonZeroU16::new).collect()
}

fn class_of(path: &[u8], blocking: &[u8]) -> LinkOptType {
    let path: IntSet<LinkIdx> = links(path).into_iter().collect();
    LinkOptType::new(&links(blocking), &path)
}

fn class_numbers(class: LinkOptType) -> [u32; 3] {
    match class {
        LinkOptType::None => [0, 0, 0],
        LinkOptType::Single(l) => [1, l.idx() as u32, 0],
        LinkOptType::Range(min, span) => [2, min as u32, span as u32],
        LinkOptType::Check => [3, 0, 0],
    }
}

fn class_answer(c: &Case) -> [u32; 3] {
    class_numbers(class_of(&c.ins[0], &c.ins[1]))
}

fn sentinels_answer(c: &Case) -> Result<[u32; 3], u32> {
    let numbers: Vec<TrainIdx> = trains(&c.ins[0]);
    let nodes: Vec<DivergeNode> =
        numbers.chunks(2).map(|x| DivergeNode { train_idx: x[0], disp_node_idx: x[1] }).collect();
    let moved = NonZeroU16::new(c.args[1] as u16);
    let (node, divs) = tried(|| calc_idx_sentinels(c.args[0] as usize, moved, &nodes))?;
    Ok([0, node as u32, divs as u32])
}

/// The text's link_idx_path has an ending sentinel, and is as before after the call. The train met stands beside the index.
fn intersect_answer(c: &Case) -> Result<[u32; 3], u32> {
    let [split, sentinel, kind, x, y, ..] = c.args;
    let class = match kind {
        0 => LinkOptType::None,
        1 => LinkOptType::Single(LinkIdx::new(x)),
        2 => LinkOptType::Range(x as usize, y as usize),
        _ => LinkOptType::Check,
    };
    let mut path = links(&c.ins[0]);
    path.push(LINK_IDX_NA);
    let before = path.clone();
    let occ = trains(&c.ins[1]);
    let index = tried(|| find_train_intersect(split as usize, sentinel as usize, &class, &mut path, &occ))?;
    assert!(path == before, "link_idx_path is left changed");
    let met = if index < sentinel as usize { occ[path[index].idx()] } else { None };
    Ok([0, index as u32, met.map_or(0, u16::from) as u32])
}

/// 11 is the hooked text's; every other answer is the plain text's.
fn union_answer(c: &mut Case) -> Result<[u32; 3], u32> {
    let [a, b, x, y, ..] = c.args;
    let (v, w) = (TrainIdxsView::new(a, b), TrainIdxsView::new(x, y));
    c.outs = [c.ins[0].clone(), vec![]];
    let mut pool = trains(&c.ins[0]);
    let counted = tried(|| hooked::free_path::concat_train_idx_views(&mut pool, &v, &w));
    if counted == Err(11) {
        return Err(11);
    }
    let mut pool = trains(&c.ins[0]);
    let made = tried(|| concat_train_idx_views(&mut pool, &v, &w));
    assert!(made == counted, "plain and hooked differ");
    let made = made?;
    let numbers: Vec<u16> = pool.iter().map(|t| t.idx() as u16).collect();
    c.outs[0] = u16_bytes(&numbers);
    Ok([0, made.idx_begin, made.idx_end])
}

fn near_answer(c: &Case) -> u32 {
    utils::near(c.float(0), c.float(2)) as u32
}

/// The errors of validate_free_path over a path of two marked nodes, of which none is free.
fn step_answer(c: &Case) -> u32 {
    let places = [c.args[0] as usize, c.args[1] as usize];
    let len = places[0].max(places[1]) + 1;
    let marked = EstTimeStatus { is_on_path: true, ..Default::default() };
    let mut disp = TrainDisp {
        est_times: vec![EstTime::default(); len],
        est_time_statuses: vec![marked; len],
        disp_node_idx_free: NonZeroU16::new(2),
        ..Default::default()
    };
    for i in 0..2 {
        disp.est_times[places[i]] = est_time(&c.ins[1], RECORD * i);
        disp.disp_path.push(DispNode {
            offset: si::Length(f64_at(&c.ins[0], 8 * i)),
            est_idx: c.args[i],
            ..Default::default()
        });
    }
    disp.validate_free_path(&[]).map_or_else(|errors| errors.len() as u32, |_| 0)
}

fn est_time(bytes: &[u8], at: usize) -> EstTime {
    EstTime {
        dist_to_next: si::Length(f64_at(bytes, at)),
        idx_next: u32_at(bytes, at + 8),
        idx_next_alt: u32_at(bytes, at + 12),
        idx_prev: u32_at(bytes, at + 16),
        idx_prev_alt: u32_at(bytes, at + 20),
        ..Default::default()
    }
}

// ---- generators

fn some(rng: &mut Rng, most: usize, mut make: impl FnMut(&mut Rng) -> u32) -> Vec<u32> {
    let n = rng.below(most + 1);
    (0..n).map(|_| make(rng)).collect()
}

fn class(rng: &mut Rng) -> Case {
    match rng.below(100) {
        0..=49 => {
            let path = some(rng, 6, |r| r.from(1, 9) as u32);
            Case::class(&path, &some(rng, 6, |r| r.below(11) as u32))
        }
        50..=79 => spaced_class(rng),
        80..=97 => {
            let path = some(rng, 40, |r| r.from(1, 3_999) as u32);
            let list = some(rng, 12, |r| odd_link(r, &path));
            Case::class(&path, &list)
        }
        98 => {
            let n = rng.pick(&[511, 512]);
            let path: Vec<u32> = (0..n).map(|_| rng.from(1, 3_999) as u32).collect();
            Case::class(&path, &some(rng, 30, |r| r.below(4_100) as u32))
        }
        _ => {
            let path = some(rng, 4, |r| r.from(1, 3_999) as u32);
            let n = rng.pick(&[200, 1_000]);
            let list: Vec<u32> = (0..n).map(|_| rng.below(4_000) as u32).collect();
            Case::class(&path, &list)
        }
    }
}

/// Links whose differences lie about 16.
fn spaced_class(rng: &mut Rng) -> Case {
    let low = rng.pick(&[1, 2, 100, 3_950]);
    let mut path: Vec<u32> = [0, 1, 8, 15, 16, 17, 33].iter().map(|d| low + d).collect();
    rng.shuffle(&mut path);
    path.truncate(rng.from(1, 6));
    let list = some(rng, 5, |r| if r.chance(90) { r.pick(&path) } else { r.below(4_000) as u32 });
    Case::class(&path, &list)
}

/// Mostly of the path, else any number.
fn odd_link(rng: &mut Rng, path: &[u32]) -> u32 {
    if !path.is_empty() && rng.chance(60) {
        return rng.pick(path);
    }
    rng.pick(&[0, 1, 3_999, 4_000, 4_095, 4_096, 65_536, u32::MAX])
}

fn sentinels(rng: &mut Rng) -> Case {
    let n = match rng.below(100) {
        0 => rng.pick(&[1_023, 1_024]),
        1..=9 => rng.from(9, 60),
        _ => rng.below(9),
    };
    let most = rng.pick(&[2, 4, 9]);
    let mut nodes: Vec<(u16, u16)> =
        (0..n).map(|_| (rng.below(most) as u16, rng.below(most) as u16)).collect();
    if rng.chance(70) {
        nodes.sort_by_key(|x| x.1);
    }
    let moved = rng.pick(&[0, 1, 1, 1, 2, 3, 65_535]);
    if n > 0 && rng.chance(80) {
        nodes[n - 1] = (moved, rng.pick(&[nodes[n - 1].1, most as u16, 65_535]));
    }
    let index = match rng.below(20) {
        0 => rng.pick(&[n as u32, n as u32 + 1, u32::MAX]),
        1..=2 => n.saturating_sub(1) as u32,
        _ => rng.below(n + 1) as u32,
    };
    Case::sentinels(index, moved, &nodes)
}

fn intersect(rng: &mut Rng) -> Case {
    let (n, l) = match rng.below(200) {
        0 => (rng.pick(&[511, 512]), rng.pick(&[60, 4_000])),
        1..=20 => (rng.from(13, 60), rng.from(20, 80)),
        _ => (rng.below(13), rng.from(2, 30)),
    };
    let held = rng.pick(&[0, 5, 30, 90]);
    let arrives = rng.pick(&[30, 60, 100]);
    let link = |r: &mut Rng| if r.chance(arrives) { r.from(1, l - 1) as u32 } else { 0 };
    let path: Vec<u32> = (0..n).map(|_| link(rng)).collect();
    let occ: Vec<u16> =
        (0..l).map(|_| if rng.chance(held) { rng.pick(&[1, 7, 65_535]) } else { 0 }).collect();
    let class = some_class(rng, &path, l);
    let place = |r: &mut Rng| if r.chance(1) { r.pick(&[65_535, u32::MAX]) } else { r.below(n + 2) as u32 };
    let (a, b) = (place(rng), place(rng));
    let (split, sentinel) = if rng.chance(80) { (a.min(b), a.max(b)) } else { (a, b) };
    Case::intersect(split, sentinel, class, &path, &occ)
}

/// The class of a blocking list over the path, or any.
fn some_class(rng: &mut Rng, path: &[u32], l: usize) -> [u32; 3] {
    let on_path: Vec<u32> = path.iter().copied().filter(|&x| x != 0).collect();
    if !on_path.is_empty() && rng.chance(60) {
        let list = some(rng, 4, |r| r.pick(&on_path));
        return class_numbers(class_of(&u32_bytes(&on_path), &u32_bytes(&list)));
    }
    let low = rng.below(l + 20) as u32;
    match rng.below(8) {
        0 => [0, 0, 0],
        1..=2 => [1, rng.pick(&[low, 0, 4_000, u32::MAX]), 0],
        3..=5 => [2, low, rng.pick(&[0, 1, 2, 15, 16, 17, 40, 4_000])],
        _ => [3, 0, 0],
    }
}

fn union(rng: &mut Rng) -> Case {
    let (len, kinds) = match rng.below(200) {
        0..=1 => (rng.from(2_040, 2_048), rng.pick(&[3, 40, 65_535])),
        2..=3 => (rng.from(1_010, 1_030), rng.pick(&[40, 65_535])),
        4..=40 => (rng.from(9, 60), rng.pick(&[3, 9, 65_535])),
        _ => (rng.below(9), rng.pick(&[2, 4, 9])),
    };
    let pool: Vec<u16> = (0..len).map(|_| rng.from(0, kinds) as u16).collect();
    let (v, w) = (view(rng, len), view(rng, len));
    if len > 1_000 && rng.chance(50) {
        let (v, w) = filling_views(rng, len);
        return Case::union(&pool, v, w);
    }
    if rng.chance(50) {
        Case::union(&pool, v, w)
    } else {
        Case::union(&pool, w, v)
    }
}

/// A view within the pool, at its end, empty, or a wrong one.
fn view(rng: &mut Rng, len: usize) -> View {
    let (a, b) = (rng.below(len + 1) as u32, rng.below(len + 1) as u32);
    let end = len as u32;
    match rng.below(40) {
        0..=1 => (a.max(b), a.min(b)),
        2..=3 => (a, end + rng.from(1, 3) as u32),
        4 => rng.pick(&[(end, end + 1), (end + 1, end)]),
        5 => rng.pick(&[(0, 0), (1, 1)]),
        6..=16 => (a, end),
        _ => (a.min(b), a.max(b)),
    }
}

/// Two views whose union ends about entry 2,048.
fn filling_views(rng: &mut Rng, len: usize) -> (View, View) {
    let room = 2_048 - len;
    let size = |r: &mut Rng| (room + r.from(0, 4)).saturating_sub(2).min(len / 2);
    let (large, small) = (size(rng), rng.below(4));
    let begin = |n: usize, r: &mut Rng| r.below(len - n);
    let (a, b) = (begin(large, rng), begin(small, rng));
    let at_end = (len - rng.below(3), len);
    let v = if rng.chance(40) { at_end } else { (a, a + large) };
    let w = if rng.chance(50) { (b, b + small) } else { (a / 2, a / 2 + large) };
    let number = |x: (usize, usize)| (x.0 as u32, x.1 as u32);
    (number(v), number(w))
}

/// A number that is no NaN.
fn float(rng: &mut Rng) -> f64 {
    match rng.below(6) {
        0 => rng.pick(&[0.0, -0.0, 1e-8, -1e-8, 5e-9, 1.0, -1.0, 1e12, -1e12, f64::MIN_POSITIVE]),
        1 => rng.pick(&[f64::INFINITY, f64::NEG_INFINITY, f64::MAX, f64::MIN, 5e-324, -5e-324]),
        2 => rng.below(2_000) as f64 - 1_000.0,
        3 => (rng.unit() - 0.5) * 2e12,
        4 => (rng.unit() - 0.5) * 4e-8,
        _ => any_pattern(rng),
    }
}

fn any_pattern(rng: &mut Rng) -> f64 {
    let x = f64::from_bits(rng.next());
    if x.is_nan() {
        0.0
    } else {
        x
    }
}

/// The pattern some places on; where that is a NaN's, the number itself.
fn beside(rng: &mut Rng, x: f64) -> f64 {
    let step = rng.pick(&[0, 0, 1, 2, 3, u64::MAX, u64::MAX - 1, u64::MAX - 2, 1_000]);
    let y = f64::from_bits(x.to_bits().wrapping_add(step));
    if y.is_nan() {
        x
    } else {
        y
    }
}

/// A number about which near changes, or any.
fn partner(rng: &mut Rng, a: f64) -> f64 {
    let e = 1e-8;
    let b = match rng.below(8) {
        0 => a,
        1 => a * (1.0 + e) / (1.0 - e),
        2 => a * (1.0 - e) / (1.0 + e),
        3 => a + e,
        4 => a - e,
        5 => -a,
        6 => a * (1.0 + 4.0 * e * rng.unit()),
        _ => float(rng),
    };
    let b = if b.is_nan() { 1.0 } else { b };
    beside(rng, b)
}

fn near(rng: &mut Rng) -> Case {
    let a = float(rng);
    let b = partner(rng, a);
    if rng.chance(50) {
        Case::near(a, b)
    } else {
        Case::near(b, a)
    }
}

fn step(rng: &mut Rng) -> Case {
    let most = rng.pick(&[2, 3, 5, 512]);
    let number = |r: &mut Rng| r.below(most) as u32;
    let places = [number(rng), number(rng)];
    let offsets = [float(rng), float(rng)];
    let offsets = if rng.chance(40) { [offsets[0], partner(rng, offsets[0])] } else { offsets };
    let change = offsets[1] - offsets[0];
    let record = |r: &mut Rng| {
        let near = |r: &mut Rng, i: usize| if r.chance(70) { places[i] } else { number(r) };
        let (next, alt, prev, prev_alt) = (near(r, 1), near(r, 1), near(r, 0), near(r, 0));
        let fits = r.chance(80) && !change.is_nan();
        let dist_to_next = if fits { partner(r, change) } else { float(r) };
        Est { dist_to_next, next, alt, prev, prev_alt, link: 0, kind: FAKE }
    };
    let first = record(rng);
    let second = if places[0] == places[1] { first } else { record(rng) };
    Case::step(places[0], places[1], offsets, &[first, second])
}

/// A case of any leaf.
pub fn any(rng: &mut Rng) -> Case {
    match rng.below(6) {
        0 => class(rng),
        1 => sentinels(rng),
        2 => intersect(rng),
        3 => union(rng),
        4 => near(rng),
        _ => step(rng),
    }
}

// ---- what an answered case counts as, and what it shows

pub fn name(c: &Case) -> String {
    let a = c.answer[0];
    let done = |op: &str| if a == 0 { format!("{op} done") } else { format!("{op} refused {a}") };
    match c.op {
        CLASS => format!("class {}", ["None", "Single", "Range", "Check"][a as usize]),
        SENTINELS => done("sentinels"),
        INTERSECT => done("intersect"),
        UNION => done("union"),
        NEAR => format!("near {}", ["no", "yes"][a as usize]),
        _ => format!("step {}", ["fits", "errs"][a as usize]),
    }
}

pub fn key(c: &Case) -> String {
    let (a, first) = (c.answer, name(c));
    match c.op {
        CLASS => format!("{first} {} {}", a[2].max(14), c.ins[1].len() / 4 > 2),
        SENTINELS => format!("{first} {} {}", c.line, a[2].min(4)),
        INTERSECT => {
            let end = a[1].cmp(&c.args[1]);
            format!("{first} {} {} {end:?} {} {}", c.line, c.args[2], c.args[4] > 16, a[2] != 0)
        }
        UNION => {
            let grown = c.outs[0].len().cmp(&c.ins[0].len());
            let full = (c.outs[0].len() / 2).max(2_046);
            format!("{first} {} {grown:?} {full} {}", c.line, a[2].saturating_sub(a[1]).min(3))
        }
        NEAR => format!("{first} {}", c.args[1] >> 30),
        _ => format!("{first} {}", c.args[0].cmp(&c.args[1]) as i8),
    }
}
