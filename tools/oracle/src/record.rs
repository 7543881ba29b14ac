//! The recorded list: cases chosen so that each refusal with its places, each
//! panic site, each branch and each boundary stands in it. The same seed gives the same list.

use crate::calls::*;
use crate::carry_calls;
use crate::cases::*;
use crate::gen::*;
use crate::hook;
use crate::index_calls;
use crate::layout::*;
use crate::leaves;
use crate::model;
use crate::rng::Rng;
use crate::selftest;
use crate::text::BRANCHES;
use crate::undo_calls;
use crate::yards::*;
use std::collections::{BTreeMap, BTreeSet};

// Why a case stands in the list.
pub const P9: u32 = 9;
pub const P10: u32 = 10;
pub const SHEET_EXAMPLE: u32 = 20;
pub const NAMED: u32 = 30;
pub const DAMAGED: u32 = 40;
pub const BOUNDARY: u32 = 50;
pub const CHOSEN: u32 = 60;
pub const BRANCH: u32 = 70;
pub const SAMPLED: u32 = 80;
pub const LEAF: u32 = 90;
pub const LISTED: u32 = 100;
pub const TAKEN_BACK: u32 = 110;
pub const INDEXED: u32 = 120;
pub const BESIDE: u32 = 130;
pub const CARRIED: u32 = 140;

/// Keeps the smallest cases for each key.
struct Chooser {
    each: usize,
    kept: BTreeMap<String, Vec<(usize, Case)>>,
}

fn size(c: &Case) -> usize {
    c.ins.iter().map(Vec::len).sum()
}

impl Chooser {
    fn new(each: usize) -> Self {
        Chooser { each, kept: BTreeMap::new() }
    }
    fn offer(&mut self, key: String, c: &Case) {
        let list = self.kept.entry(key).or_default();
        let n = size(c);
        if list.len() == self.each && list.last().unwrap().0 <= n {
            return;
        }
        let at = list.partition_point(|(m, _)| *m <= n);
        list.insert(at, (n, c.clone()));
        list.truncate(self.each);
    }
    fn offer_all(&mut self, c: &Case) {
        keys(c).into_iter().for_each(|k| self.offer(k, c));
    }
    fn cases(self, tag: u32) -> impl Iterator<Item = Case> {
        self.kept.into_values().flatten().map(move |(_, c)| c.tagged(tag))
    }
}

/// What an answered case shows: one key or more.
fn keys(c: &Case) -> Vec<String> {
    let a = c.answer;
    let few = |n: u32, most: u32| n.min(most);
    match c.op {
        MARK | LAY_OUT => vec![format!("{} {} {} {}", c.op, a[0], few(a[1], 4), few(c.args[1], 1))],
        UPDATE => {
            let room = if a[1] == 11 { hook::state().cause } else { "" };
            let late = a[1] == 0 || a[1] > 10;
            let (rounds, strays) = if late { (few(a[4], 4), few(a[5], 1)) } else { (0, 0) };
            let kept = c.outs[0] == c.ins[0];
            let met = if a[7] == c.args[0] { "moved" } else { ["none", "other"][few(a[7], 1) as usize] };
            vec![format!(
                "{} {:2} {} {} {room} {rounds} {strays} {} {kept} {met}",
                a[0],
                a[1],
                few(a[2], 3),
                c.line,
                few(a[3], 2)
            )]
        }
        CHECK if a[0] == 2 => vec![format!("refused {}", a[1])],
        CHECK => check_keys(c),
        SHEET => sheet_keys(&String::from_utf8_lossy(&c.outs[0])),
        LIST => list_keys(&c.calls()),
        _ => vec![leaves::key(c)],
    }
}

/// For each slot its code, alone and with the answer.
fn check_keys(c: &Case) -> Vec<String> {
    let a = c.answer;
    let rows: Vec<model::Row> =
        (0..c.outs[1].len() / model::ROW).map(|i| model::row_at(&c.outs[1], i)).collect();
    rows.iter()
        .map(|r| {
            format!("{} {} {} {} {} {}", a[0], a[3].min(3), a[4], r.code, rows.len().min(2), r.met.min(1))
        })
        .collect()
}

/// The first line without its numbers, with the word of each slot.
fn sheet_keys(text: &str) -> Vec<String> {
    let mut lines = text.lines();
    let first = lines.next().unwrap_or("");
    if first.starts_with("refused") {
        return vec![first.into()];
    }
    let head: Vec<&str> = first.split(' ').filter(|w| w.parse::<u32>().is_err()).collect();
    lines.map(|l| format!("{} {}", head.join(" "), l.split(' ').nth(1).unwrap_or(""))).collect()
}

/// For each call of a list but the first, its answer and that of the call before it.
fn list_keys(calls: &[Case]) -> Vec<String> {
    let name = |c: &Case| match c.op {
        MARK => format!("mark {} {}", c.answer[0], c.args[1].min(1)),
        _ => format!("check {} {} {}", c.answer[0], c.answer[1], c.answer[4]),
    };
    calls.windows(2).map(|w| format!("{}, {}", name(&w[0]), name(&w[1]))).collect()
}

// ---- named cases

/// Path Fake, Arrive 1; list 1; nothing held: Single stops at the link round after round.
fn single_for_ever(limit: u16) -> Case {
    let est = [Est { next: 1, ..no_est() }, Est { link: 1, kind: ARRIVE, ..no_est() }];
    let mut image = vec![0; image_size(2, 2)];
    model::lay_out(&est_bytes(&est), 1, 0.0, 0.0, 2, 2, &mut image).unwrap();
    Case::update(&image, &[0, 0], &[1], 2, false, limit)
}

/// A straight path of these Arrive links, 0 being a Fake node.
fn of_links(links: &[u32], l: usize) -> Vec<u8> {
    let last = links.len() - 1;
    let est: Vec<Est> = (0..=last)
        .map(|i| Est {
            next: if i < last { i as u32 + 1 } else { 0 },
            prev: i.saturating_sub(1) as u32,
            link: links[i],
            kind: if links[i] == 0 { FAKE } else { ARRIVE },
            ..no_est()
        })
        .collect();
    let mut image = vec![0; image_size(est.len(), 4)];
    model::lay_out(&est_bytes(&est), 1, 0.0, 0.0, 4, l as u32, &mut image).unwrap();
    image
}

/// Range and Check told apart: Check stops at a Fake node where entry 0 is held; Range
/// stops at a held link within its span, and at no other, be it above or below.
fn classes() -> Vec<Case> {
    let mut cases = vec![];
    for span in [0, 1, 15, 16, 17, 40] {
        let mut occ = vec![0; 60];
        occ[0] = 5;
        let path = if span == 0 { vec![3, 0] } else { vec![3, 0, 3 + span] };
        cases.push(Case::update(&of_links(&path, 60), &occ, &[3, 3 + span], 2, false, 3));
        for held in [1, 2, 3, 4, 3 + span as usize, 4 + span as usize, 30] {
            let mut occ = vec![0; 60];
            occ[held] = 5;
            let mut path = vec![0, 3, 3 + span, held as u32];
            let mut seen = BTreeSet::new();
            path.retain(|x| seen.insert(*x));
            cases.push(Case::update(&of_links(&path, 60), &occ, &[3 + span, 3], 2, false, 3));
        }
    }
    cases
}

fn named() -> Vec<Case> {
    let occ = selftest::release_occupancy();
    let mut cases = vec![
        Case::mark(&selftest::release_table(&[4, 6]), &occ, 4, 0).tagged(P9),
        Case::mark(&selftest::release_table(&[6]), &occ, 4, 0).tagged(P10),
        Case::sheet(&selftest::sheet_bundle()).tagged(SHEET_EXAMPLE),
        single_for_ever(1).tagged(NAMED),
        single_for_ever(65_535).tagged(NAMED),
    ];
    cases.extend(classes().into_iter().map(|c| c.tagged(NAMED)));
    cases
}

// ---- one field damaged, and some together

type Patch = (usize, Vec<u8>);

fn p8(at: usize, n: u8) -> Patch {
    (at, vec![n])
}
fn p16(at: usize, n: u16) -> Patch {
    (at, n.to_le_bytes().to_vec())
}
fn p32(at: usize, n: u32) -> Patch {
    (at, n.to_le_bytes().to_vec())
}
fn pf(at: usize, x: f64) -> Patch {
    (at, x.to_le_bytes().to_vec())
}

const ABOVE: f64 = 1.0000000000000001e12;
const FLOATS: [f64; 8] = [f64::NAN, f64::INFINITY, f64::NEG_INFINITY, 1e12, -1e12, ABOVE, -ABOVE, -0.0];

/// Patches of an image, each wrong or just right by itself.
fn patches(t: &Train, l: u32) -> Vec<Patch> {
    let (e, n, m) = (t.est.len(), t.path.len(), t.div.len());
    let mut ps = header_patches(t);
    for i in [0, 4, e - 1] {
        let at = HEADER + RECORD * i;
        ps.extend(FLOATS.map(|x| pf(at, x)));
        ps.extend([8, 12, 16, 20].map(|f| p32(at + f, e as u32)));
        ps.extend([p32(at + 24, l - 1), p32(at + 24, l), p32(at + 24, u32::MAX), p8(at + 28, 3)]);
        ps.extend([29, 30, 31].map(|f| p8(at + f, 1)));
        ps.push((at + 24, vec![0, 0, 0, 0, ARRIVE]));
        ps.push(p32(at + 8, i as u32));
        ps.push(p32(at + 12, i as u32));
    }
    for i in [0, 3, n - 1] {
        let at = path_offset(e) + RECORD * i;
        ps.extend(FLOATS.map(|x| pf(at, x)));
        ps.extend(FLOATS.map(|x| pf(at + 8, x)));
        ps.extend([p32(at + 16, l - 1), p32(at + 16, l), p32(at + 20, e as u32), p32(at + 20, 0)]);
        ps.extend([p32(at + 20, 3), p16(at + 24, 65_535), p8(at + 26, 3), p8(at + 26, ARRIVE)]);
        ps.extend([27, 31].map(|f| p8(at + f, 1)));
    }
    let div = diverge_offset(e);
    ps.extend([
        p8(div - 1, 1),
        p8(path_offset(e) + RECORD * n, 1),
        p8(div + 4 * m, 1),
        p8(div + 4 * t.div_room - 1, 1),
    ]);
    for i in 0..m {
        ps.extend([0, 1, 65_535].map(|x| p16(div + 4 * i, x)));
        ps.extend([0, 1, n as u16 - 1, n as u16, n as u16 + 1].map(|x| p16(div + 4 * i + 2, x)));
    }
    ps
}

fn header_patches(t: &Train) -> Vec<Patch> {
    let n = t.path.len() as u16;
    let mut ps = vec![];
    let b = image_of(t);
    for i in 0..8 {
        let v = u32_at(&b, 4 * i);
        ps.extend([v - 1, v + 1, 0, u32::MAX].map(|x| p32(4 * i, x)));
    }
    ps.push(p16(32, 0));
    for i in 34..=40 {
        if i % 2 == 0 {
            ps.extend([n - 1, n, n + 1, u16::MAX].map(|x| p16(i, x)));
        }
    }
    ps.extend((42..48).map(|i| p8(i, 1)));
    for i in [48, 56] {
        ps.extend(FLOATS.map(|x| pf(i, x)));
        ps.push(pf(i, -1.0));
    }
    ps
}

fn patched(c: &UpdateCase, ps: &[Patch]) -> Case {
    let mut d = c.clone();
    for (at, bytes) in ps {
        d.image[*at..*at + bytes.len()].copy_from_slice(bytes);
    }
    of_update(&d)
}

fn damaged_images(rng: &mut Rng) -> Vec<Case> {
    let mut c = deposit(rng, 2, 6);
    (c.occ, c.blocking, c.limit) = (vec![0, 9, 0, 0], vec![2], 3);
    let l = c.occ.len() as u32;
    let ps = patches(&read_image(&c.image, l as usize).unwrap(), l);
    let mut cases: Vec<Case> = ps.iter().map(|p| patched(&c, std::slice::from_ref(p))).collect();
    for _ in 0..60 {
        let some: Vec<Patch> = (0..rng.from(2, 4)).map(|_| ps[rng.below(ps.len())].clone()).collect();
        cases.push(patched(&c, &some));
    }
    for to in [0, 1, 63, 64, c.image.len() - 1] {
        let mut d = c.clone();
        d.image.truncate(to);
        cases.push(of_update(&d));
    }
    c.image.push(0);
    cases.push(of_update(&c));
    cases
}

// ---- sizes at their boundaries

/// A straight train of E est records and N = E nodes: Arrive at every second one
/// as long as there are links, Fake elsewhere.
fn straight(e: usize, q: usize, l: usize) -> Train {
    let est: Vec<Est> = (0..e)
        .map(|i| {
            let link = (i as u32 + 1) / 2;
            let arrives = i % 2 == 1 && (link as usize) < l;
            Est {
                dist_to_next: 1.0,
                next: if i + 1 < e { i as u32 + 1 } else { 0 },
                prev: i.saturating_sub(1) as u32,
                link: if arrives { link } else { 0 },
                kind: if arrives { ARRIVE } else { FAKE },
                ..no_est()
            }
        })
        .collect();
    let mut image = vec![0; image_size(e, q)];
    model::lay_out(&est_bytes(&est), 1, 10.0, 10.0, q as u32, l as u32, &mut image)
        .expect("a straight train");
    read_image(&image, l).unwrap()
}

fn boundary_updates() -> Vec<Case> {
    let mut cases = vec![];
    for (e, q, l) in [(1, 2, 2), (2, 2, 2), (512, 1_024, 300), (512, 2, 4_000)] {
        let t = straight(e, q, l);
        let image = image_of(&t);
        let mut occ = vec![0; l];
        cases.push(Case::update(&image, &occ, &[], 1, false, 1));
        occ[l - 1] = 65_535;
        cases.push(Case::update(&image, &occ, &[l as u32 - 1, l as u32 - 1], 65_535, true, 65_535));
    }
    let image = image_of(&straight(3, 2, 3));
    for l in [0, 1, 2, 3, 4_000, 4_001] {
        cases.push(Case::update(&image, &vec![0; l], &[], 1, false, 1));
    }
    for n in [3_999, 4_000, 4_001] {
        cases.push(Case::update(&image, &[0; 3], &vec![1; n], 1, false, 2));
    }
    for b in [0, 1, 2, 3, u32::MAX] {
        cases.push(Case::update(&image, &[0; 3], &[b], 1, false, 2));
    }
    for (moved, limit) in [(0, 1), (1, 0), (65_535, 65_535)] {
        cases.push(Case::update(&image, &[0; 3], &[], moved, false, limit));
    }
    // N above E, E above 512 and Q above 1,024 in images that are whole otherwise
    for (field, n) in [(4, 513), (16, 1_025), (16, 1)] {
        let mut b = vec![0; if field == 4 { image_size(513, 2) } else { image_size(3, n) }];
        b[..image.len().min(64)].copy_from_slice(&image[..64]);
        let (e, q) = (if field == 4 { 513 } else { 3 }, if field == 16 { n } else { 2 });
        for (i, x) in [(0, b.len()), (4, e), (16, q), (24, path_offset(e)), (28, diverge_offset(e))] {
            put_u32(&mut b, i, x as u32);
        }
        cases.push(Case::update(&b, &[0; 3], &[], 1, false, 1));
    }
    cases
}

fn boundary_layouts() -> Vec<Case> {
    let mut cases = vec![];
    let chain = |e: usize| -> Vec<u8> {
        let est: Vec<Est> =
            (0..e).map(|i| Est { next: if i + 1 < e { i as u32 + 1 } else { 0 }, ..no_est() }).collect();
        est_bytes(&est)
    };
    for e in [0, 1, 512, 513] {
        cases.push(Case::lay_out(&chain(e), 1, 0.0, 0.0, 2, 2, &vec![7; image_size(e, 2)]));
    }
    for q in [0, 1, 2, 1_024, 1_025] {
        cases.push(Case::lay_out(&chain(2), 1, 0.0, 0.0, q, 2, &vec![7; image_size(2, q as usize)]));
    }
    for l in [0, 1, 2, 4_000, 4_001, u32::MAX] {
        cases.push(Case::lay_out(&chain(2), 65_535, 0.0, 0.0, 2, l, &vec![7; image_size(2, 2)]));
    }
    for size in [0, image_size(2, 2) - 1, image_size(2, 2) + 1] {
        cases.push(Case::lay_out(&chain(2), 1, 0.0, 0.0, 2, 2, &vec![7; size]));
    }
    for x in FLOATS.into_iter().chain([-1.0]) {
        cases.push(Case::lay_out(&chain(2), 1, x, 0.0, 2, 2, &vec![7; image_size(2, 2)]));
        cases.push(Case::lay_out(&chain(2), 1, 0.0, x, 2, 2, &vec![7; image_size(2, 2)]));
    }
    // distances that add up to 1e12, and beyond it at a node and after the last node
    for ds in
        [[5e11, 5e11, 1e12], [5e11, 5.0001e11, 0.0], [1e12, 1.0, 0.0], [-1e12, -1.0, 0.0], [1e12, 0.0, 1e12]]
    {
        let est: Vec<Est> = (0..3)
            .map(|i| Est { dist_to_next: ds[i], next: if i < 2 { i as u32 + 1 } else { 0 }, ..no_est() })
            .collect();
        cases.push(Case::lay_out(&est_bytes(&est), 1, 0.0, 0.0, 2, 2, &vec![7; image_size(3, 2)]));
    }
    cases
}

fn boundary_tables() -> Vec<Case> {
    let mut cases = vec![];
    let one = |l: usize, k: usize| {
        let mut links = vec![LinkRecord { flip: 1, lockouts: vec![] }; l];
        if l > 1 {
            links[1].lockouts = (0..k).map(|i| (i % l) as u32).collect();
        }
        table_of(&links)
    };
    for (l, k) in [(1, 0), (2, 0), (2, 4_096), (2, 4_097), (4_000, 0), (4_001, 0)] {
        for train in [0, 3] {
            cases.push(Case::mark(&one(l, k), &vec![0; l], 1, train));
        }
    }
    for len in [0, 1, 15, 16, 40] {
        cases.push(Case::mark(&one(3, 2)[..len.min(60)], &[0; 3], 1, 1));
    }
    for (len, link) in [(0, 1), (2, 1), (4, 1), (3, 0), (3, 2), (3, 3), (3, u32::MAX)] {
        cases.push(Case::mark(&one(3, 2), &vec![5; len], link, 1));
    }
    for at in 0..15 {
        for n in [0, 3, 4, u32::MAX] {
            let mut b = one(3, 2);
            put_u32(&mut b, 4 * at, n);
            cases.push(Case::mark(&b, &[0; 3], 1, 1));
        }
    }
    cases
}

/// A yard of trains with one node each.
fn tiny_yard(slots: usize) -> Vec<u8> {
    let images: Vec<Vec<u8>> = (1..=slots)
        .map(|s| {
            let mut t = straight(1, 2, 2);
            t.train = s as u16;
            image_of(&t)
        })
        .collect();
    yard_of(&images)
}

fn tiny_check(yard: Vec<u8>, moved: u16, begin: u32) -> CheckCase {
    CheckCase { yard, occ: vec![0; 2], blocking: vec![], moved, begin, local: true, limit: 1 }
}

fn boundary_yards() -> Vec<Case> {
    let (tiny, call) = (tiny_yard, tiny_check);
    let mut cases = vec![];
    for slots in [1, 2, 63, 64] {
        cases.push(of_check(&call(tiny(slots), 1, 1), &vec![9; model::ROW * slots]));
    }
    for (moved, begin) in [(0, 1), (2, 1), (3, 1), (4, 1), (1, 0), (1, 3), (1, 4), (1, 5), (1, u32::MAX)] {
        cases.push(of_check(&call(tiny(3), moved, begin), &[9; 3 * model::ROW]));
    }
    for len in [0, 48, 59, 61, 80] {
        cases.push(of_check(&call(tiny(3), 1, 1), &vec![9; len]));
    }
    for at in 0..5 {
        for n in [0, 1, 2, 4, 63, 19, 21, 156, u32::MAX] {
            let mut y = tiny(3);
            put_u32(&mut y, 4 * at, n);
            cases.push(of_check(&call(y, 1, 1), &[9; 3 * model::ROW]));
        }
    }
    for len in [0, 4, 7, 8, 11, 19, 20, 83, 84] {
        cases.push(of_check(&call(tiny(3)[..len].to_vec(), 1, 1), &[9; 3 * model::ROW]));
    }
    for (l, k) in [(0, 0), (1, 0), (2, 4_000), (2, 4_001), (4_000, 0), (4_001, 0)] {
        let c = CheckCase { occ: vec![0; l], blocking: vec![1; k], ..call(tiny(1), 1, 1) };
        cases.push(of_check(&c, &[9; model::ROW]));
    }
    cases.extend(short_parts());
    cases
}

/// Parts of 63 and 64 bytes: the first is 14, the second 6 of its slot.
fn short_parts() -> Vec<Case> {
    [63, 64]
        .into_iter()
        .map(|len| {
            let mut part = vec![0; len];
            put_u16(&mut part, 32, 1);
            let c = CheckCase {
                yard: yard_of(&[part]),
                occ: vec![0; 2],
                blocking: vec![],
                moved: 1,
                begin: 1,
                local: false,
                limit: 1,
            };
            of_check(&c, &[9; model::ROW])
        })
        .collect()
}

fn boundary_sheets(rng: &mut Rng) -> Vec<Case> {
    let mut cases = vec![];
    let example = selftest::sheet_bundle();
    for at in 0..6 {
        let v = u32_at(&example, 4 * at);
        for n in [0, v - v.min(1), v + 1, v + 2, u32::MAX] {
            let mut b = example.clone();
            put_u32(&mut b, 4 * at, n);
            cases.push(Case::sheet(&b));
        }
    }
    for at in [24, 26, 28, 30] {
        for n in [0, 1, 2, 3, 4, u16::MAX] {
            let mut b = example.clone();
            put_u16(&mut b, at, n);
            cases.push(Case::sheet(&b));
        }
    }
    for len in [0, 1, 31, 32, 38, example.len() - 1] {
        cases.push(Case::sheet(&example[..len]));
        let mut b = example[..len].to_vec();
        if len >= 4 {
            put_u32(&mut b, 0, len as u32);
            cases.push(Case::sheet(&b));
        }
    }
    for slots in [63, 64] {
        cases.push(Case::sheet(&bundle_of_check(&tiny_check(tiny_yard(slots), 63, 1))));
    }
    cases.extend(full_bundles());
    cases.extend((0..3).filter_map(|_| tidy_sheet(rng)));
    cases
}

/// The sheet of the last check of a tidy run, where its bundle is not too long.
fn tidy_sheet(rng: &mut Rng) -> Option<Case> {
    let (sections, trains) = (rng.from(3, 5), rng.from(2, 4));
    let last = tidy_run(rng, sections, trains, 20).pop().expect("a move");
    let b = bundle_of_check(&last);
    (b.len() <= 65_536).then(|| Case::sheet(&b))
}

/// A bundle of 65,536 bytes, and one of one byte more.
fn full_bundles() -> Vec<Case> {
    let (first, mut second) = (straight(512, 73, 4), straight(500, 73, 4));
    second.train = 2;
    let yard = yard_of(&[image_of(&first), image_of(&second)]);
    let whole = bundle_of(&Bundle {
        occupancy: vec![0; 4],
        blocking: vec![],
        yard: &yard,
        moved: 2,
        begin: 1,
        limit: 1,
        local: true,
    });
    assert_eq!(whole.len(), 65_536);
    let mut above = whole.clone();
    above.push(0);
    put_u32(&mut above, 0, 65_537);
    vec![Case::sheet(&whole), Case::sheet(&above)]
}

// ---- chosen by what they show

fn counters() -> Vec<[u64; 3]> {
    (0..BRANCHES.len()).map(hook::counts).collect()
}

/// Offers an update for each branch that it met, once for all and once among those that
/// changed the path or the diverge nodes.
fn offer_branches(by_branch: &mut Chooser, before: &[[u64; 3]], case: &Case) {
    let changed = case.answer[0] < 3 && shape(&case.ins[0]) != shape(&case.outs[0]);
    for (id, (old, new)) in before.iter().zip(counters()).enumerate() {
        for what in (0..3).filter(|&i| old[i] != new[i]) {
            by_branch.offer(format!("{id} {what}"), case);
            if changed {
                by_branch.offer(format!("{id} {what} changed"), case);
            }
        }
    }
}

/// The part of an image behind its est records, without the ending sentinel's train.
fn shape(image: &[u8]) -> Vec<u8> {
    let (e, m) = (u32_at(image, 4) as usize, u32_at(image, 12) as usize);
    let mut b = image[path_offset(e)..].to_vec();
    let at = diverge_offset(e) - path_offset(e) + 4 * (m - 1);
    put_u16(&mut b, at, 0);
    b
}

/// Updates from all generators: the smallest for each answer and for each branch.
fn chosen_updates(rng: &mut Rng, tries: usize) -> Vec<Case> {
    let mut by_key = Chooser::new(1);
    let mut by_branch = Chooser::new(2);
    let mut by_rounds = Chooser::new(5);
    for i in 0..tries {
        let case = if i % 500 == 0 { of_update(&large_update(rng)) } else { update(rng) };
        let before = counters();
        let case = case.answered();
        by_key.offer_all(&case);
        if case.answer[0] < 3 && case.answer[4] > 1 {
            let kept = case.outs[0] == case.ins[0];
            by_rounds.offer(format!("{} {} {kept}", case.answer[0], case.answer[4].min(5)), &case);
        }
        offer_branches(&mut by_branch, &before, &case);
    }
    let answers = by_key.cases(CHOSEN).chain(by_rounds.cases(CHOSEN));
    answers.chain(by_branch.cases(BRANCH)).collect()
}

/// Updates that deposit the union of several views: for each branch of the functions on
/// views (153 to 240) the smallest that leave diverge nodes, and some as they come.
fn chosen_views(rng: &mut Rng) -> Vec<Case> {
    let views: Vec<usize> = (0..BRANCHES.len()).filter(|&i| (153..=240).contains(&BRANCHES[i].0)).collect();
    let mut by_view = Chooser::new(3);
    let mut some = vec![];
    for i in 0..20_000 {
        let before = counters();
        let case = of_update(&views_update(rng)).answered();
        if case.answer[0] == 3 || u32_at(&case.outs[0], 12) < 5 {
            continue;
        }
        let after = counters();
        for &id in &views {
            for what in (0..3).filter(|&w| before[id][w] != after[id][w]) {
                by_view.offer(format!("{id} {what}"), &case);
            }
        }
        if i % 800 == 0 {
            some.push(case.tagged(SAMPLED));
        }
    }
    by_view.cases(BRANCH).chain(some).collect()
}

/// Searches that go back over hundreds of nodes, with and without a way round.
fn long_searches(rng: &mut Rng) -> Vec<Case> {
    (0..4).map(|_| of_update(&long_update(rng)).tagged(BOUNDARY)).collect()
}

/// Pools and diverge lists that are just full, and one above.
fn full_lists(rng: &mut Rng) -> Vec<Case> {
    let mut by_room = Chooser::new(1);
    for _ in 0..12_000 {
        let case = if rng.chance(60) {
            let (depth, stored) = (rng.from(62, 65), rng.pick(&[0, 0, 0, 2]));
            of_update(&comb(rng, depth, 80, stored))
        } else {
            let stored = rng.pick(&[1, 2, 3, 1_020, 1_021, 1_022]);
            let q = (stored + rng.from(2, 4)).min(1_024);
            of_update(&deposit(rng, stored, q))
        };
        let case = case.answered();
        let run = hook::state();
        if (2_047..=2_049).contains(&run.pool_most) {
            by_room.offer(format!("pool {}", run.pool_most), &case);
        }
        if run.diverge_most >= run.diverge_room {
            let q = run.diverge_room;
            by_room.offer(format!("diverge {} of {q} {}", run.diverge_most, run.cause), &case);
        }
    }
    by_room.cases(BOUNDARY).collect()
}

fn chosen(rng: &mut Rng, tries: usize, each: usize, make: fn(&mut Rng) -> Case) -> Vec<Case> {
    let mut by_key = Chooser::new(each);
    for _ in 0..tries {
        let case = make(rng).answered();
        by_key.offer_all(&case);
    }
    by_key.cases(CHOSEN).collect()
}

/// Calls as they come, so that not only the smallest stand in the list.
fn sampled(rng: &mut Rng, count: usize, make: fn(&mut Rng) -> Case) -> Vec<Case> {
    let mut cases = vec![];
    while cases.len() < count {
        let c = make(rng).answered();
        let early = if c.op == UPDATE { (1..=10).contains(&c.answer[1]) } else { c.answer[0] != 0 };
        if !early || c.op == CHECK && c.answer[0] == 1 {
            cases.push(c.tagged(SAMPLED));
        }
    }
    cases
}

/// Checks of tidy yards.
fn tidy_checks(rng: &mut Rng) -> Vec<Case> {
    let mut by_key = Chooser::new(2);
    for _ in 0..60 {
        let (sections, trains) = (rng.from(1, 5), rng.from(1, 3));
        for c in tidy_run(rng, sections, trains, 25) {
            let case = of_check(&c, &vec![0xA5; model::ROW * trains]).answered();
            by_key.offer_all(&case);
        }
    }
    by_key.cases(CHOSEN).collect()
}

/// Leaves: the smallest for each answer, and some as they come.
fn leaf_cases(rng: &mut Rng) -> Vec<Case> {
    let mut cases = chosen(rng, 60_000, 1, leaves::any);
    cases.extend((0..80).map(|_| leaves::any(rng)));
    cases
}

/// Lists of calls: the smallest for each two answers in a row, and some that change the yard.
fn lists(rng: &mut Rng) -> Vec<Case> {
    let mut cases = chosen(rng, 20_000, 1, list);
    let changes = |c: &Case| c.calls().iter().any(|x| x.op == CHECK && x.outs[0] != c.ins[2]);
    cases.extend(std::iter::repeat_with(|| list(rng).answered()).filter(changes).take(40));
    cases
}

/// The smallest of some pairs of checks that are taken back, over narrow images and over either width; and the smallest recorded
/// checks and undos for each answer.
fn taken_back(rng: &mut Rng) -> Vec<Case> {
    let smallest = |rng: &mut Rng, wide| {
        let pairs = (0..200).map(|_| undo_calls::two_checks(rng, wide));
        pairs.min_by_key(|cases| cases.iter().map(size).sum::<usize>()).expect("a pair")
    };
    let mut list = [smallest(rng, false), smallest(rng, true)].concat();
    let mut chooser = Chooser::new(1);
    for make in [undo_calls::recorded, undo_calls::recorded_wide, undo_calls::undo] {
        for _ in 0..2_000 {
            let c = make(rng).answered();
            chooser.offer(format!("{:?}", (c.op, c.answer[0], c.answer[1], c.answer[4])), &c);
        }
    }
    list.extend(chooser.cases(TAKEN_BACK));
    list
}

/// Lengths of an index at their boundaries; the smallest indexes of random yards for each answer and number of slots; some as they come.
fn indexes(rng: &mut Rng) -> Vec<Case> {
    let mut cases: Vec<Case> =
        [0, 1, 2, 3, 4_000, 4_001].iter().map(|&l| Case::index(&tiny_yard(2), &vec![u64::MAX; l])).collect();
    cases.extend([63, 64].map(|slots| Case::index(&tiny_yard(slots), &[7; 3])));
    let mut chooser = Chooser::new(1);
    let mut some = vec![];
    for i in 0..2_000 {
        let c = index_calls::build(rng);
        let slots = read_yard(&c.ins[0]).map_or(0, |parts| parts.len());
        chooser.offer(format!("{:?}", (c.answer[0], slots.min(8))), &c);
        if i % 100 == 0 {
            some.push(c);
        }
    }
    cases.extend(chooser.cases(INDEXED));
    cases.extend(some);
    cases
}

/// Of random calls, among them those of the operations: the smallest for each operation and answer, and some as they come.
fn among(rng: &mut Rng, ops: &[u32], tag: u32, make: fn(&mut Rng) -> Case) -> Vec<Case> {
    let (mut chooser, mut some) = (Chooser::new(1), vec![]);
    for i in 0..4_000 {
        let c = make(rng).answered();
        if ops.contains(&c.op) {
            chooser.offer(format!("{:?}", (c.op, c.answer[0], c.answer[1], c.answer[4])), &c);
            if i % 200 == 0 {
                some.push(c);
            }
        }
    }
    chooser.cases(tag).chain(some).collect()
}

const BESIDE_OPS: [u32; 6] = [
    INDEXED_CHECK,
    WIDE_INDEXED_CHECK,
    RECORDED_INDEXED_CHECK,
    WIDE_RECORDED_INDEXED_CHECK,
    INDEXED_LAY_OUT,
    INDEXED_UNDO,
];

pub fn recorded(seed: u64) -> Vec<Case> {
    let mut rng = Rng::new(seed);
    let rng = &mut rng;
    let tag = |cases: Vec<Case>, tag: u32| cases.into_iter().map(move |c| c.tagged(tag));
    let mut list: Vec<Case> = named();
    list.extend(tag(boundary_tables(), BOUNDARY));
    list.extend(chosen(rng, 3_000, 2, mark));
    list.extend(sampled(rng, 40, mark));
    list.extend(tag(boundary_layouts(), BOUNDARY));
    list.extend(chosen(rng, 6_000, 2, lay_out));
    list.extend(sampled(rng, 20, lay_out));
    list.extend(tag(damaged_images(rng), DAMAGED));
    list.extend(tag(boundary_updates(), BOUNDARY));
    list.extend(full_lists(rng));
    list.extend(long_searches(rng));
    list.extend(chosen_updates(rng, 400_000));
    list.extend(chosen_views(rng));
    list.extend(sampled(rng, 80, update));
    list.extend(tag(boundary_yards(), BOUNDARY));
    list.extend(chosen(rng, 30_000, 2, check));
    list.extend(sampled(rng, 20, check));
    list.extend(tidy_checks(rng));
    list.extend(tag(boundary_sheets(rng), BOUNDARY));
    list.extend(chosen(rng, 10_000, 2, sheet));
    list.extend(tag(leaf_cases(rng), LEAF));
    list.extend(tag(lists(rng), LISTED));
    list.extend(tag(taken_back(rng), TAKEN_BACK));
    list.extend(tag(indexes(rng), INDEXED));
    list.extend(tag(among(rng, &BESIDE_OPS, BESIDE, index_calls::any), BESIDE));
    list.extend(tag(among(rng, &[CARRY, HALF_CHECK], CARRIED, carry_calls::any), CARRIED));
    let mut seen = BTreeSet::new();
    list.retain(|c| seen.insert((c.op, c.args, c.ins.clone())));
    list.into_iter().map(Case::answered).collect()
}
