//! Generators of single trains: odd ones that are still accepted,
//! large ones, and damaged images. `yards` makes whole yards.

use crate::layout::*;
use crate::model::PROFILE_MOST;
use crate::rng::Rng;

/// The arguments of one update.
#[derive(Clone, Debug)]
pub struct UpdateCase {
    pub image: Vec<u8>,
    pub occ: Vec<u16>,
    pub blocking: Vec<u32>,
    pub moved: u16,
    pub local: bool,
    pub limit: u16,
}

impl UpdateCase {
    /// The same with one field of its image written over.
    pub fn damaged(self, rng: &mut Rng) -> UpdateCase {
        UpdateCase { image: damaged(rng, &self.image, self.occ.len()), ..self }
    }

    /// The same with some changes of its image, which stays accepted.
    pub fn changed(self, rng: &mut Rng) -> UpdateCase {
        UpdateCase { image: changed(rng, &self.image, self.occ.len()), ..self }
    }

    /// Other trains come to stand about, and one of them has moved.
    pub fn others_move(&mut self, rng: &mut Rng) {
        let l = self.occ.len();
        self.occ = odd_occupancy(rng, l);
        self.moved = rng.from(1, 5) as u16;
        if let Ok(t) = read_image(&self.image, l) {
            self.blocking = odd_blocking(rng, &t, &self.occ);
        }
    }
}

pub fn no_est() -> Est {
    Est { dist_to_next: 0.0, next: 0, alt: 0, prev: 0, prev_alt: 0, link: 0, kind: FAKE }
}

// ---- odd trains: a random acyclic net, a walk through it, records that may disagree

/// How often an odd train departs from a tidy one, in percent; `dist` picks a kind of distances.
#[derive(Clone, Copy)]
pub(crate) struct Odds {
    alt: usize,
    event: usize,
    offset: usize,
    time: usize,
    div: usize,
    dist: usize,
}

pub(crate) fn odds(rng: &mut Rng) -> Odds {
    let rare = rng.chance(50);
    let level = |rng: &mut Rng| if rare { rng.pick(&[0, 0, 5]) } else { rng.pick(&[0, 10, 40]) };
    Odds {
        alt: rng.pick(&[25, 45, 70]),
        event: level(rng),
        offset: level(rng),
        time: level(rng),
        div: level(rng),
        dist: rng.below(7),
    }
}

pub(crate) fn distance(rng: &mut Rng, mode: usize) -> f64 {
    match mode {
        0 => 0.0,
        1 => rng.pick(&[0.0, 1.0, 2.0, 5.0]),
        2 => rng.unit() * 1_000.0,
        3 => rng.pick(&[0.0, -0.0, 1.0, -1.0, 3.5, -2.5]),
        4 => rng.pick(&[1e12, 5e11, 9e11, -1e12, 0.0, 1.0]),
        5 => rng.pick(&[1.0, 1_000_000.0, 0.0]) + slight(rng),
        _ => (rng.below(9) as f64) * 100.0,
    }
}

/// A difference about as large as near allows.
fn slight(rng: &mut Rng) -> f64 {
    rng.pick(&[0.0, 5e-9, -5e-9, 9.999e-9, 1e-8, -1e-8, 2e-8, 0.0078125, 0.03])
}

fn odd_offset(rng: &mut Rng) -> f64 {
    match rng.below(6) {
        0 => -0.0,
        1 => 0.0,
        2 => rng.unit() * 100.0 - 50.0,
        3 => rng.pick(&[1e12, -1e12]),
        _ => rng.below(20) as f64,
    }
}

/// Offsets that a rounding may get wrong.
const ROUNDED: [f64; 14] = [
    0.0,
    0.3,
    0.49999999999999994,
    0.5,
    0.5000000000000001,
    1.5,
    2.5,
    3.5,
    f64::from_bits(1),
    f64::MIN_POSITIVE,
    999_999_999_998.5,
    999_999_999_999.5,
    999_999_999_999.9999,
    1e12,
];

/// An offset of at most 1e12 in magnitude: a half, a float beside one, or anything.
pub fn rounded_offset(rng: &mut Rng) -> f64 {
    let whole = match rng.below(3) {
        0 => rng.below(20) as u64,
        1 => rng.next() % 1_000_000_000_000,
        _ => (1 << rng.below(40)) - rng.below(2) as u64,
    };
    let half = whole as f64 + 0.5;
    let size = match rng.below(12) {
        0..=3 => half,
        4 => half.next_up(),
        5 => half.next_down(),
        6 => whole as f64,
        7..=8 => rng.pick(&ROUNDED),
        // a fraction behind as many bits as there are
        9..=10 => half.min(5e11) * (1.0 + rng.unit()),
        _ => f64::from_bits(rng.next() % (1e12f64.to_bits() + 1)),
    };
    if rng.chance(50) {
        -size
    } else {
        size
    }
}

/// A value of the profile, -0.0 among them.
pub fn profile_value(rng: &mut Rng) -> f64 {
    let steps = match rng.below(8) {
        0 => return -0.0,
        1 => rng.pick(&[0, 1, 2, PROFILE_MOST - 1, PROFILE_MOST]),
        2 => rng.below(40) as u64 * 1_024,
        _ => rng.next() % (PROFILE_MOST + 1),
    };
    steps as f64 / 1_024.0
}

/// A value about the bounds of the profile and its unit; most are outside it.
pub fn beside_profile(rng: &mut Rng) -> f64 {
    let inside = profile_value(rng);
    match rng.below(10) {
        0 => inside.next_up(),
        1 => inside.next_down(),
        2 => inside + 1.0 / 2_048.0,
        3 => -inside,
        4 => 40_000.0 + inside,
        5 => rng.pick(&[40_000f64.next_up(), 40_000f64.next_down(), 40_000.0 + 1.0 / 1_024.0, 50_000.0]),
        6 => rng.pick(&[f64::from_bits(1), -f64::from_bits(1), f64::MIN_POSITIVE, 1.0 / 1_048_576.0]),
        7 => rng.pick(&[0.1, -1.0 / 1_024.0, 1e12, 999_999_999_999.5, 549_755_813_888.0]),
        8 => rng.unit() * 40_000.0,
        _ => f64::from_bits(rng.next() % (1e12f64.to_bits() + 1)),
    }
}

fn odd_event(rng: &mut Rng, l: usize) -> (u8, u32) {
    match rng.below(8) {
        0..=4 => (ARRIVE, rng.from(1, l - 1) as u32),
        5 => (CLEAR, rng.below(l) as u32),
        6 => (FAKE, 0),
        _ => (FAKE, rng.below(l) as u32),
    }
}

pub(crate) fn odd_net(rng: &mut Rng, e: usize, l: usize, w: Odds) -> Vec<Est> {
    let mut order: Vec<usize> = (0..e).collect();
    if rng.chance(60) {
        rng.shuffle(&mut order[1..]);
    }
    let mut est = vec![no_est(); e];
    let reach = rng.from(1, 5);
    for r in 0..e {
        let (kind, link) = odd_event(rng, l);
        let later = |rng: &mut Rng| match e - 1 - r {
            0 => 0,
            n => order[r + rng.from(1, n.min(reach))] as u32,
        };
        let next = if rng.chance(92) { later(rng) } else { 0 };
        let alt = if rng.chance(w.alt) { later(rng) } else { 0 };
        let dist = distance(rng, w.dist);
        est[order[r]] = Est { dist_to_next: dist, next, alt, link, kind, ..no_est() };
    }
    link_back(rng, &mut est, w);
    est
}

/// prev and prev_alt as they should be, or at random.
fn link_back(rng: &mut Rng, est: &mut [Est], w: Odds) {
    for i in 0..est.len() {
        for (j, by_alt) in [(est[i].next, false), (est[i].alt, true)] {
            let x = &mut est[j as usize];
            if j == 0 || x.prev == i as u32 {
                continue;
            }
            if x.prev == 0 {
                x.prev = i as u32;
            } else if !by_alt {
                x.prev_alt = i as u32;
            }
        }
    }
    for i in 0..est.len() {
        if rng.chance(w.event / 4) {
            est[i].prev = rng.below(est.len()) as u32;
        }
    }
}

fn walk(rng: &mut Rng, est: &[Est], by_alt: usize) -> Vec<u32> {
    let mut path = vec![0];
    loop {
        let x = est[*path.last().unwrap() as usize];
        let alt = x.alt != 0 && rng.chance(by_alt);
        if alt {
            path.push(x.alt);
        } else if x.next != 0 {
            path.push(x.next);
        } else {
            return path;
        }
    }
}

/// Path records along a walk, with offsets and times as an update leaves them, or odd.
fn nodes_of(rng: &mut Rng, est: &[Est], walk: &[u32], free: usize, l: usize, w: Odds) -> Vec<Node> {
    let mut seen = vec![false; l];
    let mut path: Vec<Node> = vec![];
    for (i, &at) in walk.iter().enumerate() {
        let x = est[at as usize];
        let came = i.checked_sub(1).map(|j| (est[walk[j] as usize], path[j].offset));
        let by_alt = came.is_some_and(|(p, _)| p.next != at);
        let mut offset = came.map_or(0.0, |(p, o)| if by_alt { o } else { o + p.dist_to_next });
        if rng.chance(w.offset) {
            offset += slight(rng);
        }
        if rng.chance(w.offset) || offset.abs() > 1e12 {
            offset = odd_offset(rng);
        }
        let (mut kind, mut link) = if by_alt && rng.chance(60) { (FAKE, 0) } else { (x.kind, x.link) };
        if rng.chance(w.event) {
            (kind, link) = odd_event(rng, l);
        }
        if kind == ARRIVE && std::mem::replace(&mut seen[link as usize], true) {
            kind = CLEAR;
        }
        let passed = (i < free) != rng.chance(w.time);
        let time_pass = if passed { i as f64 } else { f64::INFINITY };
        let auth = if passed { rng.below(4) as u16 } else { 0 };
        path.push(Node { offset, time_pass, link, est: at, auth, kind });
    }
    path
}

/// Diverge nodes where the walk took an alternate, and some elsewhere.
fn diverges(rng: &mut Rng, est: &[Est], walk: &[u32], w: Odds) -> Vec<Diverge> {
    let n = walk.len();
    let mut div = vec![Diverge { train: 0, node: 0 }];
    for i in 1..n {
        let by_alt = est[walk[i - 1] as usize].next != walk[i];
        let count = if by_alt && rng.chance(90) {
            rng.from(1, 3)
        } else if rng.chance(w.div / 4) {
            1
        } else {
            0
        };
        for _ in 0..count {
            div.push(Diverge { train: rng.from(1, 5) as u32, node: i as u16 });
        }
    }
    div.push(Diverge { train: rng.below(6) as u32, node: n as u16 });
    div
}

/// A train with E est records for L links; accepted whenever the walk keeps its links apart.
pub fn odd_train(rng: &mut Rng, e: usize, l: usize) -> Train {
    let w = odds(rng);
    let est = odd_net(rng, e, l, w);
    let by_alt = rng.pick(&[0, 20, 50]);
    let walk = walk(rng, &est, by_alt);
    let n = walk.len();
    let free = if rng.chance(4) { n } else { rng.below(n) };
    let fixed = match rng.below(10) {
        0 => rng.from(0, n),
        1 | 2 => rng.from(0, free),
        _ => free,
    };
    let path = nodes_of(rng, &est, &walk, free, l, w);
    let div = diverges(rng, &est, &walk, w);
    let near_free = |rng: &mut Rng| if rng.chance(70) { rng.from(0, free.min(n - 1)) } else { rng.below(n) };
    let (front, back) = (near_free(rng), near_free(rng));
    let slack = rng.pick(&[0, 0, 1, 2, 8]);
    Train {
        wide: false,
        div_room: div.len() + slack,
        est,
        path,
        div,
        train: rng.from(1, 5) as u16,
        fixed: fixed as u16,
        free: free as u16,
        front: front as u16,
        back: back as u16,
        dist_disp_path_search: rng.pick(&[0.0, -0.0, 1.0, 3.0, 100.0, 1e12]),
        dist_fixed_max: rng.pick(&[0.0, 1.0, 5.0, 100.0, 1e12]),
    }
}

pub fn odd_occupancy(rng: &mut Rng, l: usize) -> Vec<u16> {
    let density = rng.pick(&[0, 10, 30, 60]);
    let mut occ: Vec<u16> =
        (0..l).map(|_| if rng.chance(density) { rng.from(1, 5) as u16 } else { 0 }).collect();
    if !rng.chance(10) {
        occ[0] = 0;
    }
    occ
}

/// A blocking list: mostly occupied links of the path, some others, repeats.
pub fn odd_blocking(rng: &mut Rng, t: &Train, occ: &[u16]) -> Vec<u32> {
    let on_path: Vec<u32> = t.path.iter().filter(|x| x.kind == ARRIVE).map(|x| x.link).collect();
    let mut list: Vec<u32> = on_path
        .iter()
        .copied()
        .filter(|&x| if occ[x as usize] != 0 { rng.chance(75) } else { rng.chance(10) })
        .collect();
    for _ in 0..rng.below(3) {
        list.push(rng.below(occ.len()) as u32);
    }
    if !list.is_empty() && rng.chance(20) {
        list.push(rng.pick(&list.clone()));
    }
    rng.shuffle(&mut list);
    list
}

/// An update over this occupancy with an odd blocking list, after one of so many trains has moved.
fn update_over(rng: &mut Rng, t: &Train, occ: Vec<u16>, trains: usize) -> UpdateCase {
    let blocking = odd_blocking(rng, t, &occ);
    let moved = rng.from(1, trains) as u16;
    UpdateCase { image: image_of(t), occ, blocking, moved, local: false, limit: 20 }
}

pub fn odd_update(rng: &mut Rng) -> UpdateCase {
    let l = rng.pick(&[2, 4, 8, 12, 24, 60]);
    let e = match rng.below(20) {
        0 => 1,
        1..=9 => rng.from(2, 8),
        10..=17 => rng.from(6, 18),
        _ => rng.from(16, 60),
    };
    let t = odd_train(rng, e, l);
    let occ = odd_occupancy(rng, l);
    let c = update_over(rng, &t, occ, 5);
    UpdateCase { local: rng.chance(50), limit: rng.pick(&[1, 2, 3, 8, 40]), ..c }
}

// ---- twins: a second branch with the same events, so that a fixed path can be taken over

/// A start and a chain of k nodes of all types; Arrive links rise along it.
fn chain(rng: &mut Rng, k: usize, l: usize) -> Vec<Est> {
    (0..=k)
        .map(|i| {
            let (kind, link) = match rng.below(10) {
                _ if i == 0 => (FAKE, 0),
                0 | 1 => (FAKE, 0),
                2..=4 => (CLEAR, rng.below(l) as u32),
                _ => (ARRIVE, i.min(l - 1) as u32),
            };
            let next = if i < k { i as u32 + 1 } else { 0 };
            let dist_to_next = rng.pick(&[0.0, 1.0, 2.0, 5.0]);
            Est { dist_to_next, next, prev: i.saturating_sub(1) as u32, link, kind, ..no_est() }
        })
        .collect()
}

/// A chain with a split; behind it a second row of nodes repeats the events of the
/// first one. The train has passed the split, and is blocked behind it.
pub fn twin_train(rng: &mut Rng, l: usize) -> Train {
    let k = rng.from(3, 10);
    let mut est = chain(rng, k, l);
    for _ in 0..rng.from(1, 2) {
        let split = rng.below(k);
        add_twin(rng, &mut est, split, k);
    }
    let rare = |rng: &mut Rng, p: usize| rng.pick(&[0, 0, p]);
    let w = Odds { alt: 0, event: 0, offset: rare(rng, 5), time: rare(rng, 5), div: rare(rng, 20), dist: 1 };
    let walk: Vec<u32> = (0..=k as u32).collect();
    let free = rng.from(1, k);
    let fixed = if rng.chance(75) { free } else { rng.from(0, k + 1) };
    let path = nodes_of(rng, &est, &walk, free, l, w);
    let div = diverges(rng, &est, &walk, w);
    Train {
        wide: false,
        div_room: div.len() + rng.pick(&[0, 1, 4, 8]),
        est,
        path,
        div,
        train: 2,
        fixed: fixed as u16,
        free: free as u16,
        front: rng.below(free) as u16,
        back: rng.below(free) as u16,
        dist_disp_path_search: rng.pick(&[0.0, 3.0, 1e12, 1e12]),
        dist_fixed_max: rng.pick(&[0.0, 3.0, 1e12, 1e12]),
    }
}

/// A second row of nodes from the split on, as long as the first or shorter.
fn add_twin(rng: &mut Rng, est: &mut Vec<Est>, split: usize, k: usize) {
    let length = rng.from(1, k - split);
    let mut from = split;
    if rng.chance(80) {
        est.push(Est { prev: split as u32, ..no_est() });
        est[split].alt = est.len() as u32 - 1;
        from = est.len() - 1;
    } else {
        est[split].alt = est.len() as u32;
    }
    for i in split + 1..=split + length {
        let mut x = Est { prev: from as u32, next: 0, alt: 0, ..est[i] };
        if rng.chance(8) {
            (x.kind, x.link) = (ARRIVE, rng.from(1, 3) as u32);
        }
        if rng.chance(5) {
            x.dist_to_next += 1.0;
        }
        est.push(x);
        let at = est.len() - 1;
        if from != split {
            est[from].next = at as u32;
        }
        from = at;
    }
    if split + length < k && rng.chance(80) {
        est[from].next = rng.from(split + length + 1, k) as u32;
    }
}

pub fn twin_update(rng: &mut Rng) -> UpdateCase {
    let l = rng.pick(&[4, 12, 40]);
    let mut t = twin_train(rng, l);
    if rng.chance(30) {
        if let Ok(x) = read_image(&changed(rng, &image_of(&t), l), l) {
            t = x;
        }
    }
    let mut occ = vec![0; l];
    let ahead: Vec<u32> =
        t.path[t.free as usize..].iter().filter(|x| x.kind == ARRIVE).map(|x| x.link).collect();
    for _ in 0..rng.from(1, 2) {
        if !ahead.is_empty() {
            occ[rng.pick(&ahead) as usize] = rng.from(1, 3) as u16;
        }
    }
    let c = update_over(rng, &t, occ, 3);
    UpdateCase { local: rng.chance(30), limit: 8, ..c }
}

/// Many alternates, many trains: views of the pool of all shapes.
pub fn dense_update(rng: &mut Rng, e: usize, l: usize) -> UpdateCase {
    let w = Odds { alt: 90, event: 0, offset: 0, time: 0, div: rng.pick(&[0, 20]), dist: rng.pick(&[1, 5]) };
    let est = odd_net(rng, e, l, w);
    let by_alt = rng.pick(&[0, 50]);
    let walk = walk(rng, &est, by_alt);
    let n = walk.len();
    let free = rng.below(n.min(4));
    let path = nodes_of(rng, &est, &walk, free, l, w);
    let div = diverges(rng, &est, &walk, w);
    let t = Train {
        wide: false,
        div_room: div.len() + 30,
        est,
        path,
        div,
        train: 1,
        fixed: free as u16,
        free: free as u16,
        front: 0,
        back: 0,
        dist_disp_path_search: 1e12,
        dist_fixed_max: 1e12,
    };
    let most = rng.pick(&[3, 40]);
    let density = rng.pick(&[30, 60, 85]);
    let mut occ: Vec<u16> =
        (0..l).map(|_| if rng.chance(density) { rng.from(1, most) as u16 } else { 0 }).collect();
    occ[0] = 0;
    update_over(rng, &t, occ, 5)
}

// ---- unions of views: a net without a way through, all of whose trains are deposited before it

/// A net of Fake nodes that all end at held links. A node may lead to nodes that an earlier
/// one led to: these are blocked already when the search meets them again.
struct Blind {
    est: Vec<Est>,
    closed: Vec<u32>,
    links: u32,
}

/// The end of all ways.
const END: u32 = 6;

impl Blind {
    fn dead_end(&mut self) -> u32 {
        let fake = self.est.len() as u32;
        self.est.push(Est { next: fake + 1, ..no_est() });
        self.est.push(Est { next: END, link: self.links, kind: ARRIVE, ..no_est() });
        self.links += 1;
        fake
    }

    fn split(&mut self, rng: &mut Rng, depth: usize) -> u32 {
        let next = self.way(rng, depth);
        let alt = self.way(rng, depth);
        self.est.push(Est { next, alt, ..no_est() });
        self.est.len() as u32 - 1
    }

    /// A node that leads nowhere: an old one, a dead end or a split.
    fn way(&mut self, rng: &mut Rng, depth: usize) -> u32 {
        let at = match rng.below(10) {
            0..=2 if !self.closed.is_empty() => return rng.pick(&self.closed.clone()),
            0..=4 => self.dead_end(),
            _ if depth == 0 => self.dead_end(),
            _ => self.split(rng, depth - 1),
        };
        self.closed.push(at);
        at
    }
}

/// 0, 1, 2 lead to 3, which is held; from 2 an alternate leads into a blind net, from 1 another
/// by 4 and 5 to the end.
pub fn views_update(rng: &mut Rng) -> UpdateCase {
    let est =
        |next, alt, prev, link, kind| Est { dist_to_next: 1.0, next, alt, prev, prev_alt: 0, link, kind };
    let mut blind = Blind {
        est: vec![
            est(1, 0, 0, 0, FAKE),
            est(2, 4, 0, 0, FAKE),
            est(3, 0, 1, 0, FAKE),
            est(END, 0, 2, 1, ARRIVE),
            est(5, 0, 1, 0, FAKE),
            est(END, 0, 4, 2, ARRIVE),
            est(0, 0, 3, 0, CLEAR),
        ],
        closed: vec![],
        links: 3,
    };
    let depth = rng.from(1, 4);
    let root = blind.split(rng, depth);
    blind.est[2].alt = root;
    let most = rng.pick(&[3, 60_000]);
    let mut occ: Vec<u16> = (0..blind.links).map(|_| rng.from(1, most) as u16).collect();
    (occ[0], occ[2]) = (0, 0);
    let q = blind.links as usize + rng.from(2, 5);
    UpdateCase {
        image: image_of(&leaving(blind.est, &[0, 1, 2, 3, END], 1.0, vec![], q.min(1_024))),
        occ,
        blocking: vec![1, 1],
        moved: rng.from(1, 4) as u16,
        local: rng.chance(30),
        limit: 3,
    }
}

// ---- changes of an accepted train

/// One small change. The result may be refused; the caller reads it again.
pub fn change(rng: &mut Rng, t: &mut Train, l: usize) {
    let (e, n) = (t.est.len(), t.path.len());
    let (i, j) = (rng.below(e), rng.below(n));
    match rng.below(16) {
        0 => t.est[i].dist_to_next = odd_offset(rng),
        1 => t.est[i].alt = rng.below(e) as u32,
        2 => (t.est[i].kind, t.est[i].link) = odd_event(rng, l),
        3 => t.est[i].prev = rng.below(e) as u32,
        4 if rng.chance(50) => t.path[j].offset += slight(rng),
        4 => t.path[j].offset = odd_offset(rng),
        5 => t.path[j].time_pass = rng.pick(&[f64::INFINITY, 0.0, 5.0]),
        6 => (t.path[j].kind, t.path[j].link) = odd_event(rng, l),
        7 => t.fixed = rng.from(0, n) as u16,
        8 => t.free = rng.below(n) as u16,
        9 => t.front = rng.below(n) as u16,
        10 => t.back = rng.below(n) as u16,
        11 => t.dist_fixed_max = rng.pick(&[0.0, 10.0, 1e12]),
        12 => t.dist_disp_path_search = rng.pick(&[0.0, 10.0, 1e12]),
        13 => {
            let m = rng.below(t.div.len());
            t.div[m].train = rng.from(1, 5) as u32;
        }
        14 => {
            if t.div.len() > 2 {
                let m = rng.from(1, t.div.len() - 2);
                t.div.remove(m);
            }
        }
        _ => {
            if t.div.len() < t.div_room && n > 1 {
                let node = rng.from(1, n - 1) as u16;
                let at = t.div.iter().position(|d| d.node > node).unwrap();
                t.div.insert(at, Diverge { train: rng.from(1, 5) as u32, node });
            }
        }
    }
}

/// Some changes, kept only where the image stays accepted.
pub fn changed(rng: &mut Rng, image: &[u8], l: usize) -> Vec<u8> {
    let mut kept = image.to_vec();
    for _ in 0..rng.from(1, 3) {
        let Ok(mut t) = read_image(&kept, l) else { break };
        change(rng, &mut t, l);
        let b = image_of(&t);
        if read_image(&b, l).is_ok() {
            kept = b;
        }
    }
    kept
}

// ---- large ones

/// A train that has passed the first node of its walk.
fn leaving(est: Vec<Est>, walk: &[u32], step: f64, stored: Vec<Diverge>, q: usize) -> Train {
    let path = walk.iter().enumerate().map(|(i, &at)| {
        let x = est[at as usize];
        let time_pass = if i == 0 { 0.0 } else { f64::INFINITY };
        Node { offset: step * i as f64, time_pass, link: x.link, est: at, auth: 0, kind: x.kind }
    });
    let mut div = vec![Diverge { train: 0, node: 0 }];
    div.extend(stored);
    div.push(Diverge { train: 0, node: walk.len() as u16 });
    Train {
        wide: false,
        path: path.collect(),
        est,
        div,
        div_room: q,
        train: 7,
        fixed: 1,
        free: 1,
        front: 0,
        back: 0,
        dist_disp_path_search: 1e12,
        dist_fixed_max: 1e12,
    }
}

/// A start, a chain of Clear nodes and an Arrive at its end; from each chain node an
/// alternate leads by a Fake node to an Arrive of its own.
fn comb_net(depth: usize) -> Vec<Est> {
    let end = depth + 1;
    let mut est: Vec<Est> = (0..=depth)
        .map(|i| Est {
            dist_to_next: 1.0,
            next: i as u32 + 1,
            prev: i.saturating_sub(1) as u32,
            kind: if i == 0 { FAKE } else { CLEAR },
            ..no_est()
        })
        .collect();
    est.push(Est { link: 1, kind: ARRIVE, prev: depth as u32, ..no_est() });
    for i in 1..=depth {
        let fake = (end + 2 * i - 1) as u32;
        est[i].alt = fake;
        est.push(Est { next: fake + 1, prev: i as u32, ..no_est() });
        est.push(Est { link: i as u32 + 1, kind: ARRIVE, prev: fake, ..no_est() });
    }
    est
}

/// All ends of a comb are held, each by a train of its own. Going back along the
/// chain, each union of views is longer by one, so the pool grows with the square
/// of the depth.
pub fn comb(rng: &mut Rng, depth: usize, q: usize, stored: usize) -> UpdateCase {
    let walk: Vec<u32> = (0..=depth as u32 + 1).collect();
    let mut div: Vec<Diverge> = (0..stored.min(q - 2))
        .map(|i| Diverge { train: 1_000 + i as u32, node: rng.from(1, depth + 1) as u16 })
        .collect();
    div.sort_by_key(|d| d.node);
    let mut occ: Vec<u16> = (0..depth as u16 + 3).collect();
    if rng.chance(30) {
        // one alternate is free: the trains are deposited there
        occ[rng.from(2, depth + 1)] = 0;
    }
    for _ in 0..rng.pick(&[0, 1, 2, 3]) {
        // a train that holds two ends is added once
        occ[rng.from(2, depth + 1)] = rng.from(2, depth + 1) as u16;
    }
    UpdateCase {
        image: image_of(&leaving(comb_net(depth), &walk, 1.0, div, q)),
        occ,
        blocking: vec![1, 1],
        moved: 60_000,
        local: rng.chance(50),
        limit: 4,
    }
}

/// A split with two alternates, one behind the other; all three tracks rejoin.
fn deposit_net() -> Vec<Est> {
    let est =
        |kind, link, next, alt, prev| Est { dist_to_next: 0.0, next, alt, prev, prev_alt: 0, link, kind };
    vec![
        est(FAKE, 0, 1, 0, 0),
        est(FAKE, 0, 2, 4, 0),
        est(ARRIVE, 1, 3, 0, 1),
        est(CLEAR, 1, 9, 0, 2),
        est(FAKE, 0, 5, 7, 1),
        est(ARRIVE, 2, 6, 0, 4),
        est(CLEAR, 2, 9, 0, 5),
        est(FAKE, 0, 8, 0, 4),
        est(ARRIVE, 3, 9, 0, 7),
        est(CLEAR, 3, 0, 0, 3),
    ]
}

/// A train on the first alternate with `stored` trains deposited at the split:
/// diverge lists near Q.
pub fn deposit(rng: &mut Rng, stored: usize, q: usize) -> UpdateCase {
    let div = (0..stored).map(|i| Diverge { train: 10 + i as u32, node: 2 }).collect();
    let mut occ = vec![0u16; 4];
    for link in 1..4 {
        if rng.chance(60) {
            occ[link] = rng.pick(&[9, 10, 11, 5_000]);
        }
    }
    UpdateCase {
        image: image_of(&leaving(deposit_net(), &[0, 1, 4, 5, 6, 9], 0.0, div, q)),
        occ,
        blocking: vec![2, 2],
        moved: rng.pick(&[9, 10, 5_000]),
        local: rng.chance(50),
        limit: rng.pick(&[1, 2, 5]),
    }
}

/// Many est records, long walks, full lists.
pub fn large_update(rng: &mut Rng) -> UpdateCase {
    match rng.below(5) {
        0 => {
            let depth = rng.from(40, 170);
            let stored = rng.pick(&[0, 0, 3, 1_000]);
            comb(rng, depth, 1_024, stored)
        }
        1 => {
            let stored = rng.pick(&[1, 20, 500, 1_020, 1_021, 1_022]);
            let slack = if rng.chance(40) { 2 } else { rng.from(2, 6) };
            deposit(rng, stored, (stored + slack).min(1_024))
        }
        2 => {
            let (e, l) = (rng.from(100, 512), rng.from(300, 1_000));
            dense_update(rng, e, l)
        }
        3 => long_update(rng),
        _ => wide_update(rng),
    }
}

/// An odd train with many est records.
fn wide_update(rng: &mut Rng) -> UpdateCase {
    let l = rng.pick(&[600, 4_000]);
    let e = rng.pick(&[200, 511, 512]);
    let t = odd_train(rng, e, l);
    let occ = odd_occupancy(rng, l);
    let c = update_over(rng, &t, occ, 5);
    UpdateCase { local: rng.chance(50), limit: rng.pick(&[3, 60]), ..c }
}

/// A long chain whose end is held, so that the search goes back over all of it; at its
/// start perhaps an alternate that leads to a chain of the same length.
pub fn long_update(rng: &mut Rng) -> UpdateCase {
    let twin = rng.chance(50);
    let k = if twin { rng.from(100, 254) } else { rng.from(100, 511) };
    chain_update(rng, k, twin)
}

/// The same with a chain of k + 1 nodes, and with the alternate where twin is set.
pub fn chain_update(rng: &mut Rng, k: usize, twin: bool) -> UpdateCase {
    let l = k + 2;
    let mut est: Vec<Est> =
        (0..=k).map(|i| Est { next: (i as u32 + 1) % (k as u32 + 1), ..no_est() }).collect();
    est[k] = Est { link: 1, kind: ARRIVE, ..est[k] };
    if twin {
        est[1].alt = k as u32 + 1;
        let last = 2 * k;
        est.extend((k + 1..=last).map(|i| Est { next: if i < last { i as u32 + 1 } else { 0 }, ..no_est() }));
        est[last] = Est { link: 1 + rng.below(2) as u32, kind: ARRIVE, ..est[last] };
    }
    let walk: Vec<u32> = (0..=k as u32).collect();
    let mut occ = vec![0; l];
    occ[1] = 3;
    UpdateCase {
        image: image_of(&leaving(est, &walk, rng.pick(&[0.0, 1.0]), vec![], 8)),
        occ,
        blocking: vec![1, 1],
        moved: 3,
        local: rng.chance(50),
        limit: 4,
    }
}

/// A line of a start, a split, `main` nodes whose first is held, and `tail` nodes; from the split an alternate leads over
/// `siding` nodes, the Fake one included, to the tail. Both ways are as long in metres, so that a join shifts no offset.
pub fn siding_update(main: usize, siding: usize, tail: usize) -> UpdateCase {
    let (line, fake) = (2 + main, 2 + main + tail);
    let mut est: Vec<Est> = (0..fake + siding)
        .map(|i| {
            let (dist, kind, link) = match i {
                0 | 1 => (0, FAKE, 0),
                _ if i < line => (siding, if i == 2 { ARRIVE } else { CLEAR }, 1),
                _ if i < fake => (1, if i % 2 == 0 { ARRIVE } else { CLEAR }, 2 + i / 2),
                _ if i == fake => (main, FAKE, 0),
                _ => (main, if i == fake + 1 { ARRIVE } else { CLEAR }, 2),
            };
            let (next, prev) = (i as u32 + 1, i.saturating_sub(1) as u32);
            Est { dist_to_next: dist as f64, next, prev, link: link as u32, kind, ..no_est() }
        })
        .collect();
    let last = est.len() - 1;
    est[1].alt = fake as u32;
    est[fake].prev = 1;
    est[fake - 1].next = 0;
    est[last].next = line as u32;
    est[line].prev_alt = last as u32;
    let walk: Vec<u32> = (0..fake as u32).collect();
    let mut train = leaving(est, &walk, 0.0, vec![], 8);
    for i in 1..train.path.len() {
        train.path[i].offset = train.path[i - 1].offset + train.est[i - 1].dist_to_next;
    }
    let mut occ = vec![0; 3 + fake / 2];
    occ[1] = 3;
    UpdateCase { image: image_of(&train), occ, blocking: vec![1], moved: 3, local: false, limit: 4 }
}

// ---- damaged images

/// Floats about the bounds of document 01.
const FLOATS: [f64; 9] =
    [f64::NAN, f64::INFINITY, f64::NEG_INFINITY, 1e12, -1e12, 1.0000000000000002e12, -1.5e12, -1.0, -0.0];

/// One field written over, so that the image is refused or not.
pub fn damaged(rng: &mut Rng, image: &[u8], l: usize) -> Vec<u8> {
    let mut b = image.to_vec();
    let Ok(t) = read_image(image, l) else { return b };
    let (e, n, m) = (t.est.len(), t.path.len(), t.div.len());
    let est = HEADER + RECORD * rng.below(e);
    let node = path_offset(e) + RECORD * rng.below(n);
    let div = diverge_offset(e) + 4 * rng.below(m);
    let number = rng.pick(&[0, 1, 2, 3, 511, 512, 513, 1_024, 1_025, u32::MAX]);
    let float = rng.pick(&FLOATS);
    match rng.below(22) {
        0 => put_u32(&mut b, 4 * rng.below(8), number),
        1 => put_u16(&mut b, 32, 0),
        2 => {
            let at = 34 + 2 * rng.below(4);
            put_u16(&mut b, at, rng.pick(&[n as u16 - 1, n as u16, n as u16 + 1, u16::MAX]));
        }
        3 => b[42 + rng.below(6)] = 1,
        4 => put_f64(&mut b, 48 + 8 * rng.below(2), float),
        5 => put_f64(&mut b, est, float),
        6 => put_u32(&mut b, est + 8 + 4 * rng.below(4), rng.pick(&[e as u32 - 1, e as u32, u32::MAX])),
        7 => put_u32(&mut b, est + 24, rng.pick(&[0, l as u32 - 1, l as u32])),
        8 => b[est + 28] = rng.pick(&[0, 1, 2, 3, 255]),
        9 => b[est + 29 + rng.below(3)] = 7,
        10 => put_f64(&mut b, node + 8 * rng.below(2), float),
        11 => put_u32(&mut b, node + 16, rng.pick(&[0, l as u32 - 1, l as u32])),
        12 => put_u32(&mut b, node + 20, rng.pick(&[0, e as u32 - 1, e as u32])),
        13 => b[node + 26] = rng.pick(&[0, 1, 2, 3]),
        14 => b[node + 27 + rng.below(5)] = 1,
        15 => put_u16(&mut b, div, rng.pick(&[0, 1, u16::MAX])),
        16 => put_u16(&mut b, div + 2, rng.pick(&[0, 1, n as u16 - 1, n as u16, n as u16 + 1])),
        17 => put_u32(&mut b, est + 8 + 4 * rng.below(2), rng.below(e) as u32),
        18 => damage_unused(rng, &mut b, e, n, m),
        19 => damage_length(rng, &mut b),
        20 => repeat_arrive(rng, &mut b, &t),
        _ => flip_bit(rng, &mut b),
    }
    b
}

fn flip_bit(rng: &mut Rng, b: &mut [u8]) {
    let at = rng.below(b.len());
    b[at] ^= 1 << rng.below(8);
}

fn damage_unused(rng: &mut Rng, b: &mut [u8], e: usize, n: usize, m: usize) {
    let (path, div) = (path_offset(e) + RECORD * n, diverge_offset(e) + 4 * m);
    if rng.chance(50) && path < diverge_offset(e) {
        b[rng.from(path, diverge_offset(e) - 1)] = 1;
    } else if div < b.len() {
        b[rng.from(div, b.len() - 1)] = 1;
    }
}

fn damage_length(rng: &mut Rng, b: &mut Vec<u8>) {
    match rng.below(4) {
        0 => b.truncate(rng.pick(&[0, 1, 63, 64, b.len() - 1])),
        1 => b.push(0),
        2 => {
            b.extend([0; 32]);
            let size = b.len() as u32;
            put_u32(b, 0, size);
        }
        _ => put_u32(b, 0, rng.below(200) as u32),
    }
}

fn repeat_arrive(rng: &mut Rng, b: &mut [u8], t: &Train) {
    let arrives: Vec<usize> = (0..t.path.len()).filter(|&i| t.path[i].kind == ARRIVE).collect();
    if arrives.len() > 1 {
        let (i, j) = (rng.pick(&arrives), rng.pick(&arrives));
        put_u32(b, path_offset(t.est.len()) + RECORD * i + 16, t.path[j].link);
    }
}
