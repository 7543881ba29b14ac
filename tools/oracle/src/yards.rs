//! Generators of yards: lines with sidings on which trains run in both
//! directions, as ALTRIOS makes them, and small odd yards.

use crate::gen::*;
use crate::layout::*;
use crate::model::{self, CheckArgs};
use crate::rng::Rng;

/// A yard with its link table and occupancy.
#[derive(Clone)]
pub struct Yard {
    pub table: Vec<u8>,
    pub occ: Vec<u16>,
    pub yard: Vec<u8>,
}

/// The arguments of one check.
#[derive(Clone)]
pub struct CheckCase {
    pub yard: Vec<u8>,
    pub occ: Vec<u16>,
    pub blocking: Vec<u32>,
    pub moved: u16,
    pub begin: u32,
    pub local: bool,
    pub limit: u16,
}

impl CheckCase {
    pub fn args(&self) -> CheckArgs<'_> {
        CheckArgs {
            occ: &self.occ,
            blocking: &self.blocking,
            moved: self.moved,
            begin: self.begin,
            local: self.local,
            limit: self.limit,
        }
    }

    /// The updates of its slots but the moved train's.
    pub fn slots(&self) -> Vec<UpdateCase> {
        let parts = read_yard(&self.yard).expect("an accepted yard");
        let others = parts.into_iter().enumerate().filter(|(i, _)| i + 1 != self.moved as usize);
        others
            .map(|(_, part)| UpdateCase {
                image: self.yard[part].to_vec(),
                occ: self.occ.clone(),
                blocking: self.blocking.clone(),
                moved: self.moved,
                local: self.local,
                limit: self.limit,
            })
            .collect()
    }
}

// ---- a line: sections of one track or of several that rejoin

/// A piece of track has a link in each direction.
struct Line {
    links: Vec<LinkRecord>,
    /// For each piece its two links, eastbound and westbound.
    pieces: Vec<[u32; 2]>,
    lengths: Vec<f64>,
    /// For each section its tracks, each a row of pieces from west to east.
    sections: Vec<Vec<Vec<usize>>>,
}

fn line(rng: &mut Rng, sections: usize) -> Line {
    let mut count = 0;
    let mut row = |n: usize| -> Vec<usize> {
        count += n;
        (count - n..count).collect()
    };
    let mut parts = vec![];
    for i in 0..sections {
        let tracks = if i % 2 == 0 { 1 } else { rng.pick(&[2, 2, 2, 3]) };
        let part: Vec<Vec<usize>> =
            (0..tracks).map(|_| row(if tracks == 1 { rng.from(2, 3) } else { rng.from(1, 2) })).collect();
        parts.push(part);
    }
    let mut numbers: Vec<u32> = (1..=2 * count as u32).collect();
    if rng.chance(50) {
        rng.shuffle(&mut numbers);
    }
    let pieces: Vec<[u32; 2]> = (0..count).map(|i| [numbers[2 * i], numbers[2 * i + 1]]).collect();
    let mut links = vec![LinkRecord::default(); 2 * count + 1];
    for p in &pieces {
        links[p[0] as usize].flip = p[1];
        links[p[1] as usize].flip = p[0];
    }
    lock_out(rng, &mut links, &pieces, &parts);
    let lengths = (0..count).map(|_| rng.from(4, 30) as f64 * 100.0).collect();
    Line { links, pieces, lengths, sections: parts }
}

/// The first and last pieces of parallel tracks foul each other.
fn lock_out(rng: &mut Rng, links: &mut [LinkRecord], pieces: &[[u32; 2]], sections: &[Vec<Vec<usize>>]) {
    for tracks in sections.iter().filter(|t| t.len() > 1) {
        if rng.chance(60) {
            continue;
        }
        let (a, b) = (pieces[tracks[0][0]], pieces[tracks[1][0]]);
        for (x, y) in [(a, b), (b, a)] {
            for link in x {
                links[link as usize].lockouts.extend(y);
            }
        }
    }
}

// ---- the est net of one train along a line

struct Net {
    est: Vec<Est>,
    /// Nodes whose next is the node to come.
    open: Vec<usize>,
    /// The piece that the train last arrived at, as a link, and its length.
    last: Option<(u32, f64)>,
    train_length: f64,
}

impl Net {
    fn push(&mut self, kind: u8, link: u32, dist: f64) -> usize {
        let at = self.est.len();
        let mut x = Est { dist_to_next: dist, link, kind, ..no_est() };
        if self.open.len() == 3 {
            // a Fake node joins two of the three
            let pair = self.open.split_off(1);
            let first = std::mem::replace(&mut self.open, pair);
            let join = self.push(FAKE, 0, 0.0);
            self.open = vec![first[0], join];
            return self.push(kind, link, dist);
        }
        for (i, &from) in self.open.iter().enumerate() {
            self.est[from].next = at as u32;
            if i == 0 {
                x.prev = from as u32;
            } else {
                x.prev_alt = from as u32;
            }
        }
        self.est.push(x);
        self.open = vec![at];
        at
    }

    /// Arrives at a link, and clears the one before.
    fn arrive(&mut self, link: u32, length: f64) {
        self.push(ARRIVE, link, self.train_length);
        if let Some((before, _)) = self.last {
            self.push(CLEAR, before, length - self.train_length);
        } else {
            let at = *self.open.last().unwrap();
            self.est[at].dist_to_next = length;
        }
        self.last = Some((link, length));
    }

    /// Tracks side by side, each with the piece behind them, so that they rejoin as equals.
    fn branch(&mut self, tracks: &[Vec<(u32, f64)>], behind: (u32, f64)) {
        let split = self.open[0];
        let last = self.last;
        let mut ends = vec![];
        let mut from = split;
        for (i, track) in tracks.iter().enumerate() {
            if i > 0 {
                let fake = self.est.len();
                self.est.push(Est { prev: from as u32, ..no_est() });
                self.est[from].alt = fake as u32;
                from = fake;
            }
            self.open = vec![from];
            self.last = last;
            for &(link, length) in track {
                self.arrive(link, length);
            }
            self.arrive(behind.0, behind.1);
            ends.push(self.open[0]);
        }
        self.open = ends;
    }
}

/// The net of a train that goes along the whole line.
fn net_of(rng: &mut Rng, line: &Line, west: bool) -> Vec<Est> {
    let side = west as usize;
    let track = |row: &Vec<usize>| -> Vec<(u32, f64)> {
        let mut t: Vec<(u32, f64)> = row.iter().map(|&p| (line.pieces[p][side], line.lengths[p])).collect();
        if west {
            t.reverse();
        }
        t
    };
    let mut sections: Vec<Vec<Vec<(u32, f64)>>> =
        line.sections.iter().map(|s| s.iter().map(track).collect()).collect();
    if west {
        sections.reverse();
    }
    let mut net =
        Net { est: vec![no_est()], open: vec![0], last: None, train_length: rng.from(1, 3) as f64 * 100.0 };
    let mut done = 0;
    for i in 0..sections.len() {
        if sections[i].len() == 1 {
            for &(link, length) in &sections[i][0][done..] {
                net.arrive(link, length);
            }
            done = 0;
        } else if i + 1 < sections.len() {
            let mut tracks = sections[i].clone();
            rng.shuffle(&mut tracks);
            net.branch(&tracks, sections[i + 1][0][0]);
            done = 1;
        } else {
            for &(link, length) in &sections[i][0] {
                net.arrive(link, length);
            }
        }
    }
    if let Some((link, _)) = net.last {
        net.push(CLEAR, link, 0.0);
    }
    net.est
}

/// A yard of S trains on one line, all at their starts.
pub fn tidy_yard(rng: &mut Rng, sections: usize, trains: usize) -> Yard {
    let line = line(rng, sections);
    let l = line.links.len();
    let images = (1..=trains)
        .map(|t| {
            let west = rng.chance(50);
            let est = net_of(rng, &line, west);
            let q = rng.pick(&[8, 32, 64]);
            let mut image = vec![0; image_size(est.len(), q)];
            let search = rng.pick(&[300.0, 5_000.0, 48_280.32]);
            let fixed_max = rng.pick(&[0.0, 2_000.0, 16_093.44, 1e9]);
            model::lay_out(&est_bytes(&est), t as u16, search, fixed_max, q as u32, l as u32, &mut image)
                .expect("a tidy train is laid out");
            image
        })
        .collect::<Vec<_>>();
    Yard { table: table_of(&line.links), occ: vec![0; l], yard: yard_of(&images) }
}

/// The links that a train holds: arrived at before free and not cleared.
fn held_links(t: &Train) -> Vec<u32> {
    let mut held = vec![];
    for x in &t.path[..t.free as usize] {
        match x.kind {
            ARRIVE => held.push(x.link),
            CLEAR => held.retain(|&y| y != x.link),
            _ => {}
        }
    }
    held
}

/// All links that a train keeps from others.
fn blocking_of(table: &[u8], t: &Train) -> Vec<u32> {
    let links = read_table(table).unwrap();
    held_links(t)
        .iter()
        .flat_map(|&x| {
            let r = &links[x as usize];
            std::iter::once(r.flip).chain(r.lockouts.iter().copied())
        })
        .collect()
}

impl Yard {
    pub fn slots(&self) -> usize {
        u32_at(&self.yard, 4) as usize
    }
    pub fn part(&self, slot: usize) -> std::ops::Range<usize> {
        read_yard(&self.yard).unwrap()[slot - 1].clone()
    }
    pub fn train(&self, slot: usize) -> Option<Train> {
        read_image(&self.yard[self.part(slot)], self.occ.len()).ok()
    }
    pub fn put_train(&mut self, slot: usize, t: &Train) {
        let part = self.part(slot);
        write_image(t, &mut self.yard[part]);
    }

    /// Moves a train's front on by some nodes, with marks and releases; none where it stands.
    pub fn advance(&mut self, rng: &mut Rng, slot: usize) -> Option<CheckCase> {
        let mut t = self.train(slot)?;
        let n = t.path.len();
        let by = rng.from(1, 6);
        let mut i = t.free as usize;
        while i < n && i < t.free as usize + by {
            let x = t.path[i];
            let link = x.link as usize;
            if x.kind == ARRIVE && self.occ[link] != 0 && self.occ[link] as usize != slot {
                break;
            }
            match x.kind {
                ARRIVE => model::mark(&self.table, &mut self.occ, x.link, slot as u16).unwrap(),
                CLEAR if x.link != 0 => model::mark(&self.table, &mut self.occ, x.link, 0).unwrap(),
                _ => {}
            }
            t.path[i].time_pass = i as f64;
            i += 1;
        }
        if rng.chance(70) {
            t.fixed = i as u16;
        }
        t.free = i as u16;
        let last = |kind: u8| (0..i).rev().find(|&j| t.path[j].kind == kind).unwrap_or(0) as u16;
        (t.front, t.back) = (last(ARRIVE), last(CLEAR));
        self.put_train(slot, &t);
        Some(CheckCase {
            yard: self.yard.clone(),
            occ: self.occ.clone(),
            blocking: blocking_of(&self.table, &t),
            moved: slot as u16,
            begin: 1,
            local: rng.chance(70),
            limit: rng.pick(&[2, 6, 40]),
        })
    }
}

/// The checks of a run of a tidy yard: trains advance in turn, each move followed by a check.
pub fn tidy_run(rng: &mut Rng, sections: usize, trains: usize, moves: usize) -> Vec<CheckCase> {
    let mut seen = vec![];
    let mut yard = tidy_yard(rng, sections, trains);
    for _ in 0..moves {
        let slot = rng.from(1, trains);
        let before = yard.clone();
        let Some(case) = yard.advance(rng, slot) else { continue };
        let mut report = vec![0; model::ROW * trains];
        let checked = model::check(&mut yard.yard, &case.args(), &mut report);
        seen.push(case);
        match checked {
            model::Checked::Done { deadlock: true, .. } if rng.chance(90) => yard = before,
            model::Checked::Erred(_) if rng.chance(90) => yard = before,
            _ => {}
        }
    }
    seen
}

// ---- odd yards

pub fn odd_table(rng: &mut Rng, l: usize) -> Vec<LinkRecord> {
    (0..l)
        .map(|_| LinkRecord {
            flip: rng.below(l) as u32,
            lockouts: (0..rng.pick(&[0, 0, 1, 2, 3])).map(|_| rng.below(l) as u32).collect(),
        })
        .collect()
}

/// S odd trains of up to `most` est records on L links.
pub fn odd_yard(rng: &mut Rng, slots: usize, most: usize, l: usize) -> Yard {
    let images: Vec<Vec<u8>> = (1..=slots)
        .map(|t| {
            let e = rng.from(1, most);
            let mut x = odd_train(rng, e, l);
            x.train = t as u16;
            image_of(&x)
        })
        .collect();
    Yard { table: table_of(&odd_table(rng, l)), occ: odd_occupancy(rng, l), yard: yard_of(&images) }
}

/// A yard of 20 to 63 small odd trains, none of which is refused.
pub fn many_trains(rng: &mut Rng) -> Yard {
    let (slots, l) = (rng.pick(&[20, 62, 63]), rng.pick(&[8, 24]));
    let image = |t: usize| loop {
        let e = rng.from(1, 6);
        let b = image_of(&Train { train: t as u16, ..odd_train(rng, e, l) });
        if read_image(&b, l).is_ok() {
            return b;
        }
    };
    let images: Vec<Vec<u8>> = (1..=slots).map(image).collect();
    Yard { table: table_of(&odd_table(rng, l)), occ: odd_occupancy(rng, l), yard: yard_of(&images) }
}

pub fn odd_check(rng: &mut Rng) -> CheckCase {
    let slots = rng.from(1, 5);
    let l = rng.pick(&[4, 8, 24, 60]);
    let mut y = odd_yard(rng, slots, 14, l);
    if rng.chance(20) {
        let slot = rng.from(1, slots);
        let part = y.part(slot);
        let b = damaged(rng, &y.yard[part.clone()], l);
        if b.len() == part.len() && u16_at(&b, 32) as usize == slot {
            y.yard[part].copy_from_slice(&b);
        }
    }
    let moved = rng.from(1, slots);
    let blocking = match y.train(moved) {
        Some(t) => odd_blocking(rng, &t, &y.occ),
        None => vec![],
    };
    CheckCase {
        yard: y.yard,
        occ: y.occ,
        blocking,
        moved: moved as u16,
        begin: if rng.chance(70) { 1 } else { rng.from(1, slots + 1) as u32 },
        local: rng.chance(50),
        limit: rng.pick(&[1, 3, 20]),
    }
}

/// A check whose arguments or yard header are wrong, or nearly so.
pub fn damaged_check(rng: &mut Rng) -> (CheckCase, usize) {
    let mut c = odd_check(rng);
    let slots = u32_at(&c.yard, 4) as usize;
    let mut report = model::ROW * slots;
    match rng.below(10) {
        0 => c.occ.resize(rng.pick(&[0, 1, 2, 4_000, 4_001]), 0),
        1 => c.blocking.push(rng.pick(&[c.occ.len() as u32 - 1, c.occ.len() as u32, u32::MAX])),
        2 => c.blocking = vec![0; rng.pick(&[4_000, 4_001])],
        3 => c.moved = rng.pick(&[0, slots as u16, slots as u16 + 1]),
        4 => c.limit = 0,
        5 => c.begin = rng.pick(&[0, slots as u32, slots as u32 + 1, slots as u32 + 2]),
        6 => report = rng.pick(&[0, 16 * slots, report - 1, report + 1]),
        way => damaged_yard(rng, &mut c.yard, way - 7),
    }
    (c, report)
}

/// A yard that 14 refuses in most cases: another number in its header, another train in a slot, or cut short.
pub fn damaged_yard(rng: &mut Rng, yard: &mut Vec<u8>, way: usize) {
    let slots = u32_at(yard, 4) as usize;
    match way {
        0 => put_u32(yard, 4 * rng.below(2 + slots), rng.pick(&[0, 1, 63, 64, u32::MAX])),
        1 => {
            let part = read_yard(yard).unwrap()[rng.below(slots)].clone();
            put_u16(yard, part.start + 32, rng.pick(&[0, slots as u16 + 1]));
        }
        _ => {
            let to = rng.pick(&[0, 7, 8, 11, 40, yard.len() - 1]).min(yard.len());
            yard.truncate(to);
        }
    }
}
