//! Random calls of Q-6: the calls of the other generators with wide images and trains of up to six digits, some damaged.

use crate::calls::{self, wrong_arguments};
use crate::cases::{Case, YARD_CEILING};
use crate::game::Game;
use crate::gen::*;
use crate::layout::*;
use crate::rng::Rng;
use crate::wide::{row_size, WideArgs, NARROW_TRAIN};
use crate::yards::*;

/// The arguments of one update over a wide occupancy.
#[derive(Clone, Debug)]
pub struct WideUpdate {
    pub image: Vec<u8>,
    pub occ: Vec<u32>,
    pub blocking: Vec<u32>,
    pub moved: u32,
    pub local: bool,
    pub limit: u16,
}

/// A yard with its link table and a wide occupancy.
#[derive(Clone)]
pub struct WideYard {
    pub table: Vec<u8>,
    pub occ: Vec<u32>,
    pub yard: Vec<u8>,
}

/// Trains above `kept` are turned round among those up to `top`.
#[derive(Clone, Copy)]
pub struct Turn {
    kept: u32,
    top: u32,
    by: u32,
}

impl Turn {
    pub fn new(rng: &mut Rng, kept: usize, top: u32) -> Turn {
        let kept = kept as u32;
        let by = if rng.chance(20) { 0 } else { rng.below((top - kept) as usize) as u32 };
        Turn { kept, top, by }
    }
    pub fn train(&self, n: u32) -> u32 {
        if n <= self.kept {
            n
        } else {
            self.kept + 1 + (n - self.kept - 1 + self.by) % (self.top - self.kept)
        }
    }
    pub fn all(&self, trains: &[u16]) -> Vec<u32> {
        trains.iter().map(|&t| self.train(t as u32)).collect()
    }
    /// The image with its diverge trains turned, in this width; one that is refused by 6 stays.
    pub fn image(&self, image: &[u8], wide: bool) -> Vec<u8> {
        let Ok(mut t) = laid_out(image) else { return image.to_vec() };
        t.wide = wide;
        t.div.iter_mut().for_each(|d| d.train = self.train(d.train));
        image_of(&t)
    }
}

/// A train about the bounds of a width.
pub fn beside_top(rng: &mut Rng) -> u32 {
    rng.pick(&[0, 1, 65_535, 65_536, 999_998, 999_999, 1_000_000, u32::MAX])
}

/// A field of a wide image written over: the bytes about its width, a diverge record, or any of the narrow ones' damages.
pub fn damaged_wide(rng: &mut Rng, image: &[u8]) -> Vec<u8> {
    let mut b = image.to_vec();
    let Ok(t) = laid_out(image) else { return b };
    let (at, record) = (diverge_offset(t.est.len()), diverge_size(t.wide));
    let records = if rng.chance(90) { t.div.len() } else { t.div_room };
    let of_record = at + record * rng.below(records);
    match rng.below(8) {
        0 => b[WIDE] = rng.pick(&[0, 1, 2, 255]),
        1 => b[WIDE + rng.from(1, 5)] = 1,
        2 => {
            let other = size_of_image(t.est.len(), t.div_room, !t.wide);
            b.resize(other, 0);
            if rng.chance(50) {
                put_u32(&mut b, 0, other as u32);
            }
        }
        3 if t.wide => b[of_record + 6 + rng.below(2)] = 1,
        3..=5 if t.wide => put_u32(&mut b, of_record, beside_top(rng)),
        6 => put_u32(&mut b, 4 * rng.below(8), rng.below(200) as u32),
        _ => {
            // damages of a narrow image before its diverge records, put into this one
            let narrow = image_of(&Train { wide: false, div: small(&t.div), ..t.clone() });
            let d = damaged(rng, &narrow, 4_000);
            let end = at.min(d.len()).min(b.len());
            b[..end].copy_from_slice(&d[..end]);
            b[WIDE] = t.wide as u8;
            put_u32(&mut b, 0, size_of_image(t.est.len(), t.div_room, t.wide) as u32);
        }
    }
    b
}

fn small(div: &[Diverge]) -> Vec<Diverge> {
    div.iter().map(|d| Diverge { train: d.train % 65_536, ..*d }).collect()
}

fn some_update(rng: &mut Rng) -> UpdateCase {
    match rng.below(20) {
        0..=8 => odd_update(rng),
        9..=12 => twin_update(rng),
        13..=15 => views_update(rng),
        16..=18 => calls::dense(rng),
        _ => large_update(rng),
    }
}

/// An update with its trains turned; wide and six digits, wide and five, or narrow.
pub fn update_case(rng: &mut Rng) -> WideUpdate {
    let mut c = some_update(rng);
    if rng.chance(4) {
        wrong_arguments(rng, &mut c);
    }
    let wide = rng.chance(70);
    let top = if wide && rng.chance(70) { MOST_TRAIN } else { NARROW_TRAIN };
    let turn = Turn::new(rng, 0, top);
    let moved = if c.moved == 0 { 0 } else { turn.train(c.moved as u32) };
    let (image, occ) = (turn.image(&c.image, wide), turn.all(&c.occ));
    WideUpdate { image, occ, blocking: c.blocking, moved, local: c.local, limit: c.limit }
}

pub fn update(rng: &mut Rng) -> Case {
    let mut c = update_case(rng);
    if rng.chance(20) {
        c.image = damaged_wide(rng, &c.image);
    }
    if rng.chance(6) && !c.occ.is_empty() {
        let at = rng.below(c.occ.len());
        c.occ[at] = beside_top(rng);
    }
    if rng.chance(4) {
        c.moved = beside_top(rng);
    }
    Case::wide_update(&c.image, &c.occ, &c.blocking, c.moved, c.local, c.limit)
}

pub fn mark(rng: &mut Rng) -> Case {
    let narrow = calls::mark(rng);
    let turn = Turn::new(rng, 0, MOST_TRAIN);
    let mut occ = turn.all(&u16s(&narrow.ins[1]));
    let mut train = if narrow.args[1] == 0 { 0 } else { turn.train(narrow.args[1]) };
    if rng.chance(8) && !occ.is_empty() {
        let at = rng.below(occ.len());
        occ[at] = beside_top(rng);
    }
    if rng.chance(8) {
        train = beside_top(rng);
    }
    Case::wide_mark(&narrow.ins[0], &occ, narrow.args[0], train)
}

/// The slots of a yard that are wide: all, none, or some.
fn widths(rng: &mut Rng, slots: usize) -> Vec<bool> {
    let share = rng.pick(&[0, 50, 100, 100, 100]);
    (0..slots).map(|_| rng.chance(share)).collect()
}

/// A yard with its trains above the slots turned up to what its widths allow.
pub fn widened_yard(rng: &mut Rng, yard: &[u8], occ: &[u16]) -> (Vec<u8>, Vec<u32>) {
    let Some(parts) = read_yard(yard) else {
        return (yard.to_vec(), occ.iter().map(|&t| t as u32).collect());
    };
    let wide = widths(rng, parts.len());
    let top = if wide.iter().all(|&w| w) { MOST_TRAIN } else { NARROW_TRAIN };
    let turn = Turn::new(rng, parts.len(), top);
    let images: Vec<Vec<u8>> = parts.into_iter().zip(&wide).map(|(p, &w)| turn.image(&yard[p], w)).collect();
    (yard_of(&images), turn.all(occ))
}

/// An image in the other width now and then, some of these with a train that is too large.
pub fn image_of_some_width(rng: &mut Rng, image: &[u8]) -> Vec<u8> {
    match laid_out(image) {
        Ok(t) if rng.chance(30) => {
            let mut t = Train { wide: true, ..t };
            if rng.chance(10) {
                let i = rng.below(t.div.len());
                t.div[i].train = rng.pick(&[999_999, 1_000_000, u32::MAX]);
            }
            image_of(&t)
        }
        _ => image.to_vec(),
    }
}

/// A call without an occupancy, its image or images of either width.
pub fn of_some_width(rng: &mut Rng, mut case: Case) -> Case {
    case.ins[0] = match read_yard(&case.ins[0]) {
        Some(parts) if case.op == YARD_CEILING => {
            let images: Vec<Vec<u8>> =
                parts.into_iter().map(|p| image_of_some_width(rng, &case.ins[0][p])).collect();
            yard_of(&images)
        }
        _ if case.op == YARD_CEILING => return case,
        _ => image_of_some_width(rng, &case.ins[0]),
    };
    case
}

/// The length of a report for a yard, 16 refuses all others.
pub fn report_len(yard: &[u8]) -> usize {
    let parts = read_yard(yard).unwrap_or_default();
    row_size(parts.iter().any(|p| is_wide(&yard[p.clone()]))) * parts.len()
}

pub fn check(rng: &mut Rng) -> Case {
    let c = match rng.below(10) {
        0 => damaged_check(rng).0,
        1..=2 => {
            let (sections, trains) = (rng.from(1, 5), rng.from(1, 4));
            tidy_run(rng, sections, trains, 12).pop().unwrap_or_else(|| odd_check(rng))
        }
        _ => odd_check(rng),
    };
    let (mut yard, mut occ) = widened_yard(rng, &c.yard, &c.occ);
    if rng.chance(15) {
        if let Some(parts) = read_yard(&yard) {
            let slot = rng.below(parts.len());
            let d = damaged_wide(rng, &yard[parts[slot].clone()]);
            if d.len() == parts[slot].len() {
                yard[parts[slot].clone()].copy_from_slice(&d);
            }
        }
    }
    if rng.chance(8) && !occ.is_empty() {
        let at = rng.below(occ.len());
        occ[at] = beside_top(rng);
    }
    let mut report = report_len(&yard);
    if rng.chance(4) {
        report = rng.pick(&[0, report + 1, report + 4, report.saturating_sub(4)]);
    }
    let moved = if rng.chance(2) { beside_top(rng) } else { c.moved as u32 };
    let a =
        WideArgs { occ: &occ, blocking: &c.blocking, moved, begin: c.begin, local: c.local, limit: c.limit };
    Case::wide_check(&yard, &a, &vec![0xA5; report])
}

/// An image to convert, and a buffer; some of a wrong length.
fn conversion(rng: &mut Rng, wide: bool) -> (Vec<u8>, Vec<u8>) {
    let c = some_update(rng);
    let is_wide = wide != rng.chance(5);
    let six = is_wide && rng.chance(40);
    let turn = Turn::new(rng, 0, if six { MOST_TRAIN } else { NARROW_TRAIN });
    let mut image = turn.image(&c.image, is_wide);
    let (e, q) = (u32_at(&image, 4) as usize, u32_at(&image, 16) as usize);
    let mut size = size_of_image(e, q, !wide);
    if rng.chance(25) {
        image = damaged_wide(rng, &image);
    }
    if rng.chance(6) {
        size = rng.pick(&[0, size - 1, size + 1, size_of_image(e, q, wide)]);
    }
    (image, (0..size).map(|i| i as u8 | 1).collect())
}

pub fn widen(rng: &mut Rng) -> Case {
    let (image, out) = conversion(rng, false);
    Case::widen(&image, &out)
}

pub fn narrow(rng: &mut Rng) -> Case {
    let (image, out) = conversion(rng, true);
    Case::narrow(&image, &out)
}

/// The arguments of one game.
#[derive(Clone, Debug)]
pub struct GameCase {
    pub image: Vec<u8>,
    pub occ: Vec<u32>,
    pub moved: u32,
    pub local: bool,
    pub limit: u16,
    pub links: Vec<u32>,
    pub turns: u32,
}

impl GameCase {
    pub fn game(&self) -> Game<'_> {
        let GameCase { occ, links, .. } = self;
        Game { occ, moved: self.moved, local: self.local, limit: self.limit, links, turns: self.turns }
    }
}

/// A game over a train of any generator, of either width, some with arguments that are refused.
pub fn game_case(rng: &mut Rng) -> GameCase {
    let c = calls::some_train(rng);
    let (wide, l) = (rng.chance(40), c.occ.len());
    let turn = Turn::new(rng, 0, if wide { MOST_TRAIN } else { NARROW_TRAIN });
    let (mut image, mut occ) = (turn.image(&c.image, wide), turn.all(&c.occ));
    let links = some_links(rng, &c.image, l);
    let turns = rng.pick(&[0, 1, 1, 2, 2, 3, 6, 7]);
    let moved = if rng.chance(1) { 0 } else { turn.train(c.moved as u32) };
    if rng.chance(3) {
        image = damaged_wide(rng, &image);
    }
    if rng.chance(1) {
        occ[rng.below(l)] = beside_top(rng);
    }
    GameCase { image, occ, moved, local: c.local, limit: c.limit, links, turns }
}

pub fn game(rng: &mut Rng) -> Case {
    let c = game_case(rng);
    Case::game(&c.image, &c.game())
}

/// Links that the train may arrive at, and some others; now and then a list that 28 refuses.
fn some_links(rng: &mut Rng, image: &[u8], l: usize) -> Vec<u32> {
    let mut about: Vec<u32> = match laid_out(image) {
        Ok(t) => t.est.iter().filter(|x| x.kind == ARRIVE && (x.link as usize) < l).map(|x| x.link).collect(),
        Err(_) => vec![],
    };
    about.extend((1..l as u32).take(3));
    about.sort_unstable();
    about.dedup();
    rng.shuffle(&mut about);
    let n = rng.pick(&[0, 1, 2, 2, 3, 3, 3, 4, 5, 8]);
    about.truncate(n);
    match rng.below(60) {
        0 => about.push(0),
        1 => about.push(l as u32),
        2 => about.extend(about.first().copied()),
        3 => about = (1..=9).collect(),
        _ => {}
    }
    about
}
