//! Random calls of each operation, as cases without answers.

use crate::carry_calls;
use crate::cases::*;
use crate::demand3;
use crate::gen::*;
use crate::index_calls;
use crate::layout::*;
use crate::leaves;
use crate::model::{LINKS, ROW};
use crate::rng::Rng;
use crate::trials::candidate::{some_link, some_node, some_sitting};
use crate::trials::replay::some_recording;
use crate::undo_calls;
use crate::wide_calls;
use crate::yards::*;

pub fn of_update(c: &UpdateCase) -> Case {
    Case::update(&c.image, &c.occ, &c.blocking, c.moved, c.local, c.limit)
}

pub fn of_check(c: &CheckCase, report: &[u8]) -> Case {
    Case::check(&c.yard, &c.args(), report)
}

pub fn bundle_of_check(c: &CheckCase) -> Vec<u8> {
    bundle_of(&Bundle {
        occupancy: c.occ.clone(),
        blocking: c.blocking.clone(),
        yard: &c.yard,
        moved: c.moved,
        begin: c.begin as u16,
        limit: c.limit,
        local: c.local,
    })
}

pub fn mark(rng: &mut Rng) -> Case {
    let l = rng.pick(&[2, 3, 5, 8, 12]);
    let links = odd_table(rng, l);
    let mut table = table_of(&links);
    let mut occ = odd_occupancy(rng, l);
    if rng.chance(20) {
        let number = rng.pick(&[0, 1, l as u32 - 1, l as u32, 4_096, 4_097, u32::MAX]);
        let at = 4 * rng.below(table.len() / 4);
        put_u32(&mut table, at, number);
    }
    if rng.chance(3) {
        table.truncate(rng.below(table.len()));
    }
    if rng.chance(6) {
        occ.resize(rng.pick(&[0, l - 1, l + 1]), 0);
    }
    let link = if rng.chance(8) { rng.pick(&[0, l as u32, u32::MAX]) } else { rng.from(1, l - 1) as u32 };
    let train = if rng.chance(60) { 0 } else { rng.pick(&[1, 2, 65_535]) };
    Case::mark(&table, &occ, link, train)
}

pub fn lay_out(rng: &mut Rng) -> Case {
    let (e, l) = (rng.from(1, 12), rng.pick(&[2, 6, 20, 60]));
    let w = odds(rng);
    let mut est = odd_net(rng, e, l, w);
    if rng.chance(50) {
        // links apart, so that none repeats
        let mut numbers: Vec<u32> = (1..60).collect();
        rng.shuffle(&mut numbers);
        est.iter_mut().enumerate().filter(|(_, x)| x.kind == ARRIVE).for_each(|(i, x)| x.link = numbers[i]);
    }
    let mut bytes = est_bytes(&est);
    let mut q = rng.pick(&[2, 3, 10]);
    let mut size = image_size(e, q);
    let (mut train, mut l) = (rng.pick(&[1, 5, 65_535]), l.max(60));
    let mut settings = [rng.pick(&[0.0, -0.0, 100.0, 1e12]), rng.pick(&[0.0, 5.0, 1e12])];
    let at = RECORD * rng.below(e);
    match rng.below(30) {
        0 => train = 0,
        1 => q = rng.pick(&[0, 1, 1_025]),
        2 => l = rng.pick(&[0, 1, 4_001]),
        3 => size = rng.pick(&[0, size - 1, size + 1]),
        4 => bytes[at + 28] = 3,
        5 => bytes[at + 29 + rng.below(3)] = 1,
        6 => put_f64(&mut bytes, at, rng.pick(&[f64::NAN, f64::INFINITY, 2e12, -2e12, 1e12, -1e12])),
        7 => put_u32(&mut bytes, at + 8 + 4 * rng.below(4), rng.pick(&[e as u32, u32::MAX])),
        8 => put_u32(&mut bytes, at + 24, rng.pick(&[0, l as u32, l as u32 - 1])),
        9 => settings[rng.below(2)] = rng.pick(&[f64::NAN, f64::INFINITY, -1.0, 2e12, -0.0]),
        10 | 11 => put_u32(&mut bytes, at + 8 + 4 * rng.below(2), rng.below(e) as u32),
        12 => bytes.truncate(rng.below(bytes.len())),
        _ => {}
    }
    let image: Vec<u8> = (0..size).map(|i| i as u8 | 1).collect();
    Case::lay_out(&bytes, train, settings[0], settings[1], q as u32, l as u32, &image)
}

pub fn update(rng: &mut Rng) -> Case {
    let mut c = match rng.below(10) {
        0..=4 => odd_update(rng),
        5 => views_update(rng),
        6..=7 => twin_update(rng),
        8 => dense(rng),
        _ => odd_update(rng).damaged(rng),
    };
    if rng.chance(4) {
        wrong_arguments(rng, &mut c);
    }
    of_update(&c)
}

/// A dense net of middle size.
pub fn dense(rng: &mut Rng) -> UpdateCase {
    let (e, l) = (rng.from(10, 50), rng.from(10, 60));
    dense_update(rng, e, l)
}

pub fn wrong_arguments(rng: &mut Rng, c: &mut UpdateCase) {
    let l = c.occ.len();
    match rng.below(6) {
        0 => c.occ.resize(rng.pick(&[0, 1, 4_001]), 0),
        1 => c.blocking.push(rng.pick(&[l as u32, l as u32 + 1, u32::MAX])),
        2 => c.blocking = vec![1; rng.pick(&[4_000, 4_001])],
        3 => c.moved = 0,
        4 => c.limit = 0,
        _ => c.blocking.push(l as u32 - 1),
    }
}

pub fn check(rng: &mut Rng) -> Case {
    let (c, report) = if rng.chance(25) {
        damaged_check(rng)
    } else {
        let c = odd_check(rng);
        let len = ROW * u32_at(&c.yard, 4) as usize;
        (c, len)
    };
    of_check(&c, &vec![0xA5; report])
}

/// A check in a run of a tidy yard.
pub fn tidy(rng: &mut Rng) -> Case {
    let (sections, trains, moves) = (rng.from(1, 6), rng.from(1, 4), rng.from(1, 25));
    match tidy_run(rng, sections, trains, moves).pop() {
        Some(c) => of_check(&c, &vec![0xA5; ROW * trains]),
        None => tidy(rng),
    }
}

pub fn sheet(rng: &mut Rng) -> Case {
    let c = if rng.chance(25) { damaged_check(rng).0 } else { odd_check(rng) };
    let mut b = bundle_of_check(&c);
    match rng.below(12) {
        0 => put_u32(&mut b, 4 * rng.below(6), rng.pick(&[0, 31, 32, 33, 40, u32::MAX])),
        1 => put_u16(&mut b, 24 + 2 * rng.below(4), rng.pick(&[0, 1, 2, u16::MAX])),
        2 => b.truncate(rng.below(b.len())),
        3 => b.push(0),
        _ => {}
    }
    Case::sheet(&b)
}

/// Two to six marks, releases and checks, each made for what the call before it left.
pub fn list(rng: &mut Rng) -> Case {
    let first = demand3::start(rng);
    let (mut y, mut calls) = (first.clone(), vec![]);
    for _ in 0..rng.from(2, 6) {
        let call = demand3::call_of(rng, &y, &demand3::BEGIN);
        demand3::run(&mut y, &call);
        calls.push(call.case());
    }
    Case::list(&first, &calls)
}

/// A train of any of the generators: small and odd, dense, large.
pub fn some_train(rng: &mut Rng) -> UpdateCase {
    match rng.below(20) {
        0..=11 => odd_update(rng),
        12..=15 => twin_update(rng),
        16..=18 => dense(rng),
        _ => large_update(rng),
    }
}

/// Where the path records of an image begin, that is their offsets.
fn path_records(image: &[u8]) -> impl Iterator<Item = usize> {
    let (e, n) = (u32_at(image, 4) as usize, u32_at(image, 8) as usize);
    (0..n).map(move |i| path_offset(e) + RECORD * i)
}

/// Where the distances of an image are: of the header, of the est records.
fn distances(image: &[u8]) -> impl Iterator<Item = usize> {
    [48, 56].into_iter().chain((0..u32_at(image, 4) as usize).map(|i| HEADER + RECORD * i))
}

/// A page of a train whose offsets are about halves of a metre; some buffers are longer or too short.
pub fn page(rng: &mut Rng) -> Case {
    let mut image = some_train(rng).image;
    path_records(&image).for_each(|at| put_f64(&mut image, at, rounded_offset(rng)));
    let size = 40 * u32_at(&image, 8) as usize;
    if rng.chance(10) {
        image = damaged(rng, &image, LINKS);
    }
    let room = match rng.below(20) {
        0 => 0,
        1 => size - 1,
        2 => rng.below(size),
        3..=6 => size + rng.from(1, 100),
        _ => size,
    };
    let page: Vec<u8> = (0..room).map(|i| i as u8 | 0x80).collect();
    Case::page(&image, &page)
}

/// A train whose distances and offsets are in the profile; of half of the trains one of them may not be.
pub fn profile(rng: &mut Rng) -> Case {
    let mut image = some_train(rng).image;
    let distances: Vec<usize> = distances(&image).collect();
    let offsets: Vec<usize> = path_records(&image).collect();
    distances.iter().chain(&offsets).for_each(|&at| put_f64(&mut image, at, profile_value(rng)));
    if rng.chance(50) {
        let at = match rng.below(3) {
            0 => rng.pick(&distances[..2]),
            1 => rng.pick(&distances[2..]),
            _ => rng.pick(&offsets),
        };
        put_f64(&mut image, at, beside_profile(rng));
    }
    if rng.chance(10) {
        image = damaged(rng, &image, LINKS);
    }
    Case::profile(&image)
}

/// The ceiling of a train, half of them damaged.
pub fn ceiling(rng: &mut Rng) -> Case {
    let image = some_train(rng).image;
    Case::ceiling(&if rng.chance(50) { damaged(rng, &image, LINKS) } else { image })
}

/// The ceiling of a yard, some of them of up to 63 slots, with damaged images or a wrong header.
pub fn yard_ceiling(rng: &mut Rng) -> Case {
    let limit = rng.pick(&[0, 1, 2, 20, 40_000, 65_535]);
    let yard = match rng.below(10) {
        0..=4 => odd_check(rng).yard,
        5..=6 => damaged_check(rng).0.yard,
        _ => full_yard(rng),
    };
    Case::yard_ceiling(&yard, limit)
}

/// A yard of some trains of any generator, some of them damaged.
fn full_yard(rng: &mut Rng) -> Vec<u8> {
    let slots = rng.pick(&[1, 8, 62, 63]);
    let images: Vec<Vec<u8>> = (1..=slots)
        .map(|slot| {
            let c = some_train(rng);
            let mut image = if rng.chance(20) { c.damaged(rng).image } else { c.image };
            image.resize(image.len().max(HEADER), 0);
            put_u16(&mut image, 32, slot);
            image
        })
        .collect();
    yard_of(&images)
}

/// A sitting of at most eight steps, a third of the recordings damaged or beside a list of another length.
pub fn replay(rng: &mut Rng) -> Case {
    let (y, recording, list) = some_recording(rng);
    Case::replay(&recording, &y, list)
}

/// A candidate's view of a node, in buffers of some lengths.
pub fn view(rng: &mut Rng) -> Case {
    let (y, slot) = some_sitting(rng);
    let node = some_node(rng, &y, slot);
    let room = rng.pick(&[0, 1, 31, 32, 32, 32, 32, 40]);
    Case::view(&y, slot, node, &vec![0xA5; room])
}

/// A candidate's mark or release.
pub fn act(rng: &mut Rng) -> Case {
    let (y, slot) = some_sitting(rng);
    let link = some_link(rng, &y, slot);
    Case::act(&y, slot, link, rng.pick(&[0, 0, 1, u32::MAX]))
}

/// A case of any operation of document 01.
pub fn any(rng: &mut Rng) -> Case {
    match rng.below(100) {
        0..=9 => mark(rng),
        10..=19 => lay_out(rng),
        20..=74 => update(rng),
        75..=89 => check(rng),
        90..=91 => tidy(rng),
        _ => sheet(rng),
    }
}

pub fn by_name(name: &str, rng: &mut Rng) -> Option<Case> {
    Some(match name {
        "mark" => mark(rng),
        "layout" => lay_out(rng),
        "update" => update(rng),
        "large" => of_update(&large_update(rng)),
        "check" => check(rng),
        "tidy" => tidy(rng),
        "sheet" => sheet(rng),
        "list" => list(rng),
        "leaf" => leaves::any(rng),
        "page" => page(rng),
        "profile" => profile(rng),
        "ceiling" => ceiling(rng),
        "yard-ceiling" => yard_ceiling(rng),
        "mark-wide" => wide_calls::mark(rng),
        "update-wide" => wide_calls::update(rng),
        "check-wide" => wide_calls::check(rng),
        "game" => wide_calls::game(rng),
        "widen" => wide_calls::widen(rng),
        "narrow" => wide_calls::narrow(rng),
        "replay" => replay(rng),
        "view" => view(rng),
        "act" => act(rng),
        "recorded" => undo_calls::recorded(rng),
        "recorded-wide" => undo_calls::recorded_wide(rng),
        "undo" => undo_calls::undo(rng),
        "index" => index_calls::any(rng),
        "carry" => carry_calls::any(rng),
        "any" => any(rng),
        _ => return None,
    })
}
