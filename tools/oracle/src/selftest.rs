//! Document 01's examples, run on the original text, and those of the change requests.

use crate::game::{closer_can_force, Game};
use crate::layout::*;
use crate::model;
use crate::shims::{utils, IntSet};
use crate::text::plain::free_path::{concat_train_idx_views, LinkOptType};
use crate::text::structs::*;
use crate::wide;
use std::num::NonZeroU16;

fn class(list: &[u32], path: &[u32]) -> String {
    let list: Vec<LinkIdx> = list.iter().map(|&n| LinkIdx::new(n)).collect();
    let path: IntSet<LinkIdx> = path.iter().map(|&n| LinkIdx::new(n)).collect();
    match LinkOptType::new(&list, &path) {
        LinkOptType::None => "None".into(),
        LinkOptType::Single(l) => format!("Single {}", l.idx()),
        LinkOptType::Range(min, span) => format!("Range {min} {span}"),
        LinkOptType::Check => "Check".into(),
    }
}

fn union(pool: &[u16], a: (u32, u32), b: (u32, u32)) -> String {
    let mut pool: Vec<TrainIdx> = pool.iter().map(|&n| NonZeroU16::new(n)).collect();
    let v = concat_train_idx_views(&mut pool, &TrainIdxsView::new(a.0, a.1), &TrainIdxsView::new(b.0, b.1));
    let pool: Vec<String> = pool.iter().map(|t| t.idx().to_string()).collect();
    format!("{} view {} {}", pool.join(","), v.idx_begin, v.idx_end)
}

/// P9 and P10: the lockouts of link 5; link 4 is released, and entry 5 read.
pub fn release_table(of_five: &[u32]) -> Vec<u8> {
    let mut links = vec![LinkRecord::default(); 8];
    links[4] = LinkRecord { flip: 7, lockouts: vec![5] };
    links[5] = LinkRecord { flip: 0, lockouts: of_five.to_vec() };
    table_of(&links)
}

pub fn release_occupancy() -> Vec<u16> {
    vec![0, 0, 0, 0, 0, 0, 9, 0]
}

fn release(of_five: &[u32]) -> String {
    let mut occ = release_occupancy();
    model::mark(&release_table(of_five), &mut occ, 4, 0).unwrap();
    format!("entry 5 is {}", occ[5])
}

/// The example of the sheet.
pub fn sheet_bundle() -> Vec<u8> {
    let image = |train: u16| {
        let link = train as u32;
        let est =
            |next, prev, link, kind| Est { dist_to_next: 0.0, next, alt: 0, prev, prev_alt: 0, link, kind };
        let est = [est(1, 0, 0, FAKE), est(2, 0, link, ARRIVE), est(0, 1, link, CLEAR)];
        let mut image = vec![0; image_size(3, 2)];
        model::lay_out(&est_bytes(&est), train, 0.0, 0.0, 2, 3, &mut image).unwrap();
        image
    };
    bundle_of(&Bundle {
        occupancy: vec![0; 3],
        blocking: vec![],
        yard: &yard_of(&[image(1), image(2)]),
        moved: 2,
        begin: 1,
        limit: 1,
        local: false,
    })
}

pub const SHEET: &str = "yard 2 deadlock no next 1\n1 success 1 0 0 0 0 0\n2 moved 0 0 0 0 0 0\n";

/// A train of one node at this offset.
fn one_node(offset: f64) -> Vec<u8> {
    let est = [Est { dist_to_next: 0.0, next: 0, alt: 0, prev: 0, prev_alt: 0, link: 7, kind: CLEAR }];
    let mut image = vec![0; image_size(1, 2)];
    model::lay_out(&est_bytes(&est), 1, 0.0, 0.0, 2, 8, &mut image).unwrap();
    put_f64(&mut image, path_offset(1), offset);
    image
}

fn page(offset: f64) -> String {
    let mut page = [0; 40];
    model::page(&one_node(offset), &mut page, model::ROUNDING).unwrap();
    String::from_utf8_lossy(&page).into_owned()
}

/// The offset's column of that page, without its blanks.
fn metres(offset: f64) -> String {
    page(offset)[25..].trim().into()
}

fn profile(offset: f64) -> String {
    model::profile(&one_node(offset)).map_or_else(|r| format!("refused {}", r.number), |()| "within".into())
}

/// Link 1 to link 3, and a siding over link 2 round it.
pub fn siding_train() -> Vec<u8> {
    let est = |next, alt, prev, prev_alt, link, kind| Est {
        dist_to_next: if kind == ARRIVE && next != 0 { 100.0 } else { 0.0 },
        next,
        alt,
        prev,
        prev_alt,
        link,
        kind,
    };
    let est = [
        est(1, 2, 0, 0, 0, FAKE),
        est(4, 0, 0, 0, 1, ARRIVE),
        est(3, 0, 0, 0, 0, FAKE),
        est(4, 0, 2, 0, 2, ARRIVE),
        est(0, 0, 1, 3, 3, ARRIVE),
    ];
    let mut image = vec![0; image_size(5, 4)];
    model::lay_out(&est_bytes(&est), 1, 0.0, 0.0, 4, 4, &mut image).unwrap();
    image
}

/// An update of that train after train 2 moved to link 1.
fn siding(occ: [u16; 4]) -> model::Updated {
    model::update(&mut siding_train(), &occ, &[1, 2], 2, false, 5)
}

/// Who holds the train of the siding.
fn held(occ: [u16; 4]) -> String {
    siding(occ).holder.to_string()
}

/// A check of that train alone but for the moved train 2, at this round limit: the answer of its slot's record.
fn siding_row(occ: [u16; 4], limit: u16) -> String {
    let mut moved = siding_train();
    put_u16(&mut moved, 32, 2);
    let mut report = [0xA5; 2 * model::ROW];
    let a = model::CheckArgs { occ: &occ, blocking: &[1, 2], moved: 2, begin: 1, local: false, limit };
    model::check(&mut yard_of(&[siding_train(), moved]), &a, &mut report);
    format!("code {} holder {} met {}", u16_at(&report, 0), u16_at(&report, 6), u32_at(&report, 16))
}

fn ceiling(r: Result<u64, Refusal>) -> String {
    r.map_or_else(|r| format!("refused {}", r.number), |n| n.to_string())
}

fn yard_ceiling(limit: u16) -> String {
    ceiling(model::yard_ceiling(&yard_of(&[siding_train()]), limit))
}

fn widened(image: &[u8]) -> Vec<u8> {
    let mut out = vec![0; size_of_image(5, 4, true)];
    wide::widen(image, &mut out).unwrap();
    out
}

/// The siding's train as a wide image, this train at its inner diverge node.
fn wide_train(train: u32) -> Vec<u8> {
    let mut t = read_image(&siding_train(), 4).unwrap();
    t.wide = true;
    t.div.insert(1, Diverge { train, node: 1 });
    image_of(&t)
}

fn told(r: Result<(), Refusal>) -> String {
    r.map_or_else(|r| format!("refused {} at {}", r.number, r.place), |()| "done".into())
}

fn narrowed(train: u32) -> String {
    told(wide::narrow(&wide_train(train), &mut vec![0; image_size(5, 4)]))
}

/// Who holds the siding's train where two others stand on both ways; the image wide or narrow.
fn wide_held(image: &mut [u8], first: u32, second: u32) -> String {
    let u = wide::update(image, &[0, first, second, 0], &[1, 2], 2, false, 5);
    match u.outcome {
        model::Outcome::Refused(r) => format!("refused {} at {}", r.number, r.place),
        _ => u.holder.to_string(),
    }
}

/// The siding's train, its links all open, against a closer of links 1 to 3.
fn game(links: &[u32], turns: u32) -> String {
    let g = Game { occ: &[0; 4], moved: 2, local: false, limit: 5, links, turns };
    match closer_can_force(&siding_train(), &g) {
        Ok(yes) => if yes { "yes" } else { "no" }.into(),
        Err(r) => format!("refused {}", r.number),
    }
}

/// Each example with its value and what document 01 or a change request says.
fn examples() -> Vec<(&'static str, String, &'static str)> {
    let near = |a: f64, b: f64| if utils::near(a, b) { "yes" } else { "no" }.to_string();
    vec![
        ("P1", class(&[], &[3, 5]), "None"),
        ("P2", class(&[5], &[3, 5]), "Single 5"),
        ("P3", class(&[5, 5], &[3, 5]), "Range 5 0"),
        ("P4", class(&[3, 19], &[3, 19]), "Range 3 16"),
        ("P5", class(&[3, 20], &[3, 20]), "Check"),
        ("P6", class(&[7], &[3]), "None"),
        ("P7", union(&[0, 4, 7], (1, 2), (2, 3)), "0,4,7,4 view 2 4"),
        ("P8", union(&[0, 4, 4], (1, 2), (2, 3)), "0,4,4 view 2 3"),
        ("P9", release(&[4, 6]), "entry 5 is 9"),
        ("P10", release(&[6]), "entry 5 is 0"),
        ("P11", near(1_000_000.0, 1_000_000.0078125), "yes"),
        ("P12", near(0.0, 1e-8), "no"),
        ("sheet", model::sheet(&sheet_bundle()), SHEET),
        ("page", page(-1e12), "    0     0 Clear      7 -1000000000000\n"),
        ("Q-8", metres(2.5), "2"),
        ("Q-8", metres(3.5), "4"),
        ("Q-8", metres(0.5), "0"),
        ("Q-8", metres(-0.5), "0"),
        ("Q-1", metres(-0.3), "0"),
        ("Q-1", metres(-0.0), "0"),
        ("Q-1", metres(0.49999999999999994), "0"),
        ("Q-1", metres(999_999_999_999.5), "1000000000000"),
        ("Q-13", profile(-0.0), "within"),
        ("Q-13", profile(1.0 / 1_024.0), "within"),
        ("Q-13", profile(1.0 / 2_048.0), "refused 29"),
        ("Q-13", profile(-1.0 / 1_024.0), "refused 29"),
        ("Q-13", profile(40_000.0), "within"),
        ("Q-13", profile(40_000.0 + 1.0 / 1_024.0), "refused 29"),
        ("Q-3", held([0, 7, 9, 0]), "9"),
        ("Q-3", held([0, 2, 2, 0]), "2"),
        ("Q-3", held([0, 2, 0, 0]), "0"),
        ("Q-6", narrowed(65_535), "done"),
        ("Q-6", narrowed(65_536), "refused 23 at 0"),
        ("Q-6", narrowed(1_000_000), "refused 22 at 1"),
        ("Q-6", wide_held(&mut siding_train(), 7, 65_535), "65535"),
        ("Q-6", wide_held(&mut siding_train(), 7, 65_536), "refused 22 at 0"),
        ("Q-6", wide_held(&mut widened(&siding_train()), 7, 999_999), "999999"),
        ("Q-6", wide_held(&mut widened(&siding_train()), 7, 1_000_000), "refused 22 at 0"),
        ("Q-12", game(&[1, 2, 3], 1), "no"),
        ("Q-12", game(&[1, 2, 3], 2), "yes"),
        ("Q-12", game(&[], 0), "no"),
        ("Q-12", game(&[1, 1], 1), "refused 28"),
        ("Q-12", game(&[1, 2, 3], 7), "refused 28"),
        ("Q-14", siding([0, 7, 0, 0]).met.to_string(), "7"),
        ("Q-14", siding([0, 0, 7, 0]).met.to_string(), "0"),
        ("Q-14", siding_row([0, 2, 9, 0], 5), "code 4 holder 9 met 2"),
        ("Q-14", siding_row([0, 7, 0, 0], 5), "code 3 holder 0 met 7"),
        // refused by 12 in the second round, and by the Single that stops at its empty link in every round
        ("Q-14", siding_row([0, 7, 0, 0], 1), "code 28 holder 0 met 0"),
        ("Q-14", siding_row([0, 0, 0, 0], 5), "code 28 holder 0 met 0"),
        ("Q-9", siding([0, 2, 0, 0]).steps.to_string(), "3"),
        ("Q-9", siding([0, 2, 2, 0]).steps.to_string(), "3"),
        // a Single stops at its link though it is empty, in every round up to the limit
        ("Q-9", siding([0, 0, 0, 0]).steps.to_string(), "5"),
        ("Q-9", ceiling(model::ceiling(&siding_train())), "16"),
        ("Q-9", ceiling(model::ceiling(&[])), "refused 6"),
        ("Q-9", yard_ceiling(65_535), "1048560"),
        ("Q-9", yard_ceiling(0), "refused 5"),
    ]
}

/// Prints each example; true where all are as they should be.
pub fn run() -> bool {
    let mut ok = true;
    for (name, is, should) in examples() {
        let good = is == should;
        ok &= good;
        println!("{name:<6}{} {}", if good { "ok   " } else { "WRONG" }, is.trim_end().replace('\n', " / "));
    }
    ok
}
