//! Times of the wide calls beside the narrow ones on the same trains, by the library alone: over u16 entries, over u32 entries, and of
//! widened images over u32 entries.

use crate::check_time::full_yard;
use crate::clock::best;
use crate::library::{told, told_check};
use crate::replays::{table, LINKS};
use crate::updates::open_chain;
use lavtoeu::layout::{REPORT_RECORD, WIDE_REPORT_RECORD};
use lavtoeu::{Move, WideMove};
use oracle::gen::{self, UpdateCase};
use oracle::layout::{read_image, yard_of};
use oracle::rng::Rng;
use oracle::yards::CheckCase;
use std::hint::black_box;

fn print(name: &str, times: [f64; 3]) {
    let [narrow, over, wide] = times;
    println!("{name:<40}{narrow:>10.3}{over:>10.3}{wide:>10.3}{:>8.2}{:>8.2}", over / narrow, wide / narrow);
}

fn widened(image: &[u8]) -> Vec<u8> {
    let t = read_image(image, 4_000).expect("an accepted image");
    let mut out = vec![0; lavtoeu::wide_image_size(t.est.len(), t.div_room)];
    lavtoeu::widen(image, &mut out).expect("an accepted image");
    out
}

fn wide_told<'a>(m: Move<'a>, occupancy: &'a [u32]) -> WideMove<'a> {
    let Move { blocking, moved, local, limit, .. } = m;
    WideMove { occupancy, blocking, moved: moved as u32, local, limit }
}

fn u32_entries(occ: &[u16]) -> Vec<u32> {
    occ.iter().map(|&t| t as u32).collect()
}

/// Updates that are not refused.
fn updates(name: &str, count: usize, mut make: impl FnMut() -> UpdateCase) {
    let mut items = vec![];
    while items.len() < count {
        let c = make();
        if lavtoeu::update(&mut c.image.clone(), told(&c)).status.is_ok() {
            items.push(c);
        }
    }
    let occs: Vec<Vec<u32>> = items.iter().map(|c| u32_entries(&c.occ)).collect();
    let images: Vec<Vec<u8>> = items.iter().map(|c| c.image.clone()).collect();
    let wides: Vec<Vec<u8>> = images.iter().map(|b| widened(b)).collect();
    let over = |i: usize, image: &mut Vec<u8>| {
        black_box(lavtoeu::update_wide(black_box(image), wide_told(told(&items[i]), &occs[i])));
    };
    let narrow = best(&images, 100, |i, image| {
        black_box(lavtoeu::update(black_box(image), told(&items[i])));
    });
    print(name, [narrow, best(&images, 100, over), best(&wides, 100, over)]);
}

fn checks(name: &str, c: &CheckCase) {
    let occ = u32_entries(&c.occ);
    let (m, begin) = told_check(&c.args());
    let parts = lavtoeu::parts(&c.yard).expect("a yard");
    let wide_yard = yard_of(&parts.iter().map(|image| widened(image)).collect::<Vec<_>>());
    let slots = parts.len();
    let mut report = vec![0; REPORT_RECORD * slots];
    let narrow = best(&[c.yard.clone()], 300, |_, yard| {
        black_box(lavtoeu::check(black_box(yard), m, begin, &mut report)).expect("a check");
    });
    let over = |yard: &Vec<u8>, record: usize| {
        let mut report = vec![0; record * slots];
        best(std::slice::from_ref(yard), 300, |_, yard| {
            black_box(lavtoeu::check_wide(black_box(yard), wide_told(m, &occ), begin, &mut report))
                .expect("a check");
        })
    };
    print(name, [narrow, over(&c.yard, REPORT_RECORD), over(&wide_yard, WIDE_REPORT_RECORD)]);
}

/// Marks on a table of the most links; there is no image, so the third time is the second again.
fn marks() {
    let table = table();
    let narrow = best(&[vec![0u16; LINKS]], 2_000, |_, occ| {
        lavtoeu::mark(black_box(&table), occ, 7, 9).expect("a mark");
    });
    let over = best(&[vec![0u32; LINKS]], 2_000, |_, occ| {
        lavtoeu::mark_wide(black_box(&table), occ, 7, 9).expect("a mark");
    });
    print("mark, 4,000 links", [narrow, over, over]);
}

fn conversions(rng: &mut Rng) {
    let image = gen::dense_update(rng, 512, 1_024).image;
    let wide = widened(&image);
    let there = best(&[vec![0; wide.len()]], 1_000, |_, out| {
        lavtoeu::widen(black_box(&image), out).expect("an image to widen");
    });
    let back = best(&[vec![0; image.len()]], 1_000, |_, out| {
        lavtoeu::narrow(black_box(&wide), out).expect("an image to go narrow");
    });
    println!("widen {there:.2} us, narrow {back:.2} us, E = 512, {} and {} bytes", image.len(), wide.len());
}

pub fn run(seed: u64) {
    let mut rng = Rng::new(seed);
    let rng = &mut rng;
    println!("{:<40}{:>10}{:>10}{:>10}{:>8}{:>8}", "us", "u16", "u32", "wide", "ratio", "ratio");
    marks();
    updates("update, odd, small", 500, || gen::odd_update(rng));
    for e in [16, 128, 512] {
        updates(&format!("update, chain, end free, E = {e}"), 50, || open_chain(rng, e));
        updates(&format!("update, chain, end held, E = {e}"), 50, || gen::chain_update(rng, e - 1, false));
    }
    updates("update, dense, E = 512", 50, || gen::dense_update(rng, 512, 1_024));
    checks("check, 63 slots, chain, end free, E = 512", &full_yard(|| open_chain(rng, 512)));
    checks("check, 63 slots, dense, E = 512", &full_yard(|| gen::dense_update(rng, 512, 1_024)));
    conversions(rng);
}
