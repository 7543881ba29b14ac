//! A candidate's views and acts: beside the oracle's, and in two sittings that agree on what the candidate may see.

use crate::clock::best;
use crate::library::{answered, numbers};
use crate::tally::Tally;
use lavtoeu::{layout, raw, Candidate, Est, EstType, Link, Order, Refusal};
use oracle::cases::{Case, VIEW};
use oracle::layout::{read_yard, u32_bytes, u32s};
use oracle::rng::Rng;
use oracle::trials::candidate::{agree, arrive_links, images, other, some_link, some_node};
use oracle::trials::wide::wide_start;
use oracle::wide_calls::WideYard;
use std::hint::black_box;

/// The answer as the oracle writes it; one that leaves other words than the call should, or that the crate's candidate does not
/// give, becomes a number that no answer has.
pub fn view(case: &mut Case) {
    let [table, occ, yard, mut record] = case.ins.clone();
    let (mut occ, mut words, [slot, node, ..]) = (u32s(&occ), vec![u64::MAX; 2], case.args);
    // SAFETY: each pointer goes with its own length.
    let word = unsafe {
        let (t, o, y) = (table.as_ptr(), occ.as_ptr(), yard.as_ptr());
        let (r, w) = (record.as_mut_ptr(), words.as_mut_ptr());
        let (slot, lens) = (slot as u16, (table.len(), occ.len(), yard.len(), record.len(), words.len()));
        raw::lavtoeu_view(t, lens.0, o, lens.1, y, lens.2, slot, node, r, lens.3, w, lens.4)
    };
    let (number, place) = (word & 0xffff, word >> 16);
    let taken = if number == 0 { words[0] as u32 } else { 0 };
    let left = [if number == 0 { taken as u64 } else { u64::MAX }, u64::MAX];
    let seen = Candidate::new(&table, &mut occ, &yard, slot as u16).view(node);
    let n = record.len().min(layout::PATH_RECORD);
    let same = match seen {
        Ok(v) => number == 0 && v.taken == (taken == 1) && record[..n] == v.record[..n],
        Err(r) => (r.number as u32, r.place as u32) == (number, place),
    };
    let kept = words == left && taken < 2 && same;
    case.answer = [if kept { number } else { u32::MAX }, place, taken, 0, 0, 0, 0, 0];
    case.outs = [record, vec![]];
}

fn acted(
    table: &[u8],
    occ: &mut [u32],
    yard: &[u8],
    slot: u16,
    link: u32,
    marks: bool,
) -> Result<(), Refusal> {
    let mut candidate = Candidate::new(table, occ, yard, slot);
    if marks {
        candidate.mark(link)
    } else {
        candidate.release(link)
    }
}

pub fn act(case: &mut Case) {
    let mut occ = u32s(&case.ins[1]);
    let [slot, link, marks, ..] = case.args;
    let answer = acted(&case.ins[0], &mut occ, &case.ins[2], slot as u16, link, marks != 0);
    (case.answer[0], case.answer[1]) = numbers(answer);
    case.outs = [u32_bytes(&occ), vec![]];
}

/// The library tells the candidate the same in both: the answer, and of a view every byte.
fn same_told(one: &Case, two: &Case) -> bool {
    let (a, b) = (answered(one), answered(two));
    a.answer == b.answer && (one.op != VIEW || a.outs == b.outs)
}

/// Two yards that agree on the candidate's image and on which of its links are taken: four views and four acts, each compared
/// with the oracle in both, and told the same in both as long as they agree.
pub fn pair(rng: &mut Rng, tally: &mut Tally) {
    let mut a = wide_start(rng);
    let slot = rng.from(1, images(&a.yard).len());
    if rng.chance(8) {
        // the candidate's own image is refused
        let part = read_yard(&a.yard).expect("a yard")[slot - 1].clone();
        a.yard[part.start + 43] = 1;
    }
    let mut b = other(rng, &a, slot);
    let links = arrive_links(&images(&a.yard)[slot - 1], a.occ.len());
    let slot = slot as u16;
    for _ in 0..4 {
        let node = some_node(rng, &a, slot);
        let [one, two] = [&a, &b].map(|y| Case::view(y, slot, node, &[0xA5; layout::PATH_RECORD]));
        tally.add_pair(&one, &two, same_told(&one, &two));
    }
    for _ in 0..4 {
        let (link, marks) = (some_link(rng, &a, slot), rng.below(2) as u32);
        let agreed = agree(&a, &b, &links);
        let [one, two] = [&a, &b].map(|y| Case::act(y, slot, link, marks));
        tally.add_pair(&one, &two, !agreed || same_told(&one, &two));
        (a.occ, b.occ) = (left(&one), left(&two));
        if agreed {
            tally.add_agreement(marks == 1, agree(&a, &b, &links));
        }
    }
}

/// The occupancy that the library leaves.
fn left(asked: &Case) -> Vec<u32> {
    u32s(&answered(asked).outs[0])
}

const LINKS: usize = 4_000;

/// A path of this many Arrives on the first links of a table of the most links, each with a flip and a lockout beside it.
fn sitting(nodes: usize) -> WideYard {
    let link = |l: usize| Link { flip: (l ^ 1) as u32, lockouts: vec![((l + 2) % LINKS) as u32] };
    let table = lavtoeu::table(&(0..LINKS).map(link).collect::<Vec<_>>());
    let est = |i: usize| {
        let next = if i + 1 < nodes { i + 1 } else { 0 };
        let prev = i.saturating_sub(1) as u32;
        Est { est_type: EstType::Arrive, link: 1 + i as u32, next: next as u32, prev, ..Est::default() }
    };
    let ests = lavtoeu::est_bytes(&(0..nodes).map(est).collect::<Vec<_>>());
    let mut image = vec![0; lavtoeu::image_size(nodes, 2)];
    let order = Order { train: 1, search: 0.0, fixed: 0.0, room: 2, links: LINKS as u32 };
    lavtoeu::lay_out(&ests, order, &mut image).expect("a layout");
    WideYard { table, occ: vec![0; LINKS], yard: lavtoeu::yard(&[&image]) }
}

/// A view of the last node and a mark of its link on a table of 4,000 links, for paths of 3 and of 512 nodes, and the parts: the
/// image judged, a mark over a narrow occupancy, which reads the table too.
pub fn time(_seed: u64) {
    for nodes in [3, 512] {
        let y = sitting(nodes);
        let image = &images(&y.yard)[0];
        let starts = vec![y.occ.clone(); 20];
        let view = best(&starts, 50, |_, occ| {
            let seen = Candidate::new(black_box(&y.table), occ, &y.yard, 1).view(nodes as u32 - 1);
            black_box(seen).expect("a view");
        });
        let act = best(&starts, 50, |_, occ| {
            acted(black_box(&y.table), occ, &y.yard, 1, nodes as u32, true).expect("an act");
        });
        let judge = best(&starts, 50, |_, _| {
            lavtoeu::judge(black_box(image), LINKS as u32).expect("an image");
        });
        let narrow = vec![vec![0u16; LINKS]; 20];
        let mark = best(&narrow, 50, |_, occ| {
            lavtoeu::mark(black_box(&y.table), occ, nodes as u32, 1).expect("a mark");
        });
        println!("{nodes} nodes, {LINKS} links: view {view:.2} us, act {act:.2} us; of it the image {judge:.2} us, a mark {mark:.2} us");
    }
}
