//! Times of a page of 512 nodes on the same bytes in one run: the library's call, and the oracle's page built as for release,
//! which reads the image and formats its lines; of the latter also the lines alone.

use crate::clock::best;
use crate::updates::open_chain;
use oracle::gen::rounded_offset;
use oracle::layout::{image_of, read_image};
use oracle::model::LINKS;
use oracle::rng::Rng;
use release::layout::Train;
use release::model::{lines, page, ROUNDING};
use std::hint::black_box;

const NODES: usize = 512;

/// A train of 512 nodes at offsets of some kind.
fn image(rng: &mut Rng, offset: fn(&mut Rng) -> f64) -> Vec<u8> {
    let c = open_chain(rng, NODES);
    let mut train = read_image(&c.image, LINKS).expect("an accepted image");
    train.path.iter_mut().for_each(|x| x.offset = offset(rng));
    image_of(&train)
}

fn print(rng: &mut Rng, name: &str, offset: fn(&mut Rng) -> f64) {
    let images: Vec<Vec<u8>> = (0..50).map(|_| image(rng, offset)).collect();
    let read = |b: &Vec<u8>| release::layout::read_image(b, LINKS).expect("an accepted image");
    let trains: Vec<Train> = images.iter().map(read).collect();
    let (images, trains): (Vec<&Vec<u8>>, Vec<&Train>) = (images.iter().collect(), trains.iter().collect());
    let (mut one, mut other) = (vec![0; 40 * NODES], vec![0; 40 * NODES]);
    for image in &images {
        lavtoeu::page(image, &mut one).expect("a page that is not refused");
        page(image, &mut other, ROUNDING).expect("a page that is not refused");
        assert!(one == other, "the pages differ");
    }
    let ours = best(&images, 50, |_, image| {
        black_box(lavtoeu::page(black_box(image), &mut one)).expect("a page that is not refused");
    });
    let theirs = best(&images, 50, |_, image| {
        black_box(page(black_box(image), &mut other, ROUNDING)).expect("a page that is not refused");
    });
    let alone = best(&trains, 50, |_, train| {
        black_box(lines(black_box(train), ROUNDING));
    });
    println!(
        "page, {NODES} nodes, {name}: library {ours:.1} us, Rust over bytes {theirs:.1} us, ratio {:.2}; Rust's lines alone {alone:.1} us, ratio {:.2}",
        ours / theirs,
        ours / alone
    );
}

pub fn run(seed: u64) {
    let mut rng = Rng::new(seed);
    print(&mut rng, "offsets to 40 km", |rng| rng.unit() * 40_000.0);
    print(&mut rng, "offsets of every size", rounded_offset);
}
