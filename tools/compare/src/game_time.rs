//! Times of the largest games: 8 links, 6 turns, a wide image of 512 est records with room for 1,024 diverge nodes, 4,000 links.

use crate::clock::best;
use lavtoeu::{layout, Game};
use oracle::game::{self, closer_can_force};
use oracle::gen::{self, UpdateCase};
use oracle::layout::{image_of, laid_out};
use oracle::rng::Rng;
use std::hint::black_box;

const ESTS: usize = 512;
const LINKS: [u32; 8] = [1, 2, 3, 4, 5, 6, 7, 8];

/// The train in the largest wide image.
fn largest(c: &UpdateCase) -> Vec<u8> {
    let mut train = laid_out(&c.image).expect("an image");
    (train.wide, train.div_room) = (true, layout::MAX_ROOM);
    image_of(&train)
}

fn print(name: &str, c: &UpdateCase) {
    let (image, occ) = (largest(c), vec![0; layout::MAX_LINKS]);
    let (moved, local, limit, turns) = (c.moved as u32, c.local, c.limit, layout::MAX_TURNS as u32);
    let told = Game { occupancy: &occ, moved, local, limit, links: &LINKS, turns };
    let theirs =
        closer_can_force(&image, &game::Game { occ: &occ, moved, local, limit, links: &LINKS, turns });
    let verdict = lavtoeu::closer_can_force(&image, told).expect("a game that is not refused");
    assert!(theirs == Ok(verdict), "the verdicts differ");
    let ours = best(&[image.as_slice()], 20, |_, image| {
        black_box(lavtoeu::closer_can_force(black_box(image), told)).expect("a game that is not refused");
    });
    println!("game over {} bytes, {name} ({verdict}): library {ours:.0} us", image.len());
}

pub fn run(seed: u64) {
    let mut rng = Rng::new(seed);
    let rng = &mut rng;
    print("chain", &gen::chain_update(rng, ESTS - 1, false));
    print("two chains", &gen::chain_update(rng, (ESTS - 1) / 2, true));
    print("dense", &gen::dense_update(rng, ESTS, 2 * ESTS));
}
