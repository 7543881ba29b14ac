//! Checks of yards whose slots are trains of the generators of updates.

use oracle::calls;
use oracle::cases::Case;
use oracle::gen::{self, UpdateCase};
use oracle::layout::{put_u16, read_image, yard_of};
use oracle::model::ROW;
use oracle::rng::Rng;
use oracle::yards::CheckCase;

/// The trains of these updates in one yard, over as many links as the largest has; any of them is the moved one.
pub fn of_updates(rng: &mut Rng, mut updates: Vec<UpdateCase>) -> CheckCase {
    for (i, c) in updates.iter_mut().enumerate() {
        put_u16(&mut c.image, 32, i as u16 + 1);
    }
    let l = updates.iter().map(|c| c.occ.len()).max().expect("a slot");
    let occ = gen::odd_occupancy(rng, l);
    let moved = rng.from(1, updates.len());
    let blocking = match read_image(&updates[moved - 1].image, l) {
        Ok(t) => gen::odd_blocking(rng, &t, &occ),
        Err(_) => vec![],
    };
    let images: Vec<Vec<u8>> = updates.into_iter().map(|c| c.image).collect();
    let begin = if rng.chance(80) { 1 } else { rng.from(1, images.len() + 1) as u32 };
    CheckCase {
        yard: yard_of(&images),
        occ,
        blocking,
        moved: moved as u16,
        begin,
        local: rng.chance(50),
        limit: rng.pick(&[1, 3, 20]),
    }
}

/// A check of up to 63 slots: odd, twin and dense trains, some of them damaged.
pub fn large(rng: &mut Rng) -> Case {
    let slots = rng.pick(&[1, 3, 8, 20, 62, 63]);
    let damaged = rng.chance(30);
    let updates: Vec<UpdateCase> = (0..slots)
        .map(|_| {
            let mut c = match rng.below(10) {
                0..=3 => gen::odd_update(rng),
                4..=6 => gen::twin_update(rng),
                7..=8 => gen::views_update(rng),
                _ => calls::dense(rng),
            };
            if damaged && rng.chance(20) {
                let b = gen::damaged(rng, &c.image, c.occ.len());
                if b.len() == c.image.len() {
                    c.image = b;
                }
            }
            c
        })
        .collect();
    let c = of_updates(rng, updates);
    let report = vec![0xA5; ROW * slots];
    calls::of_check(&c, &report)
}

/// A bundle with some bytes changed, cut short or made longer, or bytes at random.
pub fn damaged_sheet(rng: &mut Rng) -> Case {
    if rng.chance(10) {
        let bytes: Vec<u8> = (0..rng.below(300)).map(|_| rng.below(256) as u8).collect();
        return Case::sheet(&bytes);
    }
    let mut bundle = calls::sheet(rng).ins[0].clone();
    for _ in 0..rng.below(6) {
        if bundle.is_empty() {
            break;
        }
        let near = if rng.chance(50) { bundle.len().min(120) } else { bundle.len() };
        let at = rng.below(near);
        bundle[at] = if rng.chance(50) { rng.below(256) as u8 } else { bundle[at] ^ (1 << rng.below(8)) };
    }
    match rng.below(20) {
        0 => bundle.truncate(rng.below(bundle.len() + 1)),
        1 => bundle.extend((0..rng.below(40)).map(|i| i as u8)),
        _ => {}
    }
    Case::sheet(&bundle)
}
