//! A train with a siding, and a yard of two, for the tests.

use lavtoeu::*;

/// Link 1 to link 3, and a siding over link 2 round it.
pub fn siding() -> Vec<u8> {
    let arrive = |link, dist_to_next, next| Est { est_type: EstType::Arrive, link, dist_to_next, next, ..Est::default() };
    est_bytes(&[
        Est { next: 1, alt: 2, ..Est::default() },
        arrive(1, 100.0, 4),
        Est { next: 3, ..Est::default() },
        Est { prev: 2, ..arrive(2, 100.0, 4) },
        Est { prev: 1, prev_alt: 3, ..arrive(3, 0.0, 0) },
    ])
}

/// The order of the train over four links.
pub fn order(train: u16, room: u32) -> Order {
    Order { train, search: 0.0, fixed: 0.0, room, links: 4 }
}

pub fn laid_out(train: u16, room: u32) -> Vec<u8> {
    let mut image = vec![0xaa; image_size(5, room as usize)];
    assert_eq!(lay_out(&siding(), order(train, room), &mut image), Ok(()));
    image
}

pub fn two_trains() -> Vec<u8> {
    yard(&[&laid_out(1, 4), &laid_out(2, 4)])
}

/// Train 2 has moved to link 1.
pub const MOVE: Move = Move { occupancy: &[0, 2, 0, 0], blocking: &[1], moved: 2, local: false, limit: 5 };
