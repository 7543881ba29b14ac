//! The lesson game over the siding's train.

#[allow(dead_code)]
mod yards;

use lavtoeu::*;
use yards::*;

/// All links open, nobody about.
const GAME: Game = Game { occupancy: &[0; 4], moved: 2, local: false, limit: 5, links: &[1, 2, 3], turns: 2 };

fn refused(number: u16) -> Result<bool, Refusal> {
    Err(Refusal { number, place: 0 })
}

#[test]
fn one_turn_is_too_few_on_the_siding_and_two_are_enough() {
    let image = laid_out(1, 4);
    for (turns, verdict) in [(0, false), (1, false), (2, true), (3, true), (6, true)] {
        assert_eq!(closer_can_force(&image, Game { turns, ..GAME }), Ok(verdict), "{turns} turns");
    }
    // Both ways go over link 3: the dispatcher opens it whenever it is closed. Links 1 and 2 are one each.
    for (links, verdict) in [(&[][..], false), (&[3], false), (&[1], false), (&[1, 2], false), (&[3, 1, 2], true)] {
        assert_eq!(closer_can_force(&image, Game { links, ..GAME }), Ok(verdict), "{links:?}");
    }
}

#[test]
fn a_train_that_is_blocked_as_it_is_is_no_win_without_a_blocking_list() {
    let held = Game { occupancy: &[0, 9, 9, 9], ..GAME };
    assert_eq!(closer_can_force(&laid_out(1, 4), Game { links: &[], turns: 0, ..held }), Ok(false));
}

#[test]
fn links_and_turns_are_asked_after_all_else() {
    let image = laid_out(1, 4);
    let many: Vec<u32> = (1..=9).collect();
    for links in [&[1, 1][..], &[0], &[4], &[u32::MAX], &[1, 2, 3, 1], &many] {
        assert_eq!(closer_can_force(&image, Game { links, ..GAME }), refused(28), "{links:?}");
        assert_eq!(closer_can_force(&image, Game { links, limit: 0, ..GAME }), refused(5), "{links:?}");
        assert_eq!(closer_can_force(&image[1..], Game { links, ..GAME }), refused(6), "{links:?}");
    }
    assert_eq!(closer_can_force(&image, Game { occupancy: &[0; 20], links: &many, ..GAME }), refused(28));
    assert!(closer_can_force(&image, Game { occupancy: &[0; 20], links: &many[..8], ..GAME }).is_ok());
    for turns in [7, u32::MAX] {
        assert_eq!(closer_can_force(&image, Game { turns, ..GAME }), refused(28));
    }
    let mut finished = Image::from_bytes(&image).unwrap();
    finished.free = finished.path.len() as u16;
    assert_eq!(closer_can_force(&finished.to_bytes().unwrap(), Game { turns: 7, ..GAME }), refused(10));
}

#[test]
fn a_game_is_refused_as_an_update_is() {
    let image = laid_out(1, 4);
    assert_eq!(closer_can_force(&image, Game { occupancy: &[], ..GAME }), refused(2));
    assert_eq!(closer_can_force(&image, Game { occupancy: &[0; 4_001], ..GAME }), refused(2));
    assert_eq!(closer_can_force(&image, Game { moved: 0, ..GAME }), refused(5));
    assert_eq!(closer_can_force(&image, Game { limit: 0, ..GAME }), refused(5));
    assert_eq!(closer_can_force(&[], GAME), refused(6));
    assert_eq!(closer_can_force(&image, Game { moved: 65_536, ..GAME }), refused(22));
    assert_eq!(closer_can_force(&image, Game { occupancy: &[0, 0, 0, 65_536], ..GAME }), refused(22));
    assert_eq!(closer_can_force(&image, Game { occupancy: &[0; 3], ..GAME }), Err(Refusal { number: 7, place: 4 }));
}

/// The same train in a wide image: byte 42 is 1, and a diverge record has a u32 for its train, its node and two spare bytes.
fn widened(image: &[u8]) -> Vec<u8> {
    let at = u32::from_le_bytes(image[28..32].try_into().unwrap()) as usize;
    let mut wide = image[..at].to_vec();
    wide[42] = 1;
    image[at..].chunks(4).for_each(|d| wide.extend([d[0], d[1], 0, 0, d[2], d[3], 0, 0]));
    let size = wide.len() as u32;
    wide[..4].copy_from_slice(&size.to_le_bytes());
    wide
}

#[test]
fn a_wide_image_has_trains_of_six_digits() {
    let (narrow, wide) = (laid_out(1, 4), widened(&laid_out(1, 4)));
    for turns in 0..=6 {
        let told = Game { turns, ..GAME };
        assert_eq!(closer_can_force(&wide, told), closer_can_force(&narrow, told));
        assert_eq!(closer_can_force(&wide, Game { moved: 999_999, ..told }), Ok(turns >= 2));
    }
    assert_eq!(closer_can_force(&wide, Game { moved: 1_000_000, ..GAME }), refused(22));
    assert_eq!(closer_can_force(&wide, Game { occupancy: &[1_000_000, 0, 0, 0], ..GAME }), refused(22));
    let mut high = wide.clone();
    let last = high.len() - 3 * 8;
    high[last..last + 4].copy_from_slice(&1_000_000u32.to_le_bytes());
    assert_eq!(closer_can_force(&high, GAME), Err(Refusal { number: 22, place: 1 }));
}

#[test]
fn a_refused_game_leaves_the_answer() {
    let (image, g, mut answer) = (laid_out(1, 4), GAME, [9; 2]);
    for (turns, word, left) in [(7, 28, [9, 9]), (1, 0, [0, 9]), (2, 0, [1, 9])] {
        // SAFETY: each pointer goes with its own length.
        let told = unsafe {
            let (occ, links) = (g.occupancy.as_ptr(), g.links.as_ptr());
            raw::lavtoeu_closer_can_force(image.as_ptr(), image.len(), occ, 4, 2, 0, 5, links, 3, turns, answer.as_mut_ptr(), 2)
        };
        assert_eq!((told, answer), (word, left));
    }
}
