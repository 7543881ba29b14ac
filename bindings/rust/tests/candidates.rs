//! A candidate's calls over small yards: what they show, what they change, and that a refusal leaves every buffer.

#[allow(dead_code)]
mod yards;

use lavtoeu::*;
use yards::*;

fn refused<T>(number: u16) -> Result<T, Refusal> {
    Err(Refusal { number, place: 0 })
}

fn view(table: &[u8], occupancy: &[u32], yard: &[u8], slot: u16, node: u32) -> Result<View, Refusal> {
    Candidate::new(table, &mut occupancy.to_vec(), yard, slot).view(node)
}

fn act(table: &[u8], occupancy: &mut [u32], yard: &[u8], slot: u16, link: u32, marks: bool) -> Result<(), Refusal> {
    let mut candidate = Candidate::new(table, occupancy, yard, slot);
    if marks {
        candidate.mark(link)
    } else {
        candidate.release(link)
    }
}

/// The image in its wide form: byte 42 is 1, and a diverge record has 8 bytes.
fn wide(image: &[u8]) -> Vec<u8> {
    let word = |at: usize| u32::from_le_bytes(image[at..at + 4].try_into().unwrap()) as usize;
    let (diverges, room) = (64 + 64 * word(4), word(16));
    let mut out = image[..diverges].to_vec();
    for record in image[diverges..].chunks(4) {
        out.extend([record[0], record[1], 0, 0, record[2], record[3], 0, 0]);
    }
    out[42] = 1;
    out[..4].copy_from_slice(&((diverges + 8 * room) as u32).to_le_bytes());
    out
}

/// Links 1 and 2 are one track in its two directions, and 3 locks link 1 out.
fn four_links() -> Vec<u8> {
    let link = |flip, lockouts: &[u32]| Link { flip, lockouts: lockouts.to_vec() };
    table(&[Link::default(), link(2, &[]), link(1, &[]), link(0, &[1])])
}

#[test]
fn a_candidate_sees_each_record_of_their_path_and_which_links_are_taken() {
    let (image, yard) = (laid_out(1, 4), two_trains());
    // The path is Fake, Arrive 1, Arrive 3; a link is taken by whomever.
    for (holder, taken) in [(0, false), (1, true), (2, true), (999_999, true)] {
        for (node, taken) in [(0, false), (1, taken), (2, false)] {
            let at = 64 + 5 * 32 + 32 * node as usize;
            let seen = view(&four_links(), &[7, holder, 7, 0], &yard, 1, node).unwrap();
            assert_eq!((&seen.record[..], seen.taken), (&image[at..at + 32], taken), "node {node}, holder {holder}");
        }
    }
}

#[test]
fn the_candidates_image_may_be_wide_and_so_may_others() {
    let (one, two) = (laid_out(1, 4), laid_out(2, 4));
    let narrow = yard(&[&one, &two]);
    for (first, second) in [(wide(&one), two.clone()), (one.clone(), wide(&two)), (wide(&one), wide(&two))] {
        let mixed = yard(&[&first, &second]);
        for node in 0..4 {
            assert_eq!(view(&four_links(), &[0, 9, 0, 0], &mixed, 1, node), view(&four_links(), &[0, 9, 0, 0], &narrow, 1, node));
        }
        let mut occupancy = [0; 4];
        assert_eq!(act(&four_links(), &mut occupancy, &mixed, 1, 1, true), Ok(()));
        assert_eq!(occupancy, [0, 0, 1, 0]);
    }
    // the last diverge record's train
    let mut large = wide(&one);
    let at = large.len() - 8 * 3;
    large[at..at + 4].copy_from_slice(&1_000_000u32.to_le_bytes());
    let large = yard(&[&large, &two]);
    assert_eq!(view(&four_links(), &[0; 4], &large, 1, 0), refused(26));
    assert!(view(&four_links(), &[0; 4], &large, 2, 0).is_ok());
}

#[test]
fn a_view_is_also_a_path_node() {
    let path = Image::from_bytes(&laid_out(1, 4)).unwrap().path;
    for (node, x) in path.iter().enumerate() {
        assert_eq!(view(&four_links(), &[0; 4], &two_trains(), 1, node as u32).unwrap().node(), *x);
    }
}

#[test]
fn an_act_marks_for_the_slots_train_and_releases_whoever_holds_the_link() {
    let (table, yard, mut occupancy) = (four_links(), two_trains(), [0; 4]);
    assert_eq!(act(&table, &mut occupancy, &yard, 2, 1, true), Ok(()));
    assert_eq!(occupancy, [0, 0, 2, 0]);
    assert_eq!(act(&table, &mut occupancy, &yard, 1, 3, true), Ok(()));
    assert_eq!(occupancy, [1, 1, 2, 0]);
    assert_eq!(act(&table, &mut occupancy, &yard, 1, 1, false), Ok(()));
    assert_eq!(occupancy, [1, 1, 0, 0]);
}

#[test]
fn a_candidate_is_refused_in_order_and_nothing_changes() {
    let (table, yard) = (four_links(), two_trains());
    let mut spare = two_trains();
    spare[16 + 43] = 1;
    let (fine, short, large) = ([0; 4], [1_000_000; 3], [0, 1_000_000, 0, 0]);
    for (number, table, occupancy, yard, slot, node, link) in [
        (1, &table[1..], &short[..], &yard[1..], 0, 9, 0),
        (2, &table[..], &short[..], &yard[1..], 0, 9, 0),
        (22, &table[..], &large[..], &yard[1..], 0, 9, 0),
        (14, &table[..], &fine[..], &yard[1..], 0, 9, 0),
        (26, &table[..], &fine[..], &yard[..], 0, 9, 0),
        (26, &table[..], &fine[..], &yard[..], 3, 0, 1),
        (26, &table[..], &fine[..], &spare[..], 1, 0, 1),
        (27, &table[..], &fine[..], &yard[..], 1, 3, 0),
        (27, &table[..], &fine[..], &yard[..], 1, u32::MAX, 2),
        (27, &table[..], &fine[..], &yard[..], 1, 3, 4),
        (27, &table[..], &fine[..], &spare[..], 2, 3, u32::MAX),
    ] {
        assert_eq!(view(table, occupancy, yard, slot, node), refused(number));
        for marks in [true, false] {
            let mut left = occupancy.to_vec();
            assert_eq!(act(table, &mut left, yard, slot, link, marks), refused(number));
            assert_eq!(left, occupancy);
        }
    }
    assert_eq!(act(&table, &mut fine.clone(), &spare, 2, 1, true), Ok(()));
}

#[test]
fn a_view_fills_what_room_it_has_and_a_refused_one_fills_nothing() {
    let (table, yard, image) = (four_links(), two_trains(), laid_out(1, 4));
    for (node, word) in [(1, 0), (3, 27)] {
        for room in [0, 1, 31, 32, 40] {
            let (mut record, mut answer) = (vec![0xaa; room], [9; 2]);
            // SAFETY: each pointer goes with its own length.
            let told = unsafe {
                let (o, r, a) = ([0, 1, 0, 0], record.as_mut_ptr(), answer.as_mut_ptr());
                raw::lavtoeu_view(table.as_ptr(), table.len(), o.as_ptr(), 4, yard.as_ptr(), yard.len(), 1, node, r, room, a, 2)
            };
            let n = if word == 0 { room.min(32) } else { 0 };
            assert_eq!((told, answer), (word, [if word == 0 { 1 } else { 9 }, 9]));
            assert_eq!(record[..n], image[64 + 6 * 32..][..n]);
            assert!(record[n..].iter().all(|&b| b == 0xaa));
        }
    }
}

/// docs/DECISIONS.md: the sittings agree on what the candidate may see, and a release makes them differ.
#[test]
fn a_release_can_tell_of_another_link() {
    let arrive = |link, next| Est { est_type: EstType::Arrive, link, next, ..Est::default() };
    let mut image = vec![0; image_size(2, 2)];
    let order = Order { train: 1, search: 0.0, fixed: 0.0, room: 2, links: 5 };
    assert_eq!(lay_out(&est_bytes(&[arrive(1, 1), arrive(2, 0)]), order, &mut image), Ok(()));
    let (yard, link) = (yard(&[&image]), |flip, lockouts: &[u32]| Link { flip, lockouts: lockouts.to_vec() });
    let table = table(&[Link::default(), link(2, &[]), link(1, &[3, 4]), Link::default(), Link::default()]);
    let (mut held, mut bare) = ([0, 1, 7, 9, 0], [0, 1, 7, 0, 0]);
    let views = |occupancy: &[u32]| [0, 1].map(|node| view(&table, occupancy, &yard, 1, node).unwrap());
    assert_eq!(views(&held), views(&bare));
    for occupancy in [&mut held, &mut bare] {
        assert_eq!(act(&table, occupancy, &yard, 1, 1, false), Ok(()));
    }
    assert_eq!((held, bare), ([0, 1, 9, 9, 0], [0, 1, 0, 0, 0]));
    assert_eq!((views(&held)[1].taken, views(&bare)[1].taken), (true, false));
}
