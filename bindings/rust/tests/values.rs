//! Images, tables, yards and bundles as values: to bytes and back, and refused where the core refuses the bytes.

mod yards;

use lavtoeu::layout::*;
use lavtoeu::*;
use yards::*;

/// Is it refused by this number?
fn is(number: u16, answer: Result<(), Refusal>) -> bool {
    matches!(answer, Err(r) if r.number == number)
}

/// The bytes with each byte in turn changed to other values, and cut to shorter lengths.
fn damaged(bytes: &[u8]) -> impl Iterator<Item = Vec<u8>> + '_ {
    let changed = (0..bytes.len()).flat_map(move |at| {
        [0, 1, 2, 3, 0x7f, 0x80, 0xff].map(|value| {
            let mut other = bytes.to_vec();
            other[at] = value;
            other
        })
    });
    changed.chain((0..bytes.len()).map(|n| bytes[..n].to_vec()))
}

/// Numbers of a generator, each below the bound.
fn numbers(mut seed: u64) -> impl FnMut(u64) -> u64 {
    move |bound| {
        seed = seed.wrapping_mul(6364136223846793005).wrapping_add(1442695040888963407);
        (seed >> 33) % bound
    }
}

fn a_type(number: u64) -> EstType {
    [EstType::Arrive, EstType::Clear, EstType::Fake][number as usize]
}

/// An image of any values that its fields can hold.
fn any_image(seed: u64) -> Image {
    let mut next = numbers(seed);
    let float = |n: u64| f64::from_bits(n.wrapping_mul(0x9e37_79b9_7f4a_7c15));
    let (e, wide) = (1 + next(MAX_ESTS as u64), seed % 2 == 1);
    let room = 2 + next(MAX_ROOM as u64 - 1);
    let est = |next: &mut dyn FnMut(u64) -> u64| Est {
        est_type: a_type(next(3)),
        link: next(1 << 32) as u32,
        dist_to_next: float(next(1 << 31)),
        next: next(1 << 32) as u32,
        alt: next(1 << 32) as u32,
        prev: next(1 << 32) as u32,
        prev_alt: next(1 << 32) as u32,
    };
    let node = |next: &mut dyn FnMut(u64) -> u64| Node {
        est_type: a_type(next(3)),
        link: next(1 << 32) as u32,
        est: next(1 << 32) as u32,
        offset: float(next(1 << 31)),
        time_pass: float(next(1 << 31)),
        auth: next(1 << 16) as u16,
    };
    let (n, m) = (1 + next(e), 2 + next(u64::from(room as u32) - 1));
    Image {
        train: 1 + next(65_535) as u16,
        fixed: next(1 << 16) as u16,
        free: next(1 << 16) as u16,
        front: next(1 << 16) as u16,
        back: next(1 << 16) as u16,
        search: float(next(1 << 31)),
        fixed_max: float(next(1 << 31)),
        ests: (0..e).map(|_| est(&mut next)).collect(),
        path: (0..n).map(|_| node(&mut next)).collect(),
        diverges: (0..m).map(|_| Diverge { train: next(if wide { 1 << 32 } else { 1 << 16 }) as u32, node: next(1 << 16) as u16 }).collect(),
        room: room as u32,
        wide,
    }
}

#[test]
fn a_layout_reads_as_its_values() {
    let image = Image::from_bytes(&laid_out(9, 4)).unwrap();
    let node = |est_type, link, est, offset| Node { est_type, link, est, offset, ..Node::default() };
    assert_eq!((image.train, image.fixed, image.free, image.front, image.back), (9, 0, 0, 0, 0));
    assert_eq!((image.search, image.fixed_max, image.room), (0.0, 0.0, 4));
    assert_eq!(est_bytes(&image.ests), siding());
    assert_eq!(image.path, [node(EstType::Fake, 0, 0, 0.0), node(EstType::Arrive, 1, 1, 0.0), node(EstType::Arrive, 3, 4, 100.0)]);
    assert_eq!(image.diverges, [Diverge::default(), Diverge { train: 0, node: 3 }]);
    assert_eq!(Image::new(&image.ests, order(9, 4)), Ok(image.clone()));
    assert_eq!(image.to_bytes(), Ok(laid_out(9, 4)));
}

#[test]
fn a_new_image_is_refused_as_a_layout() {
    let ests = Image::from_bytes(&laid_out(1, 4)).unwrap().ests;
    let refused = |number, place| Err(Refusal { number, place });
    assert_eq!(Image::new(&ests, order(0, 4)), refused(5, 0));
    for room in [0, 1, 1_025, u32::MAX] {
        assert_eq!(Image::new(&ests, order(1, room)), refused(6, 0), "room {room}");
    }
    for n in [0, 513] {
        assert_eq!(Image::new(&vec![Est::default(); n], order(1, 4)), refused(6, 0), "{n} est records");
    }
    assert_eq!(Image::new(&ests, Order { links: 3, ..order(1, 4) }), refused(7, 4));
}

#[test]
fn an_update_goes_through_values() {
    let mut bytes = Image::from_bytes(&laid_out(1, 4)).unwrap().to_bytes().unwrap();
    assert_eq!(update(&mut bytes, MOVE).status, Ok(Status::Success));
    let after = Image::from_bytes(&bytes).unwrap();
    assert_eq!(after.path.iter().map(|x| (x.link, x.offset)).collect::<Vec<_>>(), [(0, 0.0), (0, 0.0), (2, 0.0), (3, 100.0)]);
    assert_eq!(after.diverges, [Diverge::default(), Diverge { train: 2, node: 1 }, Diverge { train: 2, node: 4 }]);
    assert_eq!(after.to_bytes(), Ok(bytes));
}

#[test]
fn values_of_every_kind_come_back() {
    for seed in 0..300 {
        let image = any_image(seed);
        let bytes = image.to_bytes().unwrap();
        assert!(!is(6, judge(&bytes, 4_000)), "seed {seed}");
        let back = Image::from_bytes(&bytes).unwrap();
        assert_eq!(back.to_bytes(), Ok(bytes), "seed {seed}");
        // A NaN is no value's equal, so the lists are compared as they are printed.
        assert_eq!(format!("{back:?}"), format!("{image:?}"), "seed {seed}");
    }
}

#[test]
fn an_image_is_read_unless_6_refuses_it() {
    let mut updated = laid_out(1, 4);
    assert_eq!(update(&mut updated, MOVE).status, Ok(Status::Success));
    let wide = Image { wide: true, ..Image::from_bytes(&updated).unwrap() }.to_bytes().unwrap();
    let mut read = 0;
    for bytes in [laid_out(1, 4), updated, wide].iter().flat_map(|bytes| damaged(bytes)) {
        match Image::from_bytes(&bytes) {
            Ok(image) => assert_eq!(image.to_bytes(), Ok(bytes.clone())),
            Err(refusal) => assert_eq!(refusal, Refusal { number: 6, place: 0 }),
        }
        assert_eq!(Image::from_bytes(&bytes).is_err(), is(6, judge(&bytes, 4_000)));
        read += Image::from_bytes(&bytes).is_ok() as usize;
    }
    assert!(read > 1_000, "{read} were read");
}

#[test]
fn lists_that_an_image_cannot_hold_are_refused() {
    let image = Image::from_bytes(&laid_out(1, 4)).unwrap();
    let large = Image { diverges: [Diverge::default(), Diverge { train: 65_536, node: 3 }].to_vec(), ..image.clone() };
    assert_eq!(large.to_bytes(), Err(Refusal { number: 23, place: 0 }));
    assert!(Image { wide: true, ..large }.to_bytes().is_ok());
    let wrong: [fn(&mut Image); 9] = [
        |x| x.train = 0,
        |x| x.ests.clear(),
        |x| x.ests.resize(513, Est::default()),
        |x| x.path.clear(),
        |x| x.path.resize(6, Node::default()),
        |x| x.diverges.truncate(1),
        |x| x.diverges.resize(5, Diverge::default()),
        |x| x.room = 1,
        |x| x.room = 1_025,
    ];
    for (i, spoil) in wrong.iter().enumerate() {
        let mut other = image.clone();
        spoil(&mut other);
        assert_eq!(other.to_bytes(), Err(Refusal { number: 6, place: 0 }), "case {i}");
    }
}

fn three_links() -> Vec<Link> {
    let link = |flip, lockouts: &[u32]| Link { flip, lockouts: lockouts.to_vec() };
    vec![link(0, &[]), link(2, &[3, 1]), link(1, &[]), link(0, &[0, 2, 2])]
}

#[test]
fn a_table_is_read_unless_1_refuses_it() {
    let bytes = table(&three_links());
    assert_eq!(links(&bytes), Ok(three_links()));
    for bytes in damaged(&bytes) {
        assert_eq!(links(&bytes).is_err(), is(1, mark(&bytes, &mut [0; 4], 1, 1)), "{bytes:?}");
        // Lockouts that two links share are written for each.
        if let Ok(read) = links(&bytes) {
            assert_eq!(links(&table(&read)), Ok(read));
        }
    }
}

#[test]
fn tables_at_and_beyond_their_limits() {
    let own = |l: usize, k: usize| {
        let mut links: Vec<Link> = (0..l as u32).map(|flip| Link { flip, lockouts: vec![] }).collect();
        links[1].lockouts = vec![1; k];
        links
    };
    assert_eq!(links(&table(&own(MAX_LINKS, MAX_LOCKOUTS))), Ok(own(MAX_LINKS, MAX_LOCKOUTS)));
    for wrong in [own(MAX_LINKS + 1, 0), own(2, MAX_LOCKOUTS + 1), vec![], vec![Link::default()]] {
        assert_eq!(links(&table(&wrong)), Err(Refusal { number: 1, place: 0 }));
    }
}

#[test]
fn a_yard_is_taken_apart_unless_14_refuses_it() {
    let bytes = two_trains();
    assert_eq!(parts(&bytes), Ok(vec![&laid_out(1, 4)[..], &laid_out(2, 4)]));
    for mut bytes in damaged(&bytes) {
        // A begin of 0 is refused by 15, right behind 14.
        let verdict = check_into(&mut bytes, MOVE, 0, &mut [], &mut []);
        assert_eq!(parts(&bytes).is_err(), is(14, verdict));
        if let Ok(images) = parts(&bytes) {
            assert_eq!(yard(&images), bytes);
        }
    }
}

#[test]
fn a_bundle_is_the_check_of_its_parts() {
    let fake = |next| Est { next, ..Est::default() };
    let event = |est_type, link, next, prev| Est { est_type, link, next, prev, ..Est::default() };
    let image = |t: u16| {
        let ests = [fake(1), event(EstType::Arrive, t as u32, 2, 0), event(EstType::Clear, t as u32, 0, 1)];
        let mut image = Image::new(&ests, Order { train: t, search: 0.0, fixed: 0.0, room: 2, links: 3 }).unwrap();
        image.path.iter_mut().for_each(|node| node.time_pass = 0.0);
        image.to_bytes().unwrap()
    };
    let m = Move { occupancy: &[0; 3], blocking: &[], moved: 2, local: false, limit: 1 };
    let example = bundle(&yard(&[&image(1), &image(2)]), m, 1);
    assert_eq!(example, include_bytes!("../../../examples/two-slots.bundle"));
    assert_eq!(sheet(&bundle(&two_trains(), MOVE, 1)), "yard 2 deadlock no next 1\n1 success 2 0 0 0 0 2\n2 moved 0 0 0 0 0 0\n");
}
