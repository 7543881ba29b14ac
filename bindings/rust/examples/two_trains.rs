//! Lays two trains out, marks the link on which the second stands, checks the yard and prints the report.

use lavtoeu::*;

fn main() -> Result<(), Refusal> {
    let fake = |next, alt| Est { next, alt, ..Est::default() };
    let arrive = |link, dist_to_next, next| Est { est_type: EstType::Arrive, link, dist_to_next, next, ..Est::default() };
    // Train 1 runs over link 1 to link 3, and could go round link 1 over link 2.
    let first = [
        fake(1, 2),
        arrive(1, 100.0, 4),
        fake(3, 0),
        Est { prev: 2, ..arrive(2, 100.0, 4) },
        Est { prev: 1, prev_alt: 3, ..arrive(3, 0.0, 0) },
    ];
    // Train 2 runs over link 1 alone.
    let second = [fake(1, 0), arrive(1, 0.0, 0)];
    let order = |train, room| Order { train, search: 0.0, fixed: 0.0, room, links: 5 };
    let a = Image::new(&first, order(1, 4))?.to_bytes()?;
    let b = Image::new(&second, order(2, 2))?.to_bytes()?;

    // Link 4 is link 1 in the other direction: marking 4 for train 2 occupies its flip, link 1.
    let table = table(&[0, 4, 0, 0, 1].map(|flip| Link { flip, lockouts: vec![] }));
    let mut occupancy = [0; 5];
    mark(&table, &mut occupancy, 4, 2)?;

    let mut yard = yard(&[&a, &b]);
    let mut report = [0; 2 * layout::REPORT_RECORD];
    let moved = Move { occupancy: &occupancy, blocking: &[1], moved: 2, local: false, limit: 5 };
    println!("{:?}", check(&mut yard, moved, 1, &mut report)?);
    for (t, row) in rows(&report).iter().enumerate() {
        println!("slot {}: {:?}, {} rounds, {} strays, met {}", t + 1, row.slot, row.rounds, row.strays, row.met);
    }
    // The check has led train 1 over the siding.
    for node in Image::from_bytes(parts(&yard)?[0])?.path {
        println!("node {:?} of link {}, est {}, at {} m", node.est_type, node.link, node.est, node.offset);
    }
    Ok(())
}
