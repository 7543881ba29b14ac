//! Carries a sitting of two trains from narrow images to wide ones: a step, a mark and a check of the half-carried yard, the last step,
//! and a check beside a train of six digits. `carry.out` has what it prints.

use lavtoeu::*;

fn main() -> Result<(), Refusal> {
    print!("{}", told()?);
    Ok(())
}

/// Train 1 runs over link 1 to link 3, and could go round link 1 over link 2. Train 2 runs over link 1 alone.
fn two_trains() -> Result<Vec<u8>, Refusal> {
    let fake = |next, alt| Est { next, alt, ..Est::default() };
    let arrive = |link, dist_to_next, next| Est { est_type: EstType::Arrive, link, dist_to_next, next, ..Est::default() };
    let first = [
        fake(1, 2),
        arrive(1, 100.0, 4),
        fake(3, 0),
        Est { prev: 2, ..arrive(2, 100.0, 4) },
        Est { prev: 1, prev_alt: 3, ..arrive(3, 0.0, 0) },
    ];
    let second = [fake(1, 0), arrive(1, 0.0, 0)];
    let order = |train, room| Order { train, search: 0.0, fixed: 0.0, room, links: 6 };
    let a = Image::new(&first, order(1, 4))?.to_bytes()?;
    let b = Image::new(&second, order(2, 2))?.to_bytes()?;
    Ok(yard(&[&a, &b]))
}

/// How many slots are carried, and the width of each image.
fn widths(sitting: &Carrying) -> String {
    let width = |slot| if is_wide(sitting.image(slot).expect("a slot")) { "wide" } else { "narrow" };
    format!("carried {}: slot 1 {}, slot 2 {}\n", sitting.count(), width(1), width(2))
}

/// The answer of a check, and a line for each slot.
fn answer(checked: Checked, report: &[u8]) -> String {
    let row = |(t, row): (usize, &WideRow)| {
        format!("slot {}: {:?}, {} rounds, {} strays, met {}\n", t + 1, row.slot, row.rounds, row.strays, row.met)
    };
    format!("{checked:?}\n") + &wide_rows(report).iter().enumerate().map(row).collect::<String>()
}

pub fn told() -> Result<String, Refusal> {
    let mut narrow = two_trains()?;
    // Links 4 and 5 are links 1 and 2 in the other direction: marking 4 occupies its flip, link 1.
    let table = table(&[0, 4, 5, 0, 1, 2].map(|flip| Link { flip, lockouts: vec![] }));
    let mut report = [0; 2 * layout::WIDE_REPORT_RECORD];

    // The first step carries slot 1 and the occupancy.
    let mut sitting = Carrying::begin(&mut narrow, &[0; 6])?;
    let mut out = widths(&sitting);

    // Train 2 moves to link 1. The check leads train 1 over the siding, in its wide image.
    sitting.mark(&table, 4, 2)?;
    let check = Check { blocking: &[1], moved: 2, begin: 1, local: false, limit: 5 };
    out += &answer(sitting.check(check, &mut report)?, &report);

    // The last step carries slot 2; what was marked and checked stays.
    sitting.step()?;
    out += &widths(&sitting);
    let (mut wide, mut occupancy) = sitting.finish().expect("both slots are carried");
    for node in Image::from_bytes(parts(&wide)?[0])?.path {
        out += &format!("node {:?} of link {}, est {}, at {} m\n", node.est_type, node.link, node.est, node.offset);
    }

    // No narrow image is left, so a train of six digits may come: it takes the siding, and train 1 has no way.
    mark_wide(&table, &mut occupancy, 5, 123_456)?;
    let moved = WideMove { occupancy: &occupancy, blocking: &[1, 2], moved: 2, local: false, limit: 5 };
    out += &answer(check_wide(&mut wide, moved, 1, &mut report)?, &report);
    Ok(out)
}
