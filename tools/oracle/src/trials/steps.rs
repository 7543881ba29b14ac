//! no round takes more entries into the search loop than the ceiling, no update more than that for each of its rounds,
//! and no check more than the ceiling of its yard. The entries are also counted by the branches of the loop's first test.

use super::{checks, report_of, updates, Failed, Share};
use crate::gen::UpdateCase;
use crate::hook;
use crate::layout::u32_at;
use crate::model::{self, Outcome};
use crate::rng::Rng;
use crate::text::BRANCHES;
use crate::yards::CheckCase;

/// The lines at which the two ways of the search loop's first test begin; each entry takes one of them.
const FIRST_TEST: [u32; 2] = [348, 350];

#[derive(Default)]
struct Steps {
    updates: u64,
    searched: u64,
    refused: u64,
    steps: u64,
    of_round: Share,
    of_two: Share,
    of_update: Share,
    checks: u64,
    of_check: Share,
    failed: Failed,
}

/// How often the search loop was entered since the program began.
fn entered() -> u64 {
    let at_test = |(_, (line, _)): &(usize, &(u32, &str))| FIRST_TEST.contains(line);
    BRANCHES.iter().enumerate().filter(at_test).map(|(id, _)| hook::counts(id)[0]).sum()
}

impl Steps {
    fn update(&mut self, c: &UpdateCase) {
        let before = entered();
        let u = model::update(&mut c.image.clone(), &c.occ, &c.blocking, c.moved, c.local, c.limit);
        let told = || format!("{u:?}, {} est records", u32_at(&c.image, 4));
        self.updates += 1;
        self.steps += u.steps;
        self.failed.unless("the steps are the entries", entered() - before == u.steps, told);
        let refused = matches!(u.outcome, Outcome::Refused(_));
        if u.rounds == 0 {
            self.failed.unless("no round, no step", u.steps == 0, told);
            return;
        }
        self.searched += (u.steps > 0) as u64;
        self.refused += (refused && u.steps > 0) as u64;
        let most = hook::state().entries_most as u64;
        let e = u32_at(&c.image, 4) as u64;
        let ceiling = model::ceiling(&c.image);
        self.failed.unless("accepted over 4,000 links too", ceiling == Ok(3 * e + 1), told);
        self.failed.unless("a round keeps to twice its est records", most <= 2 * e, told);
        self.failed.unless("an update keeps to its ceiling", u.steps <= (3 * e + 1) * u.rounds as u64, told);
        self.of_round.see(most, 3 * e + 1);
        self.of_two.see(most, 2 * e);
        self.of_update.see(u.steps, (3 * e + 1) * u.rounds as u64);
    }

    fn check(&mut self, c: &CheckCase) {
        let mut report = report_of(&c.yard);
        let ceiling = model::yard_ceiling(&c.yard, c.limit);
        let (checked, visits) = model::check_visits(&mut c.yard.clone(), &c.args(), &mut report);
        if matches!(checked, model::Checked::Refused(_)) {
            return;
        }
        self.checks += 1;
        let steps: u64 = visits.iter().filter_map(|v| v.updated).map(|u| u.steps).sum();
        let told = || format!("{steps} steps, {ceiling:?}");
        self.failed.unless("a check keeps to its ceiling", ceiling.is_ok_and(|most| steps <= most), told);
        self.of_check.see(steps, ceiling.unwrap_or(0));
    }
}

/// So many updates, and a check after every eighth.
pub fn run(seed: u64, count: u64) -> bool {
    let (mut rng, mut s) = (Rng::new(seed), Steps::default());
    while s.updates < count {
        updates(&mut rng).iter().for_each(|c| s.update(c));
        if rng.below(8) == 0 {
            s.check(&checks(&mut rng));
        }
    }
    println!("updates {}, {} of them with steps, {} of these refused", s.updates, s.searched, s.refused);
    println!("steps {}", s.steps);
    println!("largest share of a round's ceiling 3E + 1: {}; of 2E: {}", s.of_round, s.of_two);
    println!("largest share of an update's ceiling for its rounds: {}", s.of_update);
    println!("checks not refused {}, largest share of the yard's ceiling: {}", s.checks, s.of_check);
    s.failed.print()
}
