//! a recorded check answers and leaves what the check does; taking it back gives the old yard, but only while the yard is
//! the one that it wrote; and lists of calls with undo in them match under renumbering.

use super::wide::{match_answers, match_states, premises_met, renumbered, run_wide, wide_call, wide_start};
use super::wide::{renumbered_yard, Answer};
use super::{checks, Failed};
use crate::demand3::{Call, Renumbering};
use crate::layout::*;
use crate::model::Checked;
use crate::rng::Rng;
use crate::undo::{check_recorded_wide, record_of, undo, RECORD_HEADER};
use crate::undo_calls::damaged;
use crate::wide::{self, WideArgs};
use crate::wide_calls::{report_len, widened_yard, WideYard};

#[derive(Default)]
struct Undo {
    checks: u64,
    changed: u64,
    /// A second check taken back before the first, and the first tried before the second: taken back, or refused by 21.
    in_turn: u64,
    out_of_turn: u64,
    nothing_changed: u64,
    damaged: u64,
    damaged_taken: u64,
    lists: u64,
    calls: u64,
    undone: u64,
    refused: u64,
    failed: Failed,
}

/// Is an undo by this record done? By the record that a check would fill that found its old yard and left this one.
fn taken_back(yard: &[u8], record: &[u8]) -> bool {
    let Some(old) = record.get(RECORD_HEADER..RECORD_HEADER + yard.len()) else { return false };
    read_yard(old).is_some() && record.starts_with(&record_of(old, yard))
}

impl Undo {
    /// One check with its record, and the record damaged.
    fn check(&mut self, rng: &mut Rng) {
        let c = checks(rng);
        let (yard, occ) = widened_yard(rng, &c.yard, &c.occ);
        let a = WideArgs {
            occ: &occ,
            blocking: &c.blocking,
            moved: c.moved as u32,
            begin: c.begin,
            local: c.local,
            limit: c.limit,
        };
        let (mut plain, mut report) = (yard.clone(), vec![0xA5; report_len(&yard)]);
        let checked = wide::check(&mut plain, &a, &mut report);
        let (mut left, mut same_report) = (yard.clone(), vec![0xA5; report_len(&yard)]);
        let room = RECORD_HEADER + 2 * yard.len();
        let mut record: Vec<u8> = vec![0xA5; room + rng.pick(&[0, 0, 7])];
        let mut short = vec![0xA5; room - 1];
        let refused = check_recorded_wide(&mut left, &a, &mut same_report, &mut short);
        let kept = left == yard && short.iter().all(|&b| b == 0xA5);
        self.failed.unless("20 first", refused == Checked::Refused(refusal(20)) && kept, String::new);
        let answer = check_recorded_wide(&mut left, &a, &mut same_report, &mut record);
        let same = (answer, &left, &same_report) == (checked, &plain, &report);
        self.failed.unless("the answer of the check", same, || format!("{checked:?} {answer:?}"));
        self.failed.unless("bytes beyond stay", record[room..].iter().all(|&b| b == 0xA5), String::new);
        if matches!(checked, Checked::Refused(_)) {
            self.failed.unless(
                "a refused check leaves the record",
                record.iter().all(|&b| b == 0xA5),
                String::new,
            );
            return;
        }
        self.checks += 1;
        self.changed += (left != yard) as u64;
        for _ in 0..4 {
            self.damage(rng, &left, &record);
        }
        let done = undo(&mut left, &record);
        self.failed.unless("the old yard", done.is_ok() && left == yard, String::new);
    }

    fn damage(&mut self, rng: &mut Rng, yard: &[u8], record: &[u8]) {
        let (mut yard, record) = damaged(rng, yard, record);
        let (should, before) = (taken_back(&yard, &record), yard.clone());
        let done = undo(&mut yard, &record);
        self.damaged += 1;
        self.damaged_taken += done.is_ok() as u64;
        self.failed
            .unless("done just where a check filled it so", done.is_ok() == should, || format!("{done:?}"));
        let right = done == Err(refusal(21)) && yard == before || done.is_ok();
        self.failed.unless("21 changes nothing", right, || format!("{done:?}"));
    }

    /// A list with undo in it; a record is that of an earlier check of the list.
    fn list(&mut self, rng: &mut Rng) {
        let mut first = wide_start(rng);
        let slots = wide::Slots::read(&first.yard).expect("a yard that is accepted");
        let r = Renumbering::new(rng, first.occ.len(), slots.images.len(), slots.top());
        let mut second = renumbered_yard(&r, &first);
        let mut records: Vec<(Vec<u8>, Vec<u8>)> = vec![];
        self.lists += 1;
        for _ in 0..rng.from(2, 9) {
            if !records.is_empty() && rng.chance(35) {
                let k = if rng.chance(60) { records.len() - 1 } else { rng.below(records.len()) };
                self.undo_both(&r, &mut first, &mut second, &records[k]);
                continue;
            }
            let (before, yards) = (first.occ.clone(), (first.yard.clone(), second.yard.clone()));
            let (call, train) = wide_call(rng, &first);
            let other = renumbered(rng, &r, &call);
            let (a, b) = (run_wide(&mut first, &call, train), run_wide(&mut second, &other, r.train(train)));
            if !premises_met(&call, &a, &before) {
                return;
            }
            self.calls += 1;
            let same = match_answers(&r, &a, &b) && match_states(&r, &first, &second);
            self.failed.unless("a list with undo", same, || format!("{call:?}"));
            let done = matches!(&a, Answer::Checked(x, _) if !matches!(x, Checked::Refused(_)));
            if done && matches!(call, Call::Check { .. }) {
                records.push((record_of(&yards.0, &first.yard), record_of(&yards.1, &second.yard)));
            }
        }
    }

    fn undo_both(
        &mut self,
        r: &Renumbering,
        a: &mut WideYard,
        b: &mut WideYard,
        records: &(Vec<u8>, Vec<u8>),
    ) {
        let (x, y) = (undo(&mut a.yard, &records.0), undo(&mut b.yard, &records.1));
        self.calls += 1;
        self.undone += x.is_ok() as u64;
        self.refused += x.is_err() as u64;
        self.failed
            .unless("an undo under renumbering", x == y && match_states(r, a, b), || format!("{x:?} {y:?}"));
    }

    /// Two checks of one yard, taken back in turn and out of turn.
    fn turns(&mut self, rng: &mut Rng) {
        let (start, mut y) = {
            let y = wide_start(rng);
            (y.yard.clone(), y)
        };
        let mut filled = vec![];
        for _ in 0..20 {
            let before = y.yard.clone();
            let (call, train) = wide_call(rng, &y);
            if let Answer::Checked(x, _) = run_wide(&mut y, &call, train) {
                if !matches!(x, Checked::Refused(_)) {
                    filled.push(record_of(&before, &y.yard));
                }
            }
            if filled.len() == 2 {
                break;
            }
        }
        let [first, second] = &filled[..] else { return };
        let same = second[RECORD_HEADER..].chunks(y.yard.len()).collect::<Vec<_>>();
        let idle = same[0] == same[1];
        let early = undo(&mut y.yard.clone(), first);
        self.failed
            .unless("out of turn only where nothing changed", early.is_ok() == idle, || format!("{early:?}"));
        self.out_of_turn += early.is_err() as u64;
        self.nothing_changed += idle as u64;
        let done = undo(&mut y.yard, second).and_then(|()| undo(&mut y.yard, first));
        self.failed.unless("in turn", done.is_ok() && y.yard == start, || format!("{done:?}"));
        self.in_turn += 1;
    }
}

pub fn run(seed: u64, count: u64) -> bool {
    let (mut rng, mut u) = (Rng::new(seed), Undo::default());
    for _ in 0..count {
        u.check(&mut rng);
        u.list(&mut rng);
        u.turns(&mut rng);
    }
    println!("recorded checks {}, {} of them change the yard; each taken back", u.checks, u.changed);
    println!("damaged records or yards {}, taken back all the same {}", u.damaged, u.damaged_taken);
    println!(
        "two checks taken back in turn {}; out of turn refused {}, nothing changed {}",
        u.in_turn, u.out_of_turn, u.nothing_changed
    );
    println!("lists {}, calls {}, undone {}, undo refused {}", u.lists, u.calls, u.undone, u.refused);
    u.failed.print()
}
