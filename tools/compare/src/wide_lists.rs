//! Lists of wide marks, releases and checks, over a yard and over the same yard renumbered up to the largest train that its widths
//! allow: each call is held against the oracle's, and the two lists against each other.

use crate::library;
use crate::tally::Tally;
use oracle::cases::{Case, MARK, WIDE_MARK};
use oracle::demand3::{Call, Renumbering};
use oracle::layout::u32s;
use oracle::model::Row;
use oracle::rng::Rng;
use oracle::trials::wide::{match_states, renumbered, renumbered_yard, wide_call, wide_start};
use oracle::wide::{row_at, row_size, Slots, WideArgs};
use oracle::wide_calls::{report_len, WideYard};

/// Makes a call by the library on what the call before it left.
fn made(tally: &mut Tally, y: &mut WideYard, c: &Call, train: u32) -> Case {
    let asked = match c {
        Call::Mark { link, .. } => Case::wide_mark(&y.table, &y.occ, *link, train),
        Call::Check { blocking, begin, local, limit, .. } => {
            let (begin, local, limit) = (*begin, *local, *limit);
            let a = WideArgs { occ: &y.occ, blocking, moved: train, begin, local, limit };
            Case::wide_check(&y.yard, &a, &vec![0xA5; report_len(&y.yard)])
        }
    };
    tally.add(&asked);
    let got = library::answered(&asked);
    match c {
        Call::Mark { .. } => y.occ = u32s(&got.outs[0]),
        Call::Check { .. } => y.yard = got.outs[0].clone(),
    }
    got
}

fn rows(c: &Case, slots: &Slots) -> Vec<Row> {
    let row = |i| row_at(&c.outs[1], i, slots.any_wide);
    (0..c.outs[1].len() / row_size(slots.any_wide)).map(row).collect()
}

/// Every number but the next begin, and of a check that is not refused the rows.
pub fn matching(r: &Renumbering, a: &Case, b: &Case, slots: &Slots) -> bool {
    if a.op == WIDE_MARK || a.op == MARK {
        return a.answer == b.answer;
    }
    if a.answer[..5] != b.answer[..5] {
        return false;
    }
    let (mine, theirs) = (rows(a, slots), rows(b, slots));
    let twin = |row: &Row| Row { holder: r.train(row.holder), met: r.train(row.met), ..*row };
    a.answer[0] == 2
        || mine.iter().enumerate().all(|(i, row)| twin(row) == theirs[r.train(i as u32 + 1) as usize - 1])
}

/// Begin 1, entry 0 empty and no strays, where the call is a check that is not refused.
pub fn premises_met(c: &Call, a: &Case, occ: &[u32], slots: &Slots) -> bool {
    let Call::Check { begin, .. } = c else { return true };
    a.answer[0] == 2 || *begin == 1 && occ[0] == 0 && rows(a, slots).iter().all(|row| row.strays == 0)
}

pub fn list(rng: &mut Rng, tally: &mut Tally) {
    let mut first = wide_start(rng);
    let slots = Slots::read(&first.yard).expect("a yard that is accepted");
    let r = Renumbering::new(rng, first.occ.len(), slots.images.len(), slots.top());
    let mut second = renumbered_yard(&r, &first);
    for _ in 0..rng.from(1, 6) {
        let before = first.occ.clone();
        let (call, train) = wide_call(rng, &first);
        let other = renumbered(rng, &r, &call);
        let a = made(tally, &mut first, &call, train);
        let b = made(tally, &mut second, &other, r.train(train));
        if !premises_met(&call, &a, &before, &slots) {
            return;
        }
        let same = matching(&r, &a, &b, &slots) && match_states(&r, &first, &second);
        tally.add_matched(same, &a);
        if !same {
            return;
        }
    }
}
