//! Checks that fill an undo record, and undos; and lists with undo in them, over a yard and over the same yard renumbered: each call is
//! held against the oracle's, and the two lists against each other.

use crate::library::{answered, numbers, put_check, told_check, wide_told};
use crate::tally::Tally;
use crate::wide_lists::{matching, premises_met};
use oracle::cases::{Case, WIDE_RECORDED_CHECK};
use oracle::demand3::{Call, Renumbering};
use oracle::layout::{u16s, u32s};
use oracle::model::CheckArgs;
use oracle::rng::Rng;
use oracle::trials::wide::{match_states, narrow_start, renumbered, renumbered_yard, wide_call, wide_start};
use oracle::undo::RECORD_HEADER;
use oracle::wide::{Slots, WideArgs, NARROW_TRAIN};
use oracle::wide_calls::{report_len, WideYard};

/// The record is lent with zeros, and stands behind the yard.
pub fn recorded(case: &mut Case) {
    let (mut yard, mut report) = (case.ins[0].clone(), case.ins[3].clone());
    let (mut record, mut answer) = (vec![0; case.args[4] as usize], vec![u64::MAX; 3]);
    let blocking = u32s(&case.ins[2]);
    let done = if case.op == WIDE_RECORDED_CHECK {
        let occ = u32s(&case.ins[1]);
        let args = case.wide_args(&occ, &blocking);
        let begin = u16::try_from(args.begin).unwrap_or(u16::MAX);
        lavtoeu::check_recorded_wide_into(
            &mut yard,
            wide_told(&args),
            begin,
            &mut report,
            &mut record,
            &mut answer,
        )
    } else {
        let occ = u16s(&case.ins[1]);
        let (told, begin) = told_check(&case.check_args(&occ, &blocking));
        lavtoeu::check_recorded_into(&mut yard, told, begin, &mut report, &mut record, &mut answer)
    };
    put_check(case, done, answer, [[yard, record].concat(), report]);
}

pub fn undo(case: &mut Case) {
    let mut yard = case.ins[0].clone();
    let answer = lavtoeu::undo(&mut yard, &case.ins[1]);
    (case.answer[0], case.answer[1]) = numbers(answer);
    case.outs = [yard, vec![]];
}

/// A call over entries of 16 or 32 bits, a check with so many bytes more or fewer than its record takes.
fn asked(y: &WideYard, narrow: bool, c: &Call, train: u32, more: isize) -> Case {
    let occ: Vec<u16> = y.occ.iter().map(|&train| train as u16).collect();
    match c {
        Call::Mark { link, .. } if narrow => Case::mark(&y.table, &occ, *link, train as u16),
        Call::Mark { link, .. } => Case::wide_mark(&y.table, &y.occ, *link, train),
        Call::Check { blocking, begin, local, limit, .. } => {
            let (begin, local, limit) = (*begin, *local, *limit);
            let report = vec![0xA5; report_len(&y.yard)];
            let check = if narrow {
                let a = CheckArgs { occ: &occ, blocking, moved: train as u16, begin, local, limit };
                Case::check(&y.yard, &a, &report)
            } else {
                let a = WideArgs { occ: &y.occ, blocking, moved: train, begin, local, limit };
                Case::wide_check(&y.yard, &a, &report)
            };
            Case::recorded(check, (RECORD_HEADER + 2 * y.yard.len()).wrapping_add_signed(more))
        }
    }
}

/// Makes the call by the library; where it is a check, what is left is the yard and the record.
fn made(tally: &mut Tally, y: &mut WideYard, narrow: bool, c: &Call, call: &Case) -> (Case, Vec<u8>) {
    tally.add(call);
    let got = answered(call);
    if let Call::Mark { .. } = c {
        let bytes = &got.outs[0];
        y.occ = if narrow { u16s(bytes).iter().map(|&train| train as u32).collect() } else { u32s(bytes) };
        return (got, vec![]);
    }
    let (yard, record) = got.recorded_left();
    y.yard = yard;
    (got, record)
}

fn undone(tally: &mut Tally, y: &mut WideYard, record: &[u8]) -> Case {
    let call = Case::undo(&y.yard, record);
    tally.add(&call);
    let got = answered(&call);
    y.yard = got.outs[0].clone();
    got
}

/// Marks, releases, recorded checks and undos, half of the lists over entries of 16 bits. An undo takes the record of an earlier check of
/// the list, which may have been refused, and may have served before.
pub fn list(rng: &mut Rng, tally: &mut Tally) {
    let narrow = rng.chance(50);
    let mut first = if narrow { narrow_start(rng) } else { wide_start(rng) };
    let slots = Slots::read(&first.yard).expect("a yard that is accepted");
    let top = if narrow { NARROW_TRAIN } else { slots.top() };
    let r = Renumbering::new(rng, first.occ.len(), slots.images.len(), top);
    let mut second = renumbered_yard(&r, &first);
    let mut records: Vec<(Vec<u8>, Vec<u8>)> = vec![];
    for _ in 0..rng.from(2, 9) {
        if !records.is_empty() && rng.chance(35) {
            let k = if rng.chance(60) { records.len() - 1 } else { rng.below(records.len()) };
            let (a, b) =
                (undone(tally, &mut first, &records[k].0), undone(tally, &mut second, &records[k].1));
            tally.add_matched(a.answer == b.answer && match_states(&r, &first, &second), &a);
            continue;
        }
        let before = first.occ.clone();
        let (call, train) = wide_call(rng, &first);
        let train = if narrow { train.min(NARROW_TRAIN) } else { train };
        let other = renumbered(rng, &r, &call);
        let more = rng.pick(&[0, 0, 0, 0, 7, -1]);
        let (one, two) =
            (asked(&first, narrow, &call, train, more), asked(&second, narrow, &other, r.train(train), more));
        let (a, filled) = made(tally, &mut first, narrow, &call, &one);
        let (b, twin) = made(tally, &mut second, narrow, &other, &two);
        if !premises_met(&call, &a, &before, &slots) {
            return;
        }
        tally.add_matched(matching(&r, &a, &b, &slots) && match_states(&r, &first, &second), &a);
        if let Call::Check { .. } = call {
            records.push((filled, twin));
        }
    }
}
