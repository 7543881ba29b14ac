//! The calls of the proved library, each over a case. Every buffer that is lent is an allocation of just its length.

use crate::candidates;
use crate::carried;
use crate::indexes;
use crate::replays;
use crate::undos;
use lavtoeu::{Game, Move, Order, Refusal, WideMove};
use oracle::cases::*;
use oracle::gen::UpdateCase;
use oracle::layout::{u16_bytes, u16s, u32_bytes, u32s};
use oracle::model::CheckArgs;
use oracle::wide::WideArgs;

/// Where the answer of an operation has the refusal's number.
pub fn number_at(op: u32) -> usize {
    match op {
        MARK | LAY_OUT | PAGE | PROFILE | CEILING | YARD_CEILING | REPLAY | GAME | VIEW | ACT => 0,
        WIDE_MARK | WIDEN | NARROW | UNDO | INDEX | INDEXED_LAY_OUT | INDEXED_UNDO | CARRY => 0,
        _ => 1,
    }
}

/// The case with the library's answer.
pub fn answered(asked: &Case) -> Case {
    let mut case = asked.clone();
    case.answer = [0; 8];
    match case.op {
        MARK => mark(&mut case),
        LAY_OUT => lay_out(&mut case),
        UPDATE => update(&mut case),
        CHECK => check(&mut case),
        SHEET => sheet(&mut case),
        PAGE => page(&mut case),
        REPLAY => replays::answer(&mut case),
        GAME => game(&mut case),
        VIEW => candidates::view(&mut case),
        ACT => candidates::act(&mut case),
        RECORDED_CHECK | WIDE_RECORDED_CHECK => undos::recorded(&mut case),
        UNDO => undos::undo(&mut case),
        INDEX => indexes::index(&mut case),
        INDEXED_CHECK | WIDE_INDEXED_CHECK | RECORDED_INDEXED_CHECK | WIDE_RECORDED_INDEXED_CHECK => {
            indexes::check(&mut case)
        }
        INDEXED_LAY_OUT => indexes::lay_out(&mut case),
        INDEXED_UNDO => indexes::undo(&mut case),
        CARRY => carried::carry(&mut case),
        HALF_CHECK => carried::half_check(&mut case),
        WIDE_MARK => wide_mark(&mut case),
        WIDE_UPDATE => wide_update(&mut case),
        WIDE_CHECK => wide_check(&mut case),
        WIDEN => convert(&mut case, lavtoeu::widen),
        NARROW => convert(&mut case, lavtoeu::narrow),
        PROFILE => (case.answer[0], case.answer[1]) = numbers(lavtoeu::profile(&case.ins[0])),
        CEILING => number(&mut case, lavtoeu::ceiling(&asked.ins[0])),
        YARD_CEILING => number(&mut case, lavtoeu::yard_ceiling(&asked.ins[0], asked.args[0] as u16)),
        op => panic!("no operation {op}"),
    }
    case
}

/// A refusal's number and place, 0 for none.
pub fn numbers(answer: Result<(), Refusal>) -> (u32, u32) {
    answer.err().map_or((0, 0), |r| (r.number as u32, r.place as u32))
}

/// A number in two halves behind the refusal and its place.
fn number(case: &mut Case, answer: Result<u64, Refusal>) {
    let n = answer.unwrap_or(0);
    let (number, place) = numbers(answer.map(|_| ()));
    case.answer = [number, place, n as u32, (n >> 32) as u32, 0, 0, 0, 0];
}

fn small(n: u64) -> u32 {
    u32::try_from(n).unwrap_or(u32::MAX)
}

fn mark(case: &mut Case) {
    let mut occ = u16s(&case.ins[1]);
    let answer = lavtoeu::mark(&case.ins[0], &mut occ, case.args[0], case.args[1] as u16);
    (case.answer[0], case.answer[1]) = numbers(answer);
    case.outs = [u16_bytes(&occ), vec![]];
}

/// What the library is told of a layout.
pub fn order_of(case: &Case) -> Order {
    let [train, room, links, ..] = case.args;
    Order { train: train as u16, search: case.float(3), fixed: case.float(5), room, links }
}

fn lay_out(case: &mut Case) {
    let mut image = case.ins[1].clone();
    let answer = lavtoeu::lay_out(&case.ins[0], order_of(case), &mut image);
    (case.answer[0], case.answer[1]) = numbers(answer);
    case.outs = [image, vec![]];
}

/// What the library is told of an update.
pub fn told(c: &UpdateCase) -> Move<'_> {
    Move { occupancy: &c.occ, blocking: &c.blocking, moved: c.moved, local: c.local, limit: c.limit }
}

/// What the library is told of a check, and its begin. One that is no u16 is the largest, which 15 refuses as well.
pub fn told_check<'a>(a: &CheckArgs<'a>) -> (Move<'a>, u16) {
    let told =
        Move { occupancy: a.occ, blocking: a.blocking, moved: a.moved, local: a.local, limit: a.limit };
    (told, u16::try_from(a.begin).unwrap_or(u16::MAX))
}

/// The answer as the oracle writes it; a code that does not fit the number becomes a kind that no answer has.
fn update(case: &mut Case) {
    let mut image = case.ins[0].clone();
    let (occ, blocking) = (u16s(&case.ins[1]), u32s(&case.ins[2]));
    let [moved, local, limit, ..] = case.args;
    let told = Move {
        occupancy: &occ,
        blocking: &blocking,
        moved: moved as u16,
        local: local != 0,
        limit: limit as u16,
    };
    let mut answer = vec![0; lavtoeu::layout::UPDATE_WORDS];
    let done = lavtoeu::update_into(&mut image, told, &mut answer);
    put_update(case, done, &answer, image);
}

fn put_update(case: &mut Case, done: Result<(), Refusal>, answer: &[u64], image: Vec<u8>) {
    let (number, place) = numbers(done);
    let [code, errors, rounds, strays, steps, holder, met] = answer[..] else {
        panic!("{} words", answer.len())
    };
    let kind = match code {
        // only a faulty one has errors, only a blocked one a holder
        3..=5 if number == 0 && (code == 5 || errors == 0) && (code == 4 || holder == 0) => code as u32 - 3,
        _ if number != 0 && code == 16 + number as u64 && errors + holder == 0 => 3,
        _ => u32::MAX,
    };
    let counts = [rounds, strays, steps, met].map(small);
    case.answer[..4].copy_from_slice(&[kind, number, place, small(errors + holder)]);
    case.answer[4..].copy_from_slice(&counts);
    case.outs = [image, vec![]];
}

/// The answer as the oracle writes it.
fn check(case: &mut Case) {
    let (mut yard, mut report) = (case.ins[0].clone(), case.ins[3].clone());
    let (occ, blocking) = (u16s(&case.ins[1]), u32s(&case.ins[2]));
    let (told, begin) = told_check(&case.check_args(&occ, &blocking));
    let mut answer = vec![u64::MAX; 3];
    let done = lavtoeu::check_into(&mut yard, told, begin, &mut report, &mut answer);
    put_check(case, done, answer, [yard, report]);
}

pub fn put_check(case: &mut Case, done: Result<(), Refusal>, mut answer: Vec<u64>, left: [Vec<u8>; 2]) {
    let (number, place) = numbers(done);
    // A refused check leaves the words as they were, and the oracle writes 0 for them.
    if number != 0 && answer == [u64::MAX; 3] {
        answer.fill(0);
    }
    let kind = match (number, answer[0]) {
        (0, 0) => 0,
        (0, _) => 1,
        _ => 2,
    };
    case.answer = [kind, number, place, small(answer[0]), small(answer[1]), small(answer[2]), 0, 0];
    case.outs = left;
}

fn wide_mark(case: &mut Case) {
    let mut occ = u32s(&case.ins[1]);
    let answer = lavtoeu::mark_wide(&case.ins[0], &mut occ, case.args[0], case.args[1]);
    (case.answer[0], case.answer[1]) = numbers(answer);
    case.outs = [u32_bytes(&occ), vec![]];
}

pub fn wide_told<'a>(a: &WideArgs<'a>) -> WideMove<'a> {
    WideMove { occupancy: a.occ, blocking: a.blocking, moved: a.moved, local: a.local, limit: a.limit }
}

fn wide_update(case: &mut Case) {
    let mut image = case.ins[0].clone();
    let (occ, blocking) = (u32s(&case.ins[1]), u32s(&case.ins[2]));
    let [moved, local, limit, ..] = case.args;
    let args =
        WideArgs { occ: &occ, blocking: &blocking, moved, begin: 0, local: local != 0, limit: limit as u16 };
    let mut answer = vec![0; lavtoeu::layout::UPDATE_WORDS];
    let done = lavtoeu::update_wide_into(&mut image, wide_told(&args), &mut answer);
    put_update(case, done, &answer, image);
}

fn wide_check(case: &mut Case) {
    let (mut yard, mut report) = (case.ins[0].clone(), case.ins[3].clone());
    let (occ, blocking) = (u32s(&case.ins[1]), u32s(&case.ins[2]));
    let args = case.wide_args(&occ, &blocking);
    let begin = u16::try_from(args.begin).unwrap_or(u16::MAX);
    let mut answer = vec![u64::MAX; 3];
    let done = lavtoeu::check_wide_into(&mut yard, wide_told(&args), begin, &mut report, &mut answer);
    put_check(case, done, answer, [yard, report]);
}

fn convert(case: &mut Case, by: fn(&[u8], &mut [u8]) -> Result<(), Refusal>) {
    let mut out = case.ins[1].clone();
    let answer = by(&case.ins[0], &mut out);
    (case.answer[0], case.answer[1]) = numbers(answer);
    case.outs = [out, vec![]];
}

/// The text of a bundle. 4,096 bytes hold every sheet.
fn sheet(case: &mut Case) {
    let mut text = vec![0; 4096];
    let n = lavtoeu::sheet_into(&case.ins[0], &mut text);
    text.truncate(n);
    case.outs = [text, vec![]];
}

fn game(case: &mut Case) {
    let [moved, local, limit, turns, ..] = case.args;
    let (occ, links) = (u32s(&case.ins[1]), u32s(&case.ins[2]));
    let told = Game { occupancy: &occ, moved, local: local != 0, limit: limit as u16, links: &links, turns };
    let answer = lavtoeu::closer_can_force(&case.ins[0], told);
    number(case, answer.map(u64::from));
}

fn page(case: &mut Case) {
    let mut page = case.ins[1].clone();
    let answer = lavtoeu::page(&case.ins[0], &mut page);
    (case.answer[0], case.answer[1]) = numbers(answer);
    case.outs = [page, vec![]];
}
