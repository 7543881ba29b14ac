//! Cases as bytes: arguments, input buffers and the answer of one call.
//! README.md describes the format.

use crate::candidate;
use crate::carry;
use crate::game::{closer_can_force, Game};
use crate::index::{self, Order};
use crate::layout::*;
use crate::leaves;
use crate::model::{self, CheckArgs, Checked, Outcome, Updated};
use crate::replay;
use crate::undo;
use crate::wide::{self, WideArgs};
use crate::wide_calls::WideYard;
use crate::yards::Yard;

pub const MARK: u32 = 1;
pub const LAY_OUT: u32 = 2;
pub const UPDATE: u32 = 3;
pub const CHECK: u32 = 4;
pub const SHEET: u32 = 5;
// The leaves of an update: leaves.rs.
pub const CLASS: u32 = 6;
pub const SENTINELS: u32 = 7;
pub const INTERSECT: u32 = 8;
pub const UNION: u32 = 9;
pub const NEAR: u32 = 10;
pub const STEP: u32 = 11;
pub const LIST: u32 = 12;
pub const PAGE: u32 = 13;
pub const PROFILE: u32 = 14;
pub const CEILING: u32 = 15;
pub const YARD_CEILING: u32 = 16;
pub const WIDE_MARK: u32 = 17;
pub const WIDE_UPDATE: u32 = 18;
pub const WIDE_CHECK: u32 = 19;
pub const WIDEN: u32 = 20;
pub const NARROW: u32 = 21;
pub const GAME: u32 = 22;
pub const REPLAY: u32 = 23;
pub const VIEW: u32 = 24;
pub const ACT: u32 = 25;
pub const RECORDED_CHECK: u32 = 26;
pub const WIDE_RECORDED_CHECK: u32 = 27;
pub const UNDO: u32 = 28;
pub const INDEX: u32 = 29;
pub const INDEXED_CHECK: u32 = 30;
pub const WIDE_INDEXED_CHECK: u32 = 31;
pub const RECORDED_INDEXED_CHECK: u32 = 32;
pub const WIDE_RECORDED_INDEXED_CHECK: u32 = 33;
pub const INDEXED_LAY_OUT: u32 = 34;
pub const INDEXED_UNDO: u32 = 35;
pub const CARRY: u32 = 36;
pub const HALF_CHECK: u32 = 37;

const HEAD: usize = 104;
/// The length of an output buffer that is as its input was.
const UNCHANGED: u32 = u32::MAX;

#[derive(Clone, Debug, Default, PartialEq)]
pub struct Case {
    pub op: u32,
    pub tag: u32,
    pub line: u32,
    pub args: [u32; 8],
    pub ins: [Vec<u8>; 4],
    pub answer: [u32; 8],
    pub outs: [Vec<u8>; 2],
}

/// The input that an output buffer was before the call: its index, by operation.
fn before(op: u32) -> [Option<usize>; 2] {
    match op {
        MARK | WIDE_MARK => [Some(1), None],
        LAY_OUT => [Some(1), None],
        UPDATE | WIDE_UPDATE => [Some(0), None],
        CHECK | WIDE_CHECK => [Some(0), Some(3)],
        WIDEN | NARROW => [Some(1), None],
        UNION => [Some(0), None],
        PAGE => [Some(1), None],
        REPLAY => [Some(3), None],
        VIEW => [Some(3), None],
        ACT => [Some(1), None],
        RECORDED_CHECK | WIDE_RECORDED_CHECK => [None, Some(3)],
        UNDO => [Some(0), None],
        INDEX => [Some(1), None],
        INDEXED_CHECK | WIDE_INDEXED_CHECK => [Some(0), Some(3)],
        RECORDED_INDEXED_CHECK | WIDE_RECORDED_INDEXED_CHECK => [None, Some(3)],
        INDEXED_LAY_OUT => [Some(1), Some(2)],
        INDEXED_UNDO => [Some(0), Some(2)],
        CARRY => [Some(2), Some(3)],
        HALF_CHECK => [Some(0), Some(3)],
        _ => [None, None],
    }
}

impl Case {
    pub fn mark(table: &[u8], occ: &[u16], link: u32, train: u16) -> Case {
        let ins = [table.to_vec(), u16_bytes(occ), vec![], vec![]];
        Case { op: MARK, args: [link, train as u32, 0, 0, 0, 0, 0, 0], ins, ..Case::default() }
    }

    pub fn lay_out(est: &[u8], train: u16, search: f64, fixed: f64, q: u32, l: u32, image: &[u8]) -> Case {
        let (s, f) = (search.to_bits(), fixed.to_bits());
        let args = [train as u32, q, l, s as u32, (s >> 32) as u32, f as u32, (f >> 32) as u32, 0];
        Case { op: LAY_OUT, args, ins: [est.to_vec(), image.to_vec(), vec![], vec![]], ..Case::default() }
    }

    pub fn update(image: &[u8], occ: &[u16], blocking: &[u32], moved: u16, local: bool, limit: u16) -> Case {
        let ins = [image.to_vec(), u16_bytes(occ), u32_bytes(blocking), vec![]];
        let args = [moved as u32, local as u32, limit as u32, 0, 0, 0, 0, 0];
        Case { op: UPDATE, args, ins, ..Case::default() }
    }

    pub fn check(yard: &[u8], a: &CheckArgs, report: &[u8]) -> Case {
        let ins = [yard.to_vec(), u16_bytes(a.occ), u32_bytes(a.blocking), report.to_vec()];
        let args = [a.moved as u32, a.begin, a.local as u32, a.limit as u32, 0, 0, 0, 0];
        Case { op: CHECK, args, ins, ..Case::default() }
    }

    pub fn sheet(bundle: &[u8]) -> Case {
        Case { op: SHEET, ins: [bundle.to_vec(), vec![], vec![], vec![]], ..Case::default() }
    }

    /// Marks, releases and checks in turn; their tables, occupancies and yards are empty.
    pub fn list(y: &Yard, calls: &[Case]) -> Case {
        let ins = [y.table.clone(), u16_bytes(&y.occ), y.yard.clone(), vec![]];
        let args = [calls.len() as u32, 0, 0, 0, 0, 0, 0, 0];
        Case { op: LIST, args, ins, outs: [write_all(calls), vec![]], ..Case::default() }
    }

    pub fn page(image: &[u8], page: &[u8]) -> Case {
        Case { op: PAGE, ins: [image.to_vec(), page.to_vec(), vec![], vec![]], ..Case::default() }
    }

    pub fn profile(image: &[u8]) -> Case {
        Case { op: PROFILE, ins: [image.to_vec(), vec![], vec![], vec![]], ..Case::default() }
    }

    pub fn ceiling(image: &[u8]) -> Case {
        Case { op: CEILING, ins: [image.to_vec(), vec![], vec![], vec![]], ..Case::default() }
    }

    pub fn yard_ceiling(yard: &[u8], limit: u16) -> Case {
        let args = [limit as u32, 0, 0, 0, 0, 0, 0, 0];
        Case { op: YARD_CEILING, args, ins: [yard.to_vec(), vec![], vec![], vec![]], ..Case::default() }
    }

    pub fn wide_mark(table: &[u8], occ: &[u32], link: u32, train: u32) -> Case {
        let ins = [table.to_vec(), u32_bytes(occ), vec![], vec![]];
        Case { op: WIDE_MARK, args: [link, train, 0, 0, 0, 0, 0, 0], ins, ..Case::default() }
    }

    pub fn wide_update(
        image: &[u8],
        occ: &[u32],
        blocking: &[u32],
        moved: u32,
        local: bool,
        limit: u16,
    ) -> Case {
        let ins = [image.to_vec(), u32_bytes(occ), u32_bytes(blocking), vec![]];
        let args = [moved, local as u32, limit as u32, 0, 0, 0, 0, 0];
        Case { op: WIDE_UPDATE, args, ins, ..Case::default() }
    }

    pub fn wide_check(yard: &[u8], a: &WideArgs, report: &[u8]) -> Case {
        let ins = [yard.to_vec(), u32_bytes(a.occ), u32_bytes(a.blocking), report.to_vec()];
        let args = [a.moved, a.begin, a.local as u32, a.limit as u32, 0, 0, 0, 0];
        Case { op: WIDE_CHECK, args, ins, ..Case::default() }
    }

    pub fn widen(image: &[u8], out: &[u8]) -> Case {
        Case { op: WIDEN, ins: [image.to_vec(), out.to_vec(), vec![], vec![]], ..Case::default() }
    }

    pub fn narrow(image: &[u8], out: &[u8]) -> Case {
        Case { op: NARROW, ..Case::widen(image, out) }
    }

    pub fn game(image: &[u8], g: &Game) -> Case {
        let ins = [image.to_vec(), u32_bytes(g.occ), u32_bytes(g.links), vec![]];
        let args = [g.moved, g.local as u32, g.limit as u32, g.turns, 0, 0, 0, 0];
        Case { op: GAME, args, ins, ..Case::default() }
    }

    /// A recording over a yard, with a list of this length.
    pub fn replay(recording: &[u8], y: &Yard, list: usize) -> Case {
        let ins = [recording.to_vec(), y.table.clone(), u16_bytes(&y.occ), y.yard.clone()];
        Case { op: REPLAY, args: [list as u32, 0, 0, 0, 0, 0, 0, 0], ins, ..Case::default() }
    }

    /// A candidate's view of a node, in a buffer for its record.
    pub fn view(y: &WideYard, slot: u16, node: u32, record: &[u8]) -> Case {
        let ins = [y.table.clone(), u32_bytes(&y.occ), y.yard.clone(), record.to_vec()];
        Case { op: VIEW, args: [slot as u32, node, 0, 0, 0, 0, 0, 0], ins, ..Case::default() }
    }

    /// A candidate's mark or release.
    pub fn act(y: &WideYard, slot: u16, link: u32, marks: u32) -> Case {
        let ins = [y.table.clone(), u32_bytes(&y.occ), y.yard.clone(), vec![]];
        Case { op: ACT, args: [slot as u32, link, marks, 0, 0, 0, 0, 0], ins, ..Case::default() }
    }

    /// The check with an undo record of this many bytes, lent with zeros.
    pub fn recorded(mut check: Case, room: usize) -> Case {
        check.op = if check.op == WIDE_CHECK { WIDE_RECORDED_CHECK } else { RECORDED_CHECK };
        check.args[4] = room as u32;
        check
    }

    /// The yard that a check left, and the record behind it; a check in a list has no yard among its inputs.
    pub fn recorded_left(&self) -> (Vec<u8>, Vec<u8>) {
        let (yard, record) = self.outs[0].split_at(self.outs[0].len() - self.args[4] as usize);
        (yard.to_vec(), record.to_vec())
    }

    pub fn undo(yard: &[u8], record: &[u8]) -> Case {
        Case { op: UNDO, ins: [yard.to_vec(), record.to_vec(), vec![], vec![]], ..Case::default() }
    }

    /// An index of a yard, built in a buffer.
    pub fn index(yard: &[u8], index: &[u64]) -> Case {
        let ins = [yard.to_vec(), u64_bytes(index), vec![], vec![]];
        Case { op: INDEX, ins, ..Case::default() }
    }

    /// The check, over either width and with or without an undo record, beside an index, which stands behind the report.
    pub fn indexed(mut check: Case, index: &[u64]) -> Case {
        check.op = match check.op {
            CHECK => INDEXED_CHECK,
            WIDE_CHECK => WIDE_INDEXED_CHECK,
            RECORDED_CHECK => RECORDED_INDEXED_CHECK,
            WIDE_RECORDED_CHECK => WIDE_RECORDED_INDEXED_CHECK,
            op => panic!("operation {op} is no check"),
        };
        check.args[5] = index.len() as u32;
        check.ins[3].extend(u64_bytes(index));
        check
    }

    /// The report and the index behind it, of a buffer of a check beside an index.
    pub fn report_and_index(&self, b: &[u8]) -> (Vec<u8>, Vec<u64>) {
        let (report, index) = b.split_at(b.len() - 8 * self.args[5] as usize);
        (report.to_vec(), u64s(index))
    }

    /// The layout beside an index.
    pub fn indexed_lay_out(mut lay_out: Case, index: &[u64]) -> Case {
        lay_out.op = INDEXED_LAY_OUT;
        lay_out.ins[2] = u64_bytes(index);
        lay_out
    }

    pub fn indexed_undo(yard: &[u8], record: &[u8], index: &[u64]) -> Case {
        let ins = [yard.to_vec(), record.to_vec(), u64_bytes(index), vec![]];
        Case { op: INDEXED_UNDO, ins, ..Case::default() }
    }

    /// A step of a sitting of which so many slots are carried.
    pub fn carry(yard: &[u8], occ: &[u16], count: u32, second: &[u8], wide_occ: &[u32]) -> Case {
        let ins = [yard.to_vec(), u16_bytes(occ), second.to_vec(), u32_bytes(wide_occ)];
        Case { op: CARRY, args: [count, 0, 0, 0, 0, 0, 0, 0], ins, ..Case::default() }
    }

    /// A check of a yard of which so many slots are carried; the second buffer stands behind the first.
    pub fn half_check(yard: &[u8], second: &[u8], count: u32, a: &WideArgs, report: &[u8]) -> Case {
        let mut half = Case::wide_check(&[yard, second].concat(), a, report);
        (half.op, half.args[4], half.args[5]) = (HALF_CHECK, count, yard.len() as u32);
        half
    }

    /// The first yard of a half check and the second, of a buffer that has both.
    pub fn both_yards(&self, b: &[u8]) -> (Vec<u8>, Vec<u8>) {
        let (yard, second) = b.split_at(self.args[5] as usize);
        (yard.to_vec(), second.to_vec())
    }

    pub fn tagged(mut self, tag: u32) -> Case {
        self.tag = tag;
        self
    }

    /// Fills in the oracle's answer.
    pub fn answered(mut self) -> Case {
        self.answer = [0; 8];
        self.line = 0;
        match self.op {
            MARK => self.answer_mark(),
            LAY_OUT => self.answer_lay_out(),
            UPDATE => self.answer_update(),
            CHECK => self.answer_check(),
            SHEET => self.outs = [model::sheet(&self.ins[0]).into_bytes(), vec![]],
            LIST => self.answer_list(),
            PAGE => self.answer_page(),
            PROFILE => self.put_plain(model::profile(&self.ins[0])),
            CEILING => self.put_number(model::ceiling(&self.ins[0])),
            WIDE_MARK => self.answer_wide_mark(),
            WIDE_UPDATE => self.answer_wide_update(),
            WIDE_CHECK => self.answer_wide_check(),
            GAME => self.answer_game(),
            REPLAY => self.answer_replay(),
            VIEW => self.answer_view(),
            ACT => self.answer_act(),
            RECORDED_CHECK | WIDE_RECORDED_CHECK => self.answer_recorded(),
            UNDO => self.answer_undo(),
            INDEX => self.answer_index(),
            INDEXED_CHECK | WIDE_INDEXED_CHECK | RECORDED_INDEXED_CHECK | WIDE_RECORDED_INDEXED_CHECK => {
                self.answer_indexed()
            }
            INDEXED_LAY_OUT => self.answer_indexed_lay_out(),
            INDEXED_UNDO => self.answer_indexed_undo(),
            CARRY => self.answer_carry(),
            HALF_CHECK => self.answer_half_check(),
            WIDEN => self.answer_conversion(wide::widen),
            NARROW => self.answer_conversion(wide::narrow),
            YARD_CEILING => self.put_number(model::yard_ceiling(&self.ins[0], self.args[0] as u16)),
            _ => leaves::answer(&mut self),
        }
        self
    }

    fn put_plain(&mut self, r: Result<(), Refusal>) {
        if let Err(r) = r {
            self.answer[0] = r.number as u32;
            self.answer[1] = r.place;
        }
    }

    /// A number in two halves behind the refusal and its place, low half first.
    fn put_number(&mut self, r: Result<u64, Refusal>) {
        if let Ok(n) = r {
            self.answer[2] = n as u32;
            self.answer[3] = (n >> 32) as u32;
        }
        self.put_plain(r.map(|_| ()));
    }

    fn answer_mark(&mut self) {
        let mut occ = u16s(&self.ins[1]);
        let r = model::mark(&self.ins[0], &mut occ, self.args[0], self.args[1] as u16);
        self.put_plain(r);
        self.outs = [u16_bytes(&occ), vec![]];
    }

    fn answer_lay_out(&mut self) {
        let a = self.args;
        let mut image = self.ins[1].clone();
        let (search, fixed) = (self.float(3), self.float(5));
        let r = model::lay_out(&self.ins[0], a[0] as u16, search, fixed, a[1], a[2], &mut image);
        self.put_plain(r);
        self.outs = [image, vec![]];
    }

    fn answer_update(&mut self) {
        let a = self.args;
        let mut image = self.ins[0].clone();
        let (occ, blocking) = (u16s(&self.ins[1]), u32s(&self.ins[2]));
        let u = model::update(&mut image, &occ, &blocking, a[0] as u16, a[1] != 0, a[2] as u16);
        self.put_updated(u, image);
    }

    fn put_updated(&mut self, u: Updated, image: Vec<u8>) {
        let (kind, number, place, faults_or_holder) = match u.outcome {
            Outcome::Success => (0, 0, 0, 0),
            Outcome::Blocked => (1, 0, 0, u.holder),
            Outcome::Faulty(n) => (2, 0, 0, n),
            Outcome::Refused(r) => (3, r.number as u32, r.place, 0),
        };
        // at most 3E + 1 for each of 65,535 rounds
        let steps = u32::try_from(u.steps).expect("steps within their ceiling");
        self.answer = [kind, number, place, faults_or_holder, u.rounds, u.strays, steps, u.met];
        self.line = u.line;
        self.outs = [image, vec![]];
    }

    fn answer_wide_mark(&mut self) {
        let mut occ = u32s(&self.ins[1]);
        let r = wide::mark(&self.ins[0], &mut occ, self.args[0], self.args[1]);
        self.put_plain(r);
        self.outs = [u32_bytes(&occ), vec![]];
    }

    fn answer_wide_update(&mut self) {
        let a = self.args;
        let mut image = self.ins[0].clone();
        let (occ, blocking) = (u32s(&self.ins[1]), u32s(&self.ins[2]));
        let u = wide::update(&mut image, &occ, &blocking, a[0], a[1] != 0, a[2] as u16);
        self.put_updated(u, image);
    }

    /// The arguments of a check over a wide occupancy.
    pub fn wide_args<'a>(&self, occ: &'a [u32], blocking: &'a [u32]) -> WideArgs<'a> {
        let [moved, begin, local, limit, ..] = self.args;
        WideArgs { occ, blocking, moved, begin, local: local != 0, limit: limit as u16 }
    }

    fn answer_wide_check(&mut self) {
        let (mut yard, mut report) = (self.ins[0].clone(), self.ins[3].clone());
        let (occ, blocking) = (u32s(&self.ins[1]), u32s(&self.ins[2]));
        let checked = wide::check(&mut yard, &self.wide_args(&occ, &blocking), &mut report);
        self.put_checked(checked);
        self.outs = [yard, report];
    }

    fn answer_game(&mut self) {
        let [moved, local, limit, turns, ..] = self.args;
        let (occ, links) = (u32s(&self.ins[1]), u32s(&self.ins[2]));
        let (local, limit) = (local != 0, limit as u16);
        let r =
            closer_can_force(&self.ins[0], &Game { occ: &occ, moved, local, limit, links: &links, turns });
        self.put_number(r.map(u64::from));
    }

    /// The list is lent with zeros, and stands behind the occupancy.
    fn answer_replay(&mut self) {
        let [recording, table, occ, mut yard] = self.ins.clone();
        let (mut occ, mut list) = (u16s(&occ), vec![0; self.args[0] as usize]);
        let r = replay::replay(&recording, &table, &mut yard, &mut occ, &mut list);
        self.put_plain(r);
        self.outs = [yard, u16_bytes(&[occ, list].concat())];
    }

    /// The buffer gets as many bytes of the record as it has room for.
    fn answer_view(&mut self) {
        let [table, occ, yard, mut record] = self.ins.clone();
        let [slot, node, ..] = self.args;
        let seen = candidate::view(&table, &u32s(&occ), &yard, slot as u16, node);
        if let Ok((bytes, taken)) = seen {
            let n = record.len().min(bytes.len());
            record[..n].copy_from_slice(&bytes[..n]);
            self.answer[2] = taken as u32;
        }
        self.put_plain(seen.map(|_| ()));
        self.outs = [record, vec![]];
    }

    fn answer_act(&mut self) {
        let mut occ = u32s(&self.ins[1]);
        let [slot, link, marks, ..] = self.args;
        let r = candidate::act(&self.ins[0], &mut occ, &self.ins[2], slot as u16, link, marks != 0);
        self.put_plain(r);
        self.outs = [u32_bytes(&occ), vec![]];
    }

    /// The record stands behind the yard.
    fn answer_recorded(&mut self) {
        let (mut yard, mut report) = (self.ins[0].clone(), self.ins[3].clone());
        let (mut record, blocking) = (vec![0; self.args[4] as usize], u32s(&self.ins[2]));
        let checked = if self.op == WIDE_RECORDED_CHECK {
            let occ = u32s(&self.ins[1]);
            undo::check_recorded_wide(&mut yard, &self.wide_args(&occ, &blocking), &mut report, &mut record)
        } else {
            let occ = u16s(&self.ins[1]);
            undo::check_recorded(&mut yard, &self.check_args(&occ, &blocking), &mut report, &mut record)
        };
        self.put_checked(checked);
        self.outs = [[yard, record].concat(), report];
    }

    fn answer_undo(&mut self) {
        let mut yard = self.ins[0].clone();
        let r = undo::undo(&mut yard, &self.ins[1]);
        self.put_plain(r);
        self.outs = [yard, vec![]];
    }

    fn answer_index(&mut self) {
        let mut index = u64s(&self.ins[1]);
        let r = index::build(&self.ins[0], &mut index);
        self.put_plain(r);
        self.outs = [u64_bytes(&index), vec![]];
    }

    /// The record stands behind the yard, the index behind the report.
    fn answer_indexed(&mut self) {
        let (mut yard, blocking) = (self.ins[0].clone(), u32s(&self.ins[2]));
        let (mut report, mut index) = self.report_and_index(&self.ins[3]);
        let mut record = vec![0; self.args[4] as usize];
        let (narrow, wide) = (u16s(&self.ins[1]), u32s(&self.ins[1]));
        let (n, w) = (self.check_args(&narrow, &blocking), self.wide_args(&wide, &blocking));
        let (y, r, i) = (&mut yard, &mut report, &mut index);
        let checked = match self.op {
            INDEXED_CHECK => index::check(y, &n, r, i),
            WIDE_INDEXED_CHECK => index::check_wide(y, &w, r, i),
            RECORDED_INDEXED_CHECK => index::check_recorded(y, &n, r, &mut record, i),
            _ => index::check_recorded_wide(y, &w, r, &mut record, i),
        };
        self.put_checked(checked);
        self.outs = [[yard, record].concat(), [report, u64_bytes(&index)].concat()];
    }

    fn answer_indexed_lay_out(&mut self) {
        let [train, room, links, ..] = self.args;
        let o = Order { train: train as u16, search: self.float(3), fixed_max: self.float(5), room, links };
        let (mut image, mut index) = (self.ins[1].clone(), u64s(&self.ins[2]));
        let r = index::lay_out(&self.ins[0], &o, &mut image, &mut index);
        self.put_plain(r);
        self.outs = [image, u64_bytes(&index)];
    }

    fn answer_indexed_undo(&mut self) {
        let (mut yard, mut index) = (self.ins[0].clone(), u64s(&self.ins[2]));
        let r = index::undo(&mut yard, &self.ins[1], &mut index);
        self.put_plain(r);
        self.outs = [yard, u64_bytes(&index)];
    }

    fn answer_carry(&mut self) {
        let (mut second, mut wide_occ) = (self.ins[2].clone(), u32s(&self.ins[3]));
        let occ = u16s(&self.ins[1]);
        let r = carry::carry(&self.ins[0], &occ, self.args[0], &mut second, &mut wide_occ);
        self.put_plain(r);
        self.outs = [second, u32_bytes(&wide_occ)];
    }

    fn answer_half_check(&mut self) {
        let (mut yard, mut second) = self.both_yards(&self.ins[0]);
        let (occ, blocking, mut report) = (u32s(&self.ins[1]), u32s(&self.ins[2]), self.ins[3].clone());
        let a = self.wide_args(&occ, &blocking);
        let checked = carry::check_half(&mut yard, &mut second, self.args[4], &a, &mut report);
        self.put_checked(checked);
        self.outs = [[yard, second].concat(), report];
    }

    fn answer_conversion(&mut self, convert: fn(&[u8], &mut [u8]) -> Result<(), Refusal>) {
        let mut out = self.ins[1].clone();
        let r = convert(&self.ins[0], &mut out);
        self.put_plain(r);
        self.outs = [out, vec![]];
    }

    /// The float whose low half is the argument at this place, and its high half the next.
    pub fn float(&self, at: usize) -> f64 {
        f64::from_bits(self.args[at] as u64 | (self.args[at + 1] as u64) << 32)
    }

    /// The arguments of a check, over the lists of the case.
    pub fn check_args<'a>(&self, occ: &'a [u16], blocking: &'a [u32]) -> CheckArgs<'a> {
        let [moved, begin, local, limit, ..] = self.args;
        CheckArgs { occ, blocking, moved: moved as u16, begin, local: local != 0, limit: limit as u16 }
    }

    fn answer_check(&mut self) {
        let mut yard = self.ins[0].clone();
        let mut report = self.ins[3].clone();
        let (occ, blocking) = (u16s(&self.ins[1]), u32s(&self.ins[2]));
        let args = self.check_args(&occ, &blocking);
        let checked = model::check(&mut yard, &args, &mut report);
        self.put_checked(checked);
        self.outs = [yard, report];
    }

    fn put_checked(&mut self, checked: Checked) {
        self.answer = match checked {
            Checked::Done { deadlock, next } => [0, 0, 0, 0, deadlock as u32, next, 0, 0],
            Checked::Erred(n) => [1, 0, 0, n, 0, 0, 0, 0],
            Checked::Refused(r) => [2, r.number as u32, r.place, 0, 0, 0, 0, 0],
        };
    }

    /// Each call on what the call before it left.
    fn answer_list(&mut self) {
        let [table, mut occ, mut yard, _] = self.ins.clone();
        let mut calls = self.calls();
        for call in &mut calls {
            let first = if call.op == MARK { &table } else { &yard };
            (call.ins[0], call.ins[1]) = (first.clone(), occ.clone());
            *call = call.clone().answered();
            *(if call.op == MARK { &mut occ } else { &mut yard }) = call.outs[0].clone();
            (call.ins[0], call.ins[1]) = (vec![], vec![]);
        }
        self.outs = [write_all(&calls), vec![]];
    }

    fn answer_page(&mut self) {
        let mut page = self.ins[1].clone();
        let r = model::page(&self.ins[0], &mut page, model::ROUNDING);
        self.put_plain(r);
        self.outs = [page, vec![]];
    }

    /// The calls of a list.
    pub fn calls(&self) -> Vec<Case> {
        read_all(&self.outs[0])
    }

    pub fn write(&self, out: &mut Vec<u8>) {
        let start = out.len();
        let mut word = |n: u32| out.extend(n.to_le_bytes());
        let same = |i: usize| before(self.op)[i].is_some_and(|j| self.ins[j] == self.outs[i]);
        word(0);
        word(self.op);
        word(self.tag);
        word(self.line);
        self.args.iter().for_each(|&n| word(n));
        self.ins.iter().for_each(|b| word(b.len() as u32));
        self.answer.iter().for_each(|&n| word(n));
        (0..2).for_each(|i| word(if same(i) { UNCHANGED } else { self.outs[i].len() as u32 }));
        self.ins.iter().for_each(|b| out.extend(b));
        (0..2).filter(|&i| !same(i)).for_each(|i| out.extend(&self.outs[i]));
        let size = (out.len() - start) as u32;
        put_u32(out, start, size);
    }

    /// Reads the case at the start of the bytes, and its size.
    pub fn read(b: &[u8]) -> Option<(Case, usize)> {
        if b.len() < HEAD {
            return None;
        }
        let word = |i: usize| u32_at(b, 4 * i);
        let size = word(0) as usize;
        let mut case = Case { op: word(1), tag: word(2), line: word(3), ..Case::default() };
        (0..8).for_each(|i| case.args[i] = word(4 + i));
        (0..8).for_each(|i| case.answer[i] = word(16 + i));
        let mut at = HEAD;
        let mut part = |len: usize| {
            at += len;
            b.get(at - len..at).map(<[u8]>::to_vec)
        };
        for i in 0..4 {
            case.ins[i] = part(word(12 + i) as usize)?;
        }
        for i in 0..2 {
            case.outs[i] = match (word(24 + i), before(case.op)[i]) {
                (UNCHANGED, Some(j)) => case.ins[j].clone(),
                (len, _) => part(len as usize)?,
            };
        }
        (at == size).then_some((case, size))
    }
}

fn write_all(cases: &[Case]) -> Vec<u8> {
    let mut out = vec![];
    cases.iter().for_each(|c| c.write(&mut out));
    out
}

/// All cases of a file.
pub fn read_all(b: &[u8]) -> Vec<Case> {
    let mut cases = vec![];
    let mut at = 0;
    while at < b.len() {
        let (case, size) = Case::read(&b[at..]).expect("a whole case");
        cases.push(case);
        at += size;
    }
    cases
}
