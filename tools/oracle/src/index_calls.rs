//! Random lists of calls beside an index, as cases with answers: builds, checks over occupancies of either width with and without an
//! undo record, layouts into a slot's part, undos, and marks between them. Each call is made on what the call before it left; a call
//! with something damaged is answered and changes nothing for those after it.

use crate::cases::*;
use crate::demand3::Call;
use crate::gen::{no_est, odd_net, odds};
use crate::layout::*;
use crate::model::{CheckArgs, ROW};
use crate::rng::Rng;
use crate::trials::wide::{narrow_start, wide_call, wide_start};
use crate::undo::{record_of, RECORD_HEADER};
use crate::undo_calls;
use crate::wide::{Slots, WideArgs, NARROW_TRAIN};
use crate::wide_calls::{beside_top, damaged_wide, report_len, widened_yard, WideYard};
use crate::yards::{damaged_yard, many_trains};

/// A yard with an index beside it, the undo records of its checks, and the last layout that went into it.
struct Beside {
    y: WideYard,
    /// Most checks are over u16 entries.
    narrow: bool,
    index: Vec<u64>,
    records: Vec<Vec<u8>>,
    laid: Option<Case>,
}

/// A check to be made, before it is a case.
struct Asked {
    narrow: bool,
    yard: Vec<u8>,
    occ: Vec<u32>,
    blocking: Vec<u32>,
    moved: u32,
    begin: u32,
    local: bool,
    limit: u16,
    report: usize,
    record: Option<usize>,
    index: Vec<u64>,
}

fn other_length(rng: &mut Rng, l: usize) -> usize {
    rng.pick(&[0, 1, l.saturating_sub(1), l + 1, 3_999, 4_000, 4_001])
}

/// The index in another length; entries beyond are any.
fn resized(rng: &mut Rng, index: &[u64]) -> Vec<u64> {
    let mut other = index.to_vec();
    other.resize(other_length(rng, index.len()), rng.next());
    other
}

/// Another yard of the same length with so many slots: as many images as there is room for, the rest of them cut or filled up.
fn with_slots(yard: &[u8], slots: usize) -> Vec<u8> {
    let parts = read_yard(yard).expect("a yard");
    let mut room = yard.len() - 8 - 4 * slots;
    let image = |i: usize| {
        let old = parts.get(i).map_or(&[][..], |p| &yard[p.clone()]);
        let most = room - HEADER * (slots - 1 - i);
        let len = if i + 1 == slots { room } else { old.len().max(HEADER).min(most) };
        room -= len;
        let mut image = old[..old.len().min(len)].to_vec();
        image.resize(len, 0);
        put_u16(&mut image, 32, i as u16 + 1);
        image
    };
    yard_of(&(0..slots).map(image).collect::<Vec<_>>())
}

impl Asked {
    fn case(&self) -> Case {
        let (blocking, begin, local, limit) = (&self.blocking, self.begin, self.local, self.limit);
        let report = vec![0xA5; self.report];
        let check = if self.narrow {
            let occ: Vec<u16> = self.occ.iter().map(|&train| train as u16).collect();
            let a = CheckArgs { occ: &occ, blocking, moved: self.moved as u16, begin, local, limit };
            Case::check(&self.yard, &a, &report)
        } else {
            let a = WideArgs { occ: &self.occ, blocking, moved: self.moved, begin, local, limit };
            Case::wide_check(&self.yard, &a, &report)
        };
        let check = match self.record {
            Some(room) => Case::recorded(check, room),
            None => check,
        };
        Case::indexed(check, &self.index)
    }

    fn damage(&mut self, rng: &mut Rng) {
        let (l, report) = (self.occ.len(), self.report);
        match rng.below(10) {
            0..=1 => self.index = resized(rng, &self.index),
            2 => self.occ.resize(rng.pick(&[0, 1, 4_001]), 0),
            3 => self.blocking.push(rng.pick(&[l as u32, l as u32 + 1, u32::MAX])),
            4 => self.limit = 0,
            5 if read_yard(&self.yard).is_some() => {
                let way = rng.below(3);
                damaged_yard(rng, &mut self.yard, way);
            }
            6 if l > 0 && !self.narrow => self.occ[rng.below(l)] = beside_top(rng),
            7 => self.begin = rng.pick(&[0, 65, 65_535]),
            8 => self.report = rng.pick(&[0, report + 1, report + 4]),
            _ => self.record = self.record.map(|room| rng.pick(&[0, 15, room.saturating_sub(8)])),
        }
    }
}

impl Beside {
    fn slots(&self) -> usize {
        read_yard(&self.y.yard).expect("a yard").len()
    }

    /// A slot that is refused sets no bits.
    fn spoil_slot(&mut self, rng: &mut Rng) {
        let part = read_yard(&self.y.yard).expect("a yard")[rng.below(self.slots())].clone();
        let slot = u16_at(&self.y.yard, part.start + 32);
        let mut b = damaged_wide(rng, &self.y.yard[part.clone()]);
        if b.len() == part.len() {
            put_u16(&mut b, 32, slot);
            self.y.yard[part].copy_from_slice(&b);
        }
    }

    fn build(&mut self, rng: &mut Rng) -> Case {
        let (mut yard, mut index) = (self.y.yard.clone(), self.index.clone());
        let damaged = rng.chance(15);
        if damaged && rng.chance(60) {
            let way = rng.below(3);
            damaged_yard(rng, &mut yard, way);
        }
        if damaged && rng.chance(60) {
            index = resized(rng, &index);
        }
        let case = Case::index(&yard, &index).answered();
        if !damaged {
            self.index = u64s(&case.outs[0]);
        }
        case
    }

    /// Some bits of some entries are others, bit 0 among them.
    fn make_wrong(&mut self, rng: &mut Rng) {
        let share = rng.pick(&[5, 30, 100]);
        for x in &mut self.index {
            *x ^= if rng.chance(share) { rng.next() } else { 0 };
        }
    }

    fn mark(&mut self, rng: &mut Rng, link: u32, train: u32) -> Case {
        let top = if self.narrow { NARROW_TRAIN } else { Slots::read(&self.y.yard).expect("a yard").top() };
        let train = if self.narrow || rng.chance(90) { train.min(top) } else { train };
        if !self.narrow {
            let case = Case::wide_mark(&self.y.table, &self.y.occ, link, train).answered();
            self.y.occ = u32s(&case.outs[0]);
            return case;
        }
        let occ: Vec<u16> = self.y.occ.iter().map(|&train| train as u16).collect();
        let case = Case::mark(&self.y.table, &occ, link, train as u16).answered();
        self.y.occ = u16s(&case.outs[0]).into_iter().map(|train| train as u32).collect();
        case
    }

    /// A mark, a release or a check.
    fn call(&mut self, rng: &mut Rng) -> Case {
        let (call, train) = wide_call(rng, &self.y);
        let (blocking, begin, local, limit) = match call {
            Call::Mark { link, .. } => return self.mark(rng, link, train),
            Call::Check { blocking, begin, local, limit, .. } => (blocking, begin, local, limit),
        };
        let small = self.y.occ.iter().all(|&train| train <= NARROW_TRAIN);
        let narrow = small && rng.chance(if self.narrow { 75 } else { 10 });
        let yard = self.y.yard.clone();
        let report = if narrow { ROW * self.slots() } else { report_len(&yard) };
        let takes = RECORD_HEADER + 2 * yard.len();
        let record = rng.chance(60).then(|| takes + rng.pick(&[0, 0, 7]));
        // a tenth of the limits is 0
        let limit = if rng.chance(70) { limit.max(1) } else { limit };
        let (occ, index) = (self.y.occ.clone(), self.index.clone());
        let mut asked =
            Asked { narrow, yard, occ, blocking, moved: train, begin, local, limit, report, record, index };
        let damaged = rng.chance(18);
        if damaged {
            (0..rng.pick(&[1, 1, 2, 3])).for_each(|_| asked.damage(rng));
        }
        let case = asked.case().answered();
        if !damaged {
            let (yard, record) = case.recorded_left();
            self.y.yard = yard;
            self.index = case.report_and_index(&case.outs[1]).1;
            if asked.record.is_some() {
                self.records.push(record);
            }
        }
        case
    }

    /// The record that the yard can be taken back by, if there is one; now and then any.
    fn some_record(&self, rng: &mut Rng) -> Vec<u8> {
        let fits = |r: &&Vec<u8>| {
            r.get(RECORD_HEADER + self.y.yard.len()..).is_some_and(|b| b.starts_with(&self.y.yard))
        };
        match self.records.iter().rev().find(fits) {
            Some(record) if rng.chance(85) => record.clone(),
            _ => self.records[rng.below(self.records.len())].clone(),
        }
    }

    /// An undo by the record of an earlier check, damaged or whole; or by a record that a check could not have filled, whose old yard has
    /// another number of slots, or whose written yard is none.
    fn undo(&mut self, rng: &mut Rng) -> Case {
        let (mut yard, mut record, mut index) =
            (self.y.yard.clone(), self.some_record(rng), self.index.clone());
        let way = rng.below(20);
        match way {
            0..=2 => (yard, record) = undo_calls::damaged(rng, &yard, &record),
            3 => index = resized(rng, &index),
            4 => {
                index = resized(rng, &index);
                (yard, record) = undo_calls::damaged(rng, &yard, &record);
            }
            5 => {
                let way = rng.below(2);
                damaged_yard(rng, &mut yard, way);
                record = record_of(&self.y.yard, &yard);
            }
            6..=8 => {
                let most = ((yard.len() - 8) / (4 + HEADER)).min(6);
                record = record_of(&with_slots(&yard, rng.from(1, most)), &yard);
            }
            _ => {}
        }
        let case = Case::indexed_undo(&yard, &record, &index).answered();
        if way > 5 {
            (self.y.yard, self.index) = (case.outs[0].clone(), u64s(&case.outs[1]));
        }
        case
    }

    /// Est records and room that lay out a narrow image of just so many bytes, where there are any.
    fn fitting(rng: &mut Rng, part: &[u8], l: usize) -> (Vec<Est>, usize) {
        let (mut est, room) = match laid_out(part) {
            Ok(t) => (t.est, t.div_room * diverge_size(t.wide) / diverge_size(false)),
            Err(_) => {
                let e = ((part.len() - HEADER) / (2 * RECORD)).clamp(1, 512);
                (vec![no_est(); e], part.len().saturating_sub(diverge_offset(e)) / 4)
            }
        };
        if rng.chance(30) {
            let w = odds(rng);
            est = odd_net(rng, est.len(), l, w);
        } else if rng.chance(50) {
            let at = rng.below(est.len());
            est[at].link = rng.from(1, l - 1) as u32;
        }
        (est, room)
    }

    /// A layout into the part of a slot, or of some other train in a buffer of its own.
    fn lay_out(&mut self, rng: &mut Rng) -> Case {
        let (l, parts) = (self.y.occ.len(), read_yard(&self.y.yard).expect("a yard"));
        if let Some(again) = self.laid.clone().filter(|_| rng.chance(30)) {
            // the bytes may be the same, and then wrong bits stay
            let part = parts.get(again.args[0] as usize - 1).filter(|p| p.len() == again.ins[1].len());
            if let Some(part) = part {
                let image = self.y.yard[part.clone()].to_vec();
                return self.put_laid(
                    Case { ins: [again.ins[0].clone(), image, vec![], vec![]], ..again },
                    part.clone(),
                );
            }
        }
        let slot = rng.below(parts.len());
        let part = parts[slot].clone();
        let (mut est, mut room) = Beside::fitting(rng, &self.y.yard[part.clone()], l);
        let mut image = self.y.yard[part.clone()].to_vec();
        let (mut train, mut links, mut index) = (slot as u16 + 1, l as u32, self.index.clone());
        let mut settings = [rng.pick(&[0.0, 100.0, 1e12]), rng.pick(&[0.0, 5.0])];
        let mut kind = None;
        let other = rng.chance(8);
        if other {
            train = rng.from(1, 63) as u16;
        }
        let damaged = rng.chance(25);
        for _ in 0..if damaged { rng.pick(&[1, 1, 1, 2]) } else { 0 } {
            let at = rng.below(est.len());
            match rng.below(11) {
                0 => train = rng.pick(&[0, 64, 65_535]),
                1 => room = rng.pick(&[0, 1, room + 1, 1_025]),
                2 => links = rng.pick(&[0, 1, l as u32 + 1, 4_001]),
                3 => image.push(0),
                4 => kind = Some(at),
                5 => index = resized(rng, &index),
                6 => est[at].dist_to_next = rng.pick(&[f64::NAN, 2e12]),
                7 => settings[rng.below(2)] = rng.pick(&[f64::NAN, -1.0]),
                8 => est[at].next = at.max(1).min(est.len() - 1) as u32,
                9 => est.iter_mut().for_each(|x| (x.kind, x.link) = (ARRIVE, 1)),
                _ => est.iter_mut().for_each(|x| x.dist_to_next = 1e12),
            }
        }
        let mut bytes = est_bytes(&est);
        if let Some(at) = kind {
            bytes[RECORD * at + 28 + rng.below(4)] = 3;
        }
        let case = Case::lay_out(&bytes, train, settings[0], settings[1], room as u32, links, &image);
        if !damaged && !other {
            return self.put_laid(case, part);
        }
        Case::indexed_lay_out(case, &index).answered()
    }

    fn put_laid(&mut self, lay_out: Case, part: std::ops::Range<usize>) -> Case {
        let case = Case::indexed_lay_out(lay_out.clone(), &self.index).answered();
        self.y.yard[part].copy_from_slice(&case.outs[0]);
        self.index = u64s(&case.outs[1]);
        self.laid = Some(Case { op: LAY_OUT, ..lay_out });
        case
    }
}

/// A build and two to eight calls; in two fifths of the lists the index that was built is made wrong, and now and then again.
pub fn list(rng: &mut Rng) -> Vec<Case> {
    let narrow = rng.chance(50);
    let y = match rng.below(50) {
        0 => {
            let y = many_trains(rng);
            let (yard, occ) = widened_yard(rng, &y.yard, &y.occ);
            WideYard { table: y.table, occ, yard }
        }
        _ if narrow => narrow_start(rng),
        _ => wide_start(rng),
    };
    let narrow = narrow && y.occ.iter().all(|&train| train <= NARROW_TRAIN);
    let index = (0..y.occ.len()).map(|_| rng.next()).collect();
    let mut b = Beside { y, narrow, index, records: vec![], laid: None };
    if rng.chance(15) {
        b.spoil_slot(rng);
    }
    let mut cases = vec![b.build(rng)];
    let wrong = rng.chance(40);
    for i in 0..rng.from(2, 8) {
        if wrong && (i == 0 || rng.chance(25)) {
            b.make_wrong(rng);
        }
        let case = match rng.below(20) {
            0 => b.build(rng),
            1..=4 => b.lay_out(rng),
            5..=9 if !b.records.is_empty() => b.undo(rng),
            _ => b.call(rng),
        };
        cases.push(case);
    }
    cases
}

/// The build that begins such a list.
pub fn build(rng: &mut Rng) -> Case {
    list(rng).swap_remove(0)
}

/// One call of such a list.
pub fn any(rng: &mut Rng) -> Case {
    let mut cases = list(rng);
    cases.swap_remove(rng.below(cases.len()))
}
