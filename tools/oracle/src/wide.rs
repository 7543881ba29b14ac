//! trains of six digits. The calls over occupancies of 32 bits, for images of either width, and the conversions.
//! The text has 16 bits for a train and asks of two trains only whether they are the same, so an update or a mark runs over
//! small numbers that stand for the trains met in it.

use crate::layout::*;
use crate::model::{self, CheckArgs, Checked, Outcome, Row, Updated, Visit, LINKS};

/// The largest train where an image of the call is narrow.
pub const NARROW_TRAIN: u32 = 65_535;

/// The trains of a call in order; a train's place stands for it, and 0 for none.
struct Small(Vec<u32>);

impl Small {
    fn of(trains: impl Iterator<Item = u32>) -> Small {
        let mut all: Vec<u32> = std::iter::once(0).chain(trains).collect();
        all.sort_unstable();
        all.dedup();
        Small(all)
    }
    fn small(&self, train: u32) -> u16 {
        self.0.binary_search(&train).expect("a train of the call") as u16
    }
    fn all(&self, trains: &[u32]) -> Vec<u16> {
        trains.iter().map(|&t| self.small(t)).collect()
    }
    fn train(&self, small: u32) -> u32 {
        self.0[small as usize]
    }
}

fn above(trains: &[u32], top: u32) -> bool {
    trains.iter().any(|&t| t > top)
}

// ---- mark or release

pub fn mark(table: &[u8], occ: &mut [u32], link: u32, train: u32) -> Result<(), Refusal> {
    let records = read_table(table).ok_or(refusal(1))?;
    if occ.len() != records.len() {
        return Err(refusal(2));
    }
    if link == 0 || link as usize >= records.len() {
        return Err(refusal(3));
    }
    if train > MOST_TRAIN || above(occ, MOST_TRAIN) {
        return Err(refusal(22));
    }
    let small = Small::of(occ.iter().copied().chain([train]));
    let mut over = small.all(occ);
    model::mark(table, &mut over, link, small.small(train))?;
    for (o, t) in occ.iter_mut().zip(over) {
        *o = small.train(t as u32);
    }
    Ok(())
}

// ---- update

pub fn update(
    image: &mut [u8],
    occ: &[u32],
    blocking: &[u32],
    moved: u32,
    local: bool,
    limit: u16,
) -> Updated {
    let read = || {
        model::arguments(occ.len(), blocking, moved, limit)?;
        let t = laid_out(image)?;
        let top = if t.wide { MOST_TRAIN } else { NARROW_TRAIN };
        if moved > top || above(occ, top) {
            return Err(refusal(22));
        }
        judged(&t, occ.len())?;
        Ok(t)
    };
    let mut t = match read() {
        Ok(t) => t,
        Err(r) => return model::refused(r),
    };
    let u = update_train(&mut t, &WideArgs { occ, blocking, moved, begin: 0, local, limit });
    if !matches!(u.outcome, Outcome::Refused(_)) {
        write_image(&t, image);
    }
    u
}

/// An update of an accepted train of either width.
fn update_train(t: &mut Train, a: &WideArgs) -> Updated {
    let stored = t.div.iter().map(|d| d.train);
    let small = Small::of(a.occ.iter().copied().chain(stored).chain([a.moved]));
    let mut over = t.clone();
    over.div.iter_mut().for_each(|d| d.train = small.small(d.train) as u32);
    let occ = small.all(a.occ);
    let u = model::update_accepted(&mut over, &occ, a.blocking, small.small(a.moved), a.local, a.limit);
    over.div.iter_mut().for_each(|d| d.train = small.train(d.train));
    *t = over;
    Updated { holder: small.train(u.holder), met: small.train(u.met), ..u }
}

// ---- check

/// What a check over a wide occupancy is told besides the yard.
#[derive(Clone, Copy)]
pub struct WideArgs<'a> {
    pub occ: &'a [u32],
    pub blocking: &'a [u32],
    pub moved: u32,
    pub begin: u32,
    pub local: bool,
    pub limit: u16,
}

/// Bytes of a record in the report of a yard with a wide image: the first 16 of a narrow one, the holder, the train met.
pub const WIDE_ROW: usize = model::ROW + 4;

pub fn row_size(wide: bool) -> usize {
    if wide {
        WIDE_ROW
    } else {
        model::ROW
    }
}

pub fn row_at(report: &[u8], i: usize, wide: bool) -> Row {
    if !wide {
        return model::row_at(report, i);
    }
    let r = &report[WIDE_ROW * i..][..WIDE_ROW];
    Row { holder: u32_at(r, 16), met: u32_at(r, 20), ..model::row_at(r, 0) }
}

fn put_row(report: &mut [u8], i: usize, x: &Row, wide: bool) {
    if !wide {
        return model::put_row(report, i, x);
    }
    let r = &mut report[WIDE_ROW * i..][..WIDE_ROW];
    model::put_row(r, 0, &Row { holder: 0, ..*x });
    put_u32(r, 16, x.holder);
    put_u32(r, 20, x.met);
}

/// The images of a yard, and whether any of them is wide, and all.
pub struct Slots {
    pub images: Vec<Vec<u8>>,
    pub any_wide: bool,
    pub all_wide: bool,
}

impl Slots {
    pub fn of(images: Vec<Vec<u8>>) -> Slots {
        let any_wide = images.iter().any(|b| is_wide(b));
        let all_wide = images.iter().all(|b| is_wide(b));
        Slots { images, any_wide, all_wide }
    }

    /// 14.
    pub fn read(yard: &[u8]) -> Result<Slots, Refusal> {
        let parts = read_yard(yard).ok_or(refusal(14))?;
        Ok(Slots::of(parts.into_iter().map(|p| yard[p].to_vec()).collect()))
    }

    pub fn top(&self) -> u32 {
        if self.all_wide {
            MOST_TRAIN
        } else {
            NARROW_TRAIN
        }
    }

    /// 22, 15, 16: what follows the yard's own refusals.
    pub fn refusal(&self, a: &WideArgs, report: &[u8], wide_report: bool) -> Result<(), Refusal> {
        let s = self.images.len();
        if above(a.occ, self.top()) {
            return Err(refusal(22));
        }
        if a.moved as usize > s || a.begin == 0 || a.begin as usize > s + 1 {
            return Err(refusal(15));
        }
        if report.len() != row_size(wide_report) * s {
            return Err(refusal(16));
        }
        Ok(())
    }

    /// Visits every slot from begin on and fills the report.
    pub fn check(&mut self, a: &WideArgs, report: &mut [u8], wide_report: bool) -> (Checked, Vec<Visit>) {
        let begin = a.begin as usize;
        let visit = |(i, image): (usize, &mut Vec<u8>)| {
            if i + 1 < begin {
                Visit::default()
            } else {
                visit(image, i + 1, a)
            }
        };
        let visits: Vec<Visit> = self.images.iter_mut().enumerate().map(visit).collect();
        let rows: Vec<Row> = visits.iter().map(|v| v.row).collect();
        rows.iter().enumerate().for_each(|(i, row)| put_row(report, i, row, wide_report));
        (model::answer_of(&rows, begin), visits)
    }
}

fn visit(image: &mut [u8], slot: usize, a: &WideArgs) -> Visit {
    let mut t = match read_any(image, a.occ.len()) {
        Ok(t) => t,
        Err(r) => return Visit::of(model::row_refused(r)),
    };
    if t.free as usize == t.path.len() {
        return Visit::of(Row { code: model::FINISHED, ..Row::default() });
    }
    if slot == a.moved as usize {
        return Visit::of(Row { code: model::MOVED, ..Row::default() });
    }
    let u = update_train(&mut t, a);
    if !matches!(u.outcome, Outcome::Refused(_)) {
        write_image(&t, image);
    }
    Visit { row: model::row_of(&u), updated: Some(u) }
}

pub fn check(yard: &mut [u8], a: &WideArgs, report: &mut [u8]) -> Checked {
    check_visits(yard, a, report).0
}

/// The same with what became of each slot; of a refused check nothing.
pub fn check_visits(yard: &mut [u8], a: &WideArgs, report: &mut [u8]) -> (Checked, Vec<Visit>) {
    let read = || {
        model::arguments(a.occ.len(), a.blocking, a.moved, a.limit)?;
        let slots = Slots::read(yard)?;
        slots.refusal(a, report, slots.any_wide)?;
        Ok(slots)
    };
    let mut slots = match read() {
        Ok(slots) => slots,
        Err(r) => return (Checked::Refused(r), vec![]),
    };
    let wide = slots.any_wide;
    let answer = slots.check(a, report, wide);
    yard.copy_from_slice(&yard_of(&slots.images));
    answer
}

/// A narrow check with wide numbers: what a check of a narrow yard is told, over the same occupancy in 32 bits.
pub fn widened_args<'a>(a: &CheckArgs<'a>, occ: &'a [u32]) -> WideArgs<'a> {
    let CheckArgs { blocking, moved, begin, local, limit, .. } = *a;
    WideArgs { occ, blocking, moved: moved as u32, begin, local, limit }
}

// ---- conversions

/// An image of one width, to be written in the other.
fn to_convert(image: &[u8], out: &[u8], to_wide: bool) -> Result<Train, Refusal> {
    let t = laid_out(image)?;
    if t.wide == to_wide || out.len() != size_of_image(t.est.len(), t.div_room, to_wide) {
        return Err(refusal(6));
    }
    judged(&t, LINKS)?;
    Ok(Train { wide: to_wide, ..t })
}

pub fn widen(image: &[u8], out: &mut [u8]) -> Result<(), Refusal> {
    let t = to_convert(image, out, true)?;
    write_image(&t, out);
    Ok(())
}

pub fn narrow(image: &[u8], out: &mut [u8]) -> Result<(), Refusal> {
    let t = to_convert(image, out, false)?;
    if t.div.iter().any(|d| d.train > NARROW_TRAIN) {
        return Err(refusal(23));
    }
    write_image(&t, out);
    Ok(())
}
