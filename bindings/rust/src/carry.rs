//! Carrying a sitting from narrow images to wide ones while it runs (change request Q-7).

use crate::layout::*;
use crate::{checked_of, mark_wide, parts, Check, Checked, Refusal, WideMove};

/// How long the yard of these images is with all of them wide; 14 where it is no yard. Room beyond [`MAX_ROOM`], which 6 refuses, is not
/// counted.
pub fn wide_yard_size(yard: &[u8]) -> Result<usize, Refusal> {
    let more = |image: &[u8]| (WIDE_DIVERGE_RECORD - DIVERGE_RECORD) * (word(image, 16) as usize).min(MAX_ROOM);
    Ok(yard.len() + parts(yard)?.into_iter().map(more).sum::<usize>())
}

/// One step of a sitting of which `count` slots are carried: carries the next into the second yard, which has [`wide_yard_size`] bytes.
/// The first, with count 0, also writes its header, zeroes its other parts and carries the occupancy. Refused by 2, either occupancy
/// length or two that are not equal, 14, then by 6 to 9 of the first image still to carry that fails, then by 24, a count of S or more or
/// a second yard that is not what so many steps leave.
pub fn carry(yard: &[u8], occupancy: &[u16], count: u32, wide_yard: &mut [u8], wide_occupancy: &mut [u32]) -> Result<(), Refusal> {
    Refusal::of(call!(lavtoeu_carry, &yard, &occupancy, count, &mut wide_yard, &mut wide_occupancy))
}

/// A check of a yard of which `count` slots, 1 or more, are carried: these are read and written in the second yard, the others in the
/// first. Its answer stands in words, as many as there is room for; `report` has [`WIDE_REPORT_RECORD`] bytes for each slot. Refused by
/// 2, 4, 5, 14, 24, 22, 15, 16; a refused check leaves every buffer.
pub fn check_half_into(
    yard: &mut [u8],
    wide_yard: &mut [u8],
    count: u32,
    m: WideMove,
    begin: u16,
    report: &mut [u8],
    answer: &mut [u64],
) -> Result<(), Refusal> {
    Refusal::of(call!(
        lavtoeu_check_half,
        &mut yard,
        &mut wide_yard,
        count,
        &m.occupancy,
        &m.blocking,
        m.moved,
        begin,
        m.local as u32,
        m.limit,
        &mut report,
        &mut answer
    ))
}

/// A sitting that is being carried: its narrow yard, the wide one that the slots go to, and the occupancy in both widths. Marks and
/// checks may come between steps; until the last step they keep to trains of at most 65,535.
///
/// ```
/// use lavtoeu::*;
///
/// let est = est_bytes(&[Est { est_type: EstType::Arrive, link: 1, ..Est::default() }]);
/// let mut images = vec![vec![0; image_size(1, 2)]; 2];
/// for (train, image) in (1..).zip(&mut images) {
///     lay_out(&est, Order { train, search: 0.0, fixed: 0.0, room: 2, links: 3 }, image)?;
/// }
/// let mut narrow = yard(&[&images[0], &images[1]]);
/// let table = table(&[0, 2, 1].map(|flip| Link { flip, lockouts: vec![] }));
///
/// let mut sitting = Carrying::begin(&mut narrow, &[0, 9, 0])?;
/// sitting.mark(&table, 1, 2)?;
/// let mut report = [0; 2 * layout::WIDE_REPORT_RECORD];
/// sitting.check(Check { blocking: &[1], moved: 2, begin: 1, local: false, limit: 5 }, &mut report)?;
/// sitting.step()?;
/// let (wide, occupancy) = sitting.finish().expect("both slots are carried");
/// assert!(parts(&wide)?.into_iter().all(is_wide));
/// assert_eq!(occupancy, [0, 9, 2]);
/// # Ok::<(), Refusal>(())
/// ```
#[derive(Debug)]
pub struct Carrying<'a> {
    yard: &'a mut [u8],
    occupancy: &'a [u16],
    wide_yard: Vec<u8>,
    wide_occupancy: Vec<u32>,
    count: u32,
}

impl<'a> Carrying<'a> {
    /// Begins to carry a sitting: the first step. From then on the occupancy is that of [`Carrying::occupancy`].
    pub fn begin(yard: &'a mut [u8], occupancy: &'a [u16]) -> Result<Carrying<'a>, Refusal> {
        // where there is no such size the step is refused by 2 or 14
        let size = wide_yard_size(yard).unwrap_or(0);
        let (wide_yard, wide_occupancy) = (vec![0; size], vec![0; occupancy.len()]);
        let mut sitting = Carrying { yard, occupancy, wide_yard, wide_occupancy, count: 0 };
        sitting.step()?;
        Ok(sitting)
    }

    /// Carries the next slot. Refused by 6 to 9 where its image or one after it fails, and by 24 where none is left.
    pub fn step(&mut self) -> Result<(), Refusal> {
        carry(self.yard, self.occupancy, self.count, &mut self.wide_yard, &mut self.wide_occupancy)?;
        self.count += 1;
        Ok(())
    }

    /// How many slots are carried.
    pub fn count(&self) -> u32 {
        self.count
    }

    /// The occupancy as it stands.
    pub fn occupancy(&self) -> &[u32] {
        &self.wide_occupancy
    }

    /// The image of a slot, which is wide where the slot is carried.
    pub fn image(&self, slot: u16) -> Option<&[u8]> {
        let from = if u32::from(slot) <= self.count { &self.wide_yard } else { &*self.yard };
        let at = |t: usize| word(from, YARD_HEADER + YARD_OFFSET * (t - 1)) as usize;
        let (slot, slots) = (slot as usize, word(from, 4) as usize);
        (1..=slots).contains(&slot).then(|| &from[at(slot)..if slot < slots { at(slot + 1) } else { from.len() }])
    }

    /// Marks a link for a train, or releases it with train 0, as [`mark_wide`] does.
    pub fn mark(&mut self, table: &[u8], link: u32, train: u32) -> Result<(), Refusal> {
        mark_wide(table, &mut self.wide_occupancy, link, train)
    }

    /// Checks the sitting before its last step; [`wide_rows`](crate::wide_rows) reads the report. Where all slots are carried it is 24.
    pub fn check(&mut self, c: Check, report: &mut [u8]) -> Result<Checked, Refusal> {
        let mut words = [0; CHECK_WORDS];
        let occupancy = &self.wide_occupancy;
        let m = WideMove { occupancy, blocking: c.blocking, moved: c.moved as u32, local: c.local, limit: c.limit };
        check_half_into(self.yard, &mut self.wide_yard, self.count, m, c.begin, report, &mut words)?;
        Ok(checked_of(words))
    }

    /// The wide yard and its occupancy, where all slots are carried; else the sitting as it stands.
    pub fn finish(self) -> Result<(Vec<u8>, Vec<u32>), Carrying<'a>> {
        if self.count == word(&self.wide_yard, 4) {
            Ok((self.wide_yard, self.wide_occupancy))
        } else {
            Err(self)
        }
    }
}
