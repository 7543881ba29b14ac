//! The images of a yard, and the bundle that a sheet is made from.

use crate::layout::*;
use crate::{Move, Refusal};

/// The images of a yard, slot 1 first; refused by 14 just where [`check`](crate::check) refuses the yard by 14.
/// [`yard`](crate::yard) puts them together again.
pub fn parts(yard: &[u8]) -> Result<Vec<&[u8]>, Refusal> {
    let slots = word(yard, 4) as usize;
    let first = YARD_HEADER + YARD_OFFSET * slots.min(MAX_SLOTS);
    let mut ends: Vec<usize> = (0..slots.min(MAX_SLOTS)).map(|i| word(yard, YARD_HEADER + YARD_OFFSET * i) as usize).collect();
    ends.push(yard.len());
    let whole = word(yard, 0) as usize == yard.len() && (1..=MAX_SLOTS).contains(&slots) && ends[0] == first;
    let part = |(w, t): (&[usize], u16)| yard.get(w[0]..w[1]).filter(|p| p.len() >= IMAGE_HEADER && half(p, 32) == t);
    let parts = ends.windows(2).zip(1..).map(part).collect::<Option<Vec<_>>>();
    parts.filter(|_| whole).ok_or(Refusal { number: 14, place: 0 })
}

/// The bundle of a check from slot `begin` on, for [`sheet`](crate::sheet). One that is longer than 65,536 bytes is refused
/// there by 17.
pub fn bundle(yard: &[u8], m: Move, begin: u16) -> Vec<u8> {
    let blocking_at = BUNDLE_HEADER + 2 * m.occupancy.len();
    let yard_at = blocking_at + 4 * m.blocking.len();
    let mut out = vec![];
    put_words(&mut out, &[yard_at + yard.len(), BUNDLE_HEADER, m.occupancy.len(), blocking_at, m.blocking.len(), yard_at]);
    [m.moved, begin, m.limit, m.local as u16].iter().for_each(|x| out.extend(x.to_le_bytes()));
    m.occupancy.iter().for_each(|x| out.extend(x.to_le_bytes()));
    m.blocking.iter().for_each(|x| out.extend(x.to_le_bytes()));
    out.extend(yard);
    out
}
