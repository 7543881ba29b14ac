//! The link table as a list of links.

use crate::layout::*;
use crate::{mark, Refusal};

/// A link of the table (ALTRIOS's Link: idx_flip and link_idxs_lockout).
#[derive(Clone, Debug, Default, PartialEq, Eq)]
pub struct Link {
    /// The same track in the other direction, 0 for none.
    pub flip: u32,
    /// The links that may not be occupied while a train is on this one, in order.
    pub lockouts: Vec<u32>,
}

/// The link table, in which the l-th link, link 0 first, has number l. A table that is beyond the limits, or in which a flip or
/// a lockout is no link of it, is written as it is, and [`mark`] refuses it by 1.
///
/// ```
/// use lavtoeu::{mark, table, Link};
///
/// // Link 0 is none. Links 1 and 2 are one track in its two directions, and 2 locks link 3 out.
/// let link = |flip, lockouts: &[u32]| Link { flip, lockouts: lockouts.to_vec() };
/// let table = table(&[Link::default(), link(2, &[]), link(1, &[3]), Link::default()]);
/// let mut occupancy = [0; 4];
/// assert_eq!(mark(&table, &mut occupancy, 2, 9), Ok(()));
/// assert_eq!(occupancy, [0, 9, 0, 9]);
/// ```
pub fn table(links: &[Link]) -> Vec<u8> {
    let count = links.iter().map(|x| x.lockouts.len()).sum();
    let lockouts_at = TABLE_HEADER + LINK_RECORD * links.len();
    let mut out = vec![];
    put_words(&mut out, &[lockouts_at + LOCKOUT_RECORD * count, links.len(), count, lockouts_at]);
    let mut start = 0;
    for x in links {
        put_words(&mut out, &[x.flip as usize, start, x.lockouts.len()]);
        start += x.lockouts.len();
    }
    links.iter().flat_map(|x| &x.lockouts).for_each(|l| out.extend(l.to_le_bytes()));
    out
}

/// The links of a link table, link 0 first; refused by 1 just where [`mark`] refuses the table.
pub fn links(table: &[u8]) -> Result<Vec<Link>, Refusal> {
    // A mark refuses a bad table first, and then every table beside an empty occupancy.
    match mark(table, &mut [], 0, 0) {
        Err(refusal) if refusal.number == 1 => return Err(refusal),
        _ => (),
    }
    let count = word(table, 4) as usize;
    let lockouts_at = TABLE_HEADER + LINK_RECORD * count;
    let lockout = |j: u32| word(table, lockouts_at + LOCKOUT_RECORD * j as usize);
    let link = |at| {
        let (start, count) = (word(table, at + 4), word(table, at + 8));
        Link { flip: word(table, at), lockouts: (start..start + count).map(lockout).collect() }
    };
    Ok((0..count).map(|l| link(TABLE_HEADER + LINK_RECORD * l)).collect())
}
