//! what a candidate sees of one train, and may do.

use crate::layout::*;
use crate::wide;

/// The train of a candidate's slot: 1, 2, 22, 14, 26.
fn train_of(table: &[u8], occ: &[u32], yard: &[u8], slot: u16) -> Result<Train, Refusal> {
    let l = read_table(table).ok_or(refusal(1))?.len();
    if occ.len() != l {
        return Err(refusal(2));
    }
    if occ.iter().any(|&t| t > MOST_TRAIN) {
        return Err(refusal(22));
    }
    let parts = read_yard(yard).ok_or(refusal(14))?;
    let part = (slot as usize).checked_sub(1).and_then(|i| parts.get(i)).ok_or(refusal(26))?;
    read_any(&yard[part.clone()], l).map_err(|_| refusal(26))
}

/// The record of a path node as it stands in the image, and whether its link is taken; a node that is no Arrive has none.
pub fn view(
    table: &[u8],
    occ: &[u32],
    yard: &[u8],
    slot: u16,
    node: u32,
) -> Result<([u8; RECORD], bool), Refusal> {
    let t = train_of(table, occ, yard, slot)?;
    let x = t.path.get(node as usize).ok_or(refusal(27))?;
    let image = &yard[read_yard(yard).expect("a yard")[slot as usize - 1].clone()];
    let at = path_offset(t.est.len()) + RECORD * node as usize;
    let record = image[at..at + RECORD].try_into().expect("a record");
    Ok((record, x.kind == ARRIVE && occ[x.link as usize] != 0))
}

/// Marks an Arrive link of the path for the candidate's train, or releases it whoever holds it.
pub fn act(
    table: &[u8],
    occ: &mut [u32],
    yard: &[u8],
    slot: u16,
    link: u32,
    marks: bool,
) -> Result<(), Refusal> {
    let t = train_of(table, occ, yard, slot)?;
    if !t.path.iter().any(|x| x.kind == ARRIVE && x.link == link) {
        return Err(refusal(27));
    }
    wide::mark(table, occ, link, if marks { slot as u32 } else { 0 })
}
