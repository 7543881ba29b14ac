//! a recording of marks, releases and checks, played over a yard, and what the program `replay` prints of a sitting.

use crate::layout::*;
use crate::model::{self, CheckArgs, Checked, LINKS, ROW};

const HEADER: usize = 12;
const STEP: usize = 20;

/// A recorded call; the links of a check lie in the recording's list.
#[derive(Clone, Debug, PartialEq)]
pub enum Step {
    Mark { link: u32, train: u16 },
    Check { blocking: Vec<u32>, moved: u16, begin: u16, limit: u16, local: bool },
}

/// The steps of a recording that is not malformed.
pub fn read(b: &[u8]) -> Option<Vec<Step>> {
    if b.len() < HEADER {
        return None;
    }
    let (n, k) = (u32_at(b, 4) as u64, u32_at(b, 8) as u64);
    let size = HEADER as u64 + STEP as u64 * n + 4 * k;
    if b.len() as u64 != size || u32_at(b, 0) as u64 != size {
        return None;
    }
    let (steps, links) = b[HEADER..].split_at(STEP * n as usize);
    steps.chunks_exact(STEP).map(|r| step(r, &u32s(links))).collect()
}

fn step(r: &[u8], links: &[u32]) -> Option<Step> {
    let (kind, at, count) = (u32_at(r, 0), u32_at(r, 4), u32_at(r, 8));
    let [train, begin, limit, local] = [12, 14, 16, 18].map(|i| u16_at(r, i));
    match kind {
        0 if count == 0 && begin == 0 && limit == 0 && local == 0 => Some(Step::Mark { link: at, train }),
        1 if local <= 1 => {
            let at = at as usize;
            let blocking = links.get(at..at + count as usize)?.to_vec();
            Some(Step::Check { blocking, moved: train, begin, limit, local: local == 1 })
        }
        _ => None,
    }
}

/// The recording of these steps, their blocking links one list behind the other.
pub fn recording_of(steps: &[Step]) -> Vec<u8> {
    let (mut records, mut links) = (vec![], vec![]);
    let mut put = |words: [u32; 3], halves: [u16; 4]| {
        words.iter().for_each(|n| records.extend(n.to_le_bytes()));
        halves.iter().for_each(|n| records.extend(n.to_le_bytes()));
    };
    for s in steps {
        match s {
            Step::Mark { link, train } => put([0, *link, 0], [*train, 0, 0, 0]),
            Step::Check { blocking, moved, begin, limit, local } => {
                put([1, links.len() as u32, blocking.len() as u32], [*moved, *begin, *limit, *local as u16]);
                links.extend(blocking);
            }
        }
    }
    let size = HEADER + records.len() + 4 * links.len();
    let mut b = u32_bytes(&[size as u32, steps.len() as u32, links.len() as u32]);
    b.extend(records);
    b.extend(u32_bytes(&links));
    b
}

/// Makes one call; the number of its refusal, or 0.
pub fn call(s: &Step, table: &[u8], yard: &mut [u8], occ: &mut [u16]) -> u16 {
    match s {
        Step::Mark { link, train } => {
            model::mark(table, occ, *link, *train).err().map_or(0, |r| r.number as u16)
        }
        Step::Check { blocking, moved, begin, limit, local } => {
            let (moved, begin, local, limit) = (*moved, *begin as u32, *local, *limit);
            let args = CheckArgs { occ, blocking, moved, begin, local, limit };
            let mut report = vec![0; ROW * read_yard(yard).map_or(0, |parts| parts.len())];
            match model::check(yard, &args, &mut report) {
                Checked::Refused(r) => r.number as u16,
                _ => 0,
            }
        }
    }
}

// ---- the program

const SITTING_HEADER: usize = 32;
const MOST_SITTING: usize = 262_144;
/// As many steps as so many bytes can have.
const MOST_STEPS: usize = 13_107;

/// The parts of a sitting: u32 size, occupancy offset, count, table offset, yard offset, recording offset, 8 spare bytes;
/// occupancy, table, yard, recording.
fn read_sitting(b: &[u8]) -> Option<(Vec<u16>, &[u8], &[u8], &[u8])> {
    if b.len() < SITTING_HEADER || b.len() > MOST_SITTING || b[24..32] != [0; 8] {
        return None;
    }
    let [size, occ, count, table, yard, recording] = [0, 1, 2, 3, 4, 5].map(|i| u32_at(b, 4 * i) as usize);
    let in_order = size == b.len() && occ == SITTING_HEADER && table == occ + 2 * count;
    if !in_order || count > LINKS || yard < table || recording < yard || b.len() < recording {
        return None;
    }
    Some((u16s(&b[occ..table]), &b[table..yard], &b[yard..recording], &b[recording..]))
}

/// Each step with its refusal, each slot with its free node and the number of its path nodes, each held link with its train.
pub fn printed(sitting: &[u8]) -> String {
    let refused = || "refused 19\n".to_string();
    let Some((mut occ, table, yard, recording)) = read_sitting(sitting) else { return refused() };
    let steps = if recording.len() < HEADER { 0 } else { u32_at(recording, 4) as usize };
    let (mut yard, mut list) = (yard.to_vec(), vec![0; steps.min(MOST_STEPS + 1)]);
    if steps > MOST_STEPS || replay(recording, table, &mut yard, &mut occ, &mut list).is_err() {
        return refused();
    }
    let mut text: String = list.iter().enumerate().map(|(i, n)| format!("step {} {n}\n", i + 1)).collect();
    for (i, part) in read_yard(&yard).unwrap_or_default().into_iter().enumerate() {
        text += &format!("slot {} {}\n", i + 1, slot_words(&yard[part], occ.len()));
    }
    for (link, train) in occ.iter().enumerate().filter(|(_, &train)| train != 0) {
        text += &format!("link {link} by {train}\n");
    }
    text
}

fn slot_words(image: &[u8], links: usize) -> String {
    let read = if link_count_ok(links) { read_image(image, links) } else { Err(refusal(2)) };
    match read {
        Ok(t) => {
            let (free, nodes) = (t.free as usize, t.path.len());
            format!("{} {free} {nodes}", if free == nodes { "finished" } else { "unfinished" })
        }
        Err(r) => format!("refused-{} 0 0", r.number),
    }
}

// ---- the call

pub fn replay(
    recording: &[u8],
    table: &[u8],
    yard: &mut [u8],
    occ: &mut [u16],
    list: &mut [u16],
) -> Result<(), Refusal> {
    let steps = read(recording).filter(|steps| steps.len() == list.len()).ok_or(refusal(19))?;
    for (number, s) in list.iter_mut().zip(&steps) {
        *number = call(s, table, yard, occ);
    }
    Ok(())
}
