//! The recording of a sitting: marks, releases and checks in order, and their replay.

use crate::layout::*;
use crate::Refusal;

/// What a recorded check is told. Its occupancy and its yard are those that the step before it left, and its report goes unread.
#[derive(Clone, Copy, Debug)]
pub struct Check<'a> {
    /// The links that the moved train blocks, repeats and all.
    pub blocking: &'a [u32],
    pub moved: u16,
    /// The slot to begin with.
    pub begin: u16,
    pub local: bool,
    /// The round limit.
    pub limit: u16,
}

/// A recording, built step by step.
///
/// ```
/// use lavtoeu::{table, Check, Link, Recording};
///
/// // Links 1 and 2 are one track in its two directions; link 0 is none, and there is no link 3.
/// let table = table(&[0, 2, 1].map(|flip| Link { flip, lockouts: vec![] }));
/// let mut sitting = Recording::new();
/// sitting.mark(1, 9).mark(3, 9).check(Check { blocking: &[2], moved: 1, begin: 1, local: false, limit: 5 });
/// let mut occupancy = [0, 0, 0];
/// // The mark of link 3 is refused by 3, the check of an empty yard by 14, and the replay goes on after each.
/// assert_eq!(sitting.replay(&table, &mut [], &mut occupancy), Ok(vec![0, 3, 14]));
/// assert_eq!(occupancy, [0, 0, 9]);
/// ```
#[derive(Clone, Debug, Default, PartialEq, Eq)]
pub struct Recording {
    /// Each with its first link's index where it is a check.
    records: Vec<([u32; 3], [u16; 4])>,
    links: Vec<u32>,
}

impl Recording {
    pub fn new() -> Recording {
        Recording::default()
    }

    /// How many steps it has.
    pub fn steps(&self) -> usize {
        self.records.len()
    }

    /// A step that marks a link for a train, or releases it with train 0.
    pub fn mark(&mut self, link: u32, train: u16) -> &mut Recording {
        self.records.push(([STEP_MARK, link, 0], [train, 0, 0, 0]));
        self
    }

    /// A step that releases a link.
    pub fn release(&mut self, link: u32) -> &mut Recording {
        self.mark(link, 0)
    }

    /// A step that checks the yard.
    pub fn check(&mut self, c: Check) -> &mut Recording {
        let words = [STEP_CHECK, self.links.len() as u32, c.blocking.len() as u32];
        self.records.push((words, [c.moved, c.begin, c.limit, c.local as u16]));
        self.links.extend(c.blocking);
        self
    }

    /// The bytes of the recording, as [`replay`] takes them: the blocking links of its checks one list behind the other. One of
    /// more bytes than a u32 counts is refused by 19.
    pub fn to_bytes(&self) -> Result<Vec<u8>, Refusal> {
        let size = RECORDING_HEADER + STEP_RECORD * self.records.len() + 4 * self.links.len();
        if u32::try_from(size).is_err() {
            return Err(Refusal { number: 19, place: 0 });
        }
        let mut out = vec![];
        put_words(&mut out, &[size, self.records.len(), self.links.len()]);
        for (words, halves) in &self.records {
            words.iter().for_each(|n| out.extend(n.to_le_bytes()));
            halves.iter().for_each(|n| out.extend(n.to_le_bytes()));
        }
        self.links.iter().for_each(|n| out.extend(n.to_le_bytes()));
        Ok(out)
    }

    /// [`replay`] of it. Gives the number of each step's refusal, 0 where there is none.
    pub fn replay(&self, table: &[u8], yard: &mut [u8], occupancy: &mut [u16]) -> Result<Vec<u16>, Refusal> {
        let mut list = vec![0; self.steps()];
        replay(&self.to_bytes()?, table, yard, occupancy, &mut list)?;
        Ok(list)
    }
}

/// Plays a recording over the starting yard and occupancy, which it leaves as making its calls one by one would. `list` has an
/// entry for each step, and gets the number of its refusal, 0 where there is none; a refused step changes nothing, and the replay
/// goes on. Refused by 19, a malformed recording or a list of another length, before any step.
pub fn replay(recording: &[u8], table: &[u8], yard: &mut [u8], occupancy: &mut [u16], list: &mut [u16]) -> Result<(), Refusal> {
    Refusal::of(call!(lavtoeu_replay, &recording, &table, &mut yard, &mut occupancy, &mut list))
}
