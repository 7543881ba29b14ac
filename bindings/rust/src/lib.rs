//! Safe calls into the proved free path core of a dispatch yard.
//!
//! Every function takes slices and numbers and is total: any bytes get an answer. A refusal has a number and a place, and a
//! refused call changes no buffer. The bytes of link table, image, yard, report and bundle are in the project's
//! docs/LAYOUTS.md, the numbers of refusals in its docs/REFUSALS.md. [`Image`], [`table`], [`yard`], [`parts`], [`rows`],
//! [`bundle`] and [`Recording`] write and read them. [`Candidate`] is one train's hand on a sitting, [`Carrying`]
//! a sitting that is carried to wide images.
//!
//! ```
//! use lavtoeu::{mark, table, Link, Refusal};
//!
//! // Links 1 and 2 are one track in its two directions; link 0 is none.
//! let link = |flip| Link { flip, lockouts: vec![] };
//! let table = table(&[link(0), link(2), link(1)]);
//! let mut occupancy = [0, 0, 0];
//! assert_eq!(mark(&table, &mut occupancy, 1, 9), Ok(()));
//! assert_eq!(occupancy, [0, 0, 9]);
//! assert_eq!(mark(&table, &mut occupancy, 3, 9), Err(Refusal { number: 3, place: 0 }));
//! ```

#[macro_use]
mod call;
mod candidate;
mod carry;
mod game;
mod image;
mod index;
pub mod layout;
mod parts;
pub mod raw;
mod recording;
mod table;
mod undo;
mod version;
mod wide;

pub use candidate::{Candidate, View};
pub use carry::{carry, check_half_into, wide_yard_size, Carrying};
pub use game::{closer_can_force, Game};
pub use image::{Diverge, Image, Node};
pub use index::{
    build_index, check_indexed, check_indexed_into, check_recorded_indexed, check_recorded_indexed_into, check_recorded_wide_indexed,
    check_recorded_wide_indexed_into, check_wide_indexed, check_wide_indexed_into, lay_out_indexed, slots_on, undo_indexed,
};
pub use parts::{bundle, parts};
pub use recording::{replay, Check, Recording};
pub use table::{links, table, Link};
pub use undo::{check_recorded, check_recorded_into, check_recorded_wide, check_recorded_wide_into, undo, undo_record_size, UndoRecord};
pub use version::{version, VERSION, VERSION_TEXT};
pub use wide::{
    check_wide, check_wide_into, is_wide, mark_wide, narrow, report_record, update_wide, update_wide_into, wide_image_size, wide_rows,
    widen, WideMove, WideRow, WideSlot,
};

use std::fmt;

/// A refusal: its number, and the place of the record at fault where there is one, else 0.
#[derive(Clone, Copy, Debug, PartialEq, Eq, Hash)]
pub struct Refusal {
    pub number: u16,
    pub place: u16,
}

impl Refusal {
    fn of(word: u32) -> Result<(), Refusal> {
        match word {
            0 => Ok(()),
            _ => Err(Refusal { number: (word & 0xffff) as u16, place: (word >> 16) as u16 }),
        }
    }

    /// What the number means, in a few words.
    pub fn meaning(self) -> &'static str {
        match self.number {
            1 => "bad link table",
            2 => "occupancy of a wrong length",
            3 => "no such link",
            4 => "bad blocking list",
            5 => "train, moved train or round limit 0",
            6 => "not laid out as an image",
            7 => "a value out of range",
            8 => "a cycle of est records",
            9 => "a path or diverge nodes out of order",
            10 => "the trip is finished",
            11 => "no room",
            12 => "another round is due at the limit",
            13 => "the Rust would panic",
            14 => "bad yard",
            15 => "moved train or begin outside the slots",
            16 => "report of a wrong length",
            17 => "bad bundle",
            18 => "page too short",
            19 => "malformed recording, or a list of another length",
            20 => "undo record too short",
            21 => "nothing to take back",
            22 => "a train number that is too large",
            28 => "bad links or turns of a game",
            26 => "no accepted image in the candidate's slot",
            27 => "not of the candidate's path",
            23 => "a train that has no room in a narrow image",
            24 => "a count that the sitting belies",
            25 => "index of a wrong length",
            29 => "outside the training track profile",
            _ => "no number of a refusal",
        }
    }
}

impl fmt::Display for Refusal {
    fn fmt(&self, f: &mut fmt::Formatter) -> fmt::Result {
        write!(f, "refused {} ({}) at {}", self.number, self.meaning(), self.place)
    }
}

impl std::error::Error for Refusal {}

/// Marks a link for a train, or releases it with train 0: the flip and each lockout of the link.
pub fn mark(table: &[u8], occupancy: &mut [u16], link: u32, train: u16) -> Result<(), Refusal> {
    Refusal::of(call!(lavtoeu_mark, &table, &mut occupancy, link, train))
}

/// The type of an est record.
#[derive(Clone, Copy, Debug, Default, PartialEq, Eq)]
pub enum EstType {
    Arrive,
    Clear,
    #[default]
    Fake,
}

/// An est record.
#[derive(Clone, Copy, Debug, Default, PartialEq)]
pub struct Est {
    pub est_type: EstType,
    pub link: u32,
    /// In metres.
    pub dist_to_next: f64,
    pub next: u32,
    pub alt: u32,
    pub prev: u32,
    pub prev_alt: u32,
}

/// Est records in 32 bytes each, as a layout takes them.
pub fn est_bytes(ests: &[Est]) -> Vec<u8> {
    let mut out = vec![];
    for x in ests {
        out.extend(x.dist_to_next.to_le_bytes());
        [x.next, x.alt, x.prev, x.prev_alt, x.link].iter().for_each(|n| out.extend(n.to_le_bytes()));
        out.extend([x.est_type as u8, 0, 0, 0]);
    }
    out
}

/// What a layout is told besides the est records.
#[derive(Clone, Copy, Debug)]
pub struct Order {
    pub train: u16,
    /// dist_disp_path_search, in metres.
    pub search: f64,
    /// dist_fixed_max, in metres.
    pub fixed: f64,
    /// Q, room for diverge nodes.
    pub room: u32,
    /// L, the number of links.
    pub links: u32,
}

/// How long the image of a train is: e est records, room for q diverge nodes.
pub fn image_size(e: usize, q: usize) -> usize {
    layout::IMAGE_HEADER + (layout::EST_RECORD + layout::PATH_RECORD) * e + layout::DIVERGE_RECORD * q
}

/// Writes the image of a new train into the buffer, its path along next from est 0. `est` has 32 bytes for each est record.
pub fn lay_out(est: &[u8], order: Order, image: &mut [u8]) -> Result<(), Refusal> {
    let o = order;
    Refusal::of(call!(lavtoeu_lay_out, &est, o.train, o.search, o.fixed, o.room, o.links, &mut image))
}

/// Refusals 6 to 9 of an image of either width over a number of links, 22 between 7 and 8, or 2 where the links are fewer than 2 or more
/// than 4,000.
pub fn judge(image: &[u8], links: u32) -> Result<(), Refusal> {
    Refusal::of(call!(lavtoeu_image_fault, &image, links))
}

/// Refusals 6 to 9 of an image over 4,000 links, then 29: an est distance, a distance of the header or a path offset is outside
/// the training track profile, which is the whole multiples of 1/1024 metre from 0 to 40,000 metres.
pub fn profile(image: &[u8]) -> Result<(), Refusal> {
    Refusal::of(call!(lavtoeu_profile, &image))
}

/// What an update and a check are told besides the image or the yard.
#[derive(Clone, Copy, Debug)]
pub struct Move<'a> {
    /// One train for each link, 0 for an empty one.
    pub occupancy: &'a [u16],
    /// The links that the moved train blocks, repeats and all.
    pub blocking: &'a [u32],
    pub moved: u16,
    pub local: bool,
    /// The round limit.
    pub limit: u16,
}

/// How an update that was not refused ended.
#[derive(Clone, Copy, Debug, PartialEq, Eq)]
pub enum Status {
    Success,
    Blocked,
    /// With this many errors of the free path.
    Faulty(u64),
}

/// An update: its status or its refusal, the rounds entered, the strays counted, the steps of the search, who holds the train, and
/// whom it met.
#[derive(Clone, Copy, Debug, PartialEq, Eq)]
pub struct Updated {
    pub status: Result<Status, Refusal>,
    pub rounds: u16,
    pub strays: u64,
    /// Entries into the search loop over all rounds, the refused one too.
    pub steps: u64,
    /// Where the update ended Blocked, the first train of the blocking view that was given last; else 0.
    pub holder: u32,
    /// The train where the first round's search along the path stopped; 0 where it came to its end or stopped at an empty link,
    /// where none ran, and in a refused update.
    pub met: u32,
}

/// Updates the free path of the train of an image.
pub fn update(image: &mut [u8], m: Move) -> Updated {
    let mut words = [0; layout::UPDATE_WORDS];
    let answer = update_into(image, m, &mut words);
    updated_of(answer, words)
}

/// An update by its words.
fn updated_of(answer: Result<(), Refusal>, words: [u64; layout::UPDATE_WORDS]) -> Updated {
    let status = answer.map(|()| match words[0] {
        4 => Status::Blocked,
        5 => Status::Faulty(words[1]),
        _ => Status::Success,
    });
    let (holder, met) = (words[5] as u32, words[6] as u32);
    Updated { status, rounds: words[2] as u16, strays: words[3], steps: words[4], holder, met }
}

/// [`update`] with its answer in words, as many as there is room for: the code, the errors, the rounds, the strays, the
/// steps, of a refused update too, the holder, and the train met.
pub fn update_into(image: &mut [u8], m: Move, answer: &mut [u64]) -> Result<(), Refusal> {
    Refusal::of(call!(lavtoeu_update, &mut image, &m.occupancy, &m.blocking, m.moved, m.local as u32, m.limit, &mut answer))
}

/// A yard of images, slot t for the t-th, which must hold train t.
pub fn yard(images: &[&[u8]]) -> Vec<u8> {
    let mut at = 8 + 4 * images.len();
    let size = at + images.iter().map(|i| i.len()).sum::<usize>();
    let mut out = vec![];
    out.extend((size as u32).to_le_bytes());
    out.extend((images.len() as u32).to_le_bytes());
    for image in images {
        out.extend((at as u32).to_le_bytes());
        at += image.len();
    }
    images.iter().for_each(|image| out.extend(*image));
    out
}

/// What a check found in a slot.
#[derive(Clone, Copy, Debug, PartialEq, Eq)]
pub enum Slot {
    Unvisited,
    Finished,
    Moved,
    Success,
    /// It has no way. The number is the report's holder column: the train that holds it, which may be another.
    Blocked(u16),
    /// With this many errors of the free path.
    Faulty(u32),
    Refused(Refusal),
}

/// A record of the report.
#[derive(Clone, Copy, Debug, PartialEq, Eq)]
pub struct Row {
    pub slot: Slot,
    pub rounds: u16,
    pub strays: u32,
    /// The train that the slot's update met, as [`Updated`] has it; 0 where the slot was not updated.
    pub met: u32,
}

/// The records of a report, in the order of the slots.
pub fn rows(report: &[u8]) -> Vec<Row> {
    report
        .chunks_exact(layout::REPORT_RECORD)
        .map(|b| {
            let half = |i: usize| u16::from_le_bytes([b[i], b[i + 1]]);
            let word = |i: usize| u32::from_le_bytes([b[i], b[i + 1], b[i + 2], b[i + 3]]);
            let slot = match half(0) {
                0 => Slot::Unvisited,
                1 => Slot::Finished,
                2 => Slot::Moved,
                3 => Slot::Success,
                4 => Slot::Blocked(half(6)),
                5 => Slot::Faulty(word(12)),
                code => Slot::Refused(Refusal { number: code.saturating_sub(16), place: half(2) }),
            };
            Row { slot, rounds: half(4), strays: word(8), met: word(16) }
        })
        .collect()
}

/// The answer of a check that was not refused.
#[derive(Clone, Copy, Debug, PartialEq, Eq)]
pub enum Checked {
    /// So many slots are faulty or refused.
    Erred(u64),
    /// Is a visited slot blocked? And the first unfinished slot from begin on.
    Done { deadlock: bool, next: u16 },
}

/// Checks every slot of a yard from `begin` on. `report` has [`layout::REPORT_RECORD`] bytes for each slot; [`rows`] reads it.
pub fn check(yard: &mut [u8], m: Move, begin: u16, report: &mut [u8]) -> Result<Checked, Refusal> {
    let mut words = [0; layout::CHECK_WORDS];
    check_into(yard, m, begin, report, &mut words)?;
    Ok(checked_of(words))
}

/// A check by its words.
fn checked_of(words: [u64; layout::CHECK_WORDS]) -> Checked {
    match words[0] {
        0 => Checked::Done { deadlock: words[1] != 0, next: words[2] as u16 },
        n => Checked::Erred(n),
    }
}

/// [`check`] with its answer in words, as many as there is room for: the number of slots that erred and, where it is 0, 1 for a
/// deadlock and the next begin. A refused check leaves `answer` as it was.
pub fn check_into(yard: &mut [u8], m: Move, begin: u16, report: &mut [u8], answer: &mut [u64]) -> Result<(), Refusal> {
    Refusal::of(call!(
        lavtoeu_check,
        &mut yard,
        &m.occupancy,
        &m.blocking,
        m.moved,
        begin,
        m.local as u32,
        m.limit,
        &mut report,
        &mut answer
    ))
}

/// The sheet of a bundle as text: `refused n`, or one line for the answer and one for each slot.
pub fn sheet(bundle: &[u8]) -> String {
    let mut text = [0; layout::SHEET_ROOM];
    let n = sheet_into(bundle, &mut text);
    String::from_utf8_lossy(&text[..n]).into_owned()
}

/// [`sheet`] in a buffer, as many bytes as there is room for. Gives how many these are.
pub fn sheet_into(bundle: &[u8], text: &mut [u8]) -> usize {
    call!(lavtoeu_sheet, &bundle, &mut text)
}

/// Writes the page of an image's path: for each node a line of 39 columns and a line end. It takes 40 bytes a node, and bytes past
/// these stay.
pub fn page(image: &[u8], page: &mut [u8]) -> Result<(), Refusal> {
    Refusal::of(call!(lavtoeu_page, &image, &mut page))
}

/// The most search steps of a round of an image's train: 3 E + 1. Refused by 6 to 9 over 4,000 links.
pub fn ceiling(image: &[u8]) -> Result<u64, Refusal> {
    let mut words = [0];
    Refusal::of(call!(lavtoeu_ceiling, &image, &mut words))?;
    Ok(words[0])
}

/// The most search steps of a check of a yard: the ceiling of each slot times the round limit, a refused image adding 0.
pub fn yard_ceiling(yard: &[u8], limit: u16) -> Result<u64, Refusal> {
    let mut words = [0];
    Refusal::of(call!(lavtoeu_yard_ceiling, &yard, limit, &mut words))?;
    Ok(words[0])
}
