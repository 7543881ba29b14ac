//! What the hooked text calls: rounds, strays, room (11), the round limit (12),
//! and the counters of branches. A refusal unwinds with `Refused`.

use crate::shims::si;
use crate::text::structs::{DispNode, EstType, LinkIdx, TrainIdx, TrainIdxsView};
use std::cell::{Cell, RefCell};

pub const POOL_ROOM: usize = 2_048;
pub const OFFSET_ROOM: f64 = 1e12;

/// The payload of a refusal.
pub struct Refused(pub u8);

/// What an update counts, and the limits that it is held to.
#[derive(Default, Clone)]
pub struct Run {
    pub limit: u32,
    pub diverge_room: usize,
    /// For each link whether it is in the blocking list and on an Arrive node of the starting path.
    pub known: Vec<bool>,
    pub rounds: u32,
    pub strays: u32,
    /// Which limit refused, for the figures.
    pub cause: &'static str,
    /// The longest pool and diverge list met, for the figures.
    pub pool_most: usize,
    pub diverge_most: usize,
    /// Entries into the search loop in this round, and the most in a round.
    pub entries: usize,
    pub entries_most: usize,
    /// The same over all rounds.
    pub entries_all: usize,
    /// The blocking view last given to an est node in this round, and the line that gave it.
    pub given: Option<(u32, TrainIdxsView)>,
    /// The first train of that view where the round ended Blocked.
    pub holder: u16,
    /// The train where the search of the first round for a meeting place stopped; none where none ran.
    pub met: Option<u16>,
    /// The first train of the est node that was blocked last, for the trial of Q-3.
    pub last_blocked: u16,
}

const BRANCH_ROOM: usize = 256;

thread_local! {
    static RUN: RefCell<Run> = RefCell::new(Run::default());
    static TAKEN: [Cell<u64>; BRANCH_ROOM] = const { [const { Cell::new(0) }; BRANCH_ROOM] };
    static PASSED: [Cell<u64>; BRANCH_ROOM] = const { [const { Cell::new(0) }; BRANCH_ROOM] };
    static EQUAL: [Cell<u64>; BRANCH_ROOM] = const { [const { Cell::new(0) }; BRANCH_ROOM] };
}

pub fn begin(run: Run) {
    RUN.with(|r| *r.borrow_mut() = run);
}

pub fn state() -> Run {
    RUN.with(|r| r.borrow().clone())
}

pub fn rounds_and_strays() -> (u32, u32) {
    RUN.with(|r| {
        let r = r.borrow();
        (r.rounds, r.strays)
    })
}

/// Entries into the search loop over all rounds, a refused one too.
pub fn steps() -> u64 {
    RUN.with(|r| r.borrow().entries_all as u64)
}

/// Who holds the train of an update that ended Blocked; 0 after any other.
pub fn holder() -> u16 {
    RUN.with(|r| r.borrow().holder)
}

/// The train that was met in the first round; 0 where none was, or no search for a meeting place ran.
pub fn met() -> u16 {
    RUN.with(|r| r.borrow().met.unwrap_or(0))
}

fn refuse(number: u8, cause: &'static str) -> ! {
    RUN.with(|r| r.borrow_mut().cause = cause);
    std::panic::resume_unwind(Box::new(Refused(number)))
}

/// The top of the outer loop.
pub fn round() {
    let due = RUN.with(|r| {
        let mut r = r.borrow_mut();
        if r.rounds == r.limit {
            return true;
        }
        r.rounds += 1;
        r.entries = 0;
        r.given = None;
        false
    });
    if due {
        refuse(12, "limit");
    }
}

/// The top of the search loop.
pub fn entry() {
    RUN.with(|r| {
        let mut r = r.borrow_mut();
        r.entries += 1;
        r.entries_all += 1;
        r.entries_most = r.entries_most.max(r.entries);
    });
}

/// The search for a meeting place has stopped at this index of the path; the sentinel's is the straighten point.
pub fn meeting(at: usize, sentinel: usize, link_idx_path: &[LinkIdx], links_blocked: &[TrainIdx]) {
    RUN.with(|r| {
        let mut r = r.borrow_mut();
        if r.rounds == 1 {
            let train = if at < sentinel { links_blocked[link_idx_path[at].idx()] } else { None };
            r.met = Some(train.map_or(0, u16::from));
        }
    });
}

/// A blocking view is given to an est node.
pub fn given(line: u32, view: TrainIdxsView) {
    RUN.with(|r| r.borrow_mut().given = Some((line, view)));
}

/// The round ends Blocked; the pool still holds its trains. `last` is the view of the est node that was blocked last.
pub fn blocked(pool: &[TrainIdx], last: Option<TrainIdxsView>) {
    let first = |view: Option<TrainIdxsView>| match view {
        Some(v) if v.idx_begin != v.idx_end => pool[v.idx_begin as usize].map_or(0, u16::from),
        _ => 0,
    };
    RUN.with(|r| {
        let mut r = r.borrow_mut();
        r.holder = first(r.given.map(|(_, view)| view));
        r.last_blocked = first(last);
    });
}

/// Strays at the start of an update and after a round that did not end Blocked.
pub fn count(path: &[DispNode], free: usize, links_blocked: &[TrainIdx]) {
    RUN.with(|r| {
        let mut r = r.borrow_mut();
        let n = path[free..]
            .iter()
            .filter(|x| x.link_event.est_type == EstType::Arrive)
            .map(|x| x.link_event.link_idx.idx())
            .filter(|&l| links_blocked[l].is_some() && !r.known[l])
            .count();
        r.strays += n as u32;
    });
}

pub fn pool(len: usize) {
    RUN.with(|r| {
        let mut r = r.borrow_mut();
        r.pool_most = r.pool_most.max(len);
    });
    if len > POOL_ROOM {
        refuse(11, "pool");
    }
}

pub fn diverge(len: usize) {
    diverge_room(len, "diverge list")
}

pub fn diverge_new(len: usize) {
    diverge_room(len, "new diverge list")
}

fn diverge_room(len: usize, cause: &'static str) {
    let full = RUN.with(|r| {
        let mut r = r.borrow_mut();
        r.diverge_most = r.diverge_most.max(len);
        len > r.diverge_room
    });
    if full {
        refuse(11, cause);
    }
}

pub fn offset(x: si::Length) {
    offset_room(x, "pushed offset")
}

pub fn offsets(path: &[DispNode]) {
    path.iter().for_each(|x| offset_room(x.offset, "shifted offset"));
}

fn offset_room(x: si::Length, cause: &'static str) {
    if x.0.abs() > OFFSET_ROOM {
        refuse(11, cause);
    }
}

pub fn hit(id: usize) {
    TAKEN.with(|t| t[id].set(t[id].get() + 1));
}

pub fn cond(id: usize, value: bool) -> bool {
    if value {
        hit(id);
    } else {
        PASSED.with(|p| p[id].set(p[id].get() + 1));
    }
    value
}

/// The two sides of a comparison by order.
pub fn equal(id: usize, value: bool) {
    if value {
        EQUAL.with(|e| e[id].set(e[id].get() + 1));
    }
}

/// How often a branch was taken, a condition false, and the sides of a comparison equal.
pub fn counts(id: usize) -> [u64; 3] {
    [TAKEN.with(|t| t[id].get()), PASSED.with(|p| p[id].get()), EQUAL.with(|e| e[id].get())]
}

/// Which of the three counts a branch of this kind has.
pub fn counted(kind: &str) -> usize {
    match kind {
        "order" => 3,
        "cond" => 2,
        _ => 1,
    }
}
