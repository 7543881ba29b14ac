//! The operations of document 01, around the original text. A refused call
//! leaves its buffers as they were.

use crate::hook;
use crate::layout::*;
use crate::shims::si;
use crate::text::structs::*;
use crate::text::{hooked, plain};
use std::cell::Cell;
use std::fmt::Write;
use std::num::NonZeroU16;
use std::panic::{catch_unwind, AssertUnwindSafe};

// ---- values of the text

fn train_idx(n: u16) -> TrainIdx {
    NonZeroU16::new(n)
}
fn number(n: Option<NonZeroU16>) -> u16 {
    n.map_or(0, u16::from)
}
fn event(link: u32, kind: u8) -> LinkEvent {
    let est_type = [EstType::Arrive, EstType::Clear, EstType::Fake][kind as usize];
    LinkEvent { link_idx: LinkIdx::new(link), est_type }
}
fn est_time(x: &Est) -> EstTime {
    EstTime {
        dist_to_next: si::Length(x.dist_to_next),
        idx_next: x.next,
        idx_next_alt: x.alt,
        idx_prev: x.prev,
        idx_prev_alt: x.prev_alt,
        link_event: event(x.link, x.kind),
        ..Default::default()
    }
}
fn disp_node(x: &Node) -> DispNode {
    DispNode {
        offset: si::Length(x.offset),
        time_pass: si::Time(x.time_pass),
        link_event: event(x.link, x.kind),
        est_idx: x.est,
        disp_auth_idx_entry: train_idx(x.auth),
    }
}
fn node_of(x: &DispNode) -> Node {
    Node {
        offset: x.offset.0,
        time_pass: x.time_pass.0,
        link: x.link_event.link_idx.idx() as u32,
        est: x.est_idx,
        auth: number(x.disp_auth_idx_entry),
        kind: x.link_event.est_type as u8,
    }
}
fn trains(occ: &[u16]) -> Vec<TrainIdx> {
    occ.iter().map(|&n| train_idx(n)).collect()
}
fn links(xs: &[u32]) -> Vec<LinkIdx> {
    xs.iter().map(|&n| LinkIdx::new(n)).collect()
}

/// A train between its image and a TrainDisp, for one edition of the text.
macro_rules! edition {
    ($load:ident, $store:ident, $run:ident, $text:ident) => {
        fn $load(t: &Train) -> $text::train_disp::TrainDisp {
            let mut statuses: Vec<EstTimeStatus> = Vec::with_capacity(t.est.len());
            let est_times: Vec<EstTime> = t.est.iter().map(est_time).collect();
            statuses.extend(est_times.iter().map(EstTimeStatus::new));
            let mut d = $text::train_disp::TrainDisp {
                est_times,
                disp_path: t.path.iter().map(disp_node).collect(),
                div_nodes: t
                    .div
                    .iter()
                    .map(|x| DivergeNode {
                        train_idx: train_idx(u16::try_from(x.train).expect("a train of 16 bits")),
                        disp_node_idx: NonZeroU16::new(x.node),
                    })
                    .collect(),
                div_nodes_new: vec![Default::default()],
                train_idxs_blocking: vec![None],
                disp_node_idx_fixed: NonZeroU16::new(t.fixed),
                disp_node_idx_free: NonZeroU16::new(t.free),
                disp_node_idx_front: NonZeroU16::new(t.front),
                disp_node_idx_back: NonZeroU16::new(t.back),
                train_idx: train_idx(t.train),
                dist_disp_path_search: si::Length(t.dist_disp_path_search),
                dist_fixed_max: si::Length(t.dist_fixed_max),
                ..Default::default()
            };
            for x in &d.disp_path {
                statuses[x.est_idx.idx()].is_on_path = true;
                let arrives = x.link_event.est_type == EstType::Arrive;
                if arrives {
                    d.links_on_path.insert(x.link_event.link_idx);
                }
                d.link_idx_path.push(if arrives { x.link_event.link_idx } else { LINK_IDX_NA });
            }
            d.link_idx_path.push(LINK_IDX_NA);
            d.est_time_statuses = statuses;
            d
        }

        fn $store(d: &$text::train_disp::TrainDisp, t: &mut Train) {
            t.path.clear();
            t.path.extend(d.disp_path.iter().map(node_of));
            t.div.clear();
            t.div.extend(
                d.div_nodes
                    .iter()
                    .map(|x| Diverge { train: number(x.train_idx) as u32, node: number(x.disp_node_idx) }),
            );
            t.fixed = number(d.disp_node_idx_fixed);
            t.free = number(d.disp_node_idx_free);
            t.front = number(d.disp_node_idx_front);
            t.back = number(d.disp_node_idx_back);
        }

        /// Runs the update of the text; the train changes unless it is refused. A panic has its line of free_path.rs,
        /// else 0.
        fn $run(
            t: &mut Train,
            occ: &[TrainIdx],
            blocking: &[LinkIdx],
            moved: u16,
            local: bool,
        ) -> (Outcome, u32) {
            use $text::free_path::FreePathStatus::*;
            let mut d = $load(t);
            let run =
                catch_unwind(AssertUnwindSafe(|| d.update_free_path(train_idx(moved), blocking, local, occ)));
            let outcome = match run {
                Ok(Ok(UpdateSuccess)) => Outcome::Success,
                Ok(Ok(Blocked)) => Outcome::Blocked,
                Ok(Err(errors)) => Outcome::Faulty(errors.0 as u32),
                Err(payload) => match payload.downcast::<hook::Refused>() {
                    Ok(refused) => return (Outcome::Refused(refusal(refused.0)), 0),
                    Err(_) => return (Outcome::Refused(refusal(13)), LINE.with(|l| l.get())),
                },
            };
            $store(&d, t);
            (outcome, 0)
        }
    };
}
edition!(load_plain, store_plain, run_plain, plain);
edition!(load_hooked, store_hooked, run_hooked, hooked);

thread_local! {
    static LINE: Cell<u32> = const { Cell::new(0) };
    /// Whether a panic outside free_path.rs is told.
    static TOLD: Cell<bool> = const { Cell::new(true) };
}

/// Makes panics silent and keeps their lines. To be called once, before the calls below.
pub fn quiet_panics() {
    std::panic::set_hook(Box::new(|info| {
        let Some(at) = info.location() else { return };
        if at.file().ends_with("free_path.rs") {
            LINE.with(|l| l.set(at.line()));
        } else {
            if TOLD.with(Cell::get) {
                eprintln!("panic outside free_path.rs: {info}");
            }
            LINE.with(|l| l.set(0));
        }
    }));
}

/// Calls a part of the text, which may panic in the types that it uses.
pub fn caught<T>(f: impl FnOnce() -> T) -> std::thread::Result<T> {
    TOLD.with(|t| t.set(false));
    let r = catch_unwind(AssertUnwindSafe(f));
    TOLD.with(|t| t.set(true));
    r
}

/// The line of free_path.rs where the last panic was; 0 outside it.
pub fn panic_line() -> u32 {
    LINE.with(Cell::get)
}

// ---- mark or release

/// What ALTRIOS keeps between two marks.
pub struct Kept {
    network: Vec<Link>,
    links_blocked: Vec<TrainIdx>,
}

impl Kept {
    pub fn new(records: &[LinkRecord], occ: &[u16]) -> Kept {
        let network = records
            .iter()
            .map(|x| Link { idx_flip: LinkIdx::new(x.flip), link_idxs_lockout: links(&x.lockouts) })
            .collect();
        Kept { network, links_blocked: trains(occ) }
    }

    pub fn mark(&mut self, link: u32, train: u16) {
        update_links_blocked(&mut self.links_blocked, &self.network, LinkIdx::new(link), train_idx(train));
    }
}

pub fn mark(table: &[u8], occ: &mut [u16], link: u32, train: u16) -> Result<(), Refusal> {
    let records = read_table(table).ok_or(refusal(1))?;
    if occ.len() != records.len() {
        return Err(refusal(2));
    }
    if link == 0 || link as usize >= records.len() {
        return Err(refusal(3));
    }
    let mut kept = Kept::new(&records, occ);
    kept.mark(link, train);
    for (o, t) in occ.iter_mut().zip(kept.links_blocked) {
        *o = number(t);
    }
    Ok(())
}

// ---- lay out

/// `est` holds the E records; a length that is no multiple of 32 is a wrong E.
pub fn lay_out(
    est: &[u8],
    train: u16,
    search: f64,
    fixed_max: f64,
    q: u32,
    l: u32,
    image: &mut [u8],
) -> Result<(), Refusal> {
    if train == 0 {
        return Err(refusal(5));
    }
    let (e, q, l) = (est.len() / RECORD, q as usize, l as usize);
    let sizes_ok = est.len() % RECORD == 0
        && est_count_ok(e)
        && diverge_room_ok(q)
        && link_count_ok(l)
        && image.len() == image_size(e, q);
    let records = sizes_ok.then(|| read_est(est)).flatten().ok_or(refusal(6))?;
    est_values(&records, l)?;
    if !settings_ok(search, fixed_max) {
        return Err(refusal(7));
    }
    cycles(&records)?;
    let t = laid_out(records, train, search, fixed_max, q);
    if let Some(i) = repeated_arrive(&t.path, l) {
        return Err(Refusal { number: 9, place: i as u32 });
    }
    if t.path.iter().any(|x| x.offset.abs() > hook::OFFSET_ROOM) {
        return Err(refusal(11));
    }
    write_image(&t, image);
    Ok(())
}

/// TrainDisp::new.
fn laid_out(est: Vec<Est>, train: u16, search: f64, fixed_max: f64, div_room: usize) -> Train {
    let d = plain::train_disp::TrainDisp::new(
        String::new(),
        train_idx(train),
        si::Time::ZERO,
        si::Time::ZERO,
        si::Length(search),
        si::Length(fixed_max),
        si::Acceleration::ZERO,
        EstTimeNet::new(est.iter().map(est_time).collect()),
    )
    .ok()
    .expect("a train with a number is made");
    let mut t = Train {
        wide: false,
        est,
        path: vec![],
        div: vec![],
        div_room,
        train,
        fixed: 0,
        free: 0,
        front: 0,
        back: 0,
        dist_disp_path_search: d.dist_disp_path_search.0,
        dist_fixed_max: d.dist_fixed_max.0,
    };
    store_plain(&d, &mut t);
    t
}

// ---- update

#[derive(Debug, Clone, Copy, PartialEq, Eq)]
pub enum Outcome {
    Success,
    Blocked,
    Faulty(u32),
    Refused(Refusal),
}

/// The answer of an update. `line` is where the Rust panicked, for 13 only, and no part of the answer.
#[derive(Debug, Clone, Copy, PartialEq, Eq)]
pub struct Updated {
    pub outcome: Outcome,
    pub rounds: u32,
    pub strays: u32,
    /// Entries into the search loop.
    pub steps: u64,
    /// Who holds a blocked train; 0 in every other answer.
    pub holder: u32,
    /// The train that was met; 0 in a refused answer.
    pub met: u32,
    pub line: u32,
}

pub fn refused(r: Refusal) -> Updated {
    Updated { outcome: Outcome::Refused(r), rounds: 0, strays: 0, steps: 0, holder: 0, met: 0, line: 0 }
}

/// Arguments of update and check: 2, 4, 5.
pub fn arguments(l: usize, blocking: &[u32], moved: u32, limit: u16) -> Result<(), Refusal> {
    if !link_count_ok(l) {
        return Err(refusal(2));
    }
    if blocking.len() > 4_000 || blocking.iter().any(|&b| b as usize >= l) {
        return Err(refusal(4));
    }
    if moved == 0 || limit == 0 {
        return Err(refusal(5));
    }
    Ok(())
}

pub fn update(
    image: &mut [u8],
    occ: &[u16],
    blocking: &[u32],
    moved: u16,
    local: bool,
    limit: u16,
) -> Updated {
    if let Err(r) = arguments(occ.len(), blocking, moved as u32, limit) {
        return refused(r);
    }
    let mut t = match read_image(image, occ.len()) {
        Ok(t) => t,
        Err(r) => return refused(r),
    };
    let updated = update_train(&mut t, &trains(occ), blocking, moved, local, limit);
    if !matches!(updated.outcome, Outcome::Refused(_)) {
        write_image(&t, image);
    }
    updated
}

/// For each link whether it is in the blocking list and on an Arrive node of the path.
fn known_links(t: &Train, l: usize, blocking: &[u32]) -> Vec<bool> {
    let mut on_path = vec![false; l];
    for x in t.path.iter().filter(|x| x.kind == ARRIVE) {
        on_path[x.link as usize] = true;
    }
    let mut known = vec![false; l];
    for &b in blocking {
        known[b as usize] = on_path[b as usize];
    }
    known
}

/// An update of an accepted train: 10, then the hooked text.
fn update_train(
    t: &mut Train,
    occ: &[TrainIdx],
    blocking: &[u32],
    moved: u16,
    local: bool,
    limit: u16,
) -> Updated {
    if t.free as usize == t.path.len() {
        return refused(refusal(10));
    }
    hook::begin(hook::Run {
        limit: limit as u32,
        diverge_room: t.div_room,
        known: known_links(t, occ.len(), blocking),
        ..Default::default()
    });
    let (outcome, line) = run_hooked(t, occ, &links(blocking), moved, local);
    let (rounds, strays) = hook::rounds_and_strays();
    let met = if matches!(outcome, Outcome::Refused(_)) { 0 } else { hook::met() as u32 };
    Updated { outcome, rounds, strays, steps: hook::steps(), holder: hook::holder() as u32, met, line }
}

/// The same over an occupancy as it is lent.
pub fn update_accepted(
    t: &mut Train,
    occ: &[u16],
    blocking: &[u32],
    moved: u16,
    local: bool,
    limit: u16,
) -> Updated {
    update_train(t, &trains(occ), blocking, moved, local, limit)
}

/// Reads the image, runs the plain text and writes: no hooks, no limit. For the
/// comparison with the hooked text and for measuring. It does not end where the
/// Rust does not.
pub fn update_plain(
    image: &mut [u8],
    occ: &[u16],
    blocking: &[u32],
    moved: u16,
    local: bool,
) -> (Outcome, u32) {
    let mut t = match read_image(image, occ.len()) {
        Ok(t) => t,
        Err(r) => return (Outcome::Refused(r), 0),
    };
    if t.free as usize == t.path.len() {
        return (Outcome::Refused(refusal(10)), 0);
    }
    let ran = run_plain(&mut t, &trains(occ), &links(blocking), moved, local);
    if !matches!(ran.0, Outcome::Refused(_)) {
        write_image(&t, image);
    }
    ran
}

/// A train as ALTRIOS keeps it between two updates, and the arguments of one, for times: no bytes are read or written.
#[derive(Clone)]
pub struct KeptTrain {
    train: plain::train_disp::TrainDisp,
    links_blocked: Vec<TrainIdx>,
    blocking: Vec<LinkIdx>,
    moved: TrainIdx,
    local: bool,
}

impl KeptTrain {
    /// None where the image is refused by 6 to 9.
    pub fn new(image: &[u8], occ: &[u16], blocking: &[u32], moved: u16, local: bool) -> Option<KeptTrain> {
        let t = read_image(image, occ.len()).ok()?;
        Some(KeptTrain {
            train: load_plain(&t),
            links_blocked: trains(occ),
            blocking: links(blocking),
            moved: train_idx(moved),
            local,
        })
    }

    /// update_free_path of the plain text; true where it has no errors.
    pub fn update(&mut self) -> bool {
        self.train.update_free_path(self.moved, &self.blocking, self.local, &self.links_blocked).is_ok()
    }
}

// ---- check

#[derive(Debug, Clone, Copy, PartialEq, Eq)]
pub enum Checked {
    Done { deadlock: bool, next: u32 },
    Erred(u32),
    Refused(Refusal),
}

/// Bytes of a record of the report: document 01's 16, then the train met.
pub const ROW: usize = 20;

/// A record of the report.
#[derive(Debug, Clone, Copy, Default, PartialEq, Eq)]
pub struct Row {
    pub code: u16,
    pub place: u16,
    pub rounds: u16,
    pub holder: u32,
    pub strays: u32,
    pub faults: u32,
    pub met: u32,
}

pub const FINISHED: u16 = 1;
pub const MOVED: u16 = 2;
pub const SUCCESS: u16 = 3;
pub const BLOCKED: u16 = 4;
pub const FAULTY: u16 = 5;
pub const REFUSED: u16 = 16;

pub fn row_refused(r: Refusal) -> Row {
    Row { code: REFUSED + r.number as u16, place: r.place as u16, ..Row::default() }
}

pub fn row_of(u: &Updated) -> Row {
    let row = match u.outcome {
        Outcome::Success => Row { code: SUCCESS, ..Row::default() },
        Outcome::Blocked => Row { code: BLOCKED, holder: u.holder, ..Row::default() },
        Outcome::Faulty(faults) => Row { code: FAULTY, faults, ..Row::default() },
        Outcome::Refused(r) => row_refused(r),
    };
    Row { rounds: u.rounds as u16, strays: u.strays, met: u.met, ..row }
}

pub fn row_at(report: &[u8], i: usize) -> Row {
    let r = &report[ROW * i..][..ROW];
    Row {
        code: u16_at(r, 0),
        place: u16_at(r, 2),
        rounds: u16_at(r, 4),
        holder: u16_at(r, 6) as u32,
        strays: u32_at(r, 8),
        faults: u32_at(r, 12),
        met: u32_at(r, 16),
    }
}

pub fn put_row(report: &mut [u8], i: usize, x: &Row) {
    let r = &mut report[ROW * i..][..ROW];
    let holder = u16::try_from(x.holder).expect("a train of 16 bits");
    for (j, n) in [x.code, x.place, x.rounds, holder].into_iter().enumerate() {
        put_u16(r, 2 * j, n);
    }
    put_u32(r, 8, x.strays);
    put_u32(r, 12, x.faults);
    put_u32(r, 16, x.met);
}

/// The calls of a check: what does not change from slot to slot.
#[derive(Clone, Copy)]
pub struct CheckArgs<'a> {
    pub occ: &'a [u16],
    pub blocking: &'a [u32],
    pub moved: u16,
    pub begin: u32,
    pub local: bool,
    pub limit: u16,
}

/// What became of a slot: its record, and the answer of its update where it had one.
#[derive(Debug, Clone, Copy, Default, PartialEq)]
pub struct Visit {
    pub row: Row,
    pub updated: Option<Updated>,
}

impl Visit {
    pub fn of(row: Row) -> Visit {
        Visit { row, updated: None }
    }
}

fn check_slot(image: &mut [u8], slot: usize, a: &CheckArgs, occ: &[TrainIdx]) -> Visit {
    let mut t = match read_image(image, a.occ.len()) {
        Ok(t) => t,
        Err(r) => return Visit::of(row_refused(r)),
    };
    if t.free as usize == t.path.len() {
        return Visit::of(Row { code: FINISHED, ..Row::default() });
    }
    if slot == a.moved as usize {
        return Visit::of(Row { code: MOVED, ..Row::default() });
    }
    let u = update_train(&mut t, occ, a.blocking, a.moved, a.local, a.limit);
    if !matches!(u.outcome, Outcome::Refused(_)) {
        write_image(&t, image);
    }
    Visit { row: row_of(&u), updated: Some(u) }
}

fn check_refusal(yard: &[u8], a: &CheckArgs, report: &[u8]) -> Result<Vec<std::ops::Range<usize>>, Refusal> {
    arguments(a.occ.len(), a.blocking, a.moved as u32, a.limit)?;
    let parts = read_yard(yard).ok_or(refusal(14))?;
    let s = parts.len();
    if a.moved as usize > s || a.begin == 0 || a.begin as usize > s + 1 {
        return Err(refusal(15));
    }
    if report.len() != ROW * s {
        return Err(refusal(16));
    }
    Ok(parts)
}

pub fn check(yard: &mut [u8], a: &CheckArgs, report: &mut [u8]) -> Checked {
    check_visits(yard, a, report).0
}

/// The same with what became of each slot; of a refused check nothing.
pub fn check_visits(yard: &mut [u8], a: &CheckArgs, report: &mut [u8]) -> (Checked, Vec<Visit>) {
    let parts = match check_refusal(yard, a, report) {
        Ok(parts) => parts,
        Err(r) => return (Checked::Refused(r), vec![]),
    };
    let occ = trains(a.occ);
    let begin = a.begin as usize;
    let visits: Vec<Visit> = parts
        .iter()
        .enumerate()
        .map(|(i, part)| {
            if i + 1 < begin {
                return Visit::default();
            }
            check_slot(&mut yard[part.clone()], i + 1, a, &occ)
        })
        .collect();
    let rows: Vec<Row> = visits.iter().map(|v| v.row).collect();
    for (i, row) in rows.iter().enumerate() {
        put_row(report, i, row);
    }
    (answer_of(&rows, begin), visits)
}

pub fn answer_of(rows: &[Row], begin: usize) -> Checked {
    let bad = rows.iter().filter(|r| r.code >= FAULTY).count();
    if bad > 0 {
        return Checked::Erred(bad as u32);
    }
    let deadlock = rows.iter().any(|r| r.code == BLOCKED);
    let next = (begin..=rows.len()).find(|&s| rows[s - 1].code != FINISHED).unwrap_or(rows.len() + 1);
    Checked::Done { deadlock, next: next as u32 }
}

/// The plain check_deadlock over a yard whose slots are all accepted; none where
/// a slot is refused by 6 to 9. Used where the hooked check refused no slot.
pub fn check_plain(yard: &mut [u8], a: &CheckArgs) -> Option<Checked> {
    let parts = read_yard(yard)?;
    let mut slots: Vec<Train> = Vec::new();
    for part in &parts {
        slots.push(read_image(&yard[part.clone()], a.occ.len()).ok()?);
    }
    let mut disps = vec![plain::train_disp::TrainDisp::default()];
    disps.extend(slots.iter().map(load_plain));
    disps[a.moved as usize].link_idxs_blocking = links(a.blocking);
    let occ = trains(a.occ);
    let checked = catch_unwind(AssertUnwindSafe(|| {
        plain::dispatch::check_deadlock(&mut disps, &occ, a.begin as usize, train_idx(a.moved), a.local)
    }))
    .ok()?;
    for ((t, d), part) in slots.iter_mut().zip(&disps[1..]).zip(&parts) {
        store_plain(d, t);
        write_image(t, &mut yard[part.clone()]);
    }
    Some(match checked {
        Ok((deadlock, next)) => Checked::Done { deadlock, next: next as u32 },
        Err(errors) => Checked::Erred(errors.len() as u32),
    })
}

// ---- sheet

fn code_word(code: u16) -> String {
    match code {
        0 => "unvisited".into(),
        FINISHED => "finished".into(),
        MOVED => "moved".into(),
        SUCCESS => "success".into(),
        BLOCKED => "blocked".into(),
        FAULTY => "faulty".into(),
        n => format!("refused-{}", n - REFUSED),
    }
}

/// What the program `sheet` prints for a bundle.
pub fn sheet(bytes: &[u8]) -> String {
    let Some(bundle) = read_bundle(bytes) else {
        return "refused 17\n".into();
    };
    let mut yard = bundle.yard.to_vec();
    let slots = read_yard(&yard).map_or(0, |parts| parts.len());
    let mut report = vec![0; ROW * slots];
    let args = CheckArgs {
        occ: &bundle.occupancy,
        blocking: &bundle.blocking,
        moved: bundle.moved,
        begin: bundle.begin as u32,
        local: bundle.local,
        limit: bundle.limit,
    };
    let mut text = match check(&mut yard, &args, &mut report) {
        Checked::Refused(r) => return format!("refused {}\n", r.number),
        Checked::Erred(n) => format!("yard {slots} erred {n}\n"),
        Checked::Done { deadlock, next } => {
            format!("yard {slots} deadlock {} next {next}\n", if deadlock { "yes" } else { "no" })
        }
    };
    for (i, part) in read_yard(&yard).unwrap().into_iter().enumerate() {
        let r = row_at(&report, i);
        let free = read_image(&yard[part], bundle.occupancy.len()).map_or(0, |t| t.free);
        text += &format!(
            "{} {} {} {} {} {} {free} {}\n",
            i + 1,
            code_word(r.code),
            r.rounds,
            r.holder,
            r.strays,
            r.faults,
            r.met
        );
    }
    text
}

// ---- page

/// L of a call that has no occupancy.
pub const LINKS: usize = 4_000;

/// Gives the nearest whole number of a float.
pub type Rounding = fn(f64) -> f64;

/// How a page rounds: halves to the even number.
pub const ROUNDING: Rounding = f64::round_ties_even;

/// A line for each node of the path, 39 columns and a line end.
pub fn lines(t: &Train, round: Rounding) -> String {
    let mut text = String::with_capacity(40 * t.path.len());
    for (i, x) in t.path.iter().enumerate() {
        let kind = ["Arrive", "Clear", "Fake"][x.kind as usize];
        // a whole number in place of the float: its zero has no sign
        let offset = round(x.offset) as i64;
        writeln!(text, "{i:>5} {:>5} {kind:<6} {:>5} {offset:>14}", x.est, x.link).expect("text has room");
    }
    text
}

pub fn page(image: &[u8], page: &mut [u8], round: Rounding) -> Result<(), Refusal> {
    let t = read_any(image, LINKS)?;
    let size = 40 * t.path.len();
    if page.len() < size {
        return Err(refusal(18));
    }
    page[..size].copy_from_slice(lines(&t, round).as_bytes());
    Ok(())
}

// ---- profile

/// The largest multiple of 1/1024 metre in the profile, 40,000 metres.
pub const PROFILE_MOST: u64 = 40_960_000;

/// Is a float k/1024 with k from 0 to 40,960,000? By its bits: its size is a significand times 2 to the power of
/// an exponent - 1075.
pub fn in_profile(x: f64) -> bool {
    let (negative, exponent, fraction) =
        (x.is_sign_negative(), x.to_bits() >> 52 & 0x7ff, x.to_bits() & ((1 << 52) - 1));
    let significand = if exponent == 0 { fraction } else { fraction | 1 << 52 };
    if significand == 0 {
        return true;
    }
    // 1,024 times the size is the significand without so many bits at its end, which must be 0
    match 1_065u64.checked_sub(exponent.max(1)) {
        Some(bits) if bits <= significand.trailing_zeros() as u64 => {
            !negative && significand >> bits <= PROFILE_MOST
        }
        _ => false,
    }
}

pub fn profile(image: &[u8]) -> Result<(), Refusal> {
    let t = read_any(image, LINKS)?;
    let distances = t.est.iter().map(|x| x.dist_to_next);
    let settings = [t.dist_disp_path_search, t.dist_fixed_max];
    let offsets = t.path.iter().map(|x| x.offset);
    if distances.chain(settings).chain(offsets).all(in_profile) {
        Ok(())
    } else {
        Err(refusal(29))
    }
}

// ---- ceilings

/// The most entries into the search loop in a round, from the image alone.
pub fn ceiling(image: &[u8]) -> Result<u64, Refusal> {
    let t = read_any(image, LINKS)?;
    Ok(3 * t.est.len() as u64 + 1)
}

/// The same for every slot of a yard and up to the round limit; a refused image adds nothing.
pub fn yard_ceiling(yard: &[u8], limit: u16) -> Result<u64, Refusal> {
    if limit == 0 {
        return Err(refusal(5));
    }
    let parts = read_yard(yard).ok_or(refusal(14))?;
    Ok(parts.into_iter().map(|part| ceiling(&yard[part]).map_or(0, |n| n * limit as u64)).sum())
}
