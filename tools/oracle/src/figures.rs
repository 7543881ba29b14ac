//! Runs many calls, compares the hooked text with the plain one, and counts what was met.

use crate::calls;
use crate::cases::*;
use crate::gen::*;
use crate::hook;
use crate::layout::*;
use crate::leaves;
use crate::model::{self, CheckArgs, Checked, Outcome};
use crate::rng::Rng;
use crate::text::BRANCHES;
use crate::yards::*;
use std::collections::BTreeMap;

/// The panic sites of free_path.rs that accepted images reach.
pub const SITES: [u32; 21] =
    [296, 338, 356, 364, 365, 366, 378, 424, 426, 430, 503, 506, 507, 544, 552, 616, 617, 624, 709, 726, 733];

/// The refusals of each operation.
const REFUSALS: [(&str, &[u32]); 5] = [
    ("mark", &[1, 2, 3]),
    ("layout", &[5, 6, 7, 8, 9, 11]),
    ("update", &[2, 4, 5, 6, 7, 8, 9, 10, 11, 12, 13]),
    ("check", &[2, 4, 5, 14, 15, 16]),
    ("sheet", &[2, 4, 5, 14, 15, 17]),
];

/// The codes of a slot. Refused 10 is not among them: finished comes first.
const CODES: [u16; 13] = [0, 1, 2, 3, 4, 5, 22, 23, 24, 25, 27, 28, 29];

#[derive(Default)]
pub struct Figures {
    pub cases: u64,
    pub updates: u64,
    pub updates_compared: u64,
    pub checks_compared: u64,
    pub differences: u64,
    pub unaccepted: u64,
    answers: BTreeMap<String, u64>,
    sites: BTreeMap<u32, u64>,
    rounds_most: u32,
    pool_most: usize,
    diverge_most: usize,
    entries_most: usize,
    long_searches: u64,
    full_searches: u64,
}

fn refused(op: &str, number: u32) -> String {
    format!("{op:<6} refused {number:2}")
}

/// The name of an answer that is a refusal or none.
fn done(op: &str, number: u32) -> String {
    match number {
        0 => format!("{op:<6} done"),
        n => refused(op, n),
    }
}

/// The name of a check's answer.
fn checked(op: &str, answer: [u32; 8]) -> String {
    match answer[0] {
        0 => format!("{op} not erred"),
        1 => format!("{op} erred"),
        _ => refused(op, answer[1]),
    }
}

fn slot_code(code: u16) -> String {
    format!("slot   code {code:2}")
}

fn sheet_name(text: &[u8]) -> String {
    let text = String::from_utf8_lossy(text);
    let words: Vec<&str> = text.lines().next().unwrap_or("").split(' ').collect();
    match words[..] {
        ["refused", n] => refused("sheet", n.parse().unwrap()),
        ["yard", _, "erred", _] => "sheet  erred".into(),
        _ => format!("sheet  deadlock {}", words[3]),
    }
}

/// What an answered case counts as.
pub fn names(c: &Case) -> Vec<String> {
    let a = c.answer;
    match c.op {
        MARK => vec![done("mark", a[0])],
        LAY_OUT => vec![done("layout", a[0])],
        PAGE => vec![done("page", a[0])],
        REPLAY => vec![done("replay", a[0])],
        VIEW => vec![done("view", a[0])],
        ACT => vec![done("act", a[0])],
        PROFILE => vec![done("profile", a[0])],
        CEILING => vec![done("ceiling", a[0])],
        YARD_CEILING => vec![done("yard ceiling", a[0])],
        WIDE_MARK => vec![done("wide mark", a[0])],
        GAME if a[0] == 0 => vec![["game   no", "game   yes"][a[2] as usize].into()],
        GAME => vec![refused("game", a[0])],
        RECORDED_CHECK | WIDE_RECORDED_CHECK => vec![checked("recorded check", a)],
        UNDO => vec![done("undo", a[0])],
        INDEX => vec![done("index", a[0])],
        INDEXED_CHECK => vec![checked("check beside an index", a)],
        WIDE_INDEXED_CHECK => vec![checked("wide check beside an index", a)],
        RECORDED_INDEXED_CHECK => vec![checked("recorded check beside an index", a)],
        WIDE_RECORDED_INDEXED_CHECK => vec![checked("recorded wide check beside an index", a)],
        INDEXED_LAY_OUT => vec![done("layout beside an index", a[0])],
        INDEXED_UNDO => vec![done("undo beside an index", a[0])],
        CARRY => vec![done("step of carrying", a[0])],
        HALF_CHECK => vec![checked("half check", a)],
        WIDEN => vec![done("widen", a[0])],
        NARROW => vec![done("narrow", a[0])],
        WIDE_UPDATE if a[0] < 3 => {
            vec![format!("wide update {}", ["success", "blocked", "faulty"][a[0] as usize])]
        }
        WIDE_UPDATE => vec![refused("wide update", a[1])],
        WIDE_CHECK => vec![checked("wide check", a)],
        UPDATE if a[0] < 3 => vec![format!("update {}", ["success", "blocked", "faulty"][a[0] as usize])],
        UPDATE if a[1] == 11 => {
            vec![refused("update", 11), format!("{} by {}", refused("update", 11), hook::state().cause)]
        }
        UPDATE => vec![refused("update", a[1])],
        CHECK if a[0] == 2 => vec![refused("check", a[1])],
        CHECK => {
            let first = if a[0] == 1 {
                "check  erred".into()
            } else {
                format!("check  deadlock {}", ["no", "yes"][a[4] as usize])
            };
            let rows =
                (0..c.outs[1].len() / model::ROW).map(|i| slot_code(model::row_at(&c.outs[1], i).code));
            std::iter::once(first).chain(rows).collect()
        }
        SHEET => vec![sheet_name(&c.outs[0])],
        LIST => {
            let calls = c.calls().into_iter().flat_map(|c| names(&c)).map(|n| format!("list   {n}"));
            std::iter::once("list".into()).chain(calls).collect()
        }
        _ => vec![leaves::name(c)],
    }
}

impl Figures {
    /// Counts an answered case. For an update this must follow its run.
    pub fn see(&mut self, c: &Case) {
        self.cases += 1;
        for name in names(c) {
            *self.answers.entry(name).or_default() += 1;
        }
        if c.op != UPDATE {
            return;
        }
        self.updates += 1;
        self.rounds_most = self.rounds_most.max(c.answer[4]);
        if c.line != 0 {
            *self.sites.entry(c.line).or_default() += 1;
        }
        if c.answer[4] > 0 {
            self.see_run(c.answer[1] == 11, u32_at(&c.ins[0], 4) as usize);
        }
    }

    /// The lists and the search of the update that ran last, of a train with E est records.
    fn see_run(&mut self, no_room: bool, e: usize) {
        let run = hook::state();
        if !no_room {
            self.pool_most = self.pool_most.max(run.pool_most);
            self.diverge_most = self.diverge_most.max(run.diverge_most);
        }
        self.entries_most = self.entries_most.max(run.entries_most);
        self.long_searches += (run.entries_most > 2 * e + 1) as u64;
        self.full_searches += (run.entries_most == 2 * e + 1) as u64;
    }

    /// A call that is only counted.
    pub fn call(&mut self, c: Case) {
        let c = c.answered();
        self.see(&c);
    }

    /// One update in both editions of the text. Gives the image that it leaves.
    pub fn update(&mut self, c: &UpdateCase) -> Vec<u8> {
        let mut case = calls::of_update(c).answered();
        self.see(&case);
        let number = case.answer[1];
        if number == 0 || number == 10 || number == 13 {
            self.compare_update(c, &case);
        }
        let image = std::mem::take(&mut case.outs[0]);
        if number == 0 && read_image(&image, c.occ.len()).is_err() {
            self.unaccepted += 1;
            eprintln!("an update left an image that is refused: {c:?}");
        }
        image
    }

    fn compare_update(&mut self, c: &UpdateCase, case: &Case) {
        let mut plain = c.image.clone();
        let (outcome, line) = model::update_plain(&mut plain, &c.occ, &c.blocking, c.moved, c.local);
        let answer = match outcome {
            Outcome::Success => [0, 0, 0],
            Outcome::Blocked => [1, 0, 0],
            Outcome::Faulty(n) => [2, 0, n],
            Outcome::Refused(r) => [3, r.number as u32, 0],
        };
        self.updates_compared += 1;
        // the plain text names no holder
        let [kind, number, _, faults_or_holder, ..] = case.answer;
        let faults = if kind == 1 { 0 } else { faults_or_holder };
        if answer != [kind, number, faults] || line != case.line || plain != case.outs[0] {
            self.differences += 1;
            eprintln!("plain and hooked differ: {outcome:?} {line}, {:?} {}: {c:?}", case.answer, case.line);
        }
    }

    /// One check, and the plain check_deadlock where no slot is refused.
    pub fn check(&mut self, c: &CheckCase, report_len: usize) {
        let case = calls::of_check(c, &vec![0xA5; report_len]).answered();
        self.see(&case);
        let slots = case.outs[1].len() / model::ROW;
        let any_refused = (0..slots).any(|i| model::row_at(&case.outs[1], i).code > model::FAULTY);
        if case.answer[0] == 2 || any_refused {
            return;
        }
        self.compare_check(&c.yard, &c.args(), &case);
    }

    fn compare_check(&mut self, yard: &[u8], args: &CheckArgs, case: &Case) {
        let mut plain = yard.to_vec();
        // a slot before begin may hold an image that is refused: the Rust has no such train
        let Some(checked) = model::check_plain(&mut plain, args) else { return };
        let answer = match checked {
            Checked::Done { deadlock, next } => [0, 0, deadlock as u32, next],
            Checked::Erred(n) => [1, n, 0, 0],
            Checked::Refused(_) => unreachable!("the plain text refuses nothing"),
        };
        self.checks_compared += 1;
        let a = case.answer;
        if answer != [a[0], a[3], a[4], a[5]] || plain != case.outs[0] {
            self.differences += 1;
            eprintln!("plain and hooked checks differ: {checked:?} {a:?}");
        }
    }

    /// Answers and sites that were never met.
    fn never(&self) -> Vec<String> {
        let refusals = REFUSALS.iter().flat_map(|(op, ns)| ns.iter().map(|&n| refused(op, n)));
        let answers = refusals.chain(CODES.map(slot_code)).filter(|k| !self.answers.contains_key(k));
        let sites = SITES.iter().filter(|l| !self.sites.contains_key(l)).map(|l| format!("site {l}"));
        answers.chain(sites).collect()
    }

    /// Prints all counts; true where nothing differs.
    pub fn print(&self) -> bool {
        println!("cases {}  of them updates {}", self.cases, self.updates);
        println!("updates compared with the plain text {}", self.updates_compared);
        println!("checks compared with the plain check_deadlock {}", self.checks_compared);
        println!("differences {}  images left that are refused {}", self.differences, self.unaccepted);
        println!("most rounds {}", self.rounds_most);
        println!("longest pool {}  longest diverge list {}", self.pool_most, self.diverge_most);
        println!(
            "most entries of a search {}  updates with 2E + 1 of them {}  with more {}",
            self.entries_most, self.full_searches, self.long_searches
        );
        for (k, n) in &self.answers {
            println!("  {k:<40}{n:>10}");
        }
        println!("panic sites of free_path.rs:");
        for (line, n) in &self.sites {
            let known = if SITES.contains(line) { "" } else { "  not in the list" };
            println!("  {line:<40}{n:>10}{known}");
        }
        let never = print_branches();
        println!("answers and sites never met: {}", listed(&self.never()));
        println!("branches never met: {}", listed(&never));
        self.differences == 0 && self.unaccepted == 0
    }
}

fn listed(xs: &[String]) -> String {
    if xs.is_empty() {
        "none".into()
    } else {
        xs.join(", ")
    }
}

/// Prints the counters of the hooked text: each operand of a condition true, false and,
/// where it compares by order, with equal sides; each arm and body. Gives those never met.
fn print_branches() -> Vec<String> {
    println!("branches of free_path.rs (line.part, kind, taken, false, equal sides):");
    let mut never = vec![];
    for (id, (line, kind)) in BRANCHES.iter().enumerate() {
        let part = BRANCHES[..id].iter().filter(|(l, _)| l == line).count() + 1;
        let name = format!("{line}.{part}");
        print!("  {name:<8}{kind:<8}");
        let counts = hook::counts(id);
        for (n, what) in counts.iter().zip(["taken", "false", "equal"]).take(hook::counted(kind)) {
            print!("{n:>12}");
            if *n == 0 {
                never.push(format!("{name} {what}"));
            }
        }
        println!();
    }
    never
}

// ---- the fuzz

/// The update of a step's number, where it is one.
fn single(rng: &mut Rng, step: usize) -> Option<UpdateCase> {
    Some(match step {
        0..=1 => large_update(rng),
        2 => {
            let depth = rng.from(62, 65);
            comb(rng, depth, 80, 0)
        }
        81..=160 => odd_update(rng).damaged(rng),
        161..=260 => twin_update(rng),
        261..=300 => calls::dense(rng),
        301..=310 => {
            let mut c = odd_update(rng);
            calls::wrong_arguments(rng, &mut c);
            c
        }
        361..=400 => views_update(rng),
        _ => return None,
    })
}

/// One step: a call, or a row of updates, of some generator.
fn step(f: &mut Figures, rng: &mut Rng) {
    let step = rng.below(1_000);
    if let Some(c) = single(rng, step) {
        f.update(&c);
        return;
    }
    match step {
        3..=6 => {
            let (sections, trains) = (rng.from(1, 7), rng.from(1, 4));
            tidy_steps(f, rng, sections, trains, 30);
        }
        7 if rng.chance(20) => {
            let sections = rng.from(15, 30);
            tidy_steps(f, rng, sections, 3, 60);
        }
        7..=60 => {
            let c = odd_check(rng);
            let len = model::ROW * u32_at(&c.yard, 4) as usize;
            f.check(&c, len);
        }
        61..=80 => {
            let (c, len) = damaged_check(rng);
            f.check(&c, len);
        }
        311..=330 => f.call(calls::mark(rng)),
        331..=350 => f.call(calls::lay_out(rng)),
        351..=360 => f.call(calls::sheet(rng)),
        _ => odd_steps(f, rng),
    }
}

/// An odd train updated some times, with other trains about.
fn odd_steps(f: &mut Figures, rng: &mut Rng) {
    let mut c = odd_update(rng);
    for _ in 0..rng.from(1, 4) {
        c.image = f.update(&c);
        if rng.chance(30) {
            c = c.changed(rng);
        }
        c.others_move(rng);
    }
}

/// A tidy run; each slot of its checks is also updated alone, as it is and with changes.
fn tidy_steps(f: &mut Figures, rng: &mut Rng, sections: usize, trains: usize, moves: usize) {
    for c in tidy_run(rng, sections, trains, moves) {
        f.check(&c, model::ROW * trains);
        c.slots().into_iter().for_each(|u| alone(f, rng, u));
    }
}

fn alone(f: &mut Figures, rng: &mut Rng, mut u: UpdateCase) {
    f.update(&u);
    for _ in 0..3 {
        u = u.changed(rng);
        if rng.chance(30) {
            let (train, link) = (rng.below(5), rng.from(1, u.occ.len() - 1));
            u.occ[link] = train as u16;
        }
        f.update(&u);
    }
}

pub fn fuzz(seed: u64, updates: u64) -> Figures {
    let mut f = Figures::default();
    let mut rng = Rng::new(seed);
    while f.updates < updates {
        step(&mut f, &mut rng);
    }
    f
}

/// The counts of a list of cases.
pub fn summary(cases: Vec<Case>) -> Figures {
    let mut f = Figures::default();
    cases.into_iter().for_each(|c| f.call(c));
    f
}
