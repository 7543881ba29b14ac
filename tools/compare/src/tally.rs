//! The counts of a comparison.

use crate::library;
use crate::updates::Source;
use oracle::cases::*;
use oracle::figures::names;
use oracle::layout::{read_any, u16s, u32_at};
use oracle::model::LINKS;
use oracle::wide::{row_at, row_size};
use std::collections::BTreeMap;

/// The number of cases whose answers differ, how many were refused by each number (0: by none), how updates and checks
/// ended, how often a slot of a check has each code, in how many updates and slots a train was met and in how many of them
/// another than the moved one, how many updates came from each generator, of pages how many lines there were and at how many
/// the offset is an exact half of a metre, of replays how many steps were refused by each number (0: by none), of views how many
/// links are taken, of pairs of sittings how often they agree and do not agree after an act, by whether it is a mark, of lists how many
/// calls matched their renumbered twins; of calls of several operations how often each had each answer, beside an index how often a
/// right one stayed right and how many slots changed, and of sittings that are carried how many half checks said what the check of the
/// all-narrow yard says and how many last steps left no narrow image.
#[derive(Default)]
pub struct Tally {
    pub differ: u64,
    refused: BTreeMap<u32, u64>,
    ends: BTreeMap<&'static str, u64>,
    codes: BTreeMap<u16, u64>,
    met: u64,
    met_others: u64,
    sources: BTreeMap<Source, u64>,
    lines: u64,
    halves: u64,
    steps: BTreeMap<u16, u64>,
    taken: u64,
    agreements: BTreeMap<(bool, bool), u64>,
    matched: u64,
    named: BTreeMap<String, u64>,
    right: u64,
    changed: u64,
    as_narrow: u64,
    carried: u64,
}

/// How an update or a check ends that is not refused.
fn end_of(judged: &Case) -> Option<&'static str> {
    let [kind, _, _, _, deadlock, ..] = judged.answer;
    match (judged.op, kind, deadlock) {
        (GAME, 0, _) => {
            Some(["the closer cannot force it", "the closer can force it"][judged.answer[2] as usize])
        }
        (UPDATE | WIDE_UPDATE, 0, _) => Some("success"),
        (UPDATE | WIDE_UPDATE, 1, _) => Some("blocked"),
        (UPDATE | WIDE_UPDATE, 2, _) => Some("faulty"),
        (op, 0, 0) if CHECKS.contains(&op) => Some("no deadlock"),
        (op, 0, _) if CHECKS.contains(&op) => Some("deadlock"),
        (op, 1, _) if CHECKS.contains(&op) => Some("erred"),
        _ => None,
    }
}

const CHECKS: [u32; 9] = [
    CHECK,
    WIDE_CHECK,
    RECORDED_CHECK,
    WIDE_RECORDED_CHECK,
    INDEXED_CHECK,
    WIDE_INDEXED_CHECK,
    RECORDED_INDEXED_CHECK,
    WIDE_RECORDED_INDEXED_CHECK,
    HALF_CHECK,
];

fn count<K: Ord>(counts: &mut BTreeMap<K, u64>, key: K) {
    *counts.entry(key).or_default() += 1;
}

impl Tally {
    pub fn add(&mut self, asked: &Case) {
        let mut judged = asked.clone().answered();
        // the line of a panic is not part of an answer
        judged.line = 0;
        end_of(&judged).into_iter().for_each(|end| count(&mut self.ends, end));
        let number = judged.answer[library::number_at(judged.op)];
        count(&mut self.refused, number);
        if (judged.op == CHECK || judged.op == WIDE_CHECK) && number == 0 {
            let wide = judged.outs[1].len() != row_size(false) * u32_at(&judged.outs[0], 4) as usize;
            let rows = (0..judged.outs[1].len() / row_size(wide)).map(|i| row_at(&judged.outs[1], i, wide));
            rows.for_each(|row| self.add_row(row.code, row.met, judged.args[0]));
        }
        if judged.op == UPDATE || judged.op == WIDE_UPDATE {
            self.add_met(judged.answer[7], judged.args[0]);
        }
        if judged.op == PAGE && number == 0 {
            self.add_lines(&judged.ins[0]);
        }
        if judged.op == REPLAY && number == 0 {
            let list = u16s(&judged.outs[1][judged.ins[2].len()..]);
            list.into_iter().for_each(|n| count(&mut self.steps, n));
        }
        self.taken += (judged.op == VIEW && judged.answer[2] == 1) as u64;
        self.unless(library::answered(asked) == judged, &judged);
    }

    /// The same call in two sittings that agree for a candidate, who must be told the same.
    pub fn add_pair(&mut self, one: &Case, two: &Case, same: bool) {
        self.add(one);
        self.add(two);
        if !same {
            let mut bytes = vec![];
            one.write(&mut bytes);
            two.write(&mut bytes);
            self.differs(&bytes);
        }
    }

    /// A mark must keep the agreement.
    pub fn add_agreement(&mut self, marks: bool, agree: bool) {
        count(&mut self.agreements, (marks, agree));
        if marks && !agree {
            self.differs(&[]);
        }
    }

    fn add_row(&mut self, code: u16, met: u32, moved: u32) {
        count(&mut self.codes, code);
        self.add_met(met, moved);
    }

    fn add_met(&mut self, met: u32, moved: u32) {
        self.met += (met != 0) as u64;
        self.met_others += (met != 0 && met != moved) as u64;
    }

    fn add_lines(&mut self, image: &[u8]) {
        let path = read_any(image, LINKS).expect("an accepted image").path;
        self.lines += path.len() as u64;
        self.halves += path.iter().filter(|x| x.offset.fract().abs() == 0.5).count() as u64;
    }

    pub fn add_update(&mut self, source: Source, asked: &Case) {
        count(&mut self.sources, source);
        self.add(asked);
    }

    /// Refusals 6 to 9 of an image of either width.
    pub fn add_image(&mut self, image: &[u8], links: usize) {
        let judged = match read_any(image, links) {
            Ok(_) => (0, 0),
            Err(r) => (r.number as u32, r.place),
        };
        count(&mut self.refused, judged.0);
        if library::numbers(lavtoeu::judge(image, links as u32)) != judged {
            self.differs(image);
        }
    }

    /// Whether a call and its renumbered twin match, in what they answer and in what they leave.
    pub fn add_matched(&mut self, same: bool, call: &Case) {
        self.matched += same as u64;
        self.unless(same, call);
    }

    /// A call of a list that has several operations: its answer by its name too.
    pub fn add_named(&mut self, asked: &Case) {
        names(&asked.clone().answered()).into_iter().for_each(|name| count(&mut self.named, name));
        self.add(asked);
    }

    /// Of a call beside an index: whether the index was right and is right, and how many slots changed.
    pub fn add_kept(&mut self, was: bool, is: bool, changed: usize, call: &Case) {
        self.changed += changed as u64;
        if was {
            self.right += 1;
            self.unless(is, call);
        }
    }

    /// Of a half check: whether it says what the check of the all-narrow yard says.
    pub fn add_narrow(&mut self, same: bool, call: &Case) {
        self.as_narrow += same as u64;
        self.unless(same, call);
    }

    /// Of the last step of a sitting: whether no narrow image is left.
    pub fn add_carried(&mut self, whole: bool, call: &Case) {
        self.carried += whole as u64;
        self.unless(whole, call);
    }

    /// A claim about what the library made of a call.
    fn unless(&mut self, holds: bool, call: &Case) {
        if !holds {
            let mut bytes = vec![];
            call.write(&mut bytes);
            self.differs(&bytes);
        }
    }

    fn differs(&mut self, bytes: &[u8]) {
        if self.differ == 0 {
            std::fs::write("different.case", bytes).expect("different.case");
        }
        self.differ += 1;
    }

    pub fn print(&self) {
        for (number, n) in &self.refused {
            println!("  {} {number}: {n}", if *number == 0 { "done, not refused" } else { "refused" });
        }
        self.ends.iter().for_each(|(end, n)| println!("  {end}: {n}"));
        self.codes.iter().for_each(|(code, n)| println!("  slots with code {code}: {n}"));
        if self.met > 0 {
            println!("  met a train: {}, another than the moved one: {}", self.met, self.met_others);
        }
        for (source, n) in &self.sources {
            println!("  from {}: {n}", format!("{source:?}").to_lowercase());
        }
        for (number, n) in &self.steps {
            println!("  steps {} {number}: {n}", if *number == 0 { "done, not refused" } else { "refused" });
        }
        if self.taken > 0 {
            println!("  views of a link that is taken: {}", self.taken);
        }
        for ((marks, agree), n) in &self.agreements {
            let (act, not) = (if *marks { "mark" } else { "release" }, if *agree { "" } else { "not " });
            println!("  after a {act} the sittings {not}agree: {n}");
        }
        if self.matched > 0 {
            println!("  calls that match their twins: {}", self.matched);
        }
        self.named.iter().for_each(|(name, n)| println!("  {name}: {n}"));
        if self.right > 0 {
            println!("  right indexes before a call: {}; slots that changed: {}", self.right, self.changed);
        }
        if self.carried > 0 {
            println!("  last steps: {}; half checks as all narrow: {}", self.carried, self.as_narrow);
        }
        if self.lines > 0 {
            println!("  lines: {}, exact halves among their offsets: {}", self.lines, self.halves);
        }
    }
}
