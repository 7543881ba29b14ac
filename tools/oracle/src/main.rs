//! The command line of the oracle.

use oracle::cases::{read_all, Case, PAGE, SHEET};
use oracle::demand3::{self, Premises, ALL};
use oracle::rng::Rng;
use oracle::{calls, figures, model, record, replay, selftest, sums, trials};
use std::io::{Read, Write};
use std::process::exit;

const USAGE: &str = "usage:
  oracle selftest                         document 01's examples on the original text, and the change requests'
  oracle answer  < CASES > CASES          the same cases with the oracle's answers
  oracle compare < CASES                  the oracle's answers against those in the cases
  oracle show    < CASES                  one line for each case
  oracle sums    < CASES                  what the program answers prints of them behind --sums
  oracle summary < CASES                  counts of answers, sites and branches
  oracle generate KIND SEED COUNT > CASES KIND: mark, layout, update, large, check, tidy, sheet, list, leaf, page, profile,
                                          ceiling, yard-ceiling, mark-wide, update-wide, check-wide,
                                          widen, narrow, game, replay, view, act, recorded, recorded-wide, undo,
                                          index, carry, any
  oracle replay  < SITTING                what the program replay prints of a sitting
  oracle record SEED > CASES              the recorded list
  oracle fuzz SEED UPDATES                plain text against hooked text, and counts
  oracle demand3 SEED LISTS [PREMISE]     PREMISE left out: begin, entry0, strays
  oracle trial REQUEST SEED COUNT         what a change request claims, over COUNT calls";

fn bytes() -> Vec<u8> {
    let mut b = vec![];
    std::io::stdin().read_to_end(&mut b).expect("standard input");
    b
}

fn input() -> Vec<Case> {
    read_all(&bytes())
}

fn output(cases: impl Iterator<Item = Case>) {
    let mut out = std::io::stdout().lock();
    let mut b = vec![];
    for c in cases {
        b.clear();
        c.write(&mut b);
        out.write_all(&b).expect("standard output");
    }
}

fn compare(cases: Vec<Case>) -> bool {
    let mut wrong = 0;
    for (i, c) in cases.iter().enumerate() {
        if c.clone().answered() != *c {
            wrong += 1;
            println!("case {i}: operation {} tag {}", c.op, c.tag);
        }
    }
    println!("{} cases, {wrong} differ", cases.len());
    wrong == 0
}

fn show(cases: Vec<Case>) {
    for (i, c) in cases.iter().enumerate() {
        let ins: Vec<usize> = c.ins.iter().map(Vec::len).collect();
        let text = if c.op == SHEET || c.op == PAGE && c.answer[0] == 0 {
            String::from_utf8_lossy(&c.outs[0]).replace('\n', " / ")
        } else {
            String::new()
        };
        println!(
            "{i} op {} tag {} args {:?} in {ins:?} answer {:?} line {} {text}",
            c.op, c.tag, c.args, c.answer, c.line
        );
    }
}

fn without(name: Option<&str>) -> Option<Premises> {
    Some(match name {
        None => ALL,
        Some("begin") => Premises { begin: false, ..ALL },
        Some("entry0") => Premises { entry_zero: false, ..ALL },
        Some("strays") => Premises { strays: false, ..ALL },
        Some(_) => return None,
    })
}

fn usage() -> ! {
    eprintln!("{USAGE}\nREQUEST: {}", trials::names().join(", "));
    exit(2)
}

fn main() {
    model::quiet_panics();
    let args: Vec<String> = std::env::args().skip(1).collect();
    let args: Vec<&str> = args.iter().map(String::as_str).collect();
    let number = |s: &str| s.parse::<u64>().unwrap_or_else(|_| usage());
    let ok = match args[..] {
        ["selftest"] => selftest::run(),
        ["answer"] => {
            output(input().into_iter().map(Case::answered));
            true
        }
        ["compare"] => compare(input()),
        ["show"] => {
            show(input());
            true
        }
        ["sums"] => {
            sums::print(&input());
            true
        }
        ["replay"] => {
            print!("{}", replay::printed(&bytes()));
            true
        }
        ["summary"] => figures::summary(input()).print(),
        ["generate", kind, seed, count] => {
            let mut rng = Rng::new(number(seed));
            let make = move |_| calls::by_name(kind, &mut rng).unwrap_or_else(|| usage()).answered();
            output((0..number(count)).map(make));
            true
        }
        ["record", seed] => {
            output(record::recorded(number(seed)).into_iter());
            true
        }
        ["fuzz", seed, updates] => figures::fuzz(number(seed), number(updates)).print(),
        ["demand3", seed, lists, ref premise @ ..] if premise.len() < 2 => {
            let name = premise.first().copied();
            let premises = without(name).unwrap_or_else(|| usage());
            let tally = demand3::fuzz(number(seed), number(lists), &premises);
            tally.print(&name.map_or("all premises".into(), |n| format!("without {n}")));
            (tally.counterexamples == 0) == name.is_none()
        }
        ["trial", request, seed, count] => {
            trials::run(request, number(seed), number(count)).unwrap_or_else(|| usage())
        }
        _ => usage(),
    };
    exit(!ok as i32);
}
