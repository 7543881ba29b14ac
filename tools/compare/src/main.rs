//! The proved library beside the oracle: the same calls to both, and every number of the answer and every byte
//! of each buffer compared.

mod candidates;
mod carried;
mod check_time;
mod checks;
mod clock;
mod game_time;
mod index_time;
mod indexes;
mod library;
mod page_time;
mod replays;
mod tally;
mod time;
mod undo_time;
mod undos;
mod update_time;
mod updates;
mod wide_lists;
mod wide_time;

use oracle::cases::Case;
use oracle::rng::Rng;
use oracle::{calls, model, undo_calls, wide_calls};
use std::process::exit;
use tally::Tally;
use update_time::JOINS;
use updates::{Source, Updates};

struct Run {
    rng: Rng,
    updates: Updates,
    tally: Tally,
}

/// The kinds of cases, each with one step of a run.
const KINDS: &[(&str, fn(&mut Run))] = &[
    ("mark", |r| r.call(calls::mark)),
    ("layout", |r| r.call(calls::lay_out)),
    ("image", Run::image),
    ("update", |r| r.update(Updates::next)),
    ("update-large", |r| r.update(Updates::next_large)),
    ("check", |r| r.call(calls::check)),
    ("tidy", |r| r.call(calls::tidy)),
    ("check-large", |r| r.call(checks::large)),
    ("sheet", |r| r.call(calls::sheet)),
    ("sheet-damaged", |r| r.call(checks::damaged_sheet)),
    ("page", |r| r.of_some_width(calls::page)),
    ("profile", |r| r.of_some_width(calls::profile)),
    ("ceiling", |r| r.of_some_width(calls::ceiling)),
    ("yard-ceiling", |r| r.of_some_width(calls::yard_ceiling)),
    ("replay", |r| r.call(calls::replay)),
    ("game", |r| r.call(wide_calls::game)),
    ("view", |r| r.call(calls::view)),
    ("act", |r| r.call(calls::act)),
    ("candidate", |r| candidates::pair(&mut r.rng, &mut r.tally)),
    ("mark-wide", |r| r.call(wide_calls::mark)),
    ("update-wide", |r| r.call(wide_calls::update)),
    ("check-wide", |r| r.call(wide_calls::check)),
    ("widen", |r| r.call(wide_calls::widen)),
    ("narrow", |r| r.call(wide_calls::narrow)),
    ("list-wide", |r| wide_lists::list(&mut r.rng, &mut r.tally)),
    ("recorded", |r| r.call(undo_calls::recorded)),
    ("recorded-wide", |r| r.call(undo_calls::recorded_wide)),
    ("undo", |r| r.call(undo_calls::undo)),
    ("list-undo", |r| undos::list(&mut r.rng, &mut r.tally)),
    ("list-index", |r| indexes::list(&mut r.rng, &mut r.tally)),
    ("sitting-carried", |r| carried::sitting(&mut r.rng, &mut r.tally)),
];

const TIMES: &[(&str, fn(u64))] = &[
    ("time", time::run),
    ("update-time", update_time::run),
    ("check-time", check_time::run),
    ("page-time", page_time::run),
    ("replay-time", replays::time),
    ("game-time", game_time::run),
    ("candidate-time", candidates::time),
    ("wide-time", wide_time::run),
    ("undo-time", undo_time::run),
    ("index-time", index_time::run),
];

impl Run {
    fn new(seed: u64) -> Run {
        let rng = Rng::new(seed);
        Run { updates: Updates::new(rng.clone()), rng, tally: Tally::default() }
    }

    fn call(&mut self, make: fn(&mut Rng) -> Case) {
        self.tally.add(&make(&mut self.rng));
    }

    /// A call without an occupancy takes images of both widths.
    fn of_some_width(&mut self, make: fn(&mut Rng) -> Case) {
        let case = make(&mut self.rng);
        self.tally.add(&wide_calls::of_some_width(&mut self.rng, case));
    }

    fn update(&mut self, next: fn(&mut Updates) -> (Source, Case)) {
        let (source, asked) = next(&mut self.updates);
        self.tally.add_update(source, &asked);
    }

    /// Refusals 6 to 9 of an image, half of them damaged.
    fn image(&mut self) {
        let rng = &mut self.rng;
        let case = calls::some_train(rng);
        let links = case.occ.len();
        let image = if rng.chance(50) { case.damaged(rng).image } else { case.image };
        let image = wide_calls::image_of_some_width(rng, &image);
        self.tally.add_image(&image.into_boxed_slice(), links);
    }
}

fn names<T>(list: &[(&str, T)]) -> String {
    list.iter().map(|(name, _)| *name).collect::<Vec<_>>().join(", ")
}

fn usage() -> ! {
    eprintln!("usage: compare KIND SEED COUNT, compare TIME SEED, or compare join PATH COUNT");
    eprintln!("KIND: {}", names(KINDS));
    eprintln!("TIME: {}", names(TIMES));
    eprintln!("PATH: {}", names(&JOINS));
    eprintln!("The first case that differs is written to the file `different.case`.");
    exit(2)
}

/// What a list has under a name.
fn named<T: Copy>(list: &[(&str, T)], name: &str) -> T {
    list.iter().find(|(n, _)| *n == name).unwrap_or_else(|| usage()).1
}

fn main() {
    model::quiet_panics();
    let args: Vec<String> = std::env::args().skip(1).collect();
    let number = |s: &String| s.parse::<u64>().unwrap_or_else(|_| usage());
    match &args[..] {
        [name, seed] => named(TIMES, name)(number(seed)),
        [join, path, count] if join == "join" => update_time::joins(named(&JOINS, path), number(count)),
        [kind, seed, count] => {
            let (step, mut run) = (named(KINDS, kind), Run::new(number(seed)));
            (0..number(count)).for_each(|_| step(&mut run));
            println!("{kind}: {count} cases, {} differ", run.tally.differ);
            run.tally.print();
            exit((run.tally.differ > 0) as i32);
        }
        _ => usage(),
    }
}
