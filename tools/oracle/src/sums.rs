//! The answers of cases in words, with a checksum of each buffer that a call left: what the program `answers` prints behind `--sums`.

use crate::cases::*;
use crate::layout::{read_image, u64_bytes};

/// From 1 on, each byte is added to the sum by 16,777,619, modulo the prime 4,294,967,291.
pub fn sum_of(bytes: &[u8]) -> u64 {
    bytes.iter().fold(1, |sum, &b| (sum * 16_777_619 + b as u64) % 4_294_967_291)
}

fn refused(number: u32, place: u32) -> String {
    format!("refused {number} at {place}")
}

fn fault(number: u32, place: u32) -> String {
    if number == 0 {
        "done".into()
    } else {
        refused(number, place)
    }
}

/// What 6 to 9 say of an update's image by itself, over an occupancy of at most 4,000 entries; 2 where it has fewer than 2.
fn image_fault(c: &Case) -> String {
    let links = c.ins[1].len() / 2;
    let words = match links {
        0 | 1 => refused(2, 0),
        2..=4000 => match read_image(&c.ins[0], links) {
            Ok(_) => "done".into(),
            Err(r) => refused(r.number as u32, r.place),
        },
        _ => return String::new(),
    };
    format!(" by itself {words}")
}

/// All eight numbers and the image; a narrow one is also judged by itself.
fn update(c: &Case) -> String {
    let [kind, number, place, faults_or_holder, rounds, strays, steps, met] = c.answer;
    let status = match kind {
        0 => "success".into(),
        1 => format!("blocked by {faults_or_holder}"),
        2 => format!("faulty {faults_or_holder}"),
        _ => refused(number, place),
    };
    let counts = format!("rounds {rounds} strays {strays} steps {steps} met {met}");
    let by_itself = if c.op == UPDATE { image_fault(c) } else { String::new() };
    format!("{status} {counts} image {}{by_itself}", sum_of(&c.outs[0]))
}

fn check(c: &Case) -> String {
    let [kind, number, place, erred, deadlock, next, ..] = c.answer;
    let answer = match kind {
        0 => format!("deadlock {} next {next}", if deadlock == 1 { "yes" } else { "no" }),
        1 => format!("erred {erred}"),
        _ => refused(number, place),
    };
    if c.op == HALF_CHECK {
        let (yard, second) = c.both_yards(&c.outs[0]);
        return format!(
            "{answer} yard {} second {} report {}",
            sum_of(&yard),
            sum_of(&second),
            sum_of(&c.outs[1])
        );
    }
    let (yard, record) = c.recorded_left();
    let (report, index) = c.report_and_index(&c.outs[1]);
    let mut words = format!("{answer} yard {} report {}", sum_of(&yard), sum_of(&report));
    if RECORDED.contains(&c.op) {
        words += &format!(" record {}", sum_of(&record));
    }
    if INDEXED.contains(&c.op) {
        words += &format!(" index {}", sum_of(&u64_bytes(&index)));
    }
    words
}

/// The checks that have an undo record, and those beside an index.
const RECORDED: [u32; 4] =
    [RECORDED_CHECK, WIDE_RECORDED_CHECK, RECORDED_INDEXED_CHECK, WIDE_RECORDED_INDEXED_CHECK];
const INDEXED: [u32; 4] =
    [INDEXED_CHECK, WIDE_INDEXED_CHECK, RECORDED_INDEXED_CHECK, WIDE_RECORDED_INDEXED_CHECK];

/// The refusal, and both buffers under their names.
fn two(c: &Case, names: [&str; 2]) -> String {
    let [first, second] = [0, 1].map(|i| sum_of(&c.outs[i]));
    format!("{} {} {first} {} {second}", fault(c.answer[0], c.answer[1]), names[0], names[1])
}

/// The list of refusals stands behind the occupancy.
fn replay(c: &Case) -> String {
    let (occ, list) = c.outs[1].split_at(c.ins[2].len());
    let left = format!("yard {} occupancy {} list {}", sum_of(&c.outs[0]), sum_of(occ), sum_of(list));
    format!("{} {left}", fault(c.answer[0], c.answer[1]))
}

/// Whether the link is taken, and the buffer of the record.
fn view(c: &Case) -> String {
    let [number, place, taken, ..] = c.answer;
    let answer = match number {
        0 => format!("taken {}", ["no", "yes"][taken as usize]),
        _ => refused(number, place),
    };
    format!("{answer} record {}", sum_of(&c.outs[0]))
}

fn leaf(c: &Case) -> String {
    let [x, y, z, ..] = c.answer;
    if c.op == UNION && x == 0 {
        return format!("{x} {y} {z} pool {}", sum_of(&c.outs[0]));
    }
    format!("{x} {y} {z}")
}

/// The line of a case, without its number.
pub fn words(c: &Case) -> String {
    let [number, place, ..] = c.answer;
    match c.op {
        MARK | WIDE_MARK | ACT => format!("{} occupancy {}", fault(number, place), sum_of(&c.outs[0])),
        LAY_OUT => format!("{} image {}", fault(number, place), sum_of(&c.outs[0])),
        UPDATE | WIDE_UPDATE => update(c),
        CHECK | WIDE_CHECK | RECORDED_CHECK | WIDE_RECORDED_CHECK | HALF_CHECK => check(c),
        op if INDEXED.contains(&op) => check(c),
        INDEX => format!("{} index {}", fault(number, place), sum_of(&c.outs[0])),
        INDEXED_LAY_OUT => two(c, ["image", "index"]),
        INDEXED_UNDO => two(c, ["yard", "index"]),
        CARRY => two(c, ["second", "occupancy"]),
        UNDO => format!("{} yard {}", fault(number, place), sum_of(&c.outs[0])),
        WIDEN | NARROW => format!("{} image {}", fault(number, place), sum_of(&c.outs[0])),
        SHEET => format!("sheet {}", sum_of(&c.outs[0])),
        PAGE => format!("{} page {}", fault(number, place), sum_of(&c.outs[0])),
        PROFILE => fault(number, place),
        REPLAY => replay(c),
        VIEW => view(c),
        GAME if number != 0 => refused(number, place),
        GAME => ["closer can force it no", "closer can force it yes"][c.answer[2] as usize].into(),
        CEILING | YARD_CEILING if number != 0 => refused(number, place),
        CEILING | YARD_CEILING => format!("ceiling {}", c.answer[2] as u64 | (c.answer[3] as u64) << 32),
        LIST => c.calls().iter().fold("list".into(), |s, call| format!("{s}\n{}", words(call))),
        _ => leaf(c),
    }
}

pub fn print(cases: &[Case]) {
    for (i, c) in cases.iter().enumerate() {
        println!("{i} op {} {}", c.op, words(c));
    }
}
