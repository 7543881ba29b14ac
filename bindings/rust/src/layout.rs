//! Sizes of the layouts in bytes, their limits, and numbers in bytes. docs/LAYOUTS.md of the project has every field.

/// A link table before its records, the record of a link, a lockout.
pub const TABLE_HEADER: usize = 16;
pub const LINK_RECORD: usize = 12;
pub const LOCKOUT_RECORD: usize = 4;

/// An image before its records, and its three kinds of records.
pub const IMAGE_HEADER: usize = 64;
pub const EST_RECORD: usize = 32;
pub const PATH_RECORD: usize = 32;
pub const DIVERGE_RECORD: usize = 4;

/// A yard before its slots' offsets, and one of these.
pub const YARD_HEADER: usize = 8;
pub const YARD_OFFSET: usize = 4;

/// The row of a slot in a report.
pub const REPORT_RECORD: usize = 20;

/// The diverge record of a wide image, and the row of a slot in the report of a yard that has one.
pub const WIDE_DIVERGE_RECORD: usize = 8;
pub const WIDE_REPORT_RECORD: usize = 24;

/// Where an image's header has its width: 1 in a wide one.
pub const WIDTH_AT: usize = 42;

/// The largest train beside a narrow image, and beside wide ones alone.
pub const MAX_NARROW_TRAIN: usize = 65_535;
pub const MAX_TRAIN: usize = 999_999;

/// The words of an update's answer, and of a check's.
pub const UPDATE_WORDS: usize = 7;
pub const CHECK_WORDS: usize = 3;

/// A bundle before its occupancy, and the longest bundle.
pub const BUNDLE_HEADER: usize = 32;
pub const MAX_BUNDLE: usize = 65_536;

/// A recording before its steps, and one of these; the kinds of a step.
pub const RECORDING_HEADER: usize = 12;
pub const STEP_RECORD: usize = 20;
pub const STEP_MARK: u32 = 0;
pub const STEP_CHECK: u32 = 1;

/// An undo record before its two yards.
pub const UNDO_RECORD_HEADER: usize = 16;

/// Bytes that hold every sheet.
pub const SHEET_ROOM: usize = 4_096;

/// The line of a path node on a page, with its line end.
pub const PAGE_LINE: usize = 40;

/// The most links, lockouts, est records of a train, diverge nodes of a train, slots.
pub const MAX_LINKS: usize = 4_000;
pub const MAX_LOCKOUTS: usize = 4_096;
pub const MAX_ESTS: usize = 512;
pub const MAX_ROOM: usize = 1_024;
pub const MAX_SLOTS: usize = 63;

/// The most links and turns of a game.
pub const MAX_GAME_LINKS: usize = 8;
pub const MAX_TURNS: usize = 6;

/// The W bytes from `at` on; a byte past the end counts 0.
fn octets<const W: usize>(bytes: &[u8], at: usize) -> [u8; W] {
    std::array::from_fn(|i| bytes.get(at + i).copied().unwrap_or(0))
}

pub(crate) fn half(bytes: &[u8], at: usize) -> u16 {
    u16::from_le_bytes(octets(bytes, at))
}

pub(crate) fn word(bytes: &[u8], at: usize) -> u32 {
    u32::from_le_bytes(octets(bytes, at))
}

pub(crate) fn float(bytes: &[u8], at: usize) -> f64 {
    f64::from_le_bytes(octets(bytes, at))
}

pub(crate) fn put_words(out: &mut Vec<u8>, numbers: &[usize]) {
    numbers.iter().for_each(|&n| out.extend((n as u32).to_le_bytes()));
}
