//! The header, the crate and the library say the same; the example in C builds and prints what stands beside it.

use lavtoeu::layout::*;
use lavtoeu::*;
use std::path::Path;
use std::process::Command;

const HEADER: &str = include_str!("../../lavtoeu.h");

/// What the header says after a name: the text of a macro, or the number of an enum.
fn says(name: &str) -> &'static str {
    let named = |at: &usize| {
        let (before, after) = (&HEADER[..*at], &HEADER[*at + name.len()..]);
        before.ends_with("#define ") && after.starts_with(' ') || before.ends_with([' ', '\n']) && after.starts_with(" = ")
    };
    let found: Vec<usize> = HEADER.match_indices(name).map(|(at, _)| at).filter(named).collect();
    assert_eq!(found.len(), 1, "{name} stands in the header once");
    HEADER[found[0] + name.len()..].trim_start_matches([' ', '=']).split([',', ' ', '\n']).next().unwrap()
}

#[test]
fn header_crate_and_library_have_one_version() {
    assert_eq!(version(), VERSION);
    assert_eq!(says("LAVTOEU_VERSION"), format!("0x{VERSION:06x}"));
    assert_eq!(says("LAVTOEU_VERSION_TEXT"), format!("{VERSION_TEXT:?}"));
    assert_eq!(VERSION_TEXT, env!("CARGO_PKG_VERSION"));
    let [_, major, minor, patch] = VERSION.to_be_bytes();
    assert_eq!(VERSION_TEXT, format!("{major}.{minor}.{patch}"));
    let changes = include_str!("../../../CHANGELOG.md");
    assert!(changes.contains(&format!("\n## {VERSION_TEXT}")), "CHANGELOG.md has no entry for {VERSION_TEXT}");
}

#[test]
fn header_and_crate_have_the_same_sizes() {
    for (name, size) in [
        ("TABLE_HEADER", TABLE_HEADER),
        ("LINK_RECORD", LINK_RECORD),
        ("LOCKOUT_RECORD", LOCKOUT_RECORD),
        ("IMAGE_HEADER", IMAGE_HEADER),
        ("EST_RECORD", EST_RECORD),
        ("PATH_RECORD", PATH_RECORD),
        ("DIVERGE_RECORD", DIVERGE_RECORD),
        ("YARD_HEADER", YARD_HEADER),
        ("YARD_OFFSET", YARD_OFFSET),
        ("REPORT_RECORD", REPORT_RECORD),
        ("UPDATE_WORDS", UPDATE_WORDS),
        ("CHECK_WORDS", CHECK_WORDS),
        ("BUNDLE_HEADER", BUNDLE_HEADER),
        ("RECORDING_HEADER", RECORDING_HEADER),
        ("STEP_RECORD", STEP_RECORD),
        ("STEP_MARK", STEP_MARK as usize),
        ("STEP_CHECK", STEP_CHECK as usize),
        ("UNDO_RECORD_HEADER", UNDO_RECORD_HEADER),
        ("SHEET_ROOM", SHEET_ROOM),
        ("PAGE_LINE", PAGE_LINE),
        ("MAX_LINKS", MAX_LINKS),
        ("MAX_LOCKOUTS", MAX_LOCKOUTS),
        ("MAX_ESTS", MAX_ESTS),
        ("MAX_ROOM", MAX_ROOM),
        ("MAX_SLOTS", MAX_SLOTS),
        ("MAX_BUNDLE", MAX_BUNDLE),
        ("MAX_GAME_LINKS", MAX_GAME_LINKS),
        ("MAX_TURNS", MAX_TURNS),
        ("WIDE_DIVERGE_RECORD", WIDE_DIVERGE_RECORD),
        ("WIDE_REPORT_RECORD", WIDE_REPORT_RECORD),
        ("WIDTH_AT", WIDTH_AT),
        ("MAX_NARROW_TRAIN", MAX_NARROW_TRAIN),
        ("MAX_TRAIN", MAX_TRAIN),
        ("ARRIVE", EstType::Arrive as usize),
        ("CLEAR", EstType::Clear as usize),
        ("FAKE", EstType::Fake as usize),
    ] {
        assert_eq!(says(&format!("LAVTOEU_{name}")), size.to_string(), "{name}");
    }
}

#[test]
fn the_example_in_c_prints_what_stands_beside_it() {
    let bindings = Path::new(env!("CARGO_MANIFEST_DIR")).join("..");
    let program = Path::new(env!("CARGO_TARGET_TMPDIR")).join("two_trains");
    let built = Command::new("cc")
        .args(["-Wall", "-Wextra", "-Werror", "-I"])
        .arg(&bindings)
        .arg(bindings.join("c/two_trains.c"))
        .args(["-L", env!("LAVTOEU_LIB_FOLDER"), "-lfree_path_c", "-o"])
        .arg(&program)
        .status();
    assert!(built.expect("cc").success());
    let printed = Command::new(&program).output().unwrap();
    assert!(printed.status.success());
    assert_eq!(String::from_utf8_lossy(&printed.stdout), include_str!("../../c/two_trains.out"));
}
