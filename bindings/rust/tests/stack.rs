//! How much stack each call takes, measured on a thread whose stack was painted before, and held to the bounds that
//! bindings/README.md states. `cargo test --offline --test stack -- --nocapture` prints the figures.
#![cfg(all(target_os = "linux", target_arch = "x86_64"))]

#[allow(dead_code)]
mod yards;

use lavtoeu::layout::*;
use lavtoeu::*;
use std::alloc::{alloc, dealloc, Layout};
use std::ffi::{c_int, c_void};
use std::fs::File;
use std::os::unix::fs::FileExt;
use std::sync::OnceLock;
use yards::*;

/// pthread_attr_t of x86-64 Linux.
#[repr(C, align(8))]
struct Attributes([u8; 56]);

extern "C" {
    fn pthread_attr_init(attributes: *mut Attributes) -> c_int;
    fn pthread_attr_setstack(attributes: *mut Attributes, stack: *mut c_void, size: usize) -> c_int;
    fn pthread_attr_destroy(attributes: *mut Attributes) -> c_int;
    fn pthread_create(
        thread: *mut usize,
        attributes: *const Attributes,
        run: extern "C" fn(*mut c_void) -> *mut c_void,
        with: *mut c_void,
    ) -> c_int;
    fn pthread_join(thread: usize, answer: *mut *mut c_void) -> c_int;
}

extern "C" fn run(call: *mut c_void) -> *mut c_void {
    // SAFETY: `touched` hands its own call over, and waits for the thread.
    unsafe { (*call.cast::<&mut dyn FnMut()>())() };
    std::ptr::null_mut()
}

const STACK: usize = 1 << 20;
const PAINT: [u8; 8] = [0xa5; 8];

/// The bytes from an address on. They are read by the system, since memcheck lets nobody read a stack that is no longer in use.
fn memory(at: *const u8, size: usize) -> Vec<u8> {
    let mut bytes = vec![0; size];
    File::open("/proc/self/mem").unwrap().read_exact_at(&mut bytes, at as u64).unwrap();
    bytes
}

/// How many bytes of a painted stack a thread touches that makes the call.
fn touched(mut call: &mut dyn FnMut()) -> usize {
    let layout = Layout::from_size_align(STACK, 4096).unwrap();
    let (mut attributes, mut thread) = (Attributes([0; 56]), 0);
    // SAFETY: the stack is an allocation of its own, which outlives the thread.
    unsafe {
        let stack = alloc(layout);
        assert!(!stack.is_null());
        stack.write_bytes(PAINT[0], STACK);
        assert_eq!(pthread_attr_init(&mut attributes), 0);
        assert_eq!(pthread_attr_setstack(&mut attributes, stack.cast(), STACK), 0);
        let with = &mut call as *mut &mut dyn FnMut();
        assert_eq!(pthread_create(&mut thread, &attributes, run, with.cast()), 0);
        assert_eq!(pthread_join(thread, std::ptr::null_mut()), 0);
        pthread_attr_destroy(&mut attributes);
        let after = memory(stack, STACK);
        dealloc(stack, layout);
        STACK - PAINT.len() * after.chunks(PAINT.len()).take_while(|&bytes| bytes == PAINT).count()
    }
}

/// The answer of a call, and its stack beyond that of a thread that calls nothing.
fn stack_of<T>(mut call: impl FnMut() -> T) -> (T, usize) {
    static IDLE: OnceLock<usize> = OnceLock::new();
    let idle = *IDLE.get_or_init(|| touched(&mut || ()));
    let mut answer = None;
    let used = touched(&mut || answer = Some(call()));
    (answer.unwrap(), used.saturating_sub(idle))
}

/// The siding's train with the most est records and the most room: the others lead nowhere, but the last leads back, so that refusal 8
/// takes its arrays.
fn large(train: u16) -> Vec<u8> {
    let mut est = siding();
    est.resize(EST_RECORD * MAX_ESTS, 0);
    est[siding().len()..].chunks_exact_mut(EST_RECORD).for_each(|record| record[28] = 2);
    est[EST_RECORD * (MAX_ESTS - 1) + 8] = 1;
    let mut image = vec![0; image_size(MAX_ESTS, MAX_ROOM)];
    let o = Order { room: MAX_ROOM as u32, links: MAX_LINKS as u32, ..order(train, 4) };
    assert_eq!(lay_out(&est, o, &mut image), Ok(()));
    image
}

/// Link 1 is held by train 2, in the longest occupancy.
fn occupancy() -> Vec<u16> {
    let mut occupancy = vec![0; MAX_LINKS];
    occupancy[1] = 2;
    occupancy
}

/// The calls with the stack that each may take, as bindings/README.md has it.
const BOUNDS: &[(&str, usize)] = &[
    ("version", 1 << 10),
    ("mark", 1 << 10),
    ("judge", 20 << 10),
    ("lay_out", 64 << 10),
    ("update", 128 << 10),
    ("check", 128 << 10),
    ("sheet", 320 << 10),
    ("page", 20 << 10),
    ("profile", 20 << 10),
    ("ceiling", 20 << 10),
    ("yard_ceiling", 20 << 10),
    ("replay", 160 << 10),
    ("closer_can_force", 192 << 10),
    ("view", 20 << 10),
    ("act", 20 << 10),
    ("mark_wide", 1 << 10),
    ("update_wide", 128 << 10),
    ("check_wide", 128 << 10),
    ("widen", 20 << 10),
    ("narrow", 20 << 10),
];

/// The stack of each call of `BOUNDS` over images that `image` makes of a train's number.
fn stacks(image: fn(u16) -> Vec<u8>, m: Move) -> Vec<usize> {
    let (one, mut spare) = (image(1), image(1));
    let header = Image::from_bytes(&one).unwrap();
    let est = est_bytes(&header.ests);
    let order = Order { room: header.room, links: m.occupancy.len() as u32, ..order(1, 4) };
    let table = table(&vec![Link { flip: 1, lockouts: vec![1] }; m.occupancy.len()]);
    let mut occupancy = m.occupancy.to_vec();
    let mut yard = yard(&[&one, &laid_out(2, 4)]);
    let bundle = bundle(&yard, m, 1);
    let (mut report, mut text) = ([0; 2 * REPORT_RECORD], [0; SHEET_ROOM]);

    let (number, versions) = stack_of(version);
    let (marked, marks) = stack_of(|| mark(&table, &mut occupancy, 1, 9));
    let (judged, judges) = stack_of(|| judge(&one, m.occupancy.len() as u32));
    let (laid, lays) = stack_of(|| lay_out(&est, order, &mut spare));
    let (updated, updates) = stack_of(|| update(&mut spare, m));
    let (checked, checks) = stack_of(|| check(&mut yard, m, 1, &mut report));
    let (printed, sheets) = stack_of(|| sheet_into(&bundle, &mut text));
    let mut lines = vec![0; PAGE_LINE * header.path.len()];
    let (paged, pages) = stack_of(|| page(&one, &mut lines));
    let (profiled, profiles) = stack_of(|| profile(&one));
    let (most, ceilings) = stack_of(|| ceiling(&one));
    let (all, yard_ceilings) = stack_of(|| yard_ceiling(&yard, m.limit));
    let asked = Check { blocking: m.blocking, moved: m.moved, begin: 1, local: m.local, limit: m.limit };
    let sitting = Recording::new().mark(1, 9).check(asked).to_bytes().unwrap();
    let mut list = [9; 2];
    let (mut start, mut held) = (lavtoeu::yard(&[&one, &laid_out(2, 4)]), m.occupancy.to_vec());
    let (played, replays) = stack_of(|| replay(&sitting, &table, &mut start, &mut held, &mut list));
    let (other, mut wide) = (lavtoeu::yard(&[&one, &laid_out(2, 4)]), vec![0; m.occupancy.len()]);
    let mut candidate = Candidate::new(&table, &mut wide, &other, 1);
    let (viewed, views) = stack_of(|| candidate.view(1));
    let (acted, acts) = stack_of(|| candidate.mark(1));

    assert_eq!((number, marked, judged, laid), (VERSION, Ok(()), Ok(()), Ok(())));
    assert_eq!(updated, Updated { status: Ok(Status::Success), rounds: 2, strays: 0, steps: 3, holder: 0, met: 2 });
    assert_eq!(checked, Ok(Checked::Done { deadlock: false, next: 1 }));
    assert!(text[..printed].starts_with(b"yard 2 deadlock no next 1\n1 success 2"));
    assert_eq!((paged, profiled), (Ok(()), Ok(())));
    assert_eq!((most.is_ok(), all.is_ok()), (true, true));
    assert_eq!((played, list), (Ok(()), [0, 0]));
    let wide: Vec<u32> = m.occupancy.iter().map(|_| 0).collect();
    let game = Game { occupancy: &wide, moved: 2, local: m.local, limit: m.limit, links: &[1, 2, 3], turns: 6 };
    let (forced, games) = stack_of(|| closer_can_force(&one, game));
    assert_eq!(forced, Ok(true));
    assert_eq!((viewed.is_ok(), acted), (true, Ok(())));

    let mut wide = vec![0; wide_image_size(header.ests.len(), header.room as usize)];
    let (widened, widens) = stack_of(|| widen(&one, &mut wide));
    let (narrowed, narrows) = stack_of(|| narrow(&wide, &mut spare));
    assert_eq!((widened, narrowed), (Ok(()), Ok(())));
    let occupancy: Vec<u32> = m.occupancy.iter().map(|&train| train as u32).collect();
    let (marked, wide_marks) = stack_of(|| mark_wide(&table, &mut occupancy.clone(), 1, 999_999));
    let told = WideMove { occupancy: &occupancy, blocking: m.blocking, moved: 2, local: m.local, limit: m.limit };
    let mut yard = lavtoeu::yard(&[&wide, &laid_out(2, 4)]);
    let mut report = [0; 2 * WIDE_REPORT_RECORD];
    let (checked, wide_checks) = stack_of(|| check_wide(&mut yard, told, 1, &mut report));
    let (updated, wide_updates) = stack_of(|| update_wide(&mut wide, told));
    assert_eq!((marked, updated.status), (Ok(()), Ok(Status::Success)));
    assert_eq!(checked, Ok(Checked::Done { deadlock: false, next: 1 }));
    let wides = [wide_marks, wide_updates, wide_checks, widens, narrows];
    let others = [versions, marks, judges, lays, updates, checks, sheets, pages, profiles, ceilings, yard_ceilings, replays, games, views, acts];
    [&others[..], &wides].concat()
}

#[test]
fn each_call_keeps_to_its_stack() {
    let occupancy = occupancy();
    let small = stacks(|t| laid_out(t, 4), MOVE);
    let large = stacks(large, Move { occupancy: &occupancy, ..MOVE });
    for (i, (call, bound)) in BOUNDS.iter().enumerate() {
        println!("{call}: {} bytes of stack for a small train, {} for the largest, bound {bound}", small[i], large[i]);
        assert!(small[i].max(large[i]) <= *bound, "{call} takes more stack than bindings/README.md says");
    }
}

/// The calls that fill an undo record and take a check back, over images that `image` makes.
fn undo_stacks(image: fn(u16) -> Vec<u8>, m: Move) -> [usize; 3] {
    let old = yard(&[&image(1), &laid_out(2, 4)]);
    let mut record = vec![0; undo_record_size(old.len())];
    let (mut report, mut answer) = ([0; 2 * REPORT_RECORD], [0; CHECK_WORDS]);
    let (mut left, mut again) = (old.clone(), old.clone());
    let (checked, narrows) = stack_of(|| check_recorded_into(&mut left, m, 1, &mut report, &mut record, &mut answer));
    let occupancy: Vec<u32> = m.occupancy.iter().map(|&train| train as u32).collect();
    let told = WideMove { occupancy: &occupancy, blocking: m.blocking, moved: 2, local: m.local, limit: m.limit };
    let (wide, wides) = stack_of(|| check_recorded_wide_into(&mut again, told, 1, &mut report, &mut record, &mut answer));
    assert_eq!((checked, wide, &again), (Ok(()), Ok(()), &left));
    let (undone, undos) = stack_of(|| undo(&mut left, &record));
    assert_eq!((undone, left), (Ok(()), old));
    [narrows, wides, undos]
}

#[test]
fn each_call_with_an_undo_record_keeps_to_its_stack() {
    let occupancy = occupancy();
    let small = undo_stacks(|t| laid_out(t, 4), MOVE);
    let large = undo_stacks(large, Move { occupancy: &occupancy, ..MOVE });
    let bounds = [("check_recorded", 128 << 10), ("check_recorded_wide", 128 << 10), ("undo", 1 << 10)];
    for (i, (call, bound)) in bounds.into_iter().enumerate() {
        println!("{call}: {} bytes of stack for a small train, {} for the largest, bound {bound}", small[i], large[i]);
        assert!(small[i].max(large[i]) <= bound, "{call} takes more stack than bindings/README.md says");
    }
}

/// The calls beside an index, over images that `image` makes.
fn index_stacks(image: fn(u16) -> Vec<u8>, m: Move) -> [usize; 7] {
    let old = yard(&[&image(1), &laid_out(2, 4)]);
    let mut record = vec![0; undo_record_size(old.len())];
    let (mut report, mut answer, mut index) = ([0; 2 * REPORT_RECORD], [0; CHECK_WORDS], vec![0; m.occupancy.len()]);
    let (r, a) = (&mut report, &mut answer);
    let (built, builds) = stack_of(|| build_index(&old, &mut index));
    let occupancy: Vec<u32> = m.occupancy.iter().map(|&train| train as u32).collect();
    let told = WideMove { occupancy: &occupancy, blocking: m.blocking, moved: 2, local: m.local, limit: m.limit };
    let mut yards = vec![old.clone(); 4];
    let [one, two, three, four] = &mut yards[..] else { panic!("four yards") };
    let (first, narrows) = stack_of(|| check_indexed_into(one, m, 1, r, &mut index, a));
    let (second, wides) = stack_of(|| check_wide_indexed_into(two, told, 1, r, &mut index, a));
    let (third, recordeds) = stack_of(|| check_recorded_indexed_into(three, m, 1, r, &mut record, &mut index, a));
    let (fourth, wide_recordeds) = stack_of(|| check_recorded_wide_indexed_into(four, told, 1, r, &mut record, &mut index, a));
    assert_eq!([built, first, second, third, fourth], [Ok(()); 5]);
    assert!(yards.iter().all(|yard| *yard != old && *yard == yards[0]));
    let (undone, undos) = stack_of(|| undo_indexed(&mut yards[3], &record, &mut index));
    assert_eq!((undone, &yards[3]), (Ok(()), &old));
    let header = Image::from_bytes(&image(1)).unwrap();
    let (est, mut spare) = (est_bytes(&header.ests), vec![0; image(1).len()]);
    let o = Order { room: header.room, links: m.occupancy.len() as u32, ..order(1, 4) };
    let (laid, lays) = stack_of(|| lay_out_indexed(&est, o, &mut spare, &mut index));
    assert_eq!((laid, spare), (Ok(()), image(1)));
    [builds, narrows, wides, recordeds, wide_recordeds, undos, lays]
}

/// A step and a half check of a sitting, over images that `image` makes.
fn carry_stacks(image: fn(u16) -> Vec<u8>, m: Move) -> [usize; 2] {
    let mut yard = yard(&[&image(1), &laid_out(2, 4)]);
    let (mut second, mut occupancy) = (vec![0; wide_yard_size(&yard).unwrap()], vec![0; m.occupancy.len()]);
    let (stepped, steps) = stack_of(|| carry(&yard, m.occupancy, 0, &mut second, &mut occupancy));
    let told = WideMove { occupancy: &occupancy, blocking: m.blocking, moved: 2, local: m.local, limit: m.limit };
    let (mut report, mut answer) = ([0; 2 * WIDE_REPORT_RECORD], [0; CHECK_WORDS]);
    let (checked, checks) = stack_of(|| check_half_into(&mut yard, &mut second, 1, told, 1, &mut report, &mut answer));
    assert_eq!((stepped, checked, wide_rows(&report)[0].slot), (Ok(()), Ok(()), WideSlot::Success));
    [steps, checks]
}

#[test]
fn each_call_beside_an_index_and_of_a_carried_sitting_keeps_to_its_stack() {
    let occupancy = occupancy();
    let most = Move { occupancy: &occupancy, ..MOVE };
    let small = [&index_stacks(|t| laid_out(t, 4), MOVE)[..], &carry_stacks(|t| laid_out(t, 4), MOVE)].concat();
    let large = [&index_stacks(large, most)[..], &carry_stacks(large, most)].concat();
    let bounds = [
        ("build_index", 20 << 10),
        ("check_indexed", 176 << 10),
        ("check_wide_indexed", 176 << 10),
        ("check_recorded_indexed", 128 << 10),
        ("check_recorded_wide_indexed", 128 << 10),
        ("undo_indexed", 20 << 10),
        ("lay_out_indexed", 112 << 10),
        ("carry", 20 << 10),
        ("check_half", 128 << 10),
    ];
    for (i, (call, bound)) in bounds.into_iter().enumerate() {
        println!("{call}: {} bytes of stack for a small train, {} for the largest, bound {bound}", small[i], large[i]);
        assert!(small[i].max(large[i]) <= bound, "{call} takes more stack than bindings/README.md says");
    }
}
