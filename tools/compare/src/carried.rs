//! Sittings that are carried to wide images: each step, mark and half check is held against the oracle's; a half check must give the
//! numbers that the oracle's check of the all-narrow yard gives, and after the last step no narrow image is left.

use crate::library::{answered, numbers, put_check, wide_told};
use crate::tally::Tally;
use oracle::carry::wide_offsets;
use oracle::carry_calls;
use oracle::cases::{Case, CARRY, HALF_CHECK};
use oracle::layout::{is_wide, read_yard, u16s, u32_at, u32_bytes, u32s, yard_of};
use oracle::model::{row_at, CheckArgs, ROW};
use oracle::rng::Rng;
use oracle::trials::carry::narrowed;
use oracle::wide::{self, NARROW_TRAIN, WIDE_ROW};

pub fn carry(case: &mut Case) {
    let (mut second, mut wide_occ) = (case.ins[2].clone(), u32s(&case.ins[3]));
    let done = lavtoeu::carry(&case.ins[0], &u16s(&case.ins[1]), case.args[0], &mut second, &mut wide_occ);
    (case.answer[0], case.answer[1]) = numbers(done);
    case.outs = [second, u32_bytes(&wide_occ)];
}

/// The second yard stands behind the first.
pub fn half_check(case: &mut Case) {
    let (mut yard, mut second) = case.both_yards(&case.ins[0]);
    let (occ, blocking, mut report) = (u32s(&case.ins[1]), u32s(&case.ins[2]), case.ins[3].clone());
    let args = case.wide_args(&occ, &blocking);
    let begin = u16::try_from(args.begin).unwrap_or(u16::MAX);
    let mut answer = vec![u64::MAX; 3];
    let done = lavtoeu::check_half_into(
        &mut yard,
        &mut second,
        case.args[4],
        wide_told(&args),
        begin,
        &mut report,
        &mut answer,
    );
    put_check(case, done, answer, [[yard, second].concat(), report]);
}

/// The images of a half-carried yard, all narrow; none where one of them cannot be.
fn all_narrow(case: &Case, both: &[u8]) -> Option<Vec<Vec<u8>>> {
    let (yard, second) = case.both_yards(both);
    let parts = read_yard(&yard)?;
    let offsets = wide_offsets(&yard, &parts);
    let image = |(i, part): (usize, &std::ops::Range<usize>)| match i < case.args[4] as usize {
        true => narrowed(second.get(offsets[i] as usize..offsets[i + 1] as usize)?),
        false => Some(yard[part.clone()].to_vec()).filter(|image| !is_wide(image)),
    };
    parts.iter().enumerate().map(image).collect()
}

/// The check of the all-narrow yard with the oracle's answer, where no train of the half check exceeds 65,535.
fn as_narrow(half: &Case) -> Option<Case> {
    let (occ, blocking, images) = (u32s(&half.ins[1]), u32s(&half.ins[2]), all_narrow(half, &half.ins[0])?);
    let fit = occ.iter().chain([&half.args[0]]).all(|&train| train <= NARROW_TRAIN);
    let a = half.wide_args(&occ, &blocking);
    let occ: Vec<u16> = occ.iter().map(|&train| train as u16).collect();
    let (begin, local, limit) = (a.begin, a.local, a.limit);
    let a = CheckArgs { occ: &occ, blocking: &blocking, moved: a.moved as u16, begin, local, limit };
    // a report that 16 refuses is one byte too long here
    let report = ROW * images.len() + (half.ins[3].len() != WIDE_ROW * images.len()) as usize;
    fit.then(|| Case::check(&yard_of(&images), &a, &vec![0xA5; report]).answered())
}

/// The same numbers in the answer and in each row, and the same images but for their width.
fn says_as_much(half: &Case, narrow: &Case) -> bool {
    if half.answer != narrow.answer || half.answer[0] == 2 {
        return half.answer == narrow.answer;
    }
    let slots = half.outs[1].len() / WIDE_ROW;
    let rows = (0..slots).all(|i| wide::row_at(&half.outs[1], i, true) == row_at(&narrow.outs[1], i));
    rows && all_narrow(half, &half.outs[0]).is_some_and(|images| yard_of(&images) == narrow.outs[0])
}

/// After the last step each image of the second yard is wide.
fn is_carried(case: &Case) -> bool {
    let second = &case.outs[0];
    read_yard(second).is_some_and(|parts| parts.into_iter().all(|part| is_wide(&second[part])))
}

pub fn sitting(rng: &mut Rng, tally: &mut Tally) {
    for case in carry_calls::sitting(rng) {
        tally.add_named(&case);
        let got = answered(&case);
        match got.op {
            // 24 is not of a check of one yard
            HALF_CHECK if got.answer[1] != 24 => {
                if let Some(narrow) = as_narrow(&got) {
                    tally.add_narrow(says_as_much(&got, &narrow), &case);
                }
            }
            CARRY if got.answer[0] == 0 && got.args[0] + 1 == u32_at(&got.outs[0], 4) => {
                tally.add_carried(is_carried(&got), &case)
            }
            _ => {}
        }
    }
}
