//! carrying a sitting from narrow images to wide ones, slot by slot, and checks of a yard that is half carried.

use crate::layout::*;
use crate::model::{self, Checked};
use crate::wide::{Slots, WideArgs};

/// Where the slots of the second buffer lie, all wide: one offset more than there are slots, the last its size.
pub fn wide_offsets(yard: &[u8], parts: &[std::ops::Range<usize>]) -> Vec<u64> {
    let mut at = 8 + 4 * parts.len() as u64;
    let mut offsets = vec![at];
    for part in parts {
        at += part.len() as u64 + 4 * u32_at(yard, part.start + 16) as u64;
        offsets.push(at);
    }
    offsets
}

/// Is the second buffer as a sitting leaves it that has carried so many slots, 1 or more?
fn begun(second: &[u8], offsets: &[u64], count: usize) -> bool {
    let s = offsets.len() - 1;
    let header = [second.len() as u64, s as u64].into_iter().chain(offsets[..s].iter().copied());
    let fits = header.enumerate().all(|(i, n)| u32_at(second, 4 * i) as u64 == n);
    fits && (1..=s).all(|t| {
        let part = &second[offsets[t - 1] as usize..offsets[t] as usize];
        if t <= count {
            u16_at(part, 32) as usize == t && is_wide(part)
        } else {
            part.iter().all(|&b| b == 0)
        }
    })
}

/// 24 of a second buffer for this yard. Of a sitting that has not begun only its size is asked.
fn second_refusal(parts: usize, offsets: &[u64], second: &[u8], count: u32) -> Result<(), Refusal> {
    let sized = count < parts as u32 && second.len() as u64 == *offsets.last().expect("an offset");
    if sized && (count == 0 || begun(second, offsets, count as usize)) {
        Ok(())
    } else {
        Err(refusal(24))
    }
}

/// One step: carries slot count + 1; the first also writes the header, zeroes the other parts and carries the occupancy.
pub fn carry(
    yard: &[u8],
    occ: &[u16],
    count: u32,
    second: &mut [u8],
    wide_occ: &mut [u32],
) -> Result<(), Refusal> {
    if !link_count_ok(occ.len()) || occ.len() != wide_occ.len() {
        return Err(refusal(2));
    }
    let parts = read_yard(yard).ok_or(refusal(14))?;
    for part in parts.iter().skip(count as usize) {
        read_image(&yard[part.clone()], occ.len())?;
    }
    let offsets = wide_offsets(yard, &parts);
    second_refusal(parts.len(), &offsets, second, count)?;
    if count == 0 {
        second.fill(0);
        let header = [second.len(), parts.len()].into_iter().chain(offsets.iter().map(|&n| n as usize));
        for (i, n) in header.take(2 + parts.len()).enumerate() {
            put_u32(second, 4 * i, n as u32);
        }
        wide_occ.iter_mut().zip(occ).for_each(|(w, &n)| *w = n as u32);
    }
    let slot = count as usize;
    let t = read_image(&yard[parts[slot].clone()], occ.len())?;
    write_image(&Train { wide: true, ..t }, &mut second[offsets[slot] as usize..offsets[slot + 1] as usize]);
    Ok(())
}

/// A check of a yard of which so many slots are carried: these are read and written in the second buffer.
pub fn check_half(
    yard: &mut [u8],
    second: &mut [u8],
    count: u32,
    a: &WideArgs,
    report: &mut [u8],
) -> Checked {
    let read = || {
        model::arguments(a.occ.len(), a.blocking, a.moved, a.limit)?;
        let parts = read_yard(yard).ok_or(refusal(14))?;
        let offsets = wide_offsets(yard, &parts);
        if count == 0 {
            return Err(refusal(24));
        }
        second_refusal(parts.len(), &offsets, second, count)?;
        let of_slot = |i: usize| match i < count as usize {
            true => second[offsets[i] as usize..offsets[i + 1] as usize].to_vec(),
            false => yard[parts[i].clone()].to_vec(),
        };
        let slots = Slots::of((0..parts.len()).map(of_slot).collect());
        slots.refusal(a, report, true)?;
        Ok((parts, offsets, slots))
    };
    let (parts, offsets, mut slots) = match read() {
        Ok(x) => x,
        Err(r) => return Checked::Refused(r),
    };
    let (checked, _) = slots.check(a, report, true);
    for (i, image) in slots.images.iter().enumerate() {
        if i < count as usize {
            second[offsets[i] as usize..offsets[i + 1] as usize].copy_from_slice(image);
        } else {
            yard[parts[i].clone()].copy_from_slice(image);
        }
    }
    checked
}
