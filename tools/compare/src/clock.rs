//! The clock of the times.

use std::time::Instant;

/// Microseconds of one call, the best of some runs over all items; the items are copied before the clock starts, of
/// references nothing but these.
pub fn best<T: Clone>(items: &[T], turns: usize, mut f: impl FnMut(usize, &mut T)) -> f64 {
    let mut best = f64::INFINITY;
    for _ in 0..turns {
        let mut copies = items.to_vec();
        let start = Instant::now();
        for (i, x) in copies.iter_mut().enumerate() {
            f(i, x);
        }
        best = best.min(start.elapsed().as_secs_f64() * 1e6 / items.len() as f64);
    }
    best
}
