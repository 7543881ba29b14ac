//! The one way into the exports.

/// Calls an export. `&s` and `&mut s` stand for the pointer and the length of a slice, every other argument for itself.
macro_rules! call {
    ($export:ident $(, $($rest:tt)*)?) => { call!(@ $export () $($($rest)*)?) };
    (@ $export:ident ($($done:expr),*)) => {
        // SAFETY: each pointer goes with its own length, and the export keeps to them.
        unsafe { $crate::raw::$export($($done),*) }
    };
    (@ $export:ident ($($done:expr),*) &mut $slice:expr $(, $($rest:tt)*)?) => {
        call!(@ $export ($($done,)* $slice.as_mut_ptr(), $slice.len()) $($($rest)*)?)
    };
    (@ $export:ident ($($done:expr),*) &$slice:expr $(, $($rest:tt)*)?) => {
        call!(@ $export ($($done,)* $slice.as_ptr(), $slice.len()) $($($rest)*)?)
    };
    (@ $export:ident ($($done:expr),*) $plain:expr $(, $($rest:tt)*)?) => {
        call!(@ $export ($($done,)* $plain) $($($rest)*)?)
    };
}
