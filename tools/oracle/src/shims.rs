//! What the original text takes from crates that are not here: quantities,
//! integer sets, errors. No rule of the free path stands in this file.

use std::collections::HashSet;
use std::hash::{BuildHasherDefault, Hasher};

/// Quantities in SI units: a float each, with the operations that the text uses.
pub mod si {
    use std::ops::{Add, AddAssign, Mul, Sub};

    macro_rules! quantity {
        ($($name:ident)*) => {$(
            #[derive(Debug, Default, Clone, Copy, PartialEq, PartialOrd)]
            pub struct $name(pub f64);

            impl $name {
                pub const ZERO: Self = Self(0.0);
                pub fn max(self, other: Self) -> Self {
                    Self(self.0.max(other.0))
                }
            }
            impl Add for $name {
                type Output = Self;
                fn add(self, other: Self) -> Self {
                    Self(self.0 + other.0)
                }
            }
            impl Sub for $name {
                type Output = Self;
                fn sub(self, other: Self) -> Self {
                    Self(self.0 - other.0)
                }
            }
            impl AddAssign for $name {
                fn add_assign(&mut self, other: Self) {
                    self.0 += other.0;
                }
            }
            impl Mul<f64> for $name {
                type Output = Self;
                fn mul(self, factor: f64) -> Self {
                    Self(self.0 * factor)
                }
            }
            impl Mul<$name> for f64 {
                type Output = $name;
                fn mul(self, unit: $name) -> $name {
                    $name(self * unit.0)
                }
            }
        )*};
    }
    quantity!(Length Time Velocity Acceleration);
}

/// Unit constants.
pub mod uc {
    use super::si;
    pub const S: si::Time = si::Time(1.0);
    pub const TIME_NAN: si::Time = si::Time(f64::NAN);
}

pub mod track {
    pub use crate::text::structs::LINK_IDX_NA;
}

pub mod utils {
    use super::si;

    /// near of document 01.
    pub fn near(a: f64, b: f64) -> bool {
        let d = b - a;
        let s = a + b;
        d.abs() < 1e-8 || (s != 0.0 && (d / s).abs() < 1e-8)
    }

    pub fn almost_eq_uom(a: &si::Length, b: &si::Length, _tolerance: Option<f64>) -> bool {
        near(a.0, b.0)
    }
}

/// An error keeps no text, only the number of errors that it stands for.
pub mod anyhow {
    use crate::text::structs::ComboErrors;

    #[derive(Debug, Clone, PartialEq, Eq)]
    pub struct Error(pub usize);
    pub type Result<T> = std::result::Result<T, Error>;

    impl Error {
        pub fn one(_text: std::fmt::Arguments) -> Self {
            Error(1)
        }
    }
    impl std::fmt::Display for Error {
        fn fmt(&self, f: &mut std::fmt::Formatter) -> std::fmt::Result {
            write!(f, "{} errors", self.0)
        }
    }
    impl From<ComboErrors<Error>> for Error {
        fn from(errors: ComboErrors<Error>) -> Self {
            Error(errors.len())
        }
    }
}

macro_rules! anyhow_shim {
    ($($t:tt)*) => { crate::shims::anyhow::Error::one(format_args!($($t)*)) };
}
macro_rules! bail_shim {
    ($($t:tt)*) => { return Err(crate::shims::anyhow::Error::one(format_args!($($t)*))) };
}
pub(crate) use {anyhow_shim as anyhow, bail_shim as bail};

/// The crate's own error type.
#[derive(Debug)]
pub enum Error {
    Other(String),
}

/// The sets of nohash_hasher: a number is its own hash.
#[derive(Default)]
pub struct IdHasher(u64);
impl Hasher for IdHasher {
    fn finish(&self) -> u64 {
        self.0
    }
    fn write(&mut self, _bytes: &[u8]) {
        unreachable!()
    }
    fn write_u32(&mut self, n: u32) {
        self.0 = n as u64;
    }
}
pub type IntSet<T> = HashSet<T, BuildHasherDefault<IdHasher>>;

/// In place of get_unchecked: a read outside its list panics at the caller's line. The edition for times reads unchecked.
pub trait GetChecked<T> {
    fn get_checked(&self, i: usize) -> &T;
    fn get_checked_mut(&mut self, i: usize) -> &mut T;
}
#[cfg(not(unchecked))]
impl<T> GetChecked<T> for [T] {
    #[track_caller]
    #[inline]
    fn get_checked(&self, i: usize) -> &T {
        &self[i]
    }
    #[track_caller]
    #[inline]
    fn get_checked_mut(&mut self, i: usize) -> &mut T {
        &mut self[i]
    }
}
#[cfg(unchecked)]
impl<T> GetChecked<T> for [T] {
    #[inline]
    fn get_checked(&self, i: usize) -> &T {
        // SAFETY: only updates that the checked edition ran without a panic are timed.
        unsafe { self.get_unchecked(i) }
    }
    #[inline]
    fn get_checked_mut(&mut self, i: usize) -> &mut T {
        // SAFETY: as above.
        unsafe { self.get_unchecked_mut(i) }
    }
}
