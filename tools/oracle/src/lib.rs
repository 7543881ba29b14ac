//! The Rust oracle of the free path core: the original text of ALTRIOS, and
//! around it the layouts and refusals of document 01.
//!
//! `model` holds one function for each operation; other programs may link it.

pub mod calls;
pub mod candidate;
pub mod carry;
pub mod carry_calls;
pub mod cases;
pub mod demand3;
pub mod figures;
pub mod game;
pub mod gen;
pub mod hook;
pub mod index;
pub mod index_calls;
pub mod layout;
pub mod leaves;
pub mod model;
pub mod record;
pub mod replay;
pub mod rng;
pub mod selftest;
pub mod shims;
pub mod sums;
pub mod text;
pub mod trials;
pub mod undo;
pub mod undo_calls;
pub mod wide;
pub mod wide_calls;
pub mod yards;
