//! The other side of the comparison: direct evaluation of every point, the
//! paper's definitions taken word for word, and random cases.
//!
//! Nothing here uses the `paper` crate but `cases`, which holds the fixed
//! examples and limits.

#![forbid(unsafe_code)]

pub mod cases;
pub mod exhaust;
pub mod plain;
pub mod problems;
pub mod random;
pub mod shape;
pub mod sheets;
pub mod tree;

/// The paper's M.
pub const M: i64 = 1_000_000_000_000;
