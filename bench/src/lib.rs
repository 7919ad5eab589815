//! The checker's search by shapes in plain Rust, and a brute-force check to compare it with.

pub mod brute;
pub mod formed;
pub mod piece;
pub mod search;
pub mod sheet;
