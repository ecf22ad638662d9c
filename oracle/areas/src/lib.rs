//! docs/AREAS.md in Rust, written from that page alone, and the eleven questions of docs/SCOPE.md, 6.
pub mod block;
pub mod break_table;
pub mod event;
mod fields;
pub mod questions;
pub mod session;

#[cfg(test)]
mod dice;
