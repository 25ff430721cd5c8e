//! Drives the Rust and the port over the same wire, and compares every request, record, outcome, id, progress, seed and
//! rest.

pub mod kinds;
pub mod reasons;
pub mod run;
pub mod wire;
