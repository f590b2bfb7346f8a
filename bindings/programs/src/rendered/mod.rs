// Rendered from crates/ by `tools/dev render rust`. Do not edit.

//! The proved sources of the programs as Rust, without their contracts, a module for each crate.
// What only contracts read, tests call, or loops of proofs name stays.
#![allow(clippy::manual_range_contains, clippy::result_large_err, dead_code, unused_imports, unused_variables)]

#[cfg(feature = "command")]
pub mod cli;
#[cfg(feature = "command")]
pub mod command;
pub mod lines;
pub mod stream;
