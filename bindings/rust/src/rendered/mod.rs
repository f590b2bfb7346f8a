// Rendered from crates/ by `tools/dev render rust`. Do not edit.

//! The proved sources of the library as Rust, without their contracts: a module for each crate.

// What other packages call is not used without the feature `internal`.
#![allow(dead_code, missing_docs, unused_imports)]
// The forms of the sources are those of Rattle: its proofs and its compiler have theirs for a reason.
#![allow(
    clippy::char_lit_as_u8,
    clippy::derived_hash_with_manual_eq,
    clippy::len_without_is_empty,
    clippy::manual_div_ceil,
    clippy::manual_map,
    clippy::module_inception,
    clippy::needless_range_loop,
    clippy::needless_return,
    clippy::new_without_default,
    clippy::redundant_pattern_matching,
    clippy::type_complexity
)]

pub mod base;
pub mod bit;
pub mod byte;
pub mod choice;
pub mod format;
pub mod math;
