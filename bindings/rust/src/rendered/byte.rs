// Rendered from crates/byte_unit_byte/src/lib.rt by `tools/dev render rust`. Do not edit.

//! Sizes in bytes: [`Byte`], a whole number of bytes below 10^30.

mod byte;

pub use byte::{AdjustedByte, Byte};
