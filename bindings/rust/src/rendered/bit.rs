// Rendered from crates/byte_unit_bit/src/lib.rt by `tools/dev render rust`. Do not edit.

//! Sizes in bits: [`Bit`], a whole number of bits below 10^30.

mod bit;

pub use bit::{AdjustedBit, Bit};
