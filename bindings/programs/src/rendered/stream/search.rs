// Rendered from crates/byte_unit_stream/src/search.rt by `tools/dev render rust`. Do not edit.

//! Finds where a record ends.

use byte_unit::support::lanes::*;

/// The number of bytes that are compared at once: those of a vector `u8x16`.
const LANES: usize = 16;

/// Returns the index of the first end byte, or `None` if there is none.
// Inlined for the row `1.5 KiB` of lines in docs/SPEED.md.
#[inline(always)]
pub fn end_of(bytes: &[u8], end: u8) -> Option<usize> {
    let mut i = 0;
    // A mask finds it with one branch for 16 bytes, for the row `mix` of docs/SPEED.md.
    while bytes.len() - i >= LANES {
        let ends = u8x16::from_slice(&bytes[i..]).simd_eq(u8x16::splat(end)).to_bitmask();
        if ends != 0 {
            return Some(i + ends.trailing_zeros() as usize);
        }
        i += LANES;
    }
    while i < bytes.len() {
        if bytes[i] == end {
            return Some(i);
        }
        i += 1;
    }
    None
}
