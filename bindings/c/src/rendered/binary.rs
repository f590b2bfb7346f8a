// Rendered from crates/byte_unit_c/src/binary.rt by `tools/dev render rust`. Do not edit.

//! Parsing with the flag `BINARY_PREFIXES`: decimal prefixes mean binary ones.
//!
//! Calls without the flag are apart, for the row `parse 1.5 KiB` of docs/SPEED.md.

use crate::rendered::error::{Error, INVALID_ARGUMENT};
use crate::rendered::flags::binary_spec_at;
use crate::rendered::parse::parse_as;
use crate::rendered::values::Number;
use crate::slices::Out;

/// Parses as `byte_unit_parse_to` does, with the flag `BINARY_PREFIXES` (8) beside the others: a decimal prefix means
/// the binary one, so `K` and `KB` are by 1024, as `Ki` and `KiB` are.
///
/// Returns `INVALID_ARGUMENT` and writes nothing without that flag, or if another is set.
///
/// For example, `10m` in bytes gives `OK` and the size 10,485,760.
#[unsafe(no_mangle)]
pub unsafe extern "C" fn byte_unit_parse_binary_to(
    text: *const u8,
    text_len: usize,
    flags: u32,
    size: &mut Out<Number>,
    error: *mut Error,
    error_len: usize,
) -> u32 {
    // SAFETY: the caller's promise.
    let (text, error) = unsafe { (crate::slices::slice(text, text_len), crate::slices::slice_mut(error, error_len)) };
    match binary_spec_at(flags) {
        Some(spec) => parse_as(text, spec, size, error),
        None => INVALID_ARGUMENT,
    }
}
