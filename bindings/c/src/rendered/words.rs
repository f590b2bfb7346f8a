// Rendered from crates/byte_unit_c/src/words.rt by `tools/dev render rust`. Do not edit.

//! Parsing with the flag `WORDS`: words for units are read.
//!
//! Calls without the flag are apart, for the row `parse 1.5 KiB` of docs/SPEED.md.

use crate::rendered::error::{Error, INVALID_ARGUMENT};
use crate::rendered::flags::words_spec_at;
use crate::rendered::parse::parse_as;
use crate::rendered::values::Number;
use crate::slices::Out;

/// Parses as `byte_unit_parse_to` does, with the flag `WORDS` (16) beside the others, of which `BINARY_PREFIXES` (8)
/// may be one: words for units are read too, as in `5 bytes`. A string that is read without words is read as the same
/// size, and one that is no size in words either has the same error.
///
/// Returns `INVALID_ARGUMENT` and writes nothing without that flag, or if another is set.
///
/// For example, `10 MegaBytes` in bytes gives `OK` and the size 10,000,000.
#[unsafe(no_mangle)]
pub unsafe extern "C" fn byte_unit_parse_words_to(
    text: *const u8,
    text_len: usize,
    flags: u32,
    size: &mut Out<Number>,
    error: *mut Error,
    error_len: usize,
) -> u32 {
    // SAFETY: the caller's promise.
    let (text, error) = unsafe { (crate::slices::slice(text, text_len), crate::slices::slice_mut(error, error_len)) };
    match words_spec_at(flags) {
        Some(spec) => parse_as(text, spec, size, error),
        None => INVALID_ARGUMENT,
    }
}
