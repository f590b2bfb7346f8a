// Rendered from crates/byte_unit_c/src/position.rt by `tools/dev render rust`. Do not edit.

//! Where a string that is rejected is wrong.

use crate::slices::Out;
use byte_unit::rendered::base::{Unit, size};
use core::str;

/// Writes the index in bytes of the first wrong character of a string that `byte_unit_parse_to` rejects: up to there
/// the string, without the white space at its ends, begins a size, and with that character it begins none. If it ends
/// too early, the index is that of its end, before white space there; of white space alone, its length. The index is
/// the same with all flags.
///
/// Returns `true` if there is one. Returns `false` and writes nothing if the string represents a size, if only its size
/// is too large, or if the bytes are not UTF-8.
///
/// For example, `1 byte` gives the index 3, of its `y`, and `1.` gives 2.
#[unsafe(no_mangle)]
pub unsafe extern "C" fn byte_unit_error_position(text: *const u8, text_len: usize, position: &mut Out<usize>) -> bool {
    // SAFETY: the caller's promise.
    let text = unsafe { crate::slices::slice(text, text_len) };
    match str::from_utf8(text) {
        Ok(text) => write_position(size::error_position(text), position),
        Err(_) => false,
    }
}

/// Writes the index in bytes of the first wrong character of a string that `byte_unit_parse_unit_to` rejects, as
/// `byte_unit_error_position` does of one that is not a size.
///
/// For example, `Kx` gives the index 1, and `bi` gives 2.
#[unsafe(no_mangle)]
pub unsafe extern "C" fn byte_unit_unit_error_position(
    text: *const u8,
    text_len: usize,
    position: &mut Out<usize>,
) -> bool {
    // SAFETY: the caller's promise.
    let text = unsafe { crate::slices::slice(text, text_len) };
    match str::from_utf8(text) {
        Ok(text) => write_position(Unit::error_position(text), position),
        Err(_) => false,
    }
}

/// Writes the position, if there is one, and returns whether there is.
fn write_position(found: Option<usize>, position: &mut Out<usize>) -> bool {
    match found {
        Some(index) => {
            *position = Out::new(index);
            true
        }
        None => false,
    }
}
