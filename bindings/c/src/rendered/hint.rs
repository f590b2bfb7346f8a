// Rendered from crates/byte_unit_c/src/hint.rt by `tools/dev render rust`. Do not edit.

//! Hints for strings that are rejected.

use crate::rendered::texts::write;
use crate::slices::Out;
use byte_unit::rendered::base::{Hint, hint_of};
use byte_unit::rendered::format::put;
use core::str;

/// The greatest length of the words of a hint.
const MAX_LEN: usize = 64;

/// Writes a hint for a string that is rejected to the start of `out`: how the size that was meant is written. Returns
/// its length, at most 64 bytes. Returns the length and writes nothing if `out` is shorter. Returns 0 and writes
/// nothing if the string is in the grammar of sizes, has no hint or is not UTF-8.
///
/// For example, `2 gigs` gives 10, the length of `write 'GB'`.
#[unsafe(no_mangle)]
pub unsafe extern "C" fn byte_unit_hint(text: *const u8, text_len: usize, out: *mut u8, out_len: usize) -> usize {
    // SAFETY: the caller's promise.
    let (text, out) = unsafe { (crate::slices::slice(text, text_len), crate::slices::slice_mut(out, out_len)) };
    match str::from_utf8(text) {
        Ok(text) => match hint_of(text) {
            Some(hint) => write_hint(hint, out),
            None => 0,
        },
        Err(_) => 0,
    }
}

/// Writes the words of a hint to the start of `out` if they fit, and returns their length.
fn write_hint(hint: Hint, out: &mut [Out<u8>]) -> usize {
    let mut words = [0; MAX_LEN];
    let (before, unit, after) = hint.parts();
    let rest = put(after.as_bytes(), &mut words, MAX_LEN);
    let name = put(unit.as_bytes(), &mut words, rest);
    let begin = put(before.as_bytes(), &mut words, name);
    write(&words[begin..], out)
}
