// Rendered from crates/byte_unit_c/src/explain.rt by `tools/dev render rust`. Do not edit.

//! Messages for strings that are rejected, and strings as messages quote them.

use crate::rendered::flags::{any_spec_at, parse_spec_at};
use crate::rendered::message::write_message;
use crate::rendered::parse::{read_unit_bytes, unit_flags};
use crate::rendered::texts::write;
use crate::slices::Out;
use byte_unit::rendered::base::{LocatedError, MAX_QUOTE_LEN, ParseError, ParseSpec, location_at, quote, size};

/// Writes the error message for a string that is rejected to the start of `out`, and returns its length, at most 256
/// bytes. Returns the length and writes nothing if `out` is shorter. Returns 0 if and only if all flags are known and
/// the string represents a size, and then writes nothing. The flags are those of `byte_unit_parse_to`; for another, the
/// message is `a flag is unknown`.
///
/// Unless only the size is too large or the bytes are not UTF-8, the message ends with the number, from 1, of the first
/// wrong character, the one at the position that `byte_unit_error_position` writes, or with `(at the end of the text)`
/// if the string, without white space at its ends, ends too early.
///
/// For example, `-1` gives 47, the length of `the character '-' is not a number (character 1)`.
#[unsafe(no_mangle)]
pub unsafe extern "C" fn byte_unit_explain(
    text: *const u8,
    text_len: usize,
    flags: u32,
    out: *mut u8,
    out_len: usize,
) -> usize {
    // SAFETY: the caller's promise.
    let (text, out) = unsafe { (crate::slices::slice(text, text_len), crate::slices::slice_mut(out, out_len)) };
    match any_spec_at(flags) {
        Some(spec) => explain_as(text, spec, out),
        None => write(b"a flag is unknown", out),
    }
}

/// Explains as `byte_unit_explain` does, with known flags.
fn explain_as(text: &[u8], spec: ParseSpec, out: &mut [Out<u8>]) -> usize {
    // By reference, for the row `explain 1 byte` of docs/SPEED.md.
    match &size::explain(text, spec) {
        Some(Ok(_)) => 0,
        Some(Err(error)) => write_message(error, out),
        None => write(b"the text is not UTF-8", out),
    }
}

/// Writes the error message for a string that is not a unit to the start of `out`, and returns its length, at most 256
/// bytes. Returns the length and writes nothing if `out` is shorter. Returns 0 if and only if all flags are known and
/// the string spells a unit, and then writes nothing. The flags are those of `byte_unit_parse_unit_to`; for another,
/// the message is `a flag is unknown`. It ends with the number of the first wrong character or at the end, as that of
/// `byte_unit_explain`.
///
/// For example, `Kx` gives 85, the length of
/// `the character 'x' is incorrect ('B' or 'b' or no character is expected) (character 2)`.
#[unsafe(no_mangle)]
pub unsafe extern "C" fn byte_unit_explain_unit(
    text: *const u8,
    text_len: usize,
    flags: u32,
    out: *mut u8,
    out_len: usize,
) -> usize {
    // SAFETY: the caller's promise.
    let (text, out) = unsafe { (crate::slices::slice(text, text_len), crate::slices::slice_mut(out, out_len)) };
    match parse_spec_at(flags) {
        Some(spec) => explain_unit_as(text, spec, out),
        None => write(b"a flag is unknown", out),
    }
}

/// Explains as `byte_unit_explain_unit` does, with known flags.
fn explain_unit_as(text: &[u8], spec: ParseSpec, out: &mut [Out<u8>]) -> usize {
    let flags = unit_flags(spec);
    match read_unit_bytes(text, flags) {
        Some(Ok(_)) => 0,
        Some(Err(stop)) => {
            let error = LocatedError {
                error: ParseError::Unit(stop.reason.error_before(stop.next, flags)),
                expected: stop.reason.expected_before(stop.next, flags),
                location: location_at(text, stop.index, stop.next),
            };
            write_message(&error, out)
        }
        None => write(b"the text is not UTF-8", out),
    }
}

/// Writes a string for a message, as [`quote`] does, to the start of `out`, and returns its length: at most 482 bytes,
/// for 80 bytes of at most six each, as `\u{1b}`, and two dots. Returns the length and writes nothing if `out` is
/// shorter.
///
/// For example, `1` with a tab gives 6, the length of `1\u{9}`.
#[unsafe(no_mangle)]
pub unsafe extern "C" fn byte_unit_quote(text: *const u8, text_len: usize, out: *mut u8, out_len: usize) -> usize {
    // SAFETY: the caller's promise.
    let (text, out) = unsafe { (crate::slices::slice(text, text_len), crate::slices::slice_mut(out, out_len)) };
    write(quote(text, &mut [0; MAX_QUOTE_LEN]).as_bytes(), out)
}
