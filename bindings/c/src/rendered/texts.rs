// Rendered from crates/byte_unit_c/src/texts.rt by `tools/dev render rust`. Do not edit.

//! Formatting of sizes and names of units into a buffer of the caller.

use crate::rendered::codes::{type_at, unit_at};
use crate::rendered::flags::kind_at;
use crate::rendered::spec::Spec;
use crate::rendered::values::Number;
use crate::slices::Out;
use byte_unit::rendered::base::size;
use byte_unit::rendered::choice::appropriate_unit;
use byte_unit::rendered::format::{write_adjusted, write_text};
use byte_unit::support::Place;

/// Formats a size to the start of `out`, and returns the length of the text. The size is in bytes, or in bits with the
/// flag `BITS` (1). Returns the length and writes nothing if `out` is shorter. Returns 0 and writes nothing if the size
/// is out of range, another flag is set or the spec is invalid.
///
/// For example, 1536 bytes with an alternate spec gives 7, the length of `1.5 KiB`.
#[unsafe(no_mangle)]
pub unsafe extern "C" fn byte_unit_text(size: Number, flags: u32, spec: Spec, out: *mut u8, out_len: usize) -> usize {
    // SAFETY: the caller's promise.
    let out = unsafe { crate::slices::slice_mut(out, out_len) };
    match (size::bounded(size.get()), kind_at(flags), spec.get()) {
        (Some(size), Some(kind), Some(spec)) => write_text(size, kind, spec, out),
        _ => 0,
    }
}

/// Formats a size in the unit with a code to the start of `out`, and returns the length of the text. The size is in
/// bytes, or in bits with the flag `BITS` (1). Returns the length and writes nothing if `out` is shorter. Returns 0 and
/// writes nothing if the size is out of range, another flag is set, the code is not that of a unit, or the spec is
/// invalid.
///
/// For example, 1536 bytes in the unit 4 (`KB`) with a zeroed spec gives 8, the length of `1.536 KB`.
#[unsafe(no_mangle)]
pub unsafe extern "C" fn byte_unit_adjusted_text(
    size: Number,
    flags: u32,
    unit: u32,
    spec: Spec,
    out: *mut u8,
    out_len: usize,
) -> usize {
    // SAFETY: the caller's promise.
    let out = unsafe { crate::slices::slice_mut(out, out_len) };
    let (size, kind) = (size::bounded(size.get()), kind_at(flags));
    match (size, kind, unit_at(unit), spec.get()) {
        (Some(size), Some(kind), Some(unit), Some(spec)) => write_adjusted(size, kind, unit, spec, out),
        _ => 0,
    }
}

/// Formats a size in its appropriate unit to the start of `out`, and returns the length of the text. The unit is the
/// one that `byte_unit_appropriate_unit` returns for the unit type (0 binary, 1 decimal, 2 both), and the text that of
/// `byte_unit_adjusted_text` in this unit. The size is in bytes, or in bits with the flag `BITS` (1). Returns the
/// length and writes nothing if `out` is shorter. Returns 0 and writes nothing if the size is out of range, another
/// flag is set, the unit type is unknown, or the spec is invalid.
///
/// For example, 10,000 bytes with the unit type 0 and the precision 1 gives 7, the length of `9.8 KiB`.
#[unsafe(no_mangle)]
pub unsafe extern "C" fn byte_unit_approximate_text(
    size: Number,
    flags: u32,
    unit_type: u32,
    spec: Spec,
    out: *mut u8,
    out_len: usize,
) -> usize {
    // SAFETY: the caller's promise.
    let out = unsafe { crate::slices::slice_mut(out, out_len) };
    let (size, kind) = (size::bounded(size.get()), kind_at(flags));
    match (size, kind, type_at(unit_type), spec.get()) {
        (Some(size), Some(kind), Some(unit_type), Some(spec)) => {
            let unit = appropriate_unit(size, kind, unit_type);
            write_adjusted(size, kind, unit, spec, out)
        }
        _ => 0,
    }
}

/// Writes the name of the unit with a code to the start of `out`, and returns its length. Returns the length and writes
/// nothing if `out` is shorter. Returns 0 and writes nothing if the code is not that of a unit.
///
/// For example, the code 5 gives 3, the length of `KiB`.
#[unsafe(no_mangle)]
pub unsafe extern "C" fn byte_unit_unit_name(unit: u32, out: *mut u8, out_len: usize) -> usize {
    // SAFETY: the caller's promise.
    let out = unsafe { crate::slices::slice_mut(out, out_len) };
    match unit_at(unit) {
        Some(unit) => write(unit.as_str().as_bytes(), out),
        None => 0,
    }
}

/// Copies bytes to the start of `out` if they fit, and returns their number.
pub fn write(text: &[u8], out: &mut [Out<u8>]) -> usize {
    let len = text.len();
    if len <= out.len() {
        Place::copy(&mut out[..len], text);
    }
    len
}
