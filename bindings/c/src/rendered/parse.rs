// Rendered from crates/byte_unit_c/src/parse.rt by `tools/dev render rust`. Do not edit.

//! Parsing of sizes and of units.

use crate::rendered::codes::unit_code;
use crate::rendered::error::{Error, INVALID_ARGUMENT, NOT_UTF8, OK, UNIT, bytes_of, value_code};
use crate::rendered::flags::parse_spec_at;
use crate::rendered::values::Number;
use crate::slices::Out;
use byte_unit::rendered::base::{
    Flags, Kind, Measure, ParseSpec, Reason, Stop, Unit, UnitStop, ValueParseError, measure_in_words, read_text,
    read_unit_text, size,
};
use core::str;

/// Parses a size, rounded up to the next whole byte, or to the next whole bit with the flag `BITS` (1). Sizes are below
/// 10^30. With the flag `IGNORE_CASE` (2) the suffix `b` means bytes too. Sizes in bits are always case-sensitive: with
/// `BITS`, `IGNORE_CASE` has no effect.
///
/// Returns `OK` and writes `size` if the string represents a size. Otherwise returns the code of the error and writes
/// its details to the first of `error`, if it is not empty. Returns `NOT_UTF8` and writes nothing if the bytes are not
/// UTF-8, and `INVALID_ARGUMENT` and writes nothing if another flag is set. What is not written is unchanged.
///
/// For example, `1.5 KiB` in bytes gives `OK` and the size 1536, and `1 x` gives `UNIT` with the character `x`.
#[unsafe(no_mangle)]
pub unsafe extern "C" fn byte_unit_parse_to(
    text: *const u8,
    text_len: usize,
    flags: u32,
    size: &mut Out<Number>,
    error: *mut Error,
    error_len: usize,
) -> u32 {
    // SAFETY: the caller's promise.
    let (text, error) = unsafe { (crate::slices::slice(text, text_len), crate::slices::slice_mut(error, error_len)) };
    match parse_spec_at(flags) {
        Some(spec) => parse_as(text, spec, size, error),
        None => INVALID_ARGUMENT,
    }
}

/// Parses as `byte_unit_parse_to` does, with known flags.
#[inline(always)]
pub fn parse_as(text: &[u8], spec: ParseSpec, size: &mut Out<Number>, errors: &mut [Out<Error>]) -> u32 {
    let flags = spec.flags();
    match read_text(text, flags) {
        Some(Ok(found)) => write_size(found, spec, size, errors),
        Some(Err(stop)) => match measure_in_words(text, spec) {
            Some(found) => write_size(found, spec, size, errors),
            None => write_stop(stop, flags, errors),
        },
        None => NOT_UTF8,
    }
}

/// Writes the size of a string with this unit and this number, or the details of the error that it is too large, and
/// returns the code.
#[inline(always)]
fn write_size(found: Measure, spec: ParseSpec, size: &mut Out<Number>, errors: &mut [Out<Error>]) -> u32 {
    let number = found.number;
    match size::size_of(found, spec) {
        Ok(in_kind) => {
            *size = Out::new(Number::new(in_kind));
            OK
        }
        Err(_) => write_value(ValueParseError::ExceededBounds(number), 0, errors),
    }
}

/// Writes the details of the error of a string in which the parser stops here, and returns its code.
#[inline(always)]
fn write_stop(stop: Stop<Reason>, flags: Flags, errors: &mut [Out<Error>]) -> u32 {
    match stop.reason {
        Reason::InNumber(reason) => write_value(reason.error_before(stop.next), stop.index, errors),
        Reason::InUnit(reason) => {
            let stop = Stop { reason, next: stop.next, index: stop.index };
            write_unit_stop(stop, flags, errors);
            UNIT
        }
    }
}

/// Writes the details of an error in a number with its position, and returns its code.
#[inline(always)]
fn write_value(error: ValueParseError, position: usize, errors: &mut [Out<Error>]) -> u32 {
    let code = value_code(&error);
    Error::of_value(error, position).write(errors);
    code
}

/// Writes the error of a string in which the parser of a unit stops here.
#[inline(always)]
fn write_unit_stop(stop: Stop<UnitStop>, flags: Flags, errors: &mut [Out<Error>]) {
    let expected = bytes_of(stop.reason.expected_before(stop.next, flags));
    let error = stop.reason.error_before(stop.next, flags);
    let may_end = error.also_expect_no_character;
    Error::of_unit_parts(error.character, expected, may_end, stop.index).write(errors);
}

/// Parses a unit by one of its spellings, as `Unit::parse_str` does, and writes its code to `unit`. A spelling without
/// a suffix is of bytes, or of bits with the flag `BITS` (1). With the flag `IGNORE_CASE` (2) the suffix `b` means
/// bytes too.
///
/// Returns `OK` and writes `unit` if the string spells a unit. Otherwise returns `UNIT` and writes the details of the
/// error to the first of `error`, if it is not empty. Returns `NOT_UTF8` and writes nothing if the bytes are not UTF-8,
/// and `INVALID_ARGUMENT` and writes nothing if another flag is set. What is not written is unchanged.
///
/// For example, `KiB` gives `OK` and the unit 5, and `Kx` gives `UNIT` with the character `x`.
#[unsafe(no_mangle)]
pub unsafe extern "C" fn byte_unit_parse_unit_to(
    text: *const u8,
    text_len: usize,
    flags: u32,
    unit: &mut Out<u32>,
    error: *mut Error,
    error_len: usize,
) -> u32 {
    // SAFETY: the caller's promise.
    let (text, error) = unsafe { (crate::slices::slice(text, text_len), crate::slices::slice_mut(error, error_len)) };
    match parse_spec_at(flags) {
        Some(spec) => parse_unit_as(text, spec, unit, error),
        None => INVALID_ARGUMENT,
    }
}

/// Parses as `byte_unit_parse_unit_to` does, with known flags.
fn parse_unit_as(text: &[u8], spec: ParseSpec, unit: &mut Out<u32>, errors: &mut [Out<Error>]) -> u32 {
    let flags = unit_flags(spec);
    match read_unit_bytes(text, flags) {
        Some(Ok(found)) => {
            *unit = Out::new(unit_code(found));
            OK
        }
        Some(Err(stop)) => {
            write_unit_stop(stop, flags, errors);
            UNIT
        }
        None => NOT_UTF8,
    }
}

/// Parses a unit from bytes, as `read_unit_text` does from a string. Returns `None` if the bytes are not UTF-8.
#[inline(always)]
pub(crate) fn read_unit_bytes(bytes: &[u8], flags: Flags) -> Option<Result<Unit, Stop<UnitStop>>> {
    match str::from_utf8(bytes) {
        Ok(text) => Some(read_unit_text(text, flags)),
        Err(_) => None,
    }
}

/// Returns the flags for parsing a unit: one with no suffix is of the kind of sizes.
pub(crate) fn unit_flags(spec: ParseSpec) -> Flags {
    Flags::new(spec.ignore_case, matches!(spec.kind, Kind::Byte))
}
