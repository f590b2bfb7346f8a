// Rendered from crates/byte_unit_base/src/read.rt by `tools/dev render rust`. Do not edit.

//! Parses a number and a unit: from bytes that are not trimmed, and then, if that stops, from the trimmed string.

use crate::rendered::base::read::digits::read_number;
use crate::rendered::base::read::unit::read_unit;
use crate::rendered::base::spec::Flags;
use crate::rendered::base::stop::{ByteStop, Reason, Stop, error_at, first_ascii};
use crate::rendered::base::{ParseError, Unit};
use crate::rendered::math::Decimal;
use core::str;

mod digits;
mod load;
pub(crate) mod unit;

/// A number of a unit.
#[derive(Clone, Copy)]
pub struct Measure {
    /// The unit.
    pub unit: Unit,
    /// The number.
    pub number: Decimal,
}

/// Parses a number and a unit from a string. White space at its ends is ignored.
///
/// The grammar: a whole part of ASCII digits, at most 2^112 - 1, with any number of leading zeros; optionally a point
/// and 1 to 28 digits; any number of the character space; and the spelling of a unit, as in `Unit::parse_str` but
/// without another trim. Every digit is kept, and nothing is rounded. The limit of sizes is not checked.
///
/// # Errors
/// Returns the first error from the left:
///
/// - `NoValue` if the string is empty or white space alone.
/// - `NotNumber` at a character where a digit is required, and `NotNumber('.')` if the string ends in its point.
/// - `NumberTooLong` at the digit that makes the number too long.
/// - `Unit` at the first character that cannot continue a unit.
///
/// Never returns `ExceededBounds`.
///
/// # Examples
/// ```
/// # use byte_unit::rendered::{base::{size::parse_line, *}, bit::*, byte::*, choice::*, format::*, math::*};
/// use byte_unit::{Decimal, ParseError, Unit, ValueParseError};
///
/// let read = read_size("1.5 KiB", false, true)?;
/// assert_eq!(read, (Decimal::from_u128_with_scale(15, 1).unwrap(), Unit::KiB));
/// let error = read_size("1.", false, true);
/// assert!(matches!(error, Err(ParseError::Value(ValueParseError::NotNumber('.')))));
/// # Ok::<(), Box<dyn std::error::Error>>(())
/// ```
#[inline(always)]
pub fn read_size(s: &str, ignore_case: bool, prefer_byte: bool) -> Result<(Decimal, Unit), ParseError> {
    let flags = Flags::new(ignore_case, prefer_byte);
    let text = trimmed(s);
    let bytes = text.as_bytes();
    match read_number_and_unit::<true>(bytes, bytes, flags) {
        Ok(found) => Ok((found.number, found.unit)),
        Err(stop) => {
            let next = crate::support::char_at(text, stop.index);
            Err(error_at(stop.reason, next, flags))
        }
    }
}

/// Parses a number and a unit as [`read_size`] does, and leaves the error to be made by [`error_at`].
///
/// `read_size` does not call it, for the row `parse 1.5 KiB` of docs/SPEED.md.
///
/// # Errors
/// Returns where the parser stops in the string, and why.
#[inline(always)]
pub(crate) fn read_or_stop(s: &str, flags: Flags) -> Result<Measure, Stop<Reason>> {
    let text = trimmed(s);
    let bytes = text.as_bytes();
    match read_number_and_unit::<true>(bytes, bytes, flags) {
        Ok(found) => Ok(found),
        Err(stop) => Err(Stop {
            reason: stop.reason,
            next: crate::support::char_at(text, stop.index),
            index: leading_len(s) + stop.index,
        }),
    }
}

/// Parses the number and the unit of a size from the string that the bytes are, trimmed. Returns `None` if the bytes
/// are not UTF-8.
///
/// What is accepted as it is, without a test for UTF-8, is ASCII. It starts with a digit, and ends in spaces only after
/// a number without a unit, where the grammar allows them, so it is the same when trimmed.
///
/// # Errors
/// Returns where the parser stops in the string: [`error_at`] makes the error of it.
///
/// # Examples
/// ```
/// # use byte_unit::rendered::{base::{size::parse_line, *}, bit::*, byte::*, choice::*, format::*, math::*};
/// let stopped = read_text(b" 1 Kx ", ParseSpec::BYTES.flags());
/// assert!(matches!(stopped, Some(Err(Stop { next: Some('x'), index: 4, .. }))));
/// ```
#[inline(always)]
pub fn read_text(bytes: &[u8], flags: Flags) -> Option<Result<Measure, Stop<Reason>>> {
    match read_number_and_unit::<true>(bytes, bytes, flags) {
        Ok(found) => Some(Ok(found)),
        Err(stop) => match visible_next(bytes, stop.index) {
            Some(next) => Some(Err(Stop { reason: stop.reason, next, index: stop.index })),
            // Taken apart for the row `parse 1 byte` of docs/SPEED.md.
            None => match read_string(bytes, flags)? {
                Ok(found) => Some(Ok(found)),
                Err(stop) => Some(Err(stop)),
            },
        },
    }
}

/// Parses as `read_text`, from the string that the bytes are, trimmed.
#[cold]
#[inline(never)]
fn read_string(bytes: &[u8], flags: Flags) -> Option<Result<Measure, Stop<Reason>>> {
    let string = str::from_utf8(bytes).ok()?;
    Some(read_or_stop(string, flags))
}

/// Parses a number and a unit from a line, which is not trimmed. The line is at the
/// beginning of `bytes`: eight of them are loaded at once where eight are left, past the end of the line too.
///
/// `ALONE` is true if the line is all of `bytes`. The result is the same either way; if it is true, a loop reads the
/// digits where fewer than eight bytes are left.
///
/// # Errors
/// Returns where it stops.
#[inline(always)]
pub fn read_number_and_unit<const ALONE: bool>(
    line: &[u8],
    bytes: &[u8],
    flags: Flags,
) -> Result<Measure, ByteStop<Reason>> {
    match read_number::<ALONE>(line, bytes) {
        Ok(found) => {
            let (end, number) = found;
            let start = end + leading_spaces(&line[end..]);
            match read_unit(line, bytes, start, flags) {
                Ok(unit) => Ok(Measure { unit, number }),
                Err(stop) => Err(ByteStop { index: start + stop.index, reason: Reason::InUnit(stop.reason) }),
            }
        }
        Err(stop) => Err(ByteStop { index: stop.index, reason: Reason::InNumber(stop.reason) }),
    }
}

/// Returns the number of leading spaces.
pub fn leading_spaces(bytes: &[u8]) -> usize {
    let mut count = 0;
    while count < bytes.len() && bytes[count] == b' ' {
        count += 1;
    }
    count
}

/// Returns the character at an index, or `Some(None)` at the end, of bytes that have nothing to trim and are ASCII from
/// there on. Returns `None` if they may not be so.
#[inline(always)]
fn visible_next(bytes: &[u8], index: usize) -> Option<Option<char>> {
    if has_visible_ends(bytes) && is_ascii_from(bytes, index) { Some(first_ascii(&bytes[index..])) } else { None }
}

/// Returns what `visible_next` does, by a call of its own for the row `1.5 KiB` of lines in docs/SPEED.md.
#[cold]
#[inline(never)]
pub(crate) fn next_in_line(line: &[u8], index: usize) -> Option<Option<char>> {
    visible_next(line, index)
}

/// Returns whether the bytes from an index on are ASCII. If these are at most four, the last four bytes are tested at
/// once: then it returns `false` also if one of those four is before the index and not ASCII.
#[inline(always)]
fn is_ascii_from(bytes: &[u8], from: usize) -> bool {
    let len = bytes.len();
    if len >= 4 && len - from <= 4 { bytes[len - 4..].is_ascii() } else { bytes[from..].is_ascii() }
}

/// Returns the number of bytes of the white space at the start of a string.
pub(crate) fn leading_len(s: &str) -> usize {
    s.len() - s.trim_start().len()
}

/// Returns whether the first and the last byte are visible ASCII, so that there is nothing to trim.
#[inline(always)]
pub fn has_visible_ends(bytes: &[u8]) -> bool {
    !bytes.is_empty() && bytes[0].is_ascii_graphic() && bytes[bytes.len() - 1].is_ascii_graphic()
}

/// Returns the string without the white space at its ends.
#[inline(always)]
pub(crate) fn trimmed(s: &str) -> &str {
    if has_visible_ends(s.as_bytes()) { s } else { s.trim() }
}
