// Rendered from crates/byte_unit_base/src/size.rt by `tools/dev render rust`. Do not edit.

//! Sizes of either kind, as numbers below the limit: what the size types have in common.

use crate::rendered::base::read::{Measure, next_in_line, read_number_and_unit, read_or_stop, read_size, read_text};
use crate::rendered::base::spec::{Flags, ParseSpec};
use crate::rendered::base::stop::{Expected, error_at, expected_at, location_at};
use crate::rendered::base::words::measure_in_words;
use crate::rendered::base::{Kind, LocatedError, Location, ParseError, Unit, ValueParseError};
use crate::rendered::math::{Decimal, least_size};
use core::str;

/// The limit of sizes, 10^30, which is 1000 times the largest decimal prefix: the least number that is not a size.
pub const SIZE_LIMIT: u128 = 1_000_000_000_000_000_000_000_000_000_000;

/// Returns the number if it is a size, that is below 10^30. Returns `None` if it is 10^30 or more.
///
/// # Examples
/// ```
/// # use byte_unit::rendered::{base::{size::parse_line, *}, bit::*, byte::*, choice::*, format::*, math::*};
/// assert_eq!(size::bounded(1536), Some(1536));
/// assert_eq!(size::bounded(1_000_000_000_000_000_000_000_000_000_000), None);
/// ```
pub const fn bounded(size: u128) -> Option<u128> {
    if size < SIZE_LIMIT { Some(size) } else { None }
}

/// Rounds a number of bits up to a whole number of the kind.
#[inline]
const fn ceil_to_kind(in_bits: u128, kind: Kind) -> u128 {
    match kind {
        Kind::Byte => in_bits.div_ceil(8),
        Kind::Bit => in_bits,
    }
}

/// Converts a number of a unit to a size, rounded up to a whole number of the kind. Returns `None` if the size would be
/// 10^30 or more.
///
/// # Examples
/// ```
/// # use byte_unit::rendered::{base::{size::parse_line, *}, bit::*, byte::*, choice::*, format::*, math::*};
/// use byte_unit::{Bit, Byte, Unit};
///
/// assert_eq!(size::with_unit(9, Unit::Bit, Kind::Byte), Some(2));
/// assert_eq!(size::with_unit(1000, Unit::RB, Kind::Byte), None);
/// ```
pub const fn with_unit(size: u128, unit: Unit, kind: Kind) -> Option<u128> {
    match size.checked_mul(unit.as_bits_u128()) {
        Some(in_bits) => bounded(ceil_to_kind(in_bits, kind)),
        None => None,
    }
}

/// Converts a decimal number of a unit to a size: the exact product, rounded up to a whole number of the kind. Returns
/// `None` if the size would be 10^30 or more.
///
/// # Examples
/// ```
/// # use byte_unit::rendered::{base::{size::parse_line, *}, bit::*, byte::*, choice::*, format::*, math::*};
/// use byte_unit::{Byte, Decimal, Unit};
///
/// let half = Decimal::from_u128_with_scale(5, 1).unwrap();
/// assert_eq!(size::from_decimal(half, Unit::KiB, Kind::Byte), Some(512));
/// assert_eq!(size::from_decimal(Decimal::from_u128_with_scale(1000, 0).unwrap(), Unit::RB, Kind::Byte), None);
/// ```
#[inline(always)]
pub fn from_decimal(number: Decimal, unit: Unit, kind: Kind) -> Option<u128> {
    // One bit more than the greatest size. The product is rounded up twice, to bits and to the kind, which is the same
    // as once: ceil(ceil(x) / 8) = ceil(x / 8).
    let limit = (SIZE_LIMIT - 1) * kind.bits() + 1;
    let in_bits = least_size(number, unit.as_bits_u128(), limit)?;
    Some(ceil_to_kind(in_bits, kind))
}

/// Parses a size from a string: the exact product of its number and its unit, rounded up to a whole number of the kind.
///
/// The grammar is that of [`read_size`](crate::rendered::base::read_size). If the string names no unit, its number is in bytes for
/// `Kind::Byte`, and in bits for `Kind::Bit`. A suffix `b` means bits and `B` bytes; with `ignore_case` both mean
/// bytes. For `Kind::Bit` `ignore_case` has no effect.
///
/// With `binary` a decimal prefix means the binary one, as many programs write them: `10m`, `128MB` and `1G` are by
/// 1024. Only the unit is replaced: the grammar is the same.
///
/// # Errors
/// Returns the error of `read_size` if the string is not in the grammar: `NoValue`, `NotNumber` or `NumberTooLong` for
/// its number, or `Unit`. Returns `ExceededBounds`, with the number as it was written, if the size would be 10^30 or
/// more.
///
/// # Examples
/// ```
/// # use byte_unit::rendered::{base::{size::parse_line, *}, bit::*, byte::*, choice::*, format::*, math::*};
/// use byte_unit::{ParseError, ValueParseError};
///
/// assert_eq!(size::parse("1.5 KiB", ParseSpec::BYTES)?, 1536);
/// assert_eq!(size::parse("10m", ParseSpec::BINARY_BYTES)?, 10_485_760);
/// assert_eq!(size::parse("9 bits", ParseSpec::BYTES)?, 2);
/// let error = size::parse("1.", ParseSpec::BYTES);
/// assert!(matches!(error, Err(ParseError::Value(ValueParseError::NotNumber('.')))));
/// # Ok::<(), Box<dyn std::error::Error>>(())
/// ```
#[inline(never)]
pub fn parse(s: &str, spec: ParseSpec) -> Result<u128, ParseError> {
    let flags = spec.flags();
    match read_size(s, flags.ignore_case, flags.prefer_byte) {
        Ok(found) => size_of(Measure { unit: found.1, number: found.0 }, spec),
        Err(error) => match measure_in_words(s.as_bytes(), spec) {
            Some(found) => size_of(found, spec),
            None => Err(error),
        },
    }
}

/// Parses a size from bytes, as [`parse`] does from a string. Returns `None` if the bytes are not UTF-8.
///
/// # Errors
/// Returns `Some` with the error of `parse` if the bytes are UTF-8 and `parse` rejects the string.
///
/// # Examples
/// ```
/// # use byte_unit::rendered::{base::{size::parse_line, *}, bit::*, byte::*, choice::*, format::*, math::*};
/// assert!(matches!(size::parse_bytes(b"1.5 KiB", ParseSpec::BYTES), Some(Ok(1536))));
/// assert!(size::parse_bytes(b"1 KiB\xFF", ParseSpec::BYTES).is_none());
/// ```
#[inline(always)]
pub fn parse_bytes(bytes: &[u8], spec: ParseSpec) -> Option<Result<u128, ParseError>> {
    parse_line(bytes, bytes.len(), spec)
}

/// Parses a size from the line at the beginning of bytes, its first `len` bytes, as [`parse`] does from a string: it is
/// a number of bytes for `Kind::Byte`, and of bits for `Kind::Bit`. Returns `None` if the line is not UTF-8.
///
/// With `binary` a decimal prefix means the binary one. Eight bytes at a time are loaded, past the end of the line too.
///
/// Precondition: `len <= bytes.len()`, and the line ends there: the next byte is a line feed, or
/// there is none.
///
/// # Errors
/// Returns `Some` with the error of `parse` if the line is UTF-8 and `parse` rejects it.
///
/// # Examples
/// ```
/// # use byte_unit::rendered::{base::{size::parse_line, *}, bit::*, byte::*, choice::*, format::*, math::*};
/// assert!(matches!(parse_line(b"1 KB\n12\n", 4, ParseSpec::BYTES), Some(Ok(1000))));
/// assert!(matches!(parse_line(b"1 KB", 4, ParseSpec::BINARY_BITS), Some(Ok(8192))));
/// assert!(parse_line(b"1 KB\xFF", 5, ParseSpec::BYTES).is_none());
/// ```
#[inline(always)]
pub fn parse_line(bytes: &[u8], len: usize, spec: ParseSpec) -> Option<Result<u128, ParseError>> {
    let line = &bytes[..len];
    let flags = spec.flags();
    match read_number_and_unit::<false>(line, bytes, flags) {
        Ok(found) => Some(size_of(found, spec)),
        Err(stop) => match next_in_line(line, stop.index) {
            // Returned here for the row `1.5 KiB` of lines in docs/SPEED.md.
            Some(next) => match measure_in_words(line, spec) {
                Some(found) => Some(size_of(found, spec)),
                None => return Some(Err(error_at(stop.reason, next, flags))),
            },
            None => parse_text(line, spec),
        },
    }
}

/// Parses a size as [`parse_line`] does, but from the string that the bytes are, trimmed.
#[cold]
#[inline(never)]
fn parse_text(bytes: &[u8], spec: ParseSpec) -> Option<Result<u128, ParseError>> {
    let text = str::from_utf8(bytes).ok()?;
    Some(parse(text, spec))
}

/// Parses a size from bytes, as [`parse_bytes`], for a message: with the location of the error. Returns `None` if the
/// bytes are not UTF-8.
///
/// # Errors
/// Returns `Some` with the error of `parse_bytes` and its location.
///
/// # Examples
/// ```
/// # use byte_unit::rendered::{base::{size::parse_line, *}, bit::*, byte::*, choice::*, format::*, math::*};
/// assert!(matches!(size::explain(b"1 KiB", ParseSpec::BYTES), Some(Ok(1024))));
/// let error = size::explain("1 µB".as_bytes(), ParseSpec::BYTES);
/// assert!(matches!(error, Some(Err(LocatedError { location: Location::Character(3), .. }))));
/// ```
#[inline(always)]
pub fn explain(bytes: &[u8], spec: ParseSpec) -> Option<Result<u128, LocatedError>> {
    let flags = spec.flags();
    match read_text(bytes, flags) {
        Some(Ok(found)) => Some(located_size(found, spec)),
        Some(Err(stop)) => match measure_in_words(bytes, spec) {
            Some(found) => Some(located_size(found, spec)),
            None => Some(Err(LocatedError {
                error: error_at(stop.reason, stop.next, flags),
                expected: expected_at(stop.reason, stop.next, flags),
                location: location_at(bytes, stop.index, stop.next),
            })),
        },
        None => None,
    }
}

/// Returns what [`size_of`] does, with the location of its error, which is that of the whole string.
#[inline(always)]
fn located_size(found: Measure, spec: ParseSpec) -> Result<u128, LocatedError> {
    match size_of(found, spec) {
        Ok(size) => Ok(size),
        Err(error) => Err(LocatedError { error, expected: Expected::Nothing, location: Location::Whole }),
    }
}

/// Returns the index in bytes of the first wrong character of a string that is not in the grammar of sizes: up to there
/// the string, without the white space at its ends, begins a size, and with that character it begins none. If it ends
/// too early, the index is that of its end, before white space there; of white space alone, its length.
///
/// Returns `None` if the string is in the grammar. The index is the same for both kinds, with and without
/// `ignore_case`.
///
/// # Examples
/// ```
/// # use byte_unit::rendered::{base::{size::parse_line, *}, bit::*, byte::*, choice::*, format::*, math::*};
/// assert_eq!(size::error_position("1 byte"), Some(3));
/// assert_eq!(size::error_position("  1."), Some(4));
/// assert_eq!(size::error_position("1 KiB"), None);
/// ```
pub fn error_position<S: AsRef<str>>(s: S) -> Option<usize> {
    let s = s.as_ref();
    match read_or_stop(s, Flags::ANY) {
        Ok(_) => None,
        Err(stop) => Some(stop.index),
    }
}

/// Returns the result of parsing a string with this number of this unit: the size of the number in the unit that is
/// meant.
///
/// # Errors
/// Returns `ExceededBounds` with the number if the size would be 10^30 or more.
///
/// # Examples
/// ```
/// # use byte_unit::rendered::{base::{size::parse_line, *}, bit::*, byte::*, choice::*, format::*, math::*};
/// use byte_unit::{Decimal, Unit};
///
/// let found = Measure { unit: Unit::KB, number: Decimal::from_u128_with_scale(15, 1).unwrap() };
/// assert!(matches!(size::size_of(found, ParseSpec::BYTES), Ok(1500)));
/// assert!(matches!(size::size_of(found, ParseSpec::BINARY_BYTES), Ok(1536)));
/// ```
#[inline(always)]
pub fn size_of(found: Measure, spec: ParseSpec) -> Result<u128, ParseError> {
    match from_decimal(found.number, spec.unit_meant(found.unit), spec.kind) {
        Some(size) => Ok(size),
        None => Err(ParseError::Value(ValueParseError::ExceededBounds(found.number))),
    }
}
