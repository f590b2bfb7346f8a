// Rendered from crates/byte_unit_byte/src/byte/parse.rt by `tools/dev render rust`. Do not edit.

//! Parsing of sizes in bytes.

use super::Byte;
use crate::rendered::base::{ParseError, ParseSpec, size};

impl Byte {
    /// Parses a size from a string, rounded up to a whole byte. Does not allocate.
    ///
    /// The string, without white space at its ends, is a number, any number of spaces, and the spelling of a unit.
    /// With no unit it is a number of bytes, and with a prefix alone a number of that multiple of bytes.
    ///
    /// With `ignore_case` a `b` that does not begin `bit` or `bits` means bytes, otherwise bits.
    ///
    /// # Errors
    /// The error is the first one from the left:
    ///
    /// - `Value` with `NoValue` if the string is empty or white space;
    /// - `Value` with `NotNumber` if a digit is missing;
    /// - `Value` with `NumberTooLong` if the integer part is 2^112 or more, or more than 28 digits follow the
    ///   point;
    /// - `Unit` if the unit is not a spelling of one;
    /// - `Value` with `ExceededBounds` and the number as it is written, if there is no other error and the size is
    ///   10^30 bytes or more.
    ///
    /// # Examples
    /// ```
    /// # use byte_unit::rendered::{base::{size::parse_line, *}, bit::*, byte::*, choice::*, format::*, math::*};
    /// use byte_unit::{Byte, ParseError, ValueParseError};
    ///
    /// assert_eq!(Byte::parse_str("50.84 MB", false)?, Byte::from_u64(50_840_000));
    /// assert_eq!(Byte::parse_str("9 b", true)?, Byte::from_u64(9));
    /// assert_eq!(Byte::parse_str("9 b", false)?, Byte::from_u64(2));
    /// let result = Byte::parse_str("1.", false);
    /// assert!(matches!(result, Err(ParseError::Value(ValueParseError::NotNumber('.')))));
    /// let result = Byte::parse_str("1000 RB", false);
    /// assert!(matches!(result, Err(ParseError::Value(ValueParseError::ExceededBounds(_)))));
    /// # Ok::<(), Box<dyn std::error::Error>>(())
    /// ```
    #[inline]
    pub fn parse_str<S: AsRef<str>>(s: S, ignore_case: bool) -> Result<Byte, ParseError> {
        let s = s.as_ref();
        let size = size::parse(s, ParseSpec::BYTES.ignoring_case(ignore_case))?;
        Ok(Byte { size })
    }

    /// Parses a size from a string in UTF-8, as [`Byte::parse_str`] does. Returns `None` if what is given is not UTF-8.
    ///
    /// If it represents a size, this is faster than making a `str` of it first.
    ///
    /// # Examples
    /// ```
    /// # use byte_unit::rendered::{base::{size::parse_line, *}, bit::*, byte::*, choice::*, format::*, math::*};
    /// use byte_unit::{Byte, ParseError, ValueParseError};
    ///
    /// let size = Byte::parse_bytes(b"1.5 KiB", false);
    /// assert!(matches!(size, Some(Ok(size)) if size == Byte::from_u64(1536)));
    /// let result = Byte::parse_bytes(b"1.", false);
    /// assert!(matches!(result, Some(Err(ParseError::Value(ValueParseError::NotNumber('.'))))));
    /// assert!(Byte::parse_bytes(b"1 KiB\xFF", false).is_none());
    /// ```
    #[inline(always)]
    pub fn parse_bytes(bytes: &[u8], ignore_case: bool) -> Option<Result<Byte, ParseError>> {
        Byte::parse_line(bytes, bytes.len(), ignore_case)
    }

    /// Parses a size from the line at the beginning of bytes, its first `len` bytes, as [`Byte::parse_bytes`] does
    /// from these. In a buffer of many lines this is faster.
    ///
    /// Precondition: `len <= bytes.len()`, and the line ends there: the next byte is a line
    /// feed, or there is none.
    #[inline(always)]
    pub(crate) fn parse_line(bytes: &[u8], len: usize, ignore_case: bool) -> Option<Result<Byte, ParseError>> {
        match size::parse_line(bytes, len, ParseSpec::BYTES.ignoring_case(ignore_case))? {
            Ok(size) => Some(Ok(Byte { size })),
            Err(error) => Some(Err(error)),
        }
    }
}
