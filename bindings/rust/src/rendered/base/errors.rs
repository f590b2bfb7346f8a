// Rendered from crates/byte_unit_base/src/errors.rt by `tools/dev render rust`. Do not edit.

//! The errors of the parsers and of conversions to sizes.

use crate::rendered::base::stop::Expected;
use crate::rendered::math::Decimal;
use core::error::Error;
use core::fmt;

/// The error returned when a number is negative or exceeds the maximum size.
///
/// # Examples
/// ```
/// # use byte_unit::rendered::{base::{size::parse_line, *}, bit::*, byte::*, choice::*, format::*, math::*};
/// use byte_unit::{Byte, ExceededBoundsError};
///
/// assert!(matches!(Byte::try_from(-1i8), Err(ExceededBoundsError)));
/// ```
#[derive(Clone, Copy, Debug, PartialEq, Eq)]
pub struct ExceededBoundsError;

/// The error of the number of a string.
///
/// # Examples
/// ```
/// # use byte_unit::rendered::{base::{size::parse_line, *}, bit::*, byte::*, choice::*, format::*, math::*};
/// use byte_unit::{Byte, ParseError, ValueParseError};
///
/// let error = Byte::parse_str("x KB", false);
/// assert!(matches!(error, Err(ParseError::Value(ValueParseError::NotNumber('x')))));
/// ```
#[derive(Clone, Copy, Debug, PartialEq, Eq)]
pub enum ValueParseError {
    /// The size is 10^30 or more. Holds the number as it was written, without its unit. `read_size` never returns it.
    ExceededBounds(Decimal),
    /// A digit is required in place of this character, or after it if the string ends in a point.
    NotNumber(char),
    /// The string is empty or white space alone.
    NoValue,
    /// The whole part exceeds 2^112 - 1, or more than 28 digits follow the point.
    NumberTooLong,
}

/// The error of the unit of a string.
///
/// # Examples
/// ```
/// # use byte_unit::rendered::{base::{size::parse_line, *}, bit::*, byte::*, choice::*, format::*, math::*};
/// use byte_unit::{Unit, UnitParseError};
///
/// let error = Unit::parse_str("Kx", false, true);
/// assert!(matches!(error, Err(UnitParseError { character: 'x', also_expect_no_character: true, .. })));
/// ```
#[derive(Clone, Copy, Debug, PartialEq, Eq)]
pub struct UnitParseError {
    /// The first character that cannot continue a unit. If the string ends after the `bi` of a suffix, the character is
    /// `i`, also for an `I`.
    pub character: char,
    /// The characters that the message names as expected in its place, in this order. Others are valid there too, such
    /// as the other case of a letter, or an `i` after a prefix.
    pub expected_characters: &'static [char],
    /// Whether the string could end in its place.
    pub also_expect_no_character: bool,
}

/// The error of a string that is not a size: the first error from the left.
///
/// # Examples
/// ```
/// # use byte_unit::rendered::{base::{size::parse_line, *}, bit::*, byte::*, choice::*, format::*, math::*};
/// use byte_unit::{Byte, ParseError, Unit};
///
/// assert!(matches!(Byte::parse_str("20 mB?", false), Err(ParseError::Unit(_))));
/// assert_eq!(Byte::parse_str("20 mB?", false).unwrap_or(Byte::GIBIBYTE), Byte::GIBIBYTE);
/// ```
#[derive(Clone, Copy, Debug, PartialEq, Eq)]
pub enum ParseError {
    /// The number is invalid, or the size is too large.
    Value(ValueParseError),
    /// The unit is invalid.
    Unit(UnitParseError),
}

/// Where a string is wrong, as messages have it.
#[derive(Clone, Copy)]
pub enum Location {
    /// All of the string: only its size is too large.
    Whole,
    /// At its first wrong character. Holds the number of the character, counted from 1.
    Character(usize),
    /// At its end, before white space there: it ends too early.
    End,
}

/// The error of a string that is not a size, and where the string is wrong: `size::explain` returns it.
pub struct LocatedError {
    /// The error.
    pub error: ParseError,
    /// What the message names as expected: `Nothing` if it is no error of a unit.
    pub expected: Expected,
    /// Where the string is wrong.
    pub location: Location,
}

impl UnitParseError {
    /// The error of a string that ends after the `bi` of a suffix: it could have ended before that `i`.
    pub(crate) const STOPS_AT_BI: UnitParseError =
        UnitParseError { character: 'i', expected_characters: &[], also_expect_no_character: true };
}

impl fmt::Display for ExceededBoundsError {
    fn fmt(&self, f: &mut fmt::Formatter<'_>) -> fmt::Result {
        f.write_str("value exceeds the valid range")
    }
}

impl Error for ExceededBoundsError {}

impl fmt::Display for ValueParseError {
    fn fmt(&self, f: &mut fmt::Formatter<'_>) -> fmt::Result {
        match self {
            ValueParseError::ExceededBounds(value) => {
                f.write_str("the value ")?;
                fmt::Display::fmt(&crate::rendered::math::Expansion::from_decimal(*value), f)?;
                f.write_str(" exceeds the valid range")
            }
            ValueParseError::NotNumber(c) => {
                crate::support::write_quoted(f, "the character '", *c, "' is not a number")
            }
            ValueParseError::NoValue => f.write_str("no value can be found"),
            ValueParseError::NumberTooLong => f.write_str("value number is too long"),
        }
    }
}

impl Error for ValueParseError {}

impl fmt::Display for UnitParseError {
    fn fmt(&self, f: &mut fmt::Formatter<'_>) -> fmt::Result {
        crate::support::write_quoted(f, "the character '", self.character, "' is incorrect")?;
        write_expected(self.expected_characters, self.also_expect_no_character, f)
    }
}

impl Error for UnitParseError {}

impl From<ValueParseError> for ParseError {
    fn from(error: ValueParseError) -> Self {
        Self::Value(error)
    }
}

impl From<UnitParseError> for ParseError {
    fn from(error: UnitParseError) -> Self {
        Self::Unit(error)
    }
}

impl fmt::Display for ParseError {
    fn fmt(&self, f: &mut fmt::Formatter<'_>) -> fmt::Result {
        match self {
            ParseError::Value(error) => fmt::Display::fmt(error, f),
            ParseError::Unit(error) => fmt::Display::fmt(error, f),
        }
    }
}

impl Error for ParseError {}

impl fmt::Display for LocatedError {
    fn fmt(&self, f: &mut fmt::Formatter<'_>) -> fmt::Result {
        fmt::Display::fmt(&self.error, f)?;
        fmt::Display::fmt(&self.location, f)
    }
}

/// Writes the words that follow a message, with a space before them, or nothing if all of the string is wrong.
impl fmt::Display for Location {
    fn fmt(&self, f: &mut fmt::Formatter<'_>) -> fmt::Result {
        match self {
            Location::Whole => Ok(()),
            Location::Character(number) => write!(f, " (character {number})"),
            Location::End => f.write_str(" (at the end of the text)"),
        }
    }
}

/// Writes the part of the message that names the expected characters.
fn write_expected(expected: &[char], also_expect_no_character: bool, f: &mut fmt::Formatter<'_>) -> fmt::Result {
    match expected {
        [] => f.write_str(" (no character is expected)"),
        [first, others @ ..] => {
            crate::support::write_quoted(f, " ('", *first, "'")?;
            write_others(others, f)?;
            if also_expect_no_character {
                f.write_str(" or no character")?;
            }
            f.write_str(" is expected)")
        }
    }
}

/// Writes the expected characters after the first.
fn write_others(others: &[char], f: &mut fmt::Formatter<'_>) -> fmt::Result {
    let mut left = others;
    while let [c, rest @ ..] = left {
        let before = if rest.is_empty() { " or " } else { ", " };
        f.write_str(before)?;
        crate::support::write_quoted(f, "'", *c, "'")?;
        left = rest;
    }
    Ok(())
}
