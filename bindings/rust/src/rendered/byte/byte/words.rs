// Rendered from crates/byte_unit_byte/src/byte/words.rt by `tools/dev render rust`. Do not edit.

//! Parsing of sizes in bytes as a `ParseSpec` says: also in words.

use super::Byte;
use crate::rendered::base::{Kind, ParseError, ParseSpec, size};

impl Byte {
    /// Parses a size in bytes from a string, as `spec` says, whose kind does not matter. Does not allocate.
    ///
    /// If words are read, a word may stand for the unit: a prefix by its name or its letters, or none, then `byte`,
    /// `bit` or `octet`, with or without an `s`, in either case. A string that is read without words is read as the
    /// same size.
    ///
    /// # Errors
    /// As those of [`Byte::parse_str`]: a string that is no size in words has the error that it has without them.
    ///
    /// # Examples
    /// ```
    /// # use byte_unit::rendered::{base::{size::parse_line, *}, bit::*, byte::*, choice::*, format::*, math::*};
    /// use byte_unit::Byte;
    ///
    /// let words = ParseSpec::BYTES.reading_words(true);
    /// assert_eq!(Byte::parse_str_as("10 bytes", words)?, Byte::from_u64(10));
    /// assert_eq!(Byte::parse_str_as("1.5 KiB", words)?, Byte::from_u64(1536));
    /// assert!(Byte::parse_str_as("5 octets", ParseSpec::BYTES).is_err());
    /// # Ok::<(), Box<dyn std::error::Error>>(())
    /// ```
    #[inline]
    pub fn parse_str_as(s: &str, spec: ParseSpec) -> Result<Byte, ParseError> {
        let size = size::parse(s, spec.of_kind(Kind::Byte))?;
        Ok(Byte { size })
    }
}
