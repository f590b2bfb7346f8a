// Rendered from crates/byte_unit_bit/src/bit/binary.rt by `tools/dev render rust`. Do not edit.

//! Parsing of sizes in bits whose decimal prefixes mean binary ones.

use super::Bit;
use crate::rendered::base::{ParseError, ParseSpec, size};

impl Bit {
    /// Parses a size from a string, as [`Bit::parse_str`] does, except that a decimal prefix means the binary one:
    /// `K`, `Kb` and `k` are by 1024, as `Ki` and `Kib` are. Does not allocate.
    ///
    /// So `100 Kb` are 102,400 bits, as `100 Kib` are.
    ///
    /// # Errors
    /// As those of `parse_str`. `ExceededBounds` is by the binary prefix too: `900 Rb` are more than 10^30 bits.
    ///
    /// # Examples
    /// ```
    /// # use byte_unit::rendered::{base::{size::parse_line, *}, bit::*, byte::*, choice::*, format::*, math::*};
    /// use byte_unit::{Bit, ParseError, ValueParseError};
    ///
    /// assert_eq!(Bit::parse_str_binary("10m")?, Bit::from_u64(10_485_760));
    /// assert_eq!(Bit::parse_str_binary("128Mb")?, Bit::parse_str("128Mib")?);
    /// assert_eq!(Bit::parse_str_binary("1.5 Ki")?, Bit::from_u64(1536));
    /// let result = Bit::parse_str_binary("900 Rb");
    /// assert!(matches!(result, Err(ParseError::Value(ValueParseError::ExceededBounds(_)))));
    /// # Ok::<(), Box<dyn std::error::Error>>(())
    /// ```
    #[inline]
    pub fn parse_str_binary<S: AsRef<str>>(s: S) -> Result<Bit, ParseError> {
        let s = s.as_ref();
        let size = size::parse(s, ParseSpec::BINARY_BITS)?;
        Ok(Bit { size })
    }

    /// Parses a size from a string of UTF-8, as [`Bit::parse_str_binary`] does. Returns `None` if the string is not
    /// UTF-8.
    ///
    /// # Examples
    /// ```
    /// # use byte_unit::rendered::{base::{size::parse_line, *}, bit::*, byte::*, choice::*, format::*, math::*};
    /// use byte_unit::Bit;
    ///
    /// let size = Bit::parse_bytes_binary(b"1.5 Kb");
    /// assert!(matches!(size, Some(Ok(size)) if size == Bit::from_u64(1536)));
    /// assert!(Bit::parse_bytes_binary(b"1 Kb\xFF").is_none());
    /// ```
    #[inline]
    pub fn parse_bytes_binary(bytes: &[u8]) -> Option<Result<Bit, ParseError>> {
        match size::parse_bytes(bytes, ParseSpec::BINARY_BITS)? {
            Ok(size) => Some(Ok(Bit { size })),
            Err(error) => Some(Err(error)),
        }
    }
}
