// Rendered from crates/byte_unit_base/src/spec.rt by `tools/dev render rust`. Do not edit.

//! The options of the parsers: how a size is read, and how its unit is.

use crate::rendered::base::{Kind, Unit};

/// How a size is read from a string.
///
/// # Examples
/// ```
/// # use byte_unit::rendered::{base::{size::parse_line, *}, bit::*, byte::*, choice::*, format::*, math::*};
/// assert_eq!(size::parse("9 b", ParseSpec::BYTES)?, 2);
/// assert_eq!(size::parse("9 b", ParseSpec::BITS)?, 9);
/// assert_eq!(size::parse("10m", ParseSpec::BINARY_BYTES)?, 10_485_760);
/// # Ok::<(), Box<dyn std::error::Error>>(())
/// ```
#[derive(Debug, Clone, Copy, PartialEq, Eq)]
pub struct ParseSpec {
    /// The kind of the size, which is also that of a unit without a suffix.
    pub kind: Kind,
    /// Whether the suffix `b` means bytes, as `B` does. In sizes in bits it has no effect.
    pub ignore_case: bool,
    /// Whether a decimal prefix means the binary one, so that `K` is 1024.
    pub binary: bool,
    /// Whether words for units are read too, as in `5 bytes` and `10 MegaBytes`.
    pub words: bool,
}

impl ParseSpec {
    /// A size in bytes, as it is written.
    pub const BYTES: ParseSpec = ParseSpec { kind: Kind::Byte, ignore_case: false, binary: false, words: false };

    /// A size in bytes, whose decimal prefixes mean binary ones.
    pub const BINARY_BYTES: ParseSpec = ParseSpec { binary: true, ..ParseSpec::BYTES };

    /// A size in bits, as it is written.
    pub const BITS: ParseSpec = ParseSpec { kind: Kind::Bit, ..ParseSpec::BYTES };

    /// A size in bits, whose decimal prefixes mean binary ones.
    pub const BINARY_BITS: ParseSpec = ParseSpec { kind: Kind::Bit, ..ParseSpec::BINARY_BYTES };

    /// Returns this reading with case ignored, or significant.
    ///
    /// # Examples
    /// ```
    /// # use byte_unit::rendered::{base::{size::parse_line, *}, bit::*, byte::*, choice::*, format::*, math::*};
    /// assert_eq!(size::parse("9 b", ParseSpec::BYTES.ignoring_case(true))?, 9);
    /// # Ok::<(), Box<dyn std::error::Error>>(())
    /// ```
    #[inline(always)]
    pub fn ignoring_case(self, ignore_case: bool) -> ParseSpec {
        ParseSpec { ignore_case, ..self }
    }

    /// Returns this reading, of sizes of a kind.
    ///
    /// # Examples
    /// ```
    /// # use byte_unit::rendered::{base::{size::parse_line, *}, bit::*, byte::*, choice::*, format::*, math::*};
    /// use byte_unit::Bit;
    ///
    /// assert_eq!(ParseSpec::BINARY_BYTES.of_kind(Kind::Bit), ParseSpec::BINARY_BITS);
    /// ```
    #[inline(always)]
    pub fn of_kind(self, kind: Kind) -> ParseSpec {
        ParseSpec { kind, ..self }
    }

    /// Returns this reading with words for units read too, or not.
    ///
    /// # Examples
    /// ```
    /// # use byte_unit::rendered::{base::{size::parse_line, *}, bit::*, byte::*, choice::*, format::*, math::*};
    /// assert_eq!(size::parse("5 kilobytes", ParseSpec::BYTES.reading_words(true))?, 5000);
    /// assert_eq!(size::parse("5 kilobytes", ParseSpec::BINARY_BYTES.reading_words(true))?, 5120);
    /// assert!(size::parse("5 kilobytes", ParseSpec::BYTES).is_err());
    /// # Ok::<(), Box<dyn std::error::Error>>(())
    /// ```
    #[inline(always)]
    pub fn reading_words(self, words: bool) -> ParseSpec {
        ParseSpec { words, ..self }
    }

    /// Returns how the unit of the size is read. In sizes in bits case is significant.
    ///
    /// # Examples
    /// ```
    /// # use byte_unit::rendered::{base::{size::parse_line, *}, bit::*, byte::*, choice::*, format::*, math::*};
    /// assert!(ParseSpec::BYTES.ignoring_case(true).flags().ignore_case);
    /// assert!(!ParseSpec::BITS.ignoring_case(true).flags().ignore_case);
    /// ```
    #[inline]
    pub fn flags(self) -> Flags {
        let prefer_byte = matches!(self.kind, Kind::Byte);
        Flags::new(self.ignore_case && prefer_byte, prefer_byte)
    }

    /// Returns the unit that is meant where this one is written: if decimal prefixes mean binary ones its binary unit,
    /// and else itself.
    ///
    /// # Examples
    /// ```
    /// # use byte_unit::rendered::{base::{size::parse_line, *}, bit::*, byte::*, choice::*, format::*, math::*};
    /// use byte_unit::Unit;
    ///
    /// assert_eq!(ParseSpec::BYTES.unit_meant(Unit::KB), Unit::KB);
    /// assert_eq!(ParseSpec::BINARY_BYTES.unit_meant(Unit::KB), Unit::KiB);
    /// ```
    #[inline(always)]
    pub fn unit_meant(self, unit: Unit) -> Unit {
        if self.binary { unit.to_binary() } else { unit }
    }
}

/// How a unit is read from a string.
#[derive(Clone, Copy)]
pub struct Flags {
    /// Whether the suffix `b` means bytes.
    pub ignore_case: bool,
    /// Whether a unit without a suffix is of bytes.
    pub prefer_byte: bool,
}

impl Flags {
    /// Flags for a caller to which the unit does not matter: no flag changes where a string is wrong.
    pub(crate) const ANY: Flags = Flags { ignore_case: false, prefer_byte: true };

    /// Creates flags.
    ///
    /// # Examples
    /// ```
    /// # use byte_unit::rendered::{base::{size::parse_line, *}, bit::*, byte::*, choice::*, format::*, math::*};
    /// use byte_unit::Unit;
    ///
    /// assert!(matches!(read_unit_text("Kb", Flags::new(true, false)), Ok(Unit::KB)));
    /// ```
    #[inline(always)]
    pub fn new(ignore_case: bool, prefer_byte: bool) -> Flags {
        Flags { ignore_case, prefer_byte }
    }
}
