// Rendered from crates/byte_unit_byte/src/byte/adjusted/built_in_traits.rt by `tools/dev render rust`. Do not edit.

//! The traits of std that `AdjustedByte` implements.

use super::AdjustedByte;
use crate::rendered::base::{ParseError, Unit};
use crate::rendered::byte::byte::Byte;
use crate::rendered::choice::UnitType;
use core::cmp::Ordering;
use core::str::FromStr;

/// Compares the sizes for equality, whatever the units.
impl PartialEq for AdjustedByte {
    #[inline]
    fn eq(&self, other: &AdjustedByte) -> bool {
        self.get_byte() == other.get_byte()
    }
}

impl Eq for AdjustedByte {}

/// Compares the sizes, whatever the units.
impl Ord for AdjustedByte {
    #[inline]
    fn cmp(&self, other: &AdjustedByte) -> Ordering {
        self.get_byte().cmp(&other.get_byte())
    }
}

impl PartialOrd for AdjustedByte {
    #[inline]
    fn partial_cmp(&self, other: &AdjustedByte) -> Option<Ordering> {
        Some(self.cmp(other))
    }
}

/// Returns the size with the largest unit of bytes that is at most the size, or with `Unit::B` if there is none.
impl From<Byte> for AdjustedByte {
    #[inline]
    fn from(size: Byte) -> AdjustedByte {
        size.get_appropriate_unit(UnitType::Both)
    }
}

/// Returns the size, exactly.
impl From<AdjustedByte> for Byte {
    #[inline]
    fn from(adjusted: AdjustedByte) -> Byte {
        adjusted.get_byte()
    }
}

/// Returns the unit.
impl From<AdjustedByte> for Unit {
    #[inline]
    fn from(adjusted: AdjustedByte) -> Unit {
        adjusted.get_unit()
    }
}

/// Parses a size, as [`Byte`] does, with the largest unit of bytes that is at most the size, or with `Unit::B` if
/// there is none.
impl FromStr for AdjustedByte {
    type Err = ParseError;

    #[inline]
    fn from_str(s: &str) -> Result<AdjustedByte, ParseError> {
        let size: Byte = s.parse()?;
        Ok(AdjustedByte::from(size))
    }
}
