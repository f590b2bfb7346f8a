// Rendered from crates/byte_unit_bit/src/bit/adjusted/built_in_traits.rt by `tools/dev render rust`. Do not edit.

//! The traits of std that `AdjustedBit` implements.

use super::AdjustedBit;
use crate::rendered::base::{ParseError, Unit};
use crate::rendered::bit::bit::Bit;
use crate::rendered::choice::UnitType;
use core::cmp::Ordering;
use core::str::FromStr;

/// Compares the sizes for equality, whatever the units.
impl PartialEq for AdjustedBit {
    #[inline]
    fn eq(&self, other: &AdjustedBit) -> bool {
        self.get_bit() == other.get_bit()
    }
}

impl Eq for AdjustedBit {}

/// Compares the sizes, whatever the units.
impl Ord for AdjustedBit {
    #[inline]
    fn cmp(&self, other: &AdjustedBit) -> Ordering {
        self.get_bit().cmp(&other.get_bit())
    }
}

impl PartialOrd for AdjustedBit {
    #[inline]
    fn partial_cmp(&self, other: &AdjustedBit) -> Option<Ordering> {
        Some(self.cmp(other))
    }
}

/// Returns the size with the largest unit of bits that is at most the size, or with `Unit::Bit` if there is none.
impl From<Bit> for AdjustedBit {
    #[inline]
    fn from(size: Bit) -> AdjustedBit {
        size.get_appropriate_unit(UnitType::Both)
    }
}

/// Returns the size, exactly.
impl From<AdjustedBit> for Bit {
    #[inline]
    fn from(adjusted: AdjustedBit) -> Bit {
        adjusted.get_bit()
    }
}

/// Returns the unit.
impl From<AdjustedBit> for Unit {
    #[inline]
    fn from(adjusted: AdjustedBit) -> Unit {
        adjusted.get_unit()
    }
}

/// Parses a size, as [`Bit`] does, with the largest unit of bits that is at most the size, or with `Unit::Bit` if
/// there is none.
impl FromStr for AdjustedBit {
    type Err = ParseError;

    #[inline]
    fn from_str(s: &str) -> Result<AdjustedBit, ParseError> {
        let size: Bit = s.parse()?;
        Ok(AdjustedBit::from(size))
    }
}
