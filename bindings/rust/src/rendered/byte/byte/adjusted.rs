// Rendered from crates/byte_unit_byte/src/byte/adjusted.rt by `tools/dev render rust`. Do not edit.

//! `AdjustedByte`, a size in bytes with a unit for its text.

use super::Byte;
use crate::rendered::base::{Kind, Unit};
use crate::rendered::choice::{UnitType, appropriate_unit};

mod built_in_traits;

/// A size in bytes, and the unit that its text uses. Equality and order are those of the sizes, whatever the units.
///
/// # Examples
/// ```
/// # use byte_unit::rendered::{base::{size::parse_line, *}, bit::*, byte::*, choice::*, format::*, math::*};
/// use byte_unit::{Byte, Unit};
///
/// let adjusted = Byte::from_u64(123_456).get_adjusted_unit(Unit::KB);
/// assert_eq!(adjusted.to_string(), "123.456 KB");
/// assert_eq!(adjusted, Byte::from_u64(123_456).get_adjusted_unit(Unit::MiB));
/// ```
#[derive(Debug, Clone, Copy)]
pub struct AdjustedByte {
    size: Byte,
    unit: Unit,
}

impl AdjustedByte {
    /// Returns the unit.
    ///
    /// # Examples
    /// ```
    /// # use byte_unit::rendered::{base::{size::parse_line, *}, bit::*, byte::*, choice::*, format::*, math::*};
    /// use byte_unit::{Byte, Unit};
    ///
    /// assert_eq!(Byte::MEGABYTE.get_adjusted_unit(Unit::KiB).get_unit(), Unit::KiB);
    /// ```
    #[inline]
    pub const fn get_unit(&self) -> Unit {
        self.unit
    }

    /// Returns the size, exactly.
    ///
    /// # Examples
    /// ```
    /// # use byte_unit::rendered::{base::{size::parse_line, *}, bit::*, byte::*, choice::*, format::*, math::*};
    /// use byte_unit::{Byte, Unit};
    ///
    /// assert_eq!(Byte::MEGABYTE.get_adjusted_unit(Unit::KiB).get_byte(), Byte::MEGABYTE);
    /// ```
    #[inline]
    pub const fn get_byte(&self) -> Byte {
        self.size
    }
}

impl Byte {
    /// Returns the size with the given unit for its text.
    ///
    /// # Examples
    /// ```
    /// # use byte_unit::rendered::{base::{size::parse_line, *}, bit::*, byte::*, choice::*, format::*, math::*};
    /// use byte_unit::{Byte, Unit};
    ///
    /// let adjusted = Byte::from_u64(123_456).get_adjusted_unit(Unit::KB);
    /// assert_eq!(adjusted.to_string(), "123.456 KB");
    /// ```
    #[inline]
    pub const fn get_adjusted_unit(self, unit: Unit) -> AdjustedByte {
        AdjustedByte { size: self, unit }
    }

    /// Returns the size with the largest unit of bytes of the given type that is at most the size, or with
    /// `Unit::B` if there is none.
    ///
    /// # Examples
    /// ```
    /// # use byte_unit::rendered::{base::{size::parse_line, *}, bit::*, byte::*, choice::*, format::*, math::*};
    /// use byte_unit::{Byte, Decimal, Unit, UnitType};
    ///
    /// let size = Byte::from_u64(10_000);
    /// assert_eq!(size.get_appropriate_unit(UnitType::Both).get_unit(), Unit::KiB);
    /// assert_eq!(size.get_appropriate_unit(UnitType::Decimal).get_unit(), Unit::KB);
    /// assert_eq!(Byte::MIN.get_appropriate_unit(UnitType::Both).get_unit(), Unit::B);
    /// ```
    #[inline(always)]
    pub fn get_appropriate_unit(&self, unit_type: UnitType) -> AdjustedByte {
        let unit = appropriate_unit(self.size, Kind::Byte, unit_type);
        self.get_adjusted_unit(unit)
    }
}
