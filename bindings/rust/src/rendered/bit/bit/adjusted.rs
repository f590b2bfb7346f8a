// Rendered from crates/byte_unit_bit/src/bit/adjusted.rt by `tools/dev render rust`. Do not edit.

//! `AdjustedBit`, a size in bits with a unit for its text.

use super::Bit;
use crate::rendered::base::{Kind, Unit};
use crate::rendered::choice::{UnitType, appropriate_unit};

mod built_in_traits;

/// A size in bits, and the unit that its text uses. Equality and order are those of the sizes, whatever the units.
///
/// # Examples
/// ```
/// # use byte_unit::rendered::{base::{size::parse_line, *}, bit::*, byte::*, choice::*, format::*, math::*};
/// use byte_unit::{Bit, Unit};
///
/// let adjusted = Bit::from_u64(123_456).get_adjusted_unit(Unit::Kbit);
/// assert_eq!(adjusted.to_string(), "123.456 Kb");
/// assert_eq!(adjusted, Bit::from_u64(123_456).get_adjusted_unit(Unit::Mibit));
/// ```
#[derive(Debug, Clone, Copy)]
pub struct AdjustedBit {
    size: Bit,
    unit: Unit,
}

impl AdjustedBit {
    /// Returns the unit.
    ///
    /// # Examples
    /// ```
    /// # use byte_unit::rendered::{base::{size::parse_line, *}, bit::*, byte::*, choice::*, format::*, math::*};
    /// use byte_unit::{Bit, Unit};
    ///
    /// assert_eq!(Bit::MEGABIT.get_adjusted_unit(Unit::Kibit).get_unit(), Unit::Kibit);
    /// ```
    #[inline]
    pub const fn get_unit(&self) -> Unit {
        self.unit
    }

    /// Returns the size, exactly.
    ///
    /// # Examples
    /// ```
    /// # use byte_unit::rendered::{base::{size::parse_line, *}, bit::*, byte::*, choice::*, format::*, math::*};
    /// use byte_unit::{Bit, Unit};
    ///
    /// assert_eq!(Bit::MEGABIT.get_adjusted_unit(Unit::Kibit).get_bit(), Bit::MEGABIT);
    /// ```
    #[inline]
    pub const fn get_bit(&self) -> Bit {
        self.size
    }
}

impl Bit {
    /// Returns the size with the given unit for its text.
    ///
    /// # Examples
    /// ```
    /// # use byte_unit::rendered::{base::{size::parse_line, *}, bit::*, byte::*, choice::*, format::*, math::*};
    /// use byte_unit::{Bit, Unit};
    ///
    /// let adjusted = Bit::from_u64(123_456).get_adjusted_unit(Unit::Kbit);
    /// assert_eq!(adjusted.to_string(), "123.456 Kb");
    /// ```
    #[inline]
    pub const fn get_adjusted_unit(self, unit: Unit) -> AdjustedBit {
        AdjustedBit { size: self, unit }
    }

    /// Returns the size with the largest unit of bits of the given type that is at most the size, or with
    /// `Unit::Bit` if there is none.
    ///
    /// # Examples
    /// ```
    /// # use byte_unit::rendered::{base::{size::parse_line, *}, bit::*, byte::*, choice::*, format::*, math::*};
    /// use byte_unit::{Bit, Decimal, Unit, UnitType};
    ///
    /// let size = Bit::from_u64(10_000);
    /// assert_eq!(size.get_appropriate_unit(UnitType::Both).get_unit(), Unit::Kibit);
    /// assert_eq!(size.get_appropriate_unit(UnitType::Decimal).get_unit(), Unit::Kbit);
    /// assert_eq!(Bit::MIN.get_appropriate_unit(UnitType::Both).get_unit(), Unit::Bit);
    /// ```
    #[inline(always)]
    pub fn get_appropriate_unit(&self, unit_type: UnitType) -> AdjustedBit {
        let unit = appropriate_unit(self.size, Kind::Bit, unit_type);
        self.get_adjusted_unit(unit)
    }
}
