// Rendered from crates/byte_unit_byte/src/byte/units.rt by `tools/dev render rust`. Do not edit.

//! The units that represent a size in bytes exactly.

use super::Byte;
use crate::rendered::base::{Kind, Unit};
use crate::rendered::choice::{exact_unit, recoverable_unit};
use crate::rendered::math::{Decimal, Steps};

impl Byte {
    /// Returns the size as a whole number of the largest unit that divides it, with that unit.
    ///
    /// The unit is a multiple of bytes, or with `allow_in_bits` of bytes or of bits, and at most the size. If there
    /// is none, it is `Unit::B`.
    ///
    /// # Examples
    /// ```
    /// # use byte_unit::rendered::{base::{size::parse_line, *}, bit::*, byte::*, choice::*, format::*, math::*};
    /// use byte_unit::{Byte, Unit};
    ///
    /// assert_eq!(Byte::from_u64(50_840_000).get_exact_unit(false), (50_840, Unit::KB));
    /// assert_eq!(Byte::MEGABIT.get_exact_unit(true), (1, Unit::Mbit));
    /// assert_eq!(Byte::from_u64(999).get_exact_unit(false), (999, Unit::B));
    /// ```
    #[inline]
    pub fn get_exact_unit(self, allow_in_bits: bool) -> (u128, Unit) {
        exact_unit(self.size, Kind::Byte, allow_in_bits)
    }

    /// Returns the size as a decimal of at most `precision` digits after the point, with its unit: number times
    /// unit is the size, exactly.
    ///
    /// The unit is the largest one that allows this. It is a multiple of bytes, or with `allow_in_bits` of bytes or
    /// of bits, and at most the size. If there is none, it is `Unit::B`. A precision above 28 counts as 28; 3 is
    /// the usual one.
    ///
    /// # Examples
    /// ```
    /// # use byte_unit::rendered::{base::{size::parse_line, *}, bit::*, byte::*, choice::*, format::*, math::*};
    /// use byte_unit::{Byte, Decimal, Unit};
    ///
    /// let (number, unit) = Byte::from_u64(50_840_000).get_recoverable_unit(false, 2);
    /// assert_eq!(Some(number), Decimal::from_u128_with_scale(5084, 2));
    /// assert_eq!(unit, Unit::MB);
    /// assert_eq!(Byte::from_u64(50_840_000).get_recoverable_unit(false, 1).1, Unit::KB);
    /// assert_eq!(Byte::MEGABIT.get_recoverable_unit(true, 3).1, Unit::Mbit);
    /// ```
    #[inline]
    pub fn get_recoverable_unit(self, allow_in_bits: bool, precision: usize) -> (Decimal, Unit) {
        self.get_recoverable_unit_counted(allow_in_bits, precision, &mut Steps::new())
    }

    /// Returns what [`Byte::get_recoverable_unit`] returns, and adds to `steps` those of trial and long division.
    ///
    /// A step is one factor 2 or 5 of the size, one of the two trials that fail, or one digit of the decimal after
    /// the point. That is at most 116 steps; a size of zero takes none. Few of these divisions are made, so the count
    /// bounds no running time. It saturates at its maximum.
    #[inline]
    pub(crate) fn get_recoverable_unit_counted(
        self,
        allow_in_bits: bool,
        precision: usize,
        steps: &mut Steps,
    ) -> (Decimal, Unit) {
        recoverable_unit(self.size, Kind::Byte, allow_in_bits, precision, steps)
    }
}
