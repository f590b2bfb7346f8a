// Rendered from crates/byte_unit_byte/src/byte/decimal.rt by `tools/dev render rust`. Do not edit.

//! Sizes in bytes from decimals.

use super::Byte;
use crate::rendered::base::{Kind, Unit, size};
use crate::rendered::math::Decimal;

impl Byte {
    /// Creates a `Byte` from a decimal number of bytes, rounded up to a whole byte.
    ///
    /// Returns `None` if the size is 10^30 bytes or more.
    ///
    /// # Examples
    /// ```
    /// # use byte_unit::rendered::{base::{size::parse_line, *}, bit::*, byte::*, choice::*, format::*, math::*};
    /// use byte_unit::{Byte, Decimal};
    ///
    /// let number = Decimal::from_u128_with_scale(5084, 2);
    /// assert_eq!(number.and_then(Byte::from_decimal), Some(Byte::from_u64(51)));
    /// let number = Decimal::from_u128(Byte::MAX.as_u128());
    /// assert_eq!(number.and_then(Byte::from_decimal), Some(Byte::MAX));
    /// ```
    #[inline]
    pub fn from_decimal(size: Decimal) -> Option<Byte> {
        Byte::from_decimal_with_unit(size, Unit::B)
    }

    /// Creates a `Byte` from a decimal number of a unit: the exact product, rounded up to a whole byte.
    ///
    /// Returns `None` if the size is 10^30 bytes or more.
    ///
    /// # Examples
    /// ```
    /// # use byte_unit::rendered::{base::{size::parse_line, *}, bit::*, byte::*, choice::*, format::*, math::*};
    /// use byte_unit::{Byte, Decimal, Unit};
    ///
    /// let number = Decimal::from(3u8);
    /// assert_eq!(Byte::from_decimal_with_unit(number, Unit::KiB), Some(Byte::from_u64(3072)));
    /// let number = Decimal::from(1000u16);
    /// assert_eq!(Byte::from_decimal_with_unit(number, Unit::RB), None);
    /// ```
    #[inline]
    pub fn from_decimal_with_unit(size: Decimal, unit: Unit) -> Option<Byte> {
        let size = size::from_decimal(size, unit, Kind::Byte)?;
        Some(Byte { size })
    }
}
