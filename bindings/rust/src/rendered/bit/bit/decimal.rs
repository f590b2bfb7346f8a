// Rendered from crates/byte_unit_bit/src/bit/decimal.rt by `tools/dev render rust`. Do not edit.

//! Sizes in bits from decimals.

use super::Bit;
use crate::rendered::base::{Kind, Unit, size};
use crate::rendered::math::Decimal;

impl Bit {
    /// Creates a `Bit` from a decimal number of bits, rounded up to a whole bit.
    ///
    /// Returns `None` if the size is 10^30 bits or more.
    ///
    /// # Examples
    /// ```
    /// # use byte_unit::rendered::{base::{size::parse_line, *}, bit::*, byte::*, choice::*, format::*, math::*};
    /// use byte_unit::{Bit, Decimal};
    ///
    /// let number = Decimal::from_u128_with_scale(5084, 2);
    /// assert_eq!(number.and_then(Bit::from_decimal), Some(Bit::from_u64(51)));
    /// let number = Decimal::from_u128(Bit::MAX.as_u128());
    /// assert_eq!(number.and_then(Bit::from_decimal), Some(Bit::MAX));
    /// ```
    #[inline]
    pub fn from_decimal(size: Decimal) -> Option<Bit> {
        Bit::from_decimal_with_unit(size, Unit::Bit)
    }

    /// Creates a `Bit` from a decimal number of a unit: the exact product, rounded up to a whole bit.
    ///
    /// Returns `None` if the size is 10^30 bits or more.
    ///
    /// # Examples
    /// ```
    /// # use byte_unit::rendered::{base::{size::parse_line, *}, bit::*, byte::*, choice::*, format::*, math::*};
    /// use byte_unit::{Bit, Decimal, Unit};
    ///
    /// let number = Decimal::from(3u8);
    /// assert_eq!(Bit::from_decimal_with_unit(number, Unit::Kibit), Some(Bit::from_u64(3072)));
    /// let number = Decimal::from(1000u16);
    /// assert_eq!(Bit::from_decimal_with_unit(number, Unit::Rbit), None);
    /// ```
    #[inline]
    pub fn from_decimal_with_unit(size: Decimal, unit: Unit) -> Option<Bit> {
        let size = size::from_decimal(size, unit, Kind::Bit)?;
        Some(Bit { size })
    }
}
