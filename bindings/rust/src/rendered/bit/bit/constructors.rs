// Rendered from crates/byte_unit_bit/src/bit/constructors.rt by `tools/dev render rust`. Do not edit.

//! Constructors of sizes in bits.

use super::Bit;
use crate::rendered::base::{Kind, Unit, size};

/// Constructors.
impl Bit {
    /// Creates a `Bit` from a number of bits. Returns `None` if it is 10^30 or more.
    ///
    /// # Examples
    /// ```
    /// # use byte_unit::rendered::{base::{size::parse_line, *}, bit::*, byte::*, choice::*, format::*, math::*};
    /// use byte_unit::Bit;
    ///
    /// assert_eq!(Bit::from_u128(15_000_000), Some(Bit::from_u64(15_000_000)));
    /// assert_eq!(Bit::from_u128(Bit::MAX.as_u128()), Some(Bit::MAX));
    /// assert_eq!(Bit::from_u128(Bit::MAX.as_u128() + 1), None);
    /// ```
    #[inline]
    pub const fn from_u128(size: u128) -> Option<Bit> {
        match size::bounded(size) {
            Some(size) => Some(Bit { size }),
            None => None,
        }
    }

    /// Creates a `Bit` from a number of bits.
    ///
    /// # Examples
    /// ```
    /// # use byte_unit::rendered::{base::{size::parse_line, *}, bit::*, byte::*, choice::*, format::*, math::*};
    /// use byte_unit::Bit;
    ///
    /// assert_eq!(Bit::from_u64(1024), Bit::KIBIBIT);
    /// assert_eq!(Bit::from_u64(u64::MAX).as_u128(), u128::from(u64::MAX));
    /// ```
    #[inline]
    pub const fn from_u64(size: u64) -> Bit {
        Bit { size: size as u128 }
    }

    /// Creates a `Bit` from a number of bits. Returns `None` if it is negative, or 10^30 or more.
    ///
    /// # Examples
    /// ```
    /// # use byte_unit::rendered::{base::{size::parse_line, *}, bit::*, byte::*, choice::*, format::*, math::*};
    /// use byte_unit::Bit;
    ///
    /// assert_eq!(Bit::from_i128(15_000_000), Some(Bit::from_u64(15_000_000)));
    /// assert_eq!(Bit::from_i128(-1), None);
    /// assert_eq!(Bit::from_i128(i128::MAX), None);
    /// ```
    #[inline]
    pub const fn from_i128(size: i128) -> Option<Bit> {
        match crate::support::u128_of(size) {
            Some(n) => Bit::from_u128(n),
            None => None,
        }
    }

    /// Creates a `Bit` from a number of bits. Returns `None` if it is negative.
    ///
    /// # Examples
    /// ```
    /// # use byte_unit::rendered::{base::{size::parse_line, *}, bit::*, byte::*, choice::*, format::*, math::*};
    /// use byte_unit::Bit;
    ///
    /// assert_eq!(Bit::from_i64(15_000_000), Some(Bit::from_u64(15_000_000)));
    /// assert_eq!(Bit::from_i64(-1), None);
    /// ```
    #[inline]
    pub const fn from_i64(size: i64) -> Option<Bit> {
        Bit::from_i128(size as i128)
    }
}

/// Constructors from a number of a unit.
impl Bit {
    /// Creates a `Bit` from a number of a unit, rounded up to a whole bit.
    ///
    /// Returns `None` if the size is 10^30 bits or more.
    ///
    /// # Examples
    /// ```
    /// # use byte_unit::rendered::{base::{size::parse_line, *}, bit::*, byte::*, choice::*, format::*, math::*};
    /// use byte_unit::{Bit, Unit};
    ///
    /// assert_eq!(Bit::from_u128_with_unit(15, Unit::Mbit), Some(Bit::from_u64(15_000_000)));
    /// assert_eq!(Bit::from_u128_with_unit(17, Unit::B), Some(Bit::from_u64(136)));
    /// assert_eq!(Bit::from_u128_with_unit(1_000, Unit::Rbit), None);
    /// ```
    #[inline]
    pub const fn from_u128_with_unit(size: u128, unit: Unit) -> Option<Bit> {
        match size::with_unit(size, unit, Kind::Bit) {
            Some(size) => Some(Bit { size }),
            None => None,
        }
    }

    /// Creates a `Bit` from a number of a unit, rounded up to a whole bit.
    ///
    /// Returns `None` if the size is 10^30 bits or more.
    ///
    /// # Examples
    /// ```
    /// # use byte_unit::rendered::{base::{size::parse_line, *}, bit::*, byte::*, choice::*, format::*, math::*};
    /// use byte_unit::{Bit, Unit};
    ///
    /// assert_eq!(Bit::from_u64_with_unit(15, Unit::Kibit), Some(Bit::from_u64(15_360)));
    /// assert_eq!(Bit::from_u64_with_unit(999, Unit::Rbit), Bit::RONNABIT.multiply(999));
    /// assert_eq!(Bit::from_u64_with_unit(1_000, Unit::Rbit), None);
    /// ```
    #[inline]
    pub const fn from_u64_with_unit(size: u64, unit: Unit) -> Option<Bit> {
        Bit::from_u128_with_unit(size as u128, unit)
    }

    /// Creates a `Bit` from a number of a unit, rounded up to a whole bit.
    ///
    /// Returns `None` if the number is negative, or the size is 10^30 bits or more.
    ///
    /// # Examples
    /// ```
    /// # use byte_unit::rendered::{base::{size::parse_line, *}, bit::*, byte::*, choice::*, format::*, math::*};
    /// use byte_unit::{Bit, Unit};
    ///
    /// assert_eq!(Bit::from_i128_with_unit(15, Unit::Kibit), Some(Bit::from_u64(15_360)));
    /// assert_eq!(Bit::from_i128_with_unit(-15, Unit::Kibit), None);
    /// assert_eq!(Bit::from_i128_with_unit(1_000, Unit::Rbit), None);
    /// ```
    #[inline]
    pub const fn from_i128_with_unit(size: i128, unit: Unit) -> Option<Bit> {
        match crate::support::u128_of(size) {
            Some(n) => Bit::from_u128_with_unit(n, unit),
            None => None,
        }
    }

    /// Creates a `Bit` from a number of a unit, rounded up to a whole bit.
    ///
    /// Returns `None` if the number is negative, or the size is 10^30 bits or more.
    ///
    /// # Examples
    /// ```
    /// # use byte_unit::rendered::{base::{size::parse_line, *}, bit::*, byte::*, choice::*, format::*, math::*};
    /// use byte_unit::{Bit, Unit};
    ///
    /// assert_eq!(Bit::from_i64_with_unit(15, Unit::Kibit), Some(Bit::from_u64(15_360)));
    /// assert_eq!(Bit::from_i64_with_unit(-15, Unit::Kibit), None);
    /// ```
    #[inline]
    pub const fn from_i64_with_unit(size: i64, unit: Unit) -> Option<Bit> {
        Bit::from_i128_with_unit(size as i128, unit)
    }
}
