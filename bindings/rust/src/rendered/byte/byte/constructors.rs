// Rendered from crates/byte_unit_byte/src/byte/constructors.rt by `tools/dev render rust`. Do not edit.

//! Constructors of sizes in bytes.

use super::Byte;
use crate::rendered::base::{Kind, Unit, size};

/// Constructors.
impl Byte {
    /// Creates a `Byte` from a number of bytes. Returns `None` if it is 10^30 or more.
    ///
    /// # Examples
    /// ```
    /// # use byte_unit::rendered::{base::{size::parse_line, *}, bit::*, byte::*, choice::*, format::*, math::*};
    /// use byte_unit::Byte;
    ///
    /// assert_eq!(Byte::from_u128(15_000_000), Some(Byte::from_u64(15_000_000)));
    /// assert_eq!(Byte::from_u128(Byte::MAX.as_u128()), Some(Byte::MAX));
    /// assert_eq!(Byte::from_u128(Byte::MAX.as_u128() + 1), None);
    /// ```
    #[inline]
    pub const fn from_u128(size: u128) -> Option<Byte> {
        match size::bounded(size) {
            Some(size) => Some(Byte { size }),
            None => None,
        }
    }

    /// Creates a `Byte` from a number of bytes.
    ///
    /// # Examples
    /// ```
    /// # use byte_unit::rendered::{base::{size::parse_line, *}, bit::*, byte::*, choice::*, format::*, math::*};
    /// use byte_unit::Byte;
    ///
    /// assert_eq!(Byte::from_u64(1024), Byte::KIBIBYTE);
    /// assert_eq!(Byte::from_u64(u64::MAX).as_u128(), u128::from(u64::MAX));
    /// ```
    #[inline]
    pub const fn from_u64(size: u64) -> Byte {
        Byte { size: size as u128 }
    }

    /// Creates a `Byte` from a number of bytes. Returns `None` if it is negative, or 10^30 or more.
    ///
    /// # Examples
    /// ```
    /// # use byte_unit::rendered::{base::{size::parse_line, *}, bit::*, byte::*, choice::*, format::*, math::*};
    /// use byte_unit::Byte;
    ///
    /// assert_eq!(Byte::from_i128(15_000_000), Some(Byte::from_u64(15_000_000)));
    /// assert_eq!(Byte::from_i128(-1), None);
    /// assert_eq!(Byte::from_i128(i128::MAX), None);
    /// ```
    #[inline]
    pub const fn from_i128(size: i128) -> Option<Byte> {
        match crate::support::u128_of(size) {
            Some(n) => Byte::from_u128(n),
            None => None,
        }
    }

    /// Creates a `Byte` from a number of bytes. Returns `None` if it is negative.
    ///
    /// # Examples
    /// ```
    /// # use byte_unit::rendered::{base::{size::parse_line, *}, bit::*, byte::*, choice::*, format::*, math::*};
    /// use byte_unit::Byte;
    ///
    /// assert_eq!(Byte::from_i64(15_000_000), Some(Byte::from_u64(15_000_000)));
    /// assert_eq!(Byte::from_i64(-1), None);
    /// ```
    #[inline]
    pub const fn from_i64(size: i64) -> Option<Byte> {
        Byte::from_i128(size as i128)
    }
}

/// Constructors from a number of a unit.
impl Byte {
    /// Creates a `Byte` from a number of a unit, rounded up to a whole byte.
    ///
    /// Returns `None` if the size is 10^30 bytes or more.
    ///
    /// # Examples
    /// ```
    /// # use byte_unit::rendered::{base::{size::parse_line, *}, bit::*, byte::*, choice::*, format::*, math::*};
    /// use byte_unit::{Bit, Byte, Unit};
    ///
    /// assert_eq!(Byte::from_u128_with_unit(15, Unit::MB), Some(Byte::from_u64(15_000_000)));
    /// assert_eq!(Byte::from_u128_with_unit(17, Unit::Bit), Some(Byte::from_u64(3)));
    /// assert_eq!(Byte::from_u128_with_unit(1_000, Unit::RB), None);
    /// ```
    #[inline]
    pub const fn from_u128_with_unit(size: u128, unit: Unit) -> Option<Byte> {
        match size::with_unit(size, unit, Kind::Byte) {
            Some(size) => Some(Byte { size }),
            None => None,
        }
    }

    /// Creates a `Byte` from a number of a unit, rounded up to a whole byte.
    ///
    /// Returns `None` if the size is 10^30 bytes or more.
    ///
    /// # Examples
    /// ```
    /// # use byte_unit::rendered::{base::{size::parse_line, *}, bit::*, byte::*, choice::*, format::*, math::*};
    /// use byte_unit::{Byte, Unit};
    ///
    /// assert_eq!(Byte::from_u64_with_unit(15, Unit::KiB), Some(Byte::from_u64(15_360)));
    /// assert_eq!(Byte::from_u64_with_unit(999, Unit::RB), Byte::RONNABYTE.multiply(999));
    /// assert_eq!(Byte::from_u64_with_unit(1_000, Unit::RB), None);
    /// ```
    #[inline]
    pub const fn from_u64_with_unit(size: u64, unit: Unit) -> Option<Byte> {
        Byte::from_u128_with_unit(size as u128, unit)
    }

    /// Creates a `Byte` from a number of a unit, rounded up to a whole byte.
    ///
    /// Returns `None` if the number is negative, or the size is 10^30 bytes or more.
    ///
    /// # Examples
    /// ```
    /// # use byte_unit::rendered::{base::{size::parse_line, *}, bit::*, byte::*, choice::*, format::*, math::*};
    /// use byte_unit::{Byte, Unit};
    ///
    /// assert_eq!(Byte::from_i128_with_unit(15, Unit::KiB), Some(Byte::from_u64(15_360)));
    /// assert_eq!(Byte::from_i128_with_unit(-15, Unit::KiB), None);
    /// assert_eq!(Byte::from_i128_with_unit(1_000, Unit::RB), None);
    /// ```
    #[inline]
    pub const fn from_i128_with_unit(size: i128, unit: Unit) -> Option<Byte> {
        match crate::support::u128_of(size) {
            Some(n) => Byte::from_u128_with_unit(n, unit),
            None => None,
        }
    }

    /// Creates a `Byte` from a number of a unit, rounded up to a whole byte.
    ///
    /// Returns `None` if the number is negative, or the size is 10^30 bytes or more.
    ///
    /// # Examples
    /// ```
    /// # use byte_unit::rendered::{base::{size::parse_line, *}, bit::*, byte::*, choice::*, format::*, math::*};
    /// use byte_unit::{Byte, Unit};
    ///
    /// assert_eq!(Byte::from_i64_with_unit(15, Unit::KiB), Some(Byte::from_u64(15_360)));
    /// assert_eq!(Byte::from_i64_with_unit(-15, Unit::KiB), None);
    /// ```
    #[inline]
    pub const fn from_i64_with_unit(size: i64, unit: Unit) -> Option<Byte> {
        Byte::from_i128_with_unit(size as i128, unit)
    }
}
