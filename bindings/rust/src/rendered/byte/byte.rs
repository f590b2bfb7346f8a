// Rendered from crates/byte_unit_byte/src/byte.rt by `tools/dev render rust`. Do not edit.

//! `Byte`, a size in bytes: conversions to numbers, comparisons and arithmetic.

use core::cmp::Ordering;

mod parse;

mod constructors;

mod decimal;

mod units;

mod adjusted;

mod binary;

mod built_in_traits;

mod constants;

mod position;

mod words;

pub use adjusted::AdjustedByte;

/// A size in bytes: a whole number below 10^30.
///
/// # Examples
/// ```
/// # use byte_unit::rendered::{base::{size::parse_line, *}, bit::*, byte::*, choice::*, format::*, math::*};
/// use byte_unit::Byte;
///
/// let limit = "1.5 GiB".parse::<Byte>()?;
/// let used = Byte::from_u64(900_000_000);
/// assert_eq!(limit.subtract(used), Some(Byte::from_u64(710_612_736)));
/// assert_eq!(used.subtract(limit), None);
/// # Ok::<(), Box<dyn std::error::Error>>(())
/// ```
#[derive(Clone, Copy, PartialEq, Eq, PartialOrd, Ord, Hash)]
pub struct Byte {
    size: u128,
}

/// Conversions to numbers.
impl Byte {
    /// Returns the number of bytes, which is below 10^30.
    ///
    /// # Examples
    /// ```
    /// # use byte_unit::rendered::{base::{size::parse_line, *}, bit::*, byte::*, choice::*, format::*, math::*};
    /// use byte_unit::Byte;
    ///
    /// assert_eq!(Byte::KIBIBYTE.as_u128(), 1024);
    /// assert_eq!(Byte::MAX.as_u128(), 999_999_999_999_999_999_999_999_999_999);
    /// ```
    #[inline]
    pub const fn as_u128(self) -> u128 {
        self.size
    }

    /// Returns the number of bytes, or 2^64 - 1 if it is larger.
    ///
    /// # Examples
    /// ```
    /// # use byte_unit::rendered::{base::{size::parse_line, *}, bit::*, byte::*, choice::*, format::*, math::*};
    /// use byte_unit::Byte;
    ///
    /// assert_eq!(Byte::KIBIBYTE.as_u64(), 1024);
    /// assert_eq!(Byte::ZETTABYTE.as_u64(), u64::MAX);
    /// ```
    #[inline]
    pub const fn as_u64(self) -> u64 {
        match crate::support::u64_of(self.size) {
            Some(n) => n,
            None => u64::MAX,
        }
    }

    /// Returns the number of bytes, or `None` if it is larger than 2^64 - 1.
    ///
    /// # Examples
    /// ```
    /// # use byte_unit::rendered::{base::{size::parse_line, *}, bit::*, byte::*, choice::*, format::*, math::*};
    /// use byte_unit::Byte;
    ///
    /// assert_eq!(Byte::KIBIBYTE.as_u64_checked(), Some(1024));
    /// assert_eq!(Byte::ZETTABYTE.as_u64_checked(), None);
    /// ```
    #[inline]
    pub const fn as_u64_checked(self) -> Option<u64> {
        crate::support::u64_of(self.size)
    }
}

/// Comparisons with numbers of bytes.
impl Byte {
    /// Returns whether the size is equal to a number of bytes.
    ///
    /// # Examples
    /// ```
    /// # use byte_unit::rendered::{base::{size::parse_line, *}, bit::*, byte::*, choice::*, format::*, math::*};
    /// use byte_unit::Byte;
    ///
    /// assert!(Byte::KILOBYTE.eq_u64(1000));
    /// assert!(!Byte::KILOBYTE.eq_u64(1024));
    /// ```
    #[inline]
    pub fn eq_u64(self, other: u64) -> bool {
        self.size == u128::from(other)
    }

    /// Returns whether the size is equal to a number of bytes.
    ///
    /// # Examples
    /// ```
    /// # use byte_unit::rendered::{base::{size::parse_line, *}, bit::*, byte::*, choice::*, format::*, math::*};
    /// use byte_unit::Byte;
    ///
    /// assert!(Byte::KILOBYTE.eq_u128(1000));
    /// assert!(!Byte::KILOBYTE.eq_u128(1024));
    /// ```
    #[inline]
    pub fn eq_u128(self, other: u128) -> bool {
        self.size == other
    }

    /// Compares the size with a number of bytes.
    ///
    /// # Examples
    /// ```
    /// # use byte_unit::rendered::{base::{size::parse_line, *}, bit::*, byte::*, choice::*, format::*, math::*};
    /// use byte_unit::Byte;
    ///
    /// use std::cmp::Ordering;
    ///
    /// assert_eq!(Byte::KILOBYTE.cmp_u64(1024), Ordering::Less);
    /// assert_eq!(Byte::KIBIBYTE.cmp_u64(1024), Ordering::Equal);
    /// ```
    #[inline]
    pub fn cmp_u64(self, other: u64) -> Ordering {
        self.size.cmp(&u128::from(other))
    }

    /// Compares the size with a number of bytes.
    ///
    /// # Examples
    /// ```
    /// # use byte_unit::rendered::{base::{size::parse_line, *}, bit::*, byte::*, choice::*, format::*, math::*};
    /// use byte_unit::Byte;
    ///
    /// use std::cmp::Ordering;
    ///
    /// assert_eq!(Byte::KILOBYTE.cmp_u128(1024), Ordering::Less);
    /// assert_eq!(Byte::KIBIBYTE.cmp_u128(1024), Ordering::Equal);
    /// ```
    #[inline]
    pub fn cmp_u128(self, other: u128) -> Ordering {
        self.size.cmp(&other)
    }
}

/// Arithmetic. No method overflows, wraps or panics.
impl Byte {
    /// Returns the sum, or `None` if it is 10^30 bytes or more.
    ///
    /// # Examples
    /// ```
    /// # use byte_unit::rendered::{base::{size::parse_line, *}, bit::*, byte::*, choice::*, format::*, math::*};
    /// use byte_unit::Byte;
    ///
    /// let size = Byte::from_u64(15_500);
    /// assert_eq!(size.add(Byte::from_u64(500)), Some(Byte::from_u64(16_000)));
    /// assert_eq!(size.add(Byte::MAX), None);
    /// ```
    #[inline]
    pub const fn add(self, rhs: Byte) -> Option<Byte> {
        Byte::from_u128(self.size + rhs.size)
    }

    /// Returns the difference, or `None` if `rhs` is larger than the size.
    ///
    /// # Examples
    /// ```
    /// # use byte_unit::rendered::{base::{size::parse_line, *}, bit::*, byte::*, choice::*, format::*, math::*};
    /// use byte_unit::Byte;
    ///
    /// let size = Byte::from_u64(15_500);
    /// assert_eq!(size.subtract(Byte::from_u64(500)), Some(Byte::from_u64(15_000)));
    /// assert_eq!(size.subtract(Byte::MAX), None);
    /// ```
    #[inline]
    pub const fn subtract(self, rhs: Byte) -> Option<Byte> {
        match self.size.checked_sub(rhs.size) {
            Some(size) => Some(Byte { size }),
            None => None,
        }
    }

    /// Returns the product, or `None` if it is 10^30 bytes or more.
    ///
    /// # Examples
    /// ```
    /// # use byte_unit::rendered::{base::{size::parse_line, *}, bit::*, byte::*, choice::*, format::*, math::*};
    /// use byte_unit::Byte;
    ///
    /// assert_eq!(Byte::from_u64(15_500).multiply(2), Some(Byte::from_u64(31_000)));
    /// assert_eq!(Byte::MAX.multiply(2), None);
    /// ```
    #[inline]
    pub const fn multiply(self, rhs: usize) -> Option<Byte> {
        match self.size.checked_mul(rhs as u128) {
            Some(n) => Byte::from_u128(n),
            None => None,
        }
    }

    /// Returns the quotient, rounded down, or `None` if `rhs` is zero.
    ///
    /// # Examples
    /// ```
    /// # use byte_unit::rendered::{base::{size::parse_line, *}, bit::*, byte::*, choice::*, format::*, math::*};
    /// use byte_unit::Byte;
    ///
    /// assert_eq!(Byte::from_u64(15_500).divide(3), Some(Byte::from_u64(5166)));
    /// assert_eq!(Byte::from_u64(15_500).divide(0), None);
    /// ```
    #[inline]
    pub const fn divide(self, rhs: usize) -> Option<Byte> {
        match self.size.checked_div(rhs as u128) {
            Some(size) => Some(Byte { size }),
            None => None,
        }
    }
}
