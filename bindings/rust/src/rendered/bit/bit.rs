// Rendered from crates/byte_unit_bit/src/bit.rt by `tools/dev render rust`. Do not edit.

//! `Bit`, a size in bits: conversions to numbers, comparisons and arithmetic.

use core::cmp::Ordering;

mod parse;

mod constructors;

mod decimal;

mod units;

mod adjusted;

mod binary;

mod built_in_traits;

mod constants;

mod position;

mod words;

pub use adjusted::AdjustedBit;

/// A size in bits: a whole number below 10^30.
///
/// # Examples
/// ```
/// # use byte_unit::rendered::{base::{size::parse_line, *}, bit::*, byte::*, choice::*, format::*, math::*};
/// use byte_unit::Bit;
///
/// let limit = "1.5 Gib".parse::<Bit>()?;
/// let used = Bit::from_u64(900_000_000);
/// assert_eq!(limit.subtract(used), Some(Bit::from_u64(710_612_736)));
/// assert_eq!(used.subtract(limit), None);
/// # Ok::<(), Box<dyn std::error::Error>>(())
/// ```
#[derive(Clone, Copy, PartialEq, Eq, PartialOrd, Ord, Hash)]
pub struct Bit {
    size: u128,
}

/// Conversions to numbers.
impl Bit {
    /// Returns the number of bits, which is below 10^30.
    ///
    /// # Examples
    /// ```
    /// # use byte_unit::rendered::{base::{size::parse_line, *}, bit::*, byte::*, choice::*, format::*, math::*};
    /// use byte_unit::Bit;
    ///
    /// assert_eq!(Bit::KIBIBIT.as_u128(), 1024);
    /// assert_eq!(Bit::MAX.as_u128(), 999_999_999_999_999_999_999_999_999_999);
    /// ```
    #[inline]
    pub const fn as_u128(self) -> u128 {
        self.size
    }

    /// Returns the number of bits, or 2^64 - 1 if it is larger.
    ///
    /// # Examples
    /// ```
    /// # use byte_unit::rendered::{base::{size::parse_line, *}, bit::*, byte::*, choice::*, format::*, math::*};
    /// use byte_unit::Bit;
    ///
    /// assert_eq!(Bit::KIBIBIT.as_u64(), 1024);
    /// assert_eq!(Bit::ZETTABIT.as_u64(), u64::MAX);
    /// ```
    #[inline]
    pub const fn as_u64(self) -> u64 {
        match crate::support::u64_of(self.size) {
            Some(n) => n,
            None => u64::MAX,
        }
    }

    /// Returns the number of bits, or `None` if it is larger than 2^64 - 1.
    ///
    /// # Examples
    /// ```
    /// # use byte_unit::rendered::{base::{size::parse_line, *}, bit::*, byte::*, choice::*, format::*, math::*};
    /// use byte_unit::Bit;
    ///
    /// assert_eq!(Bit::KIBIBIT.as_u64_checked(), Some(1024));
    /// assert_eq!(Bit::ZETTABIT.as_u64_checked(), None);
    /// ```
    #[inline]
    pub const fn as_u64_checked(self) -> Option<u64> {
        crate::support::u64_of(self.size)
    }
}

/// Comparisons with numbers of bits.
impl Bit {
    /// Returns whether the size is equal to a number of bits.
    ///
    /// # Examples
    /// ```
    /// # use byte_unit::rendered::{base::{size::parse_line, *}, bit::*, byte::*, choice::*, format::*, math::*};
    /// use byte_unit::Bit;
    ///
    /// assert!(Bit::KILOBIT.eq_u64(1000));
    /// assert!(!Bit::KILOBIT.eq_u64(1024));
    /// ```
    #[inline]
    pub fn eq_u64(self, other: u64) -> bool {
        self.size == u128::from(other)
    }

    /// Returns whether the size is equal to a number of bits.
    ///
    /// # Examples
    /// ```
    /// # use byte_unit::rendered::{base::{size::parse_line, *}, bit::*, byte::*, choice::*, format::*, math::*};
    /// use byte_unit::Bit;
    ///
    /// assert!(Bit::KILOBIT.eq_u128(1000));
    /// assert!(!Bit::KILOBIT.eq_u128(1024));
    /// ```
    #[inline]
    pub fn eq_u128(self, other: u128) -> bool {
        self.size == other
    }

    /// Compares the size with a number of bits.
    ///
    /// # Examples
    /// ```
    /// # use byte_unit::rendered::{base::{size::parse_line, *}, bit::*, byte::*, choice::*, format::*, math::*};
    /// use byte_unit::Bit;
    ///
    /// use std::cmp::Ordering;
    ///
    /// assert_eq!(Bit::KILOBIT.cmp_u64(1024), Ordering::Less);
    /// assert_eq!(Bit::KIBIBIT.cmp_u64(1024), Ordering::Equal);
    /// ```
    #[inline]
    pub fn cmp_u64(self, other: u64) -> Ordering {
        self.size.cmp(&u128::from(other))
    }

    /// Compares the size with a number of bits.
    ///
    /// # Examples
    /// ```
    /// # use byte_unit::rendered::{base::{size::parse_line, *}, bit::*, byte::*, choice::*, format::*, math::*};
    /// use byte_unit::Bit;
    ///
    /// use std::cmp::Ordering;
    ///
    /// assert_eq!(Bit::KILOBIT.cmp_u128(1024), Ordering::Less);
    /// assert_eq!(Bit::KIBIBIT.cmp_u128(1024), Ordering::Equal);
    /// ```
    #[inline]
    pub fn cmp_u128(self, other: u128) -> Ordering {
        self.size.cmp(&other)
    }
}

/// Arithmetic. No method overflows, wraps or panics.
impl Bit {
    /// Returns the sum, or `None` if it is 10^30 bits or more.
    ///
    /// # Examples
    /// ```
    /// # use byte_unit::rendered::{base::{size::parse_line, *}, bit::*, byte::*, choice::*, format::*, math::*};
    /// use byte_unit::Bit;
    ///
    /// let size = Bit::from_u64(15_500);
    /// assert_eq!(size.add(Bit::from_u64(500)), Some(Bit::from_u64(16_000)));
    /// assert_eq!(size.add(Bit::MAX), None);
    /// ```
    #[inline]
    pub const fn add(self, rhs: Bit) -> Option<Bit> {
        Bit::from_u128(self.size + rhs.size)
    }

    /// Returns the difference, or `None` if `rhs` is larger than the size.
    ///
    /// # Examples
    /// ```
    /// # use byte_unit::rendered::{base::{size::parse_line, *}, bit::*, byte::*, choice::*, format::*, math::*};
    /// use byte_unit::Bit;
    ///
    /// let size = Bit::from_u64(15_500);
    /// assert_eq!(size.subtract(Bit::from_u64(500)), Some(Bit::from_u64(15_000)));
    /// assert_eq!(size.subtract(Bit::MAX), None);
    /// ```
    #[inline]
    pub const fn subtract(self, rhs: Bit) -> Option<Bit> {
        match self.size.checked_sub(rhs.size) {
            Some(size) => Some(Bit { size }),
            None => None,
        }
    }

    /// Returns the product, or `None` if it is 10^30 bits or more.
    ///
    /// # Examples
    /// ```
    /// # use byte_unit::rendered::{base::{size::parse_line, *}, bit::*, byte::*, choice::*, format::*, math::*};
    /// use byte_unit::Bit;
    ///
    /// assert_eq!(Bit::from_u64(15_500).multiply(2), Some(Bit::from_u64(31_000)));
    /// assert_eq!(Bit::MAX.multiply(2), None);
    /// ```
    #[inline]
    pub const fn multiply(self, rhs: usize) -> Option<Bit> {
        match self.size.checked_mul(rhs as u128) {
            Some(n) => Bit::from_u128(n),
            None => None,
        }
    }

    /// Returns the quotient, rounded down, or `None` if `rhs` is zero.
    ///
    /// # Examples
    /// ```
    /// # use byte_unit::rendered::{base::{size::parse_line, *}, bit::*, byte::*, choice::*, format::*, math::*};
    /// use byte_unit::Bit;
    ///
    /// assert_eq!(Bit::from_u64(15_500).divide(3), Some(Bit::from_u64(5166)));
    /// assert_eq!(Bit::from_u64(15_500).divide(0), None);
    /// ```
    #[inline]
    pub const fn divide(self, rhs: usize) -> Option<Bit> {
        match self.size.checked_div(rhs as u128) {
            Some(size) => Some(Bit { size }),
            None => None,
        }
    }
}
