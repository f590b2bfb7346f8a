// Rendered from crates/byte_unit_math/src/decimal.rt by `tools/dev render rust`. Do not edit.

//! Exact decimals with at most 28 digits after the point, their order and their text.

use crate::rendered::math::power_of_ten;
use core::cmp::Ordering;

/// The most digits after the point of a [`Decimal`]: as many as the `Decimal` of the Rust crate has.
pub const DECIMAL_PLACES: u32 = 28;

/// One, scaled by 10^28.
pub(crate) const ONE: u128 = 10_000_000_000_000_000_000_000_000_000;

/// The limit of whole parts, 2^112. The bits of every size are below it: they are fewer than 8 * 10^30, and so than
/// 2^103.
pub const WHOLE_LIMIT: u128 = 5_192_296_858_534_827_628_530_496_329_220_096;

/// A non-negative decimal with at most 28 digits after the point and a whole part below 2^112.
///
/// Equality, order and hash are those of the value.
#[derive(Clone, Copy, Debug, Hash)]
#[repr(C)]
pub struct Decimal {
    /// The number of digits after the point.
    places: u32,
    /// The digits after the point as a number, without trailing zeros.
    digits: u128,
    /// The part before the point.
    whole: u128,
}

impl Decimal {
    /// The number 0.
    pub const ZERO: Decimal = Decimal { whole: 0, digits: 0, places: 0 };

    /// Creates `whole + fraction / 10^28`. Returns `None` if `whole` is 2^112 or more, or `fraction` 10^28 or more.
    ///
    /// # Examples
    /// ```
    /// # use byte_unit::rendered::{base::{size::parse_line, *}, bit::*, byte::*, choice::*, format::*, math::*};
    /// use byte_unit::Decimal;
    ///
    /// let half = Decimal::new(1, 5 * 10u128.pow(27)).unwrap();
    /// assert_eq!(half.digits(), 5);
    /// assert_eq!(Decimal::new(1, 10u128.pow(28)), None);
    /// ```
    pub const fn new(whole: u128, fraction: u128) -> Option<Decimal> {
        if whole < WHOLE_LIMIT && fraction < ONE {
            Some(Decimal::from_digits(whole, fraction, DECIMAL_PLACES))
        } else {
            None
        }
    }

    /// Creates a whole number. Returns `None` if it is 2^112 or more.
    ///
    /// # Examples
    /// ```
    /// # use byte_unit::rendered::{base::{size::parse_line, *}, bit::*, byte::*, choice::*, format::*, math::*};
    /// use byte_unit::Decimal;
    ///
    /// assert_eq!(Decimal::from_u128(7), Some(Decimal::from(7u8)));
    /// assert_eq!(Decimal::from_u128(1 << 112), None);
    /// ```
    pub const fn from_u128(n: u128) -> Option<Decimal> {
        if n < WHOLE_LIMIT { Some(Decimal::from_digits(n, 0, 0)) } else { None }
    }

    /// Creates `mantissa / 10^places`. Returns `None` if `places` exceeds 28 or the whole part is 2^112 or more.
    ///
    /// # Examples
    /// ```
    /// # use byte_unit::rendered::{base::{size::parse_line, *}, bit::*, byte::*, choice::*, format::*, math::*};
    /// use byte_unit::Decimal;
    ///
    /// let d = Decimal::from_u128_with_scale(5084, 2).unwrap();
    /// assert_eq!((d.whole(), d.digits(), d.places()), (50, 84, 2));
    /// assert_eq!(Decimal::from_u128_with_scale(1, 29), None);
    /// ```
    pub fn from_u128_with_scale(mantissa: u128, places: u32) -> Option<Decimal> {
        if places > DECIMAL_PLACES {
            return None;
        }
        let unit = power_of_ten(places);
        let whole = mantissa / unit;
        if whole < WHOLE_LIMIT { Some(Decimal::from_digits(whole, mantissa % unit, places)) } else { None }
    }

    /// Creates `whole + digits / 10^places`.
    ///
    /// Precondition: `whole < 2^112`, `places <= 28` and `digits < 10^places`.
    #[inline(always)]
    pub(crate) const fn from_digits(whole: u128, digits: u128, places: u32) -> Decimal {
        if digits >= 1 << 64 {
            return Decimal::from_wide_digits(whole, digits, places);
        }
        // Trailing zeros are removed, so that equal numbers have equal fields.
        let mut short = digits as u64;
        let mut left = places;
        while left > 0 && short % 10 == 0 {
            short /= 10;
            left -= 1;
        }
        Decimal::from_trimmed_digits(whole, short as u128, left)
    }

    /// Creates the same number from digits that need more than 64 bits, whose divisions take longer.
    const fn from_wide_digits(whole: u128, digits: u128, places: u32) -> Decimal {
        let mut short = digits;
        let mut left = places;
        while left > 0 && short % 10 == 0 {
            short /= 10;
            left -= 1;
        }
        Decimal::from_trimmed_digits(whole, short, left)
    }

    /// Creates the same number from digits of which the last is not 0.
    #[inline(always)]
    const fn from_trimmed_digits(whole: u128, digits: u128, places: u32) -> Decimal {
        Decimal { whole, digits, places }
    }

    /// Returns the part before the point, below 2^112.
    ///
    /// # Examples
    /// ```
    /// # use byte_unit::rendered::{base::{size::parse_line, *}, bit::*, byte::*, choice::*, format::*, math::*};
    /// use byte_unit::Decimal;
    ///
    /// assert_eq!(Decimal::from_u128_with_scale(50084, 3).unwrap().whole(), 50);
    /// assert_eq!(Decimal::from(7u8).whole(), 7);
    /// ```
    pub const fn whole(self) -> u128 {
        self.whole
    }

    /// Returns the part after the point scaled by 10^28, below 10^28.
    ///
    /// # Examples
    /// ```
    /// # use byte_unit::rendered::{base::{size::parse_line, *}, bit::*, byte::*, choice::*, format::*, math::*};
    /// use byte_unit::Decimal;
    ///
    /// assert_eq!(Decimal::from_u128_with_scale(15, 1).unwrap().fraction(), 5 * 10u128.pow(27));
    /// assert_eq!(Decimal::from(7u8).fraction(), 0);
    /// ```
    pub const fn fraction(self) -> u128 {
        self.digits * power_of_ten(DECIMAL_PLACES - self.places)
    }

    /// Returns the least number of places that represents it exactly, 0 to 28.
    ///
    /// # Examples
    /// ```
    /// # use byte_unit::rendered::{base::{size::parse_line, *}, bit::*, byte::*, choice::*, format::*, math::*};
    /// use byte_unit::Decimal;
    ///
    /// assert_eq!(Decimal::from_u128_with_scale(500840, 4).unwrap().places(), 3);
    /// assert_eq!(Decimal::from(7u8).places(), 0);
    /// ```
    pub fn places(self) -> u32 {
        self.places
    }

    /// Returns the digits after the point as a number of `places()` digits, leading zeros included.
    ///
    /// # Examples
    /// ```
    /// # use byte_unit::rendered::{base::{size::parse_line, *}, bit::*, byte::*, choice::*, format::*, math::*};
    /// use byte_unit::Decimal;
    ///
    /// assert_eq!(Decimal::from_u128_with_scale(50084, 3).unwrap().digits(), 84);
    /// assert_eq!(Decimal::from(7u8).digits(), 0);
    /// ```
    pub fn digits(self) -> u128 {
        self.digits
    }

    /// Returns what `whole`, `digits` and `places` return.
    pub(crate) fn fields(self) -> (u128, u128, u32) {
        (self.whole, self.digits, self.places)
    }
}

impl From<u8> for Decimal {
    fn from(n: u8) -> Decimal {
        Decimal::from(u64::from(n))
    }
}

impl From<u16> for Decimal {
    fn from(n: u16) -> Decimal {
        Decimal::from(u64::from(n))
    }
}

impl From<u32> for Decimal {
    fn from(n: u32) -> Decimal {
        Decimal::from(u64::from(n))
    }
}

impl From<u64> for Decimal {
    fn from(n: u64) -> Decimal {
        Decimal::from_digits(u128::from(n), 0, 0)
    }
}

impl Default for Decimal {
    fn default() -> Decimal {
        Decimal::ZERO
    }
}

impl PartialEq for Decimal {
    // Not derived: a derived `eq` would be that of the fields, and the contracts say that of the value, as a number.
    fn eq(&self, other: &Decimal) -> bool {
        self.whole() == other.whole() && self.fraction() == other.fraction()
    }
}

impl Eq for Decimal {}

impl Ord for Decimal {
    fn cmp(&self, other: &Decimal) -> Ordering {
        self.whole().cmp(&other.whole()).then(self.fraction().cmp(&other.fraction()))
    }
}

impl PartialOrd for Decimal {
    fn partial_cmp(&self, other: &Decimal) -> Option<Ordering> {
        Some(self.cmp(other))
    }
}
