// Rendered from crates/byte_unit_math/src/expansion.rt by `tools/dev render rust`. Do not edit.

//! Terminating decimal expansions: a whole part and at most 93 digits after the point; their rounding and their text.

use crate::rendered::math::decimal::Decimal;
use crate::rendered::math::decimal_digits::fmt_u128;
use crate::rendered::math::dividing::{GROUP_DIGITS, div_rem, div_rem_unit};
use crate::rendered::math::tens::{power_of_five, power_of_ten, power_of_two};
use core::{fmt, str};

/// The most digits after the point of an [`Expansion`]: the largest unit has 2^93 bits, and a fraction over 2^93 has
/// up to 93 digits.
pub const EXPANSION_PLACES: usize = 93;

/// How to round a number halfway between two decimals.
#[derive(Debug, Clone, Copy, PartialEq, Eq)]
pub enum Ties {
    /// To the one whose last digit is even.
    Even,
    /// To the greater one.
    Up,
}

/// A terminating decimal expansion with at most 93 digits after the point, the last of which is not 0.
///
#[derive(Debug, Clone, Copy)]
pub struct Expansion {
    /// The part before the point.
    whole: u128,
    /// The digits after the point, each below ten, and zeros after them.
    digits: [u8; EXPANSION_PLACES],
    /// The number of digits after the point.
    places: u32,
}

impl Expansion {
    /// Creates the expansion of `numerator / (2^twos * 5^fives)`.
    ///
    /// Precondition: `numerator < 8 * 10^30` and `2^twos * 5^fives <= 2^93`.
    ///
    /// # Examples
    /// ```
    /// # use byte_unit::rendered::{base::{size::parse_line, *}, bit::*, byte::*, choice::*, format::*, math::*};
    /// assert_eq!(format!("{}", Expansion::new(13, 3, 0)).as_str(), "1.625");
    /// assert_eq!(format!("{}", Expansion::new(8, 3, 0)).as_str(), "1");
    /// ```
    #[doc(hidden)]
    pub fn new(numerator: u128, twos: u32, fives: u32) -> Expansion {
        let den = power_of_two(twos) * power_of_five(fives);
        let (whole, rest) = div_rem(numerator, den);
        divide(whole, rest, den)
    }

    /// Creates an `Expansion` with the digits of a `Decimal`.
    ///
    /// # Examples
    /// ```
    /// # use byte_unit::rendered::{base::{size::parse_line, *}, bit::*, byte::*, choice::*, format::*, math::*};
    /// use byte_unit::Decimal;
    ///
    /// let e = Expansion::from_decimal(Decimal::from_u128_with_scale(50084, 3).unwrap());
    /// assert_eq!((e.whole(), e.places(), e.digit(3)), (50, 3, 4));
    /// ```
    pub fn from_decimal(d: Decimal) -> Expansion {
        divide(d.whole(), d.digits(), power_of_ten(d.places()))
    }

    /// Returns the part before the point.
    ///
    /// # Examples
    /// ```
    /// # use byte_unit::rendered::{base::{size::parse_line, *}, bit::*, byte::*, choice::*, format::*, math::*};
    /// assert_eq!(Expansion::new(13, 3, 0).whole(), 1);
    /// ```
    pub fn whole(&self) -> u128 {
        self.whole
    }

    /// Returns the number of digits after the point, without trailing zeros: at most 93.
    ///
    /// # Examples
    /// ```
    /// # use byte_unit::rendered::{base::{size::parse_line, *}, bit::*, byte::*, choice::*, format::*, math::*};
    /// assert_eq!(Expansion::new(13, 3, 0).places(), 3);
    /// assert_eq!(Expansion::new(1, 93, 0).places(), 93);
    /// ```
    pub fn places(&self) -> u32 {
        self.places
    }

    /// Returns the i-th digit after the point, counted from 1, or 0 if it is past the last.
    ///
    /// Precondition: `1 <= i`.
    ///
    /// # Examples
    /// ```
    /// # use byte_unit::rendered::{base::{size::parse_line, *}, bit::*, byte::*, choice::*, format::*, math::*};
    /// let e = Expansion::new(13, 3, 0);
    /// assert_eq!((e.digit(1), e.digit(3), e.digit(4)), (6, 5, 0));
    /// ```
    #[doc(hidden)]
    pub fn digit(&self, i: u32) -> u8 {
        if i <= self.places { self.digits[i as usize - 1] } else { 0 }
    }

    /// Rounds to the nearest decimal with at most `places` digits after the point, ties as `ties` says.
    ///
    /// # Examples
    /// ```
    /// # use byte_unit::rendered::{base::{size::parse_line, *}, bit::*, byte::*, choice::*, format::*, math::*};
    /// assert_eq!(Expansion::new(9_996, 3, 3).rounded(2, Ties::Even).whole(), 10);
    /// let tie = Expansion::new(1_005, 3, 3);
    /// assert_eq!(format!("{}", tie.rounded(2, Ties::Even)).as_str(), "1");
    /// assert_eq!(format!("{}", tie.rounded(2, Ties::Up)).as_str(), "1.01");
    /// ```
    pub fn rounded(&self, places: u32, ties: Ties) -> Expansion {
        let mut rounded = *self;
        rounded.round(places, ties);
        rounded
    }

    /// Rounds the number in place, to what [`rounded`](Expansion::rounded) returns.
    ///
    /// # Examples
    /// ```
    /// # use byte_unit::rendered::{base::{size::parse_line, *}, bit::*, byte::*, choice::*, format::*, math::*};
    /// let mut e = Expansion::new(9_996, 3, 3);
    /// e.round(2, Ties::Even);
    /// assert_eq!((e.whole(), e.places()), (10, 0));
    /// ```
    pub fn round(&mut self, places: u32, ties: Ties) {
        if self.places <= places {
            return;
        }
        if self.rounds_up(places, ties) {
            self.ceil_to(places);
        } else {
            self.floor_to(places);
        }
    }

    /// Returns whether rounding to `places` digits goes up.
    fn rounds_up(&self, places: u32, ties: Ties) -> bool {
        let count = self.places;
        let next = self.digit(places + 1);
        if next != 5 {
            next > 5
        } else if count > places + 1 {
            // More than half, since the last digit is not 0.
            true
        } else {
            match ties {
                Ties::Up => true,
                Ties::Even => self.is_odd_at(places),
            }
        }
    }

    /// Returns whether the last digit is odd if the number is rounded down to `places` digits.
    fn is_odd_at(&self, places: u32) -> bool {
        if places == 0 { self.whole % 2 == 1 } else { self.digit(places) % 2 == 1 }
    }

    /// Returns the length of the first `places` digits without those at their end that equal `last`.
    fn trim_end_len(&self, places: u32, last: u8) -> u32 {
        let mut kept = places;
        while kept > 0 && self.digit(kept) == last {
            kept -= 1;
        }
        kept
    }

    /// Rounds down to `places` digits after the point.
    fn floor_to(&mut self, places: u32) {
        let kept = self.trim_end_len(places, 0);
        clear_from(&mut self.digits, kept);
        self.places = kept;
    }

    /// Rounds up to `places` digits after the point, of which the number has more.
    fn ceil_to(&mut self, places: u32) {
        // The carry turns trailing nines into zeros, and adds one to the digit before them.
        let kept = self.trim_end_len(places, 9);
        clear_from(&mut self.digits, kept);
        self.places = kept;
        if kept == 0 {
            self.whole += 1;
        } else {
            self.digits[kept as usize - 1] += 1;
        }
    }
}

/// Sets the digits from the index `kept` on to 0.
#[inline(always)]
fn clear_from(digits: &mut [u8; EXPANSION_PLACES], kept: u32) {
    digits[kept as usize..].fill(0);
}

/// Writes the whole part and, if there are digits after the point, a point and these.
impl fmt::Display for Expansion {
    fn fmt(&self, f: &mut fmt::Formatter<'_>) -> fmt::Result {
        fmt_u128(self.whole, f)?;
        fmt_fraction(self, f)
    }
}

/// Writes the point and the digits after it, or nothing if there are none.
fn fmt_fraction(e: &Expansion, f: &mut fmt::Formatter<'_>) -> fmt::Result {
    if e.places() == 0 {
        return Ok(());
    }
    f.write_str(".")?;
    f.write_str(str::from_utf8(&glyphs_of(e)[..e.places() as usize]).unwrap())
}

/// Returns the digits after the point as ASCII, followed by zeros (`b'0'`).
///
/// # Examples
/// ```
/// # use byte_unit::rendered::{base::{size::parse_line, *}, bit::*, byte::*, choice::*, format::*, math::*};
/// assert_eq!(&glyphs_of(&Expansion::new(13, 3, 0))[..4], b"6250".as_slice());
/// ```
pub fn glyphs_of(e: &Expansion) -> [u8; EXPANSION_PLACES] {
    let mut glyphs = [b'0'; EXPANSION_PLACES];
    for i in 0..EXPANSION_PLACES.min(e.places as usize) {
        glyphs[i] = b'0' + e.digits[i];
    }
    glyphs
}

/// Expands `whole + remainder / den` by long division, ten digits at a time.
#[inline(always)]
fn divide(whole: u128, remainder: u128, den: u128) -> Expansion {
    let mut rest = remainder;
    let mut digits = [0u8; EXPANSION_PLACES];
    let mut places: u32 = 0;
    while rest != 0 {
        let (group, left) = div_rem_unit(rest * 10_000_000_000, den);
        // The digits of the group that are not written yet, times 10 for each one that is.
        let mut shifted = group as u64;
        let mut count = 0;
        while count < GROUP_DIGITS && (shifted != 0 || left != 0) {
            digits[places as usize] = (shifted / 1_000_000_000) as u8;
            shifted = shifted % 1_000_000_000 * 10;
            places += 1;
            count += 1;
        }
        rest = left;
    }
    Expansion { whole, digits, places }
}
