// Rendered from crates/byte_unit_math/src/dividing.rt by `tools/dev render rust`. Do not edit.

//! Division of 128 bits, with remainder or rounded, by constants, and by the bits of a unit.

use crate::rendered::math::expansion::Ties;

/// The number of digits that a step of a long division takes: the remainder, below a denominator of at most 10^28,
/// times 10^10 fits 128 bits.
pub(crate) const GROUP_DIGITS: u32 = 10;

/// 10^16, the radix of groups of 16 digits: as many bytes as a vector `u8x16` has.
pub(crate) const TEN_POW_16: u64 = 10_000_000_000_000_000;

/// The reciprocal of `TEN_POW_16`: 2^117 / 10^16, rounded down. With a greater power of 2 it would not fit 64 bits.
pub(crate) const TEN_POW_16_INVERSE: u64 = 16_615_349_947_311_448_411;

/// The base of a long division by a number of at most 2^24: each step fits 64 bits.
const BASE: u64 = 1 << 40;

/// Returns the quotient and the remainder. If both numbers fit 64 bits, the division is the faster one of 64 bits.
///
/// Precondition: the divisor is not 0.
///
/// # Examples
/// ```
/// # use byte_unit::rendered::{base::{size::parse_line, *}, bit::*, byte::*, choice::*, format::*, math::*};
/// assert_eq!(div_rem(1536, 1000), (1, 536));
/// ```
#[inline]
pub fn div_rem(dividend: u128, divisor: u128) -> (u128, u128) {
    if dividend < 1 << 64 && divisor < 1 << 64 {
        let (dividend, divisor) = (dividend as u64, divisor as u64);
        (u128::from(dividend / divisor), u128::from(dividend % divisor))
    } else {
        let quotient = dividend / divisor;
        (quotient, dividend - quotient * divisor)
    }
}

/// Returns `numerator / divisor` rounded to the nearest whole number, ties as `ties` says.
///
/// Precondition: `numerator < 2^127` and `1 <= divisor <= 2^93`.
///
/// # Examples
/// ```
/// # use byte_unit::rendered::{base::{size::parse_line, *}, bit::*, byte::*, choice::*, format::*, math::*};
/// assert_eq!((rounded_quotient(5, 2, Ties::Even), rounded_quotient(5, 2, Ties::Up)), (2, 3));
/// assert_eq!(rounded_quotient(8, 3, Ties::Even), 3);
/// ```
#[inline]
pub fn rounded_quotient(numerator: u128, divisor: u128, ties: Ties) -> u128 {
    let (quotient, rest) = div_rem(numerator, divisor);
    // Rounds up if more than half of the divisor is left, or just half and the tie goes up.
    match ties {
        Ties::Even if 2 * rest + quotient % 2 > divisor => quotient + 1,
        Ties::Up if 2 * rest >= divisor => quotient + 1,
        Ties::Even | Ties::Up => quotient,
    }
}

/// Returns the quotient and the remainder by a constant, without division: the leading 64 bits of the dividend times
/// `inverse`, 2^(cut + shift) / divisor rounded down, give an estimate, which is the quotient or one less.
#[inline(always)]
pub(crate) fn div_rem_by_inverse(dividend: u128, divisor: u64, inverse: u64, cut: u32, shift: u32) -> (u64, u64) {
    let leading = (dividend >> cut) as u64;
    let estimate = ((u128::from(leading) * u128::from(inverse)) >> shift) as u64;
    let rest = (dividend - u128::from(estimate) * u128::from(divisor)) as u64;
    if rest < divisor { (estimate, rest) } else { (estimate + 1, rest - divisor) }
}

/// Returns the quotient and the remainder by a constant of at most 2^24: in 64 bits if the dividend fits, and else by
/// a long division in base 2^40.
#[inline(always)]
pub(crate) fn div_rem_u24(dividend: u128, divisor: u64) -> (u128, u128) {
    if dividend < 1 << 64 {
        let short = dividend as u64;
        return (u128::from(short / divisor), u128::from(short % divisor));
    }
    // The dividend is three digits in base 2^40; each remainder is put before the next digit.
    let high = (dividend >> 80) as u64;
    let middle = high % divisor * BASE + ((dividend >> 40) % u128::from(BASE)) as u64;
    let low = middle % divisor * BASE + (dividend % u128::from(BASE)) as u64;
    let leading = u128::from(high / divisor) * u128::from(BASE) + u128::from(middle / divisor);
    (leading * u128::from(BASE) + u128::from(low / divisor), u128::from(low % divisor))
}

/// Returns the quotient and the remainder by 1000.
///
/// Precondition: the number is below 2^120.
///
/// # Examples
/// ```
/// # use byte_unit::rendered::{base::{size::parse_line, *}, bit::*, byte::*, choice::*, format::*, math::*};
/// assert_eq!(div_rem_thousand(1_234_567), (1_234, 567));
/// ```
#[inline(always)]
pub fn div_rem_thousand(n: u128) -> (u128, u64) {
    let (thousands, rest) = div_rem_u24(n, 1000);
    (thousands, rest as u64)
}

/// Splits a number into its last 16 digits and those before them. Numbers below 2^100 take no division.
#[inline(always)]
pub(crate) fn split_last_16_digits(n: u128) -> (u128, u64) {
    if n < 1 << 100 {
        // 36 + 81 is 117, the power of the reciprocal, and at most 64 bits of `n` are left after the cut by 36.
        let (before, last) = div_rem_by_inverse(n, TEN_POW_16, TEN_POW_16_INVERSE, 36, 81);
        return (u128::from(before), last);
    }
    let (before, last) = div_rem(n, u128::from(TEN_POW_16));
    (before, last as u64)
}

/// Returns the quotient and the remainder by the bits of a unit. If these are a power of 2, as of a binary unit, that
/// takes a shift and a mask.
#[inline(always)]
pub(crate) fn div_rem_unit(dividend: u128, divisor: u128) -> (u128, u128) {
    let twos = divisor.trailing_zeros();
    if divisor >> twos == 1 {
        return (dividend >> twos, dividend & (divisor - 1));
    }
    div_rem(dividend, divisor)
}
