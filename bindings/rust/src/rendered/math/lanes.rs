// Rendered from crates/byte_unit_math/src/lanes.rt by `tools/dev render rust`. Do not edit.

//! The decimal digits of a number, sixteen at a time.

use crate::rendered::math::decimal_digits::decimal_len;
use crate::rendered::math::dividing::{TEN_POW_16, TEN_POW_16_INVERSE, div_rem_by_inverse};
use crate::support::Place;
use crate::support::lanes::*;

/// The length of the array of [`put_padded_digits`]: two groups of 16 digits, since a number has up to 30.
pub const PADDED_DIGITS: usize = 32;

/// Writes the digits of a number as ASCII to the beginning of an array and the digit 0 to the rest of it, and returns
/// the number of its digits, 1 to 30.
///
/// Precondition: `n < 10^30`.
///
/// # Examples
/// ```
/// # use byte_unit::rendered::{base::{size::parse_line, *}, bit::*, byte::*, choice::*, format::*, math::*};
/// let mut digits = [0; PADDED_DIGITS];
/// assert_eq!(put_padded_digits(1536, &mut digits), 4);
/// assert_eq!(&digits, b"15360000000000000000000000000000");
/// ```
#[inline(always)]
pub fn put_padded_digits(n: u128, digits: &mut [u8; PADDED_DIGITS]) -> usize {
    let (all, count) = digits_with_zeros(n);
    let len = decimal_len(n);
    let start = count - len;
    digits.copy_from_slice(&all[start..start + PADDED_DIGITS]);
    len
}

/// Returns the digits of a number with leading zeros, and the number of both, 16 or 32. After them is the digit 0.
#[inline(always)]
fn digits_with_zeros(n: u128) -> ([u8; 48], usize) {
    // At most 32 digits, and 16 bytes more, since 32 are copied from the first digit that is not a leading zero.
    let mut digits = [b'0'; 48];
    if n < u128::from(TEN_POW_16) {
        put_16_digits(n as u64, &mut digits, 16);
        return (digits, 16);
    }
    // 36 + 81 is 117, the power of the reciprocal, and at most 64 bits of `n` are left after the cut by 36.
    let (before, last) = div_rem_by_inverse(n, TEN_POW_16, TEN_POW_16_INVERSE, 36, 81);
    let middle = put_16_digits(last, &mut digits, 32);
    put_16_digits(before, &mut digits, middle);
    (digits, 32)
}

/// Writes sixteen digits, leading zeros included, and returns the index where they begin.
#[inline(always)]
pub(crate) fn put_16_digits(n: u64, bytes: &mut [impl Place], end: usize) -> usize {
    let start = end - 16;
    let digits: u8x16 = last_16_digits(n);
    Place::copy(&mut bytes[start..end], &digits.to_array());
    start
}
