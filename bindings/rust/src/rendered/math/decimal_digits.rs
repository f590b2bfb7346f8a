// Rendered from crates/byte_unit_math/src/decimal_digits.rt by `tools/dev render rust`. Do not edit.

//! The decimal digits of a number, or of a fraction after its point, as ASCII, and the number of digits.

use crate::rendered::math::dividing::split_last_16_digits;
use crate::rendered::math::lanes::put_16_digits;
use crate::rendered::math::tens::power_of_ten;
use crate::support::Place;
use core::{fmt, str};

/// The most decimal digits of a `u128`.
pub const NUMBER_DIGITS: usize = 39;

/// The two digits of each number below 100: those of `n` are at the index `2 * n`.
static PAIRS: [u8; 200] = *b"\
    0001020304050607080910111213141516171819\
    2021222324252627282930313233343536373839\
    4041424344454647484950515253545556575859\
    6061626364656667686970717273747576777879\
    8081828384858687888990919293949596979899";

/// Writes the digits of a number to a formatter, and ignores its flags.
///
/// # Errors
/// Returns `fmt::Error` if the writer does.
///
/// # Examples
/// ```
/// # use byte_unit::rendered::{base::{size::parse_line, *}, bit::*, byte::*, choice::*, format::*, math::*};
/// use std::fmt;
///
/// struct Number(u128);
/// impl fmt::Display for Number {
///     fn fmt(&self, f: &mut fmt::Formatter<'_>) -> fmt::Result {
///         fmt_u128(self.0, f)
///     }
/// }
/// assert_eq!(format!("{}", Number(1536)).as_str(), "1536");
/// ```
pub fn fmt_u128(n: u128, f: &mut fmt::Formatter<'_>) -> fmt::Result {
    let mut bytes = [b'0'; NUMBER_DIGITS];
    let start = put_u128(n, &mut bytes, NUMBER_DIGITS);
    f.write_str(str::from_utf8(&bytes[start..]).unwrap())
}

/// Returns the number of decimal digits of a number, 1 to 39.
///
/// # Examples
/// ```
/// # use byte_unit::rendered::{base::{size::parse_line, *}, bit::*, byte::*, choice::*, format::*, math::*};
/// assert_eq!(decimal_len(1536), 4);
/// assert_eq!(decimal_len(0), 1);
/// ```
#[inline(always)]
pub fn decimal_len(n: u128) -> usize {
    if n < 10 {
        return 1;
    }
    if n < 1 << 64 {
        return decimal_len_u64(n as u64);
    }
    // 1,233 / 4,096 is about log10(2): the binary digits leave a choice between two lengths.
    let few = (u128::BITS - n.leading_zeros()) * 1_233 / 4_096;
    if n < power_of_ten(few) {
        return few as usize;
    }
    few as usize + 1
}

/// Returns the number of decimal digits of a number of 10 or more as `decimal_len`, in 64 bits.
#[inline(always)]
fn decimal_len_u64(n: u64) -> usize {
    // The estimate is that of `decimal_len`.
    let few = (u64::BITS - n.leading_zeros()) * 1_233 / 4_096;
    if n < power_of_ten(few) as u64 {
        return few as usize;
    }
    few as usize + 1
}

/// Writes the digits of a number so that they end before the index `end`, and returns the index where they begin.
///
/// Precondition: the digits fit before `end`, and `end <= bytes.len()`.
///
/// # Examples
/// ```
/// # use byte_unit::rendered::{base::{size::parse_line, *}, bit::*, byte::*, choice::*, format::*, math::*};
/// let mut bytes = *b"......";
/// assert_eq!(put_u128(1536, &mut bytes, 5), 1);
/// assert_eq!(&bytes, b".1536.");
/// ```
#[inline(always)]
pub fn put_u128(n: u128, bytes: &mut [impl Place], end: usize) -> usize {
    if n <= u128::from(u64::MAX) {
        return put_u64(n as u64, bytes, end);
    }
    put_u128_wide(n, bytes, end)
}

/// Writes a point and `places` digits of a number, with leading zeros, so that they end before the index `end`, and
/// returns the index where they begin. Writes nothing if `places` is 0.
///
/// Precondition: `places <= 38`, `digits < 10^places`, the text fits before `end`, and
/// `end <= bytes.len()`.
///
/// # Examples
/// ```
/// # use byte_unit::rendered::{base::{size::parse_line, *}, bit::*, byte::*, choice::*, format::*, math::*};
/// let mut bytes = *b"1.....";
/// assert_eq!(put_fraction(5, 2, &mut bytes, 4), 1);
/// assert_eq!(&bytes, b"1.05..");
/// assert_eq!(put_fraction(0, 0, &mut bytes, 4), 4);
/// ```
#[inline(always)]
pub fn put_fraction(digits: u128, places: u32, bytes: &mut [impl Place], end: usize) -> usize {
    if places == 0 {
        return end;
    }
    // A leading 1 keeps the zeros after it, and becomes the point.
    let point = put_u128(power_of_ten(places) + digits, bytes, end);
    bytes[point] = Place::of(b'.');
    point
}

/// Writes digits as `put_u128`, 16 at a time: the slow path, for numbers of more than 64 bits.
#[inline(never)]
fn put_u128_wide(n: u128, bytes: &mut [impl Place], end: usize) -> usize {
    let mut start = end;
    let mut rest = n;
    while rest > u128::from(u64::MAX) {
        let (before, last) = split_last_16_digits(rest);
        start = put_16_digits(last, bytes, start);
        rest = before;
    }
    put_u64(rest as u64, bytes, start)
}

/// Writes the digits of a number of 64 bits as `put_u128`.
#[inline(always)]
fn put_u64(n: u64, bytes: &mut [impl Place], end: usize) -> usize {
    // Four digits at a time from the end; of the first one to four, two if they are more than two, and then two or one.
    let mut start = end;
    let mut rest = n;
    while rest >= 10_000 {
        start = put_4_digits((rest % 10_000) as u32, bytes, start);
        rest /= 10_000;
    }
    let mut few = rest as u32;
    if few >= 100 {
        start = put_2_digits(few % 100, bytes, start);
        few /= 100;
    }
    if few >= 10 {
        return put_2_digits(few, bytes, start);
    }
    start -= 1;
    bytes[start] = Place::of(b'0' + few as u8);
    start
}

/// Writes four digits, leading zeros included, and returns the index where they begin.
#[inline]
fn put_4_digits(n: u32, bytes: &mut [impl Place], end: usize) -> usize {
    let middle = put_2_digits(n % 100, bytes, end);
    put_2_digits(n / 100, bytes, middle)
}

/// Writes two digits, a leading zero included, and returns the index where they begin.
#[inline]
fn put_2_digits(n: u32, bytes: &mut [impl Place], end: usize) -> usize {
    let start = end - 2;
    let pair = n as usize * 2;
    Place::copy(&mut bytes[start..end], &PAIRS[pair..pair + 2]);
    start
}
