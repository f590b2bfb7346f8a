// Rendered from crates/byte_unit_format/src/form/with_digits.rt by `tools/dev render rust`. Do not edit.

//! The digits of a size and the size in its unit, as one text.

use crate::rendered::base::{Kind, prefix_letter};
use crate::rendered::format::form::put::{own_letter, put_split};
use crate::rendered::format::form::split::{UnitFraction, binary_power, in_eighths};
use crate::rendered::format::parts::put;
use crate::rendered::math::{PADDED_DIGITS, put_padded_digits};
use crate::support::Place;
use crate::support::lanes::*;

/// Writes the digits of a size, `between`, and the size in its unit (the alternate form with no other option) to the
/// beginning of `out`, and returns the length of this text, at most 70 bytes. A number in a decimal unit is cut from
/// the digits. Bytes of `out` after the text are overwritten too.
///
/// Preconditions: the size is below 10^30, and `out` has at least 70 bytes: for 30 digits, the
/// three bytes between, and 37 bytes of the size in its unit.
///
/// # Examples
/// ```
/// # use byte_unit::rendered::{base::{size::parse_line, *}, bit::*, byte::*, choice::*, format::*, math::*};
/// use byte_unit::Byte;
///
/// let mut out = [0; 70];
/// let len = write_with_digits(1536, Kind::Byte, *b" = ", &mut out);
/// assert_eq!(&out[..len], b"1536 = 1.5 KiB".as_slice());
/// ```
#[inline(always)]
pub fn write_with_digits(size: u128, kind: Kind, between: [u8; 3], out: &mut [impl Place]) -> usize {
    if size < 1 << 64 {
        put_with_digits(u128::from(size as u64), kind, between, out)
    } else {
        put_with_digits_wide(size, kind, between, out)
    }
}

/// Writes as `write_with_digits`.
#[inline(always)]
fn put_with_digits(size: u128, kind: Kind, between: [u8; 3], out: &mut [impl Place]) -> usize {
    let mut digits = [b'0'; PADDED_DIGITS];
    let len = put_padded_digits(size, &mut digits);
    put(&digits, out, PADDED_DIGITS);
    let form = len + 3;
    put(&between, out, form);
    form + put_form_of(&digits, len, size, kind, &mut out[form..])
}

/// Writes as `write_with_digits`: the slow path, for a size of more than 64 bits.
#[inline(never)]
fn put_with_digits_wide(size: u128, kind: Kind, between: [u8; 3], out: &mut [impl Place]) -> usize {
    put_with_digits(size, kind, between, out)
}

/// Writes the size in its unit, by its digits, to the beginning of `out`, and returns the length of this text.
#[inline(always)]
fn put_form_of(digits: &[u8; PADDED_DIGITS], len: usize, size: u128, kind: Kind, out: &mut [impl Place]) -> usize {
    // The position of the largest decimal prefix that is not above the size.
    let most = ((len - 1) / 3) as u32;
    if most == 0 {
        return put_split(size, UnitFraction::Own, kind, out);
    }
    let binary = binary_power(size);
    if binary < most {
        let used = significant(digits);
        // The size is exact in 10^(3 n) within three decimal places if 3 n - 3 zeros are at its end.
        let power = most.min((len + 3 - used) as u32 / 3);
        if binary < power {
            let unit = [b' ', prefix_letter(power), own_letter(kind)];
            return put_decimal(digits, len - 3 * power as usize, used, unit, out);
        }
    }
    let (whole, fraction) = in_eighths(size, binary);
    put_split(whole, fraction, kind, out)
}

/// Returns the number of bytes up to the last that is not the digit 0.
#[inline(always)]
fn significant(digits: &[u8; PADDED_DIGITS]) -> usize {
    let used = u8x32::from_slice(digits).simd_ne(u8x32::splat(b'0')).to_bitmask();
    (u64::BITS - used.leading_zeros()) as usize
}

/// Writes the first digits up to the index `cut`, a point and the digits from there up to `used`, if there are any, and
/// `unit`, a space and the name of a unit, to the beginning of `out`, and returns the length of this text.
#[inline(always)]
fn put_decimal(digits: &[u8; PADDED_DIGITS], cut: usize, used: usize, unit: [u8; 3], out: &mut [impl Place]) -> usize {
    put(digits, out, PADDED_DIGITS);
    // The fraction is written as four bytes; the unit overwrites what is not used of them.
    let end = if used > cut {
        let fraction = [b'.', digits[cut], digits[cut + 1], digits[cut + 2]];
        put(&fraction, out, cut + 4);
        used + 4
    } else {
        cut + 3
    };
    put(&unit, out, end);
    end
}
