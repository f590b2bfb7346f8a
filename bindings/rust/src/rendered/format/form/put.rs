// Rendered from crates/byte_unit_format/src/form/put.rt by `tools/dev render rust`. Do not edit.

//! The alternate form with no other option set, written from the beginning to the end.

use crate::rendered::base::{Kind, prefix_letter};
use crate::rendered::format::form::split::{UnitFraction, split};
use crate::rendered::format::parts::put;
use crate::rendered::math::{decimal_len, put_u128};
use crate::support::Place;

/// The most bytes of a text without a width: 27 digits, a point, 5 digits, a space and three letters, as of some sizes
/// in `KiB` at a precision of 5.
pub const NARROW_TEXT: usize = 37;

/// Writes the size in its unit to the beginning of `out`, and returns its length.
#[inline(always)]
pub(crate) fn put_form(size: u128, kind: Kind, out: &mut [impl Place]) -> usize {
    let (whole, fraction) = split(size);
    put_split(whole, fraction, kind, out)
}

/// Writes a whole part and what follows it to the beginning of `out`, and returns their length. The whole part has at
/// most 27 digits, since a size of 1000 or more is exact in a unit with a prefix.
#[inline(always)]
pub(crate) fn put_split(whole: u128, fraction: UnitFraction, kind: Kind, out: &mut [impl Place]) -> usize {
    let point = decimal_len(whole);
    let end = put_unit_fraction(fraction, kind, out, point);
    put_u128(whole, out, point);
    end
}

/// Writes what follows the whole part from the index `point`, and returns the index after it. The digits after the
/// point are written as four bytes; the space and the unit, at most four bytes, then overwrite what is too much of
/// these.
#[inline(always)]
fn put_unit_fraction(fraction: UnitFraction, kind: Kind, out: &mut [impl Place], point: usize) -> usize {
    let own = own_letter(kind);
    match fraction {
        // A space and one letter.
        UnitFraction::Own => {
            put(&[b' ', own], out, point + 2);
            point + 2
        }
        // A point and at most three digits, or neither, in four bytes; then a space and three letters.
        UnitFraction::Eighths(eighths, power) => {
            let unit = [b' ', prefix_letter(power), b'i', own];
            let (digits, len) = digits_of_eighths(eighths);
            put(&digits, out, point + 4);
            let end = point + len + 4;
            put(&unit, out, end);
            end
        }
        // If there are any digits, a point and at most three, in four bytes; then a space and two letters.
        UnitFraction::Thousandths(thousandths, power) => {
            let (digits, len) = digits_of_thousandths(thousandths);
            if len > 0 {
                put(&digits, out, point + 4);
            }
            let end = point + len + 3;
            put(&[b' ', prefix_letter(power), own], out, end);
            end
        }
    }
}

/// Returns the letter of the kind's own unit.
#[inline(always)]
pub(crate) fn own_letter(kind: Kind) -> u8 {
    match kind {
        Kind::Byte => b'B',
        Kind::Bit => b'b',
    }
}

/// Returns a point and the digits of eighths, with spaces for trailing zeros, and the length without these: 0 if there
/// are no eighths.
#[inline(always)]
fn digits_of_eighths(eighths: u64) -> ([u8; 4], usize) {
    match eighths {
        0 => (*b"    ", 0),
        1 => (*b".125", 4),
        2 => (*b".25 ", 3),
        3 => (*b".375", 4),
        4 => (*b".5  ", 2),
        5 => (*b".625", 4),
        6 => (*b".75 ", 3),
        _ => (*b".875", 4),
    }
}

/// Returns a point and the digits of thousandths, and the length without trailing zeros: 0 if there are no thousandths.
#[inline(always)]
fn digits_of_thousandths(thousandths: u64) -> ([u8; 4], usize) {
    let tenths = (thousandths / 100) as u8;
    let hundredths = (thousandths / 10 % 10) as u8;
    let last = (thousandths % 10) as u8;
    let len = if last > 0 {
        4
    } else if hundredths > 0 {
        3
    } else if tenths > 0 {
        2
    } else {
        0
    };
    ([b'.', b'0' + tenths, b'0' + hundredths, b'0' + last], len)
}
