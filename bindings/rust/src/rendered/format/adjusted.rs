// Rendered from crates/byte_unit_format/src/adjusted.rt by `tools/dev render rust`. Do not edit.

//! Formatting of a size in a given unit.

use crate::rendered::base::{Kind, Unit};
use crate::rendered::format::FormatSpec;
use crate::rendered::format::layout::{layout_parts, write_layout};
use crate::rendered::format::parts::{Fraction, TextParts};
use crate::rendered::math::{
    Expansion, ShortExpansion, Ties, div_rem, power_of_ten, rounded_expansion, rounded_quotient, short_expansion,
};
use crate::support::Place;
use core::fmt;
use core::fmt::Display;

/// The most digits after the point in the alternate form if a precision is set: as in the Rust crate, whose floats hold
/// no more.
const ALTERNATE_PLACES: u16 = 16;

/// Up to this many digits after the point, a number is rounded by one division: any size in bits times 10^7 fits 127
/// bits.
const ONE_DIVISION_PLACES: u32 = 7;

/// Up to this many, a size of fewer than 2^64 bits is: times 10^18, such a size fits 127 bits too.
const ONE_DIVISION_PLACES_U64: u32 = 18;

/// How the number of a size in a unit is rounded.
#[derive(Clone, Copy)]
enum Rounding {
    /// Not at all: all digits are shown.
    Exact,
    /// To exactly this many digits after the point, ties to even.
    To(u32),
    /// To at most this many digits after the point, ties up, without trailing zeros.
    AtMost(u32),
}

/// Returns the length in bytes of a size formatted in a unit. Does not allocate.
///
/// If no width is set, it is at most 129 without a precision, and at most 36 more than a precision, or 39 for a
/// precision below 3.
///
/// Precondition: the size is below 10^30.
///
/// # Examples
/// ```
/// # use byte_unit::rendered::{base::{size::parse_line, *}, bit::*, byte::*, choice::*, format::*, math::*};
/// use byte_unit::{Byte, FormatSpec, Unit};
///
/// let unset = FormatSpec::PLAIN;
/// assert_eq!(adjusted_len(1536, Kind::Byte, Unit::KB, unset), "1.536 KB".len());
/// ```
pub fn adjusted_len(size: u128, kind: Kind, unit: Unit, spec: FormatSpec) -> usize {
    write_adjusted(size, kind, unit, spec, &mut [0u8; 0])
}

/// Writes what `append_adjusted` appends to the beginning of `out`, and returns its length. Writes nothing if it does
/// not fit. Does not allocate.
///
/// Precondition: the size is below 10^30.
///
/// # Examples
/// ```
/// # use byte_unit::rendered::{base::{size::parse_line, *}, bit::*, byte::*, choice::*, format::*, math::*};
/// use byte_unit::{Byte, FormatSpec, Unit};
///
/// let mut out = [b'.'; 9];
/// assert_eq!(write_adjusted(1536, Kind::Byte, Unit::KB, FormatSpec::PLAIN, &mut out), 8);
/// assert!(out == *b"1.536 KB.");
/// ```
#[inline(always)]
pub fn write_adjusted(size: u128, kind: Kind, unit: Unit, spec: FormatSpec, out: &mut [impl Place]) -> usize {
    let rounding = rounding_of(unit, spec);
    match short_parts(size, kind, unit, rounding, spec) {
        Some(parts) => parts.write(out),
        None => write_full(size, kind, unit, rounding, spec, out),
    }
}

/// Writes a size in a unit to a formatter, as `FormatSpec::PLAIN` formats it, and ignores the formatter's flags.
///
/// Precondition: the size is below 10^30.
///
/// # Errors
/// Returns `fmt::Error` if the writer does.
pub fn display_adjusted(size: u128, kind: Kind, unit: Unit, f: &mut fmt::Formatter<'_>) -> fmt::Result {
    number_in_unit(size, kind, unit).fmt(f)?;
    f.write_str(" ")?;
    f.write_str(unit.as_str())
}

/// Writes as `write_adjusted`, by all digits of the number: the slow path.
#[inline(never)]
fn write_full(
    size: u128,
    kind: Kind,
    unit: Unit,
    rounding: Rounding,
    spec: FormatSpec,
    out: &mut [impl Place],
) -> usize {
    if let Some(parts) = alternate_parts(size, kind, unit, rounding, spec) {
        return parts.write(out);
    }
    let mut number = number_in_unit(size, kind, unit);
    let places = round(&mut number, rounding);
    write_layout(&number, places, unit, spec, out)
}

/// Returns how the spec rounds a number in the unit.
#[inline(always)]
fn rounding_of(unit: Unit, spec: FormatSpec) -> Rounding {
    match spec.precision {
        None => Rounding::Exact,
        Some(precision) => {
            if spec.alternate {
                Rounding::AtMost(u32::from(precision.min(ALTERNATE_PLACES)))
            } else if matches!(unit, Unit::Bit | Unit::B) {
                Rounding::Exact
            } else {
                Rounding::To(u32::from(precision))
            }
        }
    }
}

/// Returns the parts of a size in a unit with the unit, if one product and one division give the number: all digits if
/// they are at most 38, or the nearest decimal, ties to even.
#[inline(always)]
fn short_parts(size: u128, kind: Kind, unit: Unit, rounding: Rounding, spec: FormatSpec) -> Option<TextParts<'static>> {
    let in_bits = size * kind.bits();
    match rounding {
        Rounding::Exact => {
            let (twos, fives) = unit.powers();
            let number = short_expansion(in_bits, twos, fives)?;
            let fraction = Fraction::Last(number.digits, number.places);
            Some(layout_parts(number.whole, fraction, unit, spec))
        }
        Rounding::To(places) if takes_one_division(in_bits, places) => {
            let power = power_of_ten(places);
            let number = rounded_quotient(in_bits * power, unit.as_bits_u128(), Ties::Even);
            let (whole, digits) = div_rem(number, power);
            Some(layout_parts(whole, Fraction::Last(digits, places), unit, spec))
        }
        _ => None,
    }
}

/// Returns the parts of a size in a unit with the unit, if the number is rounded as in the alternate form, and one
/// product and one division give it.
#[inline(always)]
fn alternate_parts(
    size: u128,
    kind: Kind,
    unit: Unit,
    rounding: Rounding,
    spec: FormatSpec,
) -> Option<TextParts<'static>> {
    let Rounding::AtMost(places) = rounding else {
        return None;
    };
    let number = at_most(size * kind.bits(), unit, places)?;
    let fraction = Fraction::Last(number.digits, number.places);
    Some(layout_parts(number.whole, fraction, unit, spec))
}

/// Returns a number of bits in the unit, rounded to at most `places` digits after the point, ties up: all its digits if
/// they are no more, or else the nearest decimal if one division gives it.
#[inline(always)]
fn at_most(in_bits: u128, unit: Unit, places: u32) -> Option<ShortExpansion> {
    let (twos, fives) = unit.powers();
    // In a larger decimal unit, digits of more than 64 bits may end in zeros, and each one takes a division.
    if fives <= ONE_DIVISION_PLACES_U64 {
        if let Some(exact) = short_expansion(in_bits, twos, fives) {
            if exact.places <= places {
                return Some(exact);
            }
        }
    }
    if takes_one_division(in_bits, places) {
        return Some(rounded_expansion(in_bits, unit.as_bits_u128(), places));
    }
    None
}

/// Returns whether one division rounds a number of bits in a unit: if the bits times the power of ten fit 127 bits.
#[inline(always)]
fn takes_one_division(in_bits: u128, places: u32) -> bool {
    places <= ONE_DIVISION_PLACES || (in_bits < 1 << 64 && places <= ONE_DIVISION_PLACES_U64)
}

/// Rounds a number, and returns how many of its digits after the point are shown.
#[inline(always)]
fn round(number: &mut Expansion, rounding: Rounding) -> u32 {
    match rounding {
        Rounding::Exact => number.places(),
        Rounding::To(places) => {
            number.round(places, Ties::Even);
            places
        }
        Rounding::AtMost(places) => {
            number.round(places, Ties::Up);
            number.places()
        }
    }
}

/// Returns the size in the unit, exactly: with at most 93 digits after the point.
///
/// Precondition: the size is below 10^30.
///
/// # Examples
/// ```
/// # use byte_unit::rendered::{base::{size::parse_line, *}, bit::*, byte::*, choice::*, format::*, math::*};
/// use byte_unit::{Bit, Byte, Unit};
///
/// let number = number_in_unit(1536, Kind::Byte, Unit::KiB);
/// assert_eq!((number.whole(), number.digit(1)), (1, 5));
/// assert_eq!(number_in_unit(1, Kind::Bit, Unit::KB).places(), 6);
/// ```
#[inline(never)]
pub fn number_in_unit(size: u128, kind: Kind, unit: Unit) -> Expansion {
    let (twos, fives) = unit.powers();
    Expansion::new(size * kind.bits(), twos, fives)
}
