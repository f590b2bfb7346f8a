// Rendered from crates/byte_unit_format/src/form.rt by `tools/dev render rust`. Do not edit.

//! Formatting of a size: digits only, or with a unit.

use crate::rendered::base::{Kind, Unit};
use crate::rendered::choice::recoverable_unit;
use crate::rendered::format::form::put::{NARROW_TEXT, put_form};
use crate::rendered::format::layout::layout_parts;
use crate::rendered::format::parts::{Fraction, TextParts};
use crate::rendered::format::plain::plain_parts;
use crate::rendered::format::spec::FormatSpec;
use crate::rendered::math::Steps;
use crate::support::Place;

pub(crate) mod put;
mod split;
pub(crate) mod with_digits;

/// The precision of the alternate form if none is set, as in the Rust crate.
const DEFAULT_PRECISION: usize = 3;

/// Returns the length in bytes of a formatted size: at most 37 if no width is set. Does not allocate.
///
/// Precondition: the size is below 10^30.
pub fn text_len(size: u128, kind: Kind, spec: FormatSpec) -> usize {
    write_text(size, kind, spec, &mut [0u8; 0])
}

/// Writes what `append_text` appends to the beginning of `out`, and returns its length: at most 37 if no width is set.
/// Writes nothing if it does not fit. Does not allocate.
///
/// Precondition: the size is below 10^30.
///
/// # Examples
/// ```
/// # use byte_unit::rendered::{base::{size::parse_line, *}, bit::*, byte::*, choice::*, format::*, math::*};
/// use byte_unit::{Byte, FormatSpec};
///
/// let mut out = [b'.'; 8];
/// assert_eq!(write_text(1536, Kind::Byte, FormatSpec::ALTERNATE, &mut out), 7);
/// assert!(out == *b"1.5 KiB.");
/// ```
#[inline(always)]
pub fn write_text(size: u128, kind: Kind, spec: FormatSpec, out: &mut [impl Place]) -> usize {
    if spec == FormatSpec::ALTERNATE && out.len() >= NARROW_TEXT {
        return put_form(size, kind, out);
    }
    text_parts(size, kind, spec).write(out)
}

/// Returns how a size is formatted if a decimal prefix would be read as the binary one: in the alternate form within
/// the precision if the unit that this form chooses has a binary prefix, and else as digits.
///
/// Precondition: the size is below 10^30.
///
/// # Examples
/// ```
/// # use byte_unit::rendered::{base::{size::parse_line, *}, bit::*, byte::*, choice::*, format::*, math::*};
/// use byte_unit::{Byte, FormatSpec};
///
/// assert_eq!(binary_spec(1536, Kind::Byte, None), FormatSpec::ALTERNATE);
/// assert_eq!(binary_spec(1000, Kind::Byte, None), FormatSpec::PLAIN);
/// ```
#[inline(never)]
pub fn binary_spec(size: u128, kind: Kind, precision: Option<u16>) -> FormatSpec {
    let places = places_of(precision);
    let (_, unit) = recoverable_unit(size, kind, false, places, &mut Steps::new());
    if has_binary_prefix(unit) { FormatSpec { precision, ..FormatSpec::ALTERNATE } } else { FormatSpec::PLAIN }
}

/// Returns whether the unit has a binary prefix.
fn has_binary_prefix(unit: Unit) -> bool {
    !matches!(unit, Unit::Bit | Unit::B) && unit.is_binary_multiples()
}

/// Returns the most digits after the point within the precision.
#[inline(always)]
fn places_of(precision: Option<u16>) -> usize {
    match precision {
        Some(precision) => usize::from(precision),
        None => DEFAULT_PRECISION,
    }
}

/// Returns the parts of a formatted size. In the alternate form all digits of the number are shown.
#[inline(always)]
fn text_parts(size: u128, kind: Kind, spec: FormatSpec) -> TextParts<'static> {
    if !spec.alternate {
        return plain_parts(size, spec);
    }
    let places = places_of(spec.precision);
    let (number, unit) = recoverable_unit(size, kind, false, places, &mut Steps::new());
    let fraction = Fraction::Last(number.digits(), number.places());
    layout_parts(number.whole(), fraction, unit, spec)
}
