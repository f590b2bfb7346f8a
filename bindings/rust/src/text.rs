//! Texts of sizes: by methods, into a formatter with its flags, and into a caller's buffer.

use core::fmt::{self, Alignment, Display, Formatter, Write};
use core::str;

use crate::rendered::base::Kind;
use crate::rendered::format::{write_adjusted, write_text};
use crate::{Bit, Byte, FormatSpec, Needed, Sign, Unit};

/// The most digits after the point of a size in a unit, which are those of one bit in `RiB`.
const MOST_PLACES: usize = 93;

/// No text without a width is longer: with a prefix, 28 digits, a point, `MOST_PLACES` digits and four columns.
/// rustc fills no more bytes than these without a call.
pub(crate) const TEXT_LEN: usize = 128;

/// A buffer of ASCII, aligned since core then tests sixteen bytes at once for UTF-8.
#[repr(align(16))]
struct Buffer<const N: usize>([u8; N]);

impl<const N: usize> Buffer<N> {
    /// Returns the text of a length that a call has written to the beginning.
    fn text(&self, len: usize) -> Result<&str, fmt::Error> {
        let tested = self.0.get(..len.next_multiple_of(16)).ok_or(fmt::Error)?;
        str::from_utf8(tested).ok().and_then(|text| text.get(..len)).ok_or(fmt::Error)
    }
}

/// Defines the methods of a type of sizes that make texts.
macro_rules! texts_of_size {
    ($Size:ident, $kind:expr) => {
        /// Texts.
        impl $Size {
            /// Returns the text of the size in the largest unit of the type that is not above it, rounded to
            /// `precision` digits after the point, ties to even, as
            /// [`get_appropriate_unit`](Self::get_appropriate_unit) formats it with this precision. If there is no such
            /// unit, it has all digits in
            #[doc = concat!("`", stringify!($Size), "`'s own, `B` or `b`.")]
            ///
            /// # Examples
            ///
            /// ```
            #[doc = concat!("use byte_unit::{", stringify!($Size), ", UnitType};")]
            ///
            #[doc = concat!("let size = ", stringify!($Size), "::from_u64(123_456_789);")]
            /// assert!(size.approximate_text(UnitType::Binary, 1).starts_with("117.7 Mi"));
            /// assert!(size.approximate_text(UnitType::Decimal, 2).starts_with("123.46 M"));
            /// ```
            #[cfg(feature = "std")]
            pub fn approximate_text(self, unit_type: crate::UnitType, precision: u16) -> std::string::String {
                let unit = self.get_appropriate_unit(unit_type).get_unit();
                rounded(self.as_u128(), $kind, unit, precision)
            }

            /// Writes the text of the size, which is ASCII, to the beginning of `out`, and returns it.
            ///
            /// # Errors
            ///
            /// Returns [`Needed`] with the length of the text if `out` is shorter, and leaves `out` unchanged.
            ///
            /// # Examples
            ///
            /// ```
            #[doc = concat!("use byte_unit::{", stringify!($Size), ", FormatSpec, Needed};")]
            ///
            #[doc = concat!("let size = ", stringify!($Size), "::from_u64(1536);")]
            /// let mut out = [0; 40];
            /// assert_eq!(size.write_text(FormatSpec::PLAIN, &mut out), Ok(b"1536".as_slice()));
            /// assert_eq!(size.write_text(FormatSpec::PLAIN, &mut out[..3]), Err(Needed { len: 4 }));
            /// ```
            #[inline]
            pub fn write_text(self, spec: FormatSpec, out: &mut [u8]) -> Result<&[u8], Needed> {
                let len = write_text(self.as_u128(), $kind, spec, out);
                out.get(..len).ok_or(Needed { len })
            }
        }
    };
}

texts_of_size! { Byte, Kind::Byte }
texts_of_size! { Bit, Kind::Bit }

/// Formats the digits of a size as those of an integer, or with `#` the size in the unit that represents it exactly
/// within the precision.
pub(crate) fn format_size(size: u128, kind: Kind, f: &mut Formatter<'_>) -> fmt::Result {
    if f.alternate() {
        // Above 28, each precision is as 28.
        let (spec, _) = spec_of(f, 28);
        let mut out = Buffer([0; 48]);
        let len = write_text(size, kind, spec, &mut out.0);
        return lay_out(out.text(len)?, 0, f);
    }
    match u64::try_from(size) {
        Ok(short) => Display::fmt(&short, f),
        Err(_) => Display::fmt(&size, f),
    }
}

/// Formats a size in a unit, with `MOST_PLACES` digits after the point at most: with a greater precision zeros follow
/// them, but not if there are fewer, as in some units and in the alternate form.
pub(crate) fn format_adjusted(size: u128, kind: Kind, unit: Unit, f: &mut Formatter<'_>) -> fmt::Result {
    let (spec, left_out) = spec_of(f, MOST_PLACES);
    let mut out = Buffer([0; TEXT_LEN]);
    let len = write_adjusted(size, kind, unit, spec, &mut out.0);
    let text = out.text(len)?;
    let all_shown = left_out > 0 && places_of(text) == MOST_PLACES;
    lay_out(text, if all_shown { left_out } else { 0 }, f)
}

/// Returns the 64-bit float that is nearest to a size in a unit.
pub(crate) fn nearest_float(size: u128, kind: Kind, unit: Unit) -> f64 {
    let mut out = Buffer([0; TEXT_LEN]);
    let len = write_adjusted(size, kind, unit, FormatSpec::PLAIN, &mut out.0);
    number_of(out.text(len).unwrap_or_default()).parse().unwrap_or_default()
}

/// Returns the text of a size in a unit, rounded.
#[cfg(feature = "std")]
pub(crate) fn rounded(size: u128, kind: Kind, unit: Unit, precision: u16) -> std::string::String {
    let spec = FormatSpec { precision: Some(precision), ..FormatSpec::PLAIN };
    let mut out = Buffer([0; TEXT_LEN]);
    let len = write_adjusted(size, kind, unit, spec, &mut out.0);
    if let Ok(text) = out.text(len) {
        return text.into();
    }
    let mut long = std::vec![0; len];
    write_adjusted(size, kind, unit, spec, &mut long);
    std::string::String::from_utf8(long).unwrap_or_default()
}

/// Returns the digits and the point at the beginning of a text.
fn number_of(text: &str) -> &str {
    let end = text.bytes().position(|byte| !byte.is_ascii_digit() && byte != b'.');
    &text[..end.unwrap_or(text.len())]
}

/// Returns the number of digits after the point.
fn places_of(text: &str) -> usize {
    number_of(text).split_once('.').map_or(0, |(_, fraction)| fraction.len())
}

/// Returns the formatter's options without the width and with a precision of at most `most` places, and the number of
/// places that this leaves out.
fn spec_of(f: &Formatter<'_>, most: usize) -> (FormatSpec, usize) {
    let sign = match (f.sign_plus(), f.sign_minus()) {
        (true, _) => Sign::Plus,
        (_, true) => Sign::Minus,
        _ => Sign::Unset,
    };
    let precision = f.precision().map(|places| places.min(most) as u16);
    let spec = FormatSpec { alternate: f.alternate(), sign, precision, ..FormatSpec::PLAIN };
    (spec, f.precision().unwrap_or(0).saturating_sub(most))
}

/// Writes a number with its unit, with zeros after the number, padded with spaces to the formatter's width.
#[inline]
fn lay_out(text: &str, zeros: usize, f: &mut Formatter<'_>) -> fmt::Result {
    if zeros == 0 && f.width().is_none() { f.write_str(text) } else { lay_out_wide(text, zeros, f) }
}

/// Writes as `lay_out`: the spaces are before the number if it is aligned right, else after it.
fn lay_out_wide(text: &str, zeros: usize, f: &mut Formatter<'_>) -> fmt::Result {
    let columns = text.len().saturating_add(zeros);
    let pad = f.width().unwrap_or(0).saturating_sub(columns);
    let number = number_of(text);
    let right = f.align() == Some(Alignment::Right);
    repeat(' ', if right { pad } else { 0 }, f)?;
    f.write_str(number)?;
    repeat('0', zeros, f)?;
    repeat(' ', if right { 0 } else { pad }, f)?;
    f.write_str(&text[number.len()..])
}

/// Writes a character some times.
fn repeat(c: char, count: usize, f: &mut Formatter<'_>) -> fmt::Result {
    (0..count).try_for_each(|_| f.write_char(c))
}
