// Rendered from crates/byte_unit_format/src/parts.rt by `tools/dev render rust`. Do not edit.

//! The parts of a formatted text, and writing backwards into a buffer.

use crate::rendered::math::{Expansion, glyphs_of, put_fraction, put_u128};
use crate::support::Place;

/// The digits after the point, and their number.
#[derive(Clone, Copy)]
pub(crate) enum Fraction<'a> {
    /// The last digits of a number, with leading zeros: at most 38, any of which a `u128` holds.
    Last(u128, u32),
    /// The first digits of an expansion, with trailing zeros.
    First(&'a Expansion, u32),
}

/// The parts of a formatted text in their order, and its length.
#[derive(Clone, Copy)]
pub(crate) struct TextParts<'a> {
    /// Spaces before the number.
    pub before: usize,
    /// A plus sign, or the empty string.
    pub sign: &'static str,
    /// The part of the number before the point.
    pub whole: u128,
    /// The part of the number after the point.
    pub fraction: Fraction<'a>,
    /// Spaces after the number.
    pub after: usize,
    /// The name of a unit, or the empty string.
    pub name: &'static str,
    /// The length of the whole text, in bytes.
    pub len: usize,
}

impl TextParts<'_> {
    /// Writes the parts to the beginning of `out` if they fit, and returns their length.
    #[inline(always)]
    pub(crate) fn write(&self, out: &mut [impl Place]) -> usize {
        if self.len <= out.len() {
            self.put(out, self.len);
        }
        self.len
    }

    /// Writes the parts so that they end before the index `end`, and returns the index where they begin.
    #[inline(always)]
    fn put(&self, out: &mut [impl Place], end: usize) -> usize {
        let name = put(self.name.as_bytes(), out, end);
        let behind = put_run(b' ', self.after, out, name);
        let point = match self.fraction {
            Fraction::Last(digits, places) => put_fraction(digits, places, out, behind),
            Fraction::First(e, places) => put_first(e, places, out, behind),
        };
        let digits = put_u128(self.whole, out, point);
        let sign = put(self.sign.as_bytes(), out, digits);
        put_run(b' ', self.before, out, sign)
    }
}

impl Fraction<'_> {
    /// Returns the length of the point and the digits.
    #[inline(always)]
    pub(crate) fn len(&self) -> usize {
        let places = match self {
            Fraction::Last(_, places) | Fraction::First(_, places) => *places,
        };
        if places == 0 { 0 } else { 1 + places as usize }
    }
}

/// Writes the point and `places` digits of an expansion, or nothing if `places` is 0.
fn put_first(e: &Expansion, places: u32, out: &mut [impl Place], end: usize) -> usize {
    if places == 0 {
        return end;
    }
    let shown = places.min(e.places()) as usize;
    let zeros = put_run(b'0', places as usize - shown, out, end);
    let digits = put(&glyphs_of(e)[..shown], out, zeros);
    put_run(b'.', 1, out, digits)
}

/// Writes bytes so that they end before the index `end`, and returns the index where they begin.
///
/// Precondition: the bytes fit before `end`, and `end <= out.len()`.
///
/// # Examples
/// ```
/// # use byte_unit::rendered::{base::{size::parse_line, *}, bit::*, byte::*, choice::*, format::*, math::*};
/// let mut out = *b"......";
/// assert_eq!(put(b"KiB", &mut out, 5), 2);
/// assert_eq!(&out, b"..KiB.");
/// ```
#[inline(always)]
pub fn put(bytes: &[u8], out: &mut [impl Place], end: usize) -> usize {
    let start = end - bytes.len();
    Place::copy(&mut out[start..end], bytes);
    start
}

/// Writes `count` copies of a byte so that they end before the index `end`, and returns the index where they begin.
#[inline(always)]
fn put_run(byte: u8, count: usize, out: &mut [impl Place], end: usize) -> usize {
    let start = end - count;
    out[start..end].fill(Place::of(byte));
    start
}
