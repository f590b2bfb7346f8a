// Rendered from crates/byte_unit_format/src/plain.rt by `tools/dev render rust`. Do not edit.

//! Formatting of a whole number: digits only.

use crate::rendered::format::parts::{Fraction, TextParts};
use crate::rendered::format::spec::{Align, FormatSpec, Sign};
use crate::rendered::math::decimal_len;
use crate::support::Place;

/// Returns the length in bytes of a number's digits with their sign, padded to the width. Does not allocate.
pub fn plain_len(size: u128, spec: FormatSpec) -> usize {
    plain_parts(size, spec).len
}

/// Writes what `append_plain` appends to the beginning of `out`, and returns its length. Writes nothing if it does not
/// fit. Does not allocate.
pub fn write_plain(size: u128, spec: FormatSpec, out: &mut [impl Place]) -> usize {
    plain_parts(size, spec).write(out)
}

/// Returns the parts of a number's digits with their sign and padding.
#[inline(always)]
pub(crate) fn plain_parts(size: u128, spec: FormatSpec) -> TextParts<'static> {
    let sign = match spec.sign {
        Sign::Plus => "+",
        Sign::Unset | Sign::Minus => "",
    };
    let columns = sign.len() + decimal_len(size);
    let pad = match spec.width {
        None => 0,
        Some(width) => usize::from(width).saturating_sub(columns),
    };
    let before = match spec.align {
        Some(Align::Left) => 0,
        Some(Align::Center) => pad / 2,
        Some(Align::Right) | None => pad,
    };
    TextParts {
        before,
        sign,
        whole: size,
        fraction: Fraction::Last(0, 0),
        after: pad - before,
        name: "",
        len: columns + pad,
    }
}
