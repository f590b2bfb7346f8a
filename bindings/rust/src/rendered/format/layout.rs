// Rendered from crates/byte_unit_format/src/layout.rt by `tools/dev render rust`. Do not edit.

//! Formatting of a number with its unit.

use crate::rendered::base::Unit;
use crate::rendered::format::parts::{Fraction, TextParts};
use crate::rendered::format::spec::{Align, FormatSpec, Sign};
use crate::rendered::math::{Expansion, decimal_len};
use crate::support::Place;

/// Returns the length in bytes of a decimal with `places` digits after the point and its unit. Does not allocate.
pub fn layout_len(e: &Expansion, places: u32, unit: Unit, spec: FormatSpec) -> usize {
    layout_parts(e.whole(), Fraction::First(e, places), unit, spec).len
}

/// Writes what `append_layout` appends to the beginning of `out`, and returns its length. Writes nothing if it does not
/// fit. Does not allocate.
#[inline(always)]
pub fn write_layout(e: &Expansion, places: u32, unit: Unit, spec: FormatSpec, out: &mut [impl Place]) -> usize {
    layout_parts(e.whole(), Fraction::First(e, places), unit, spec).write(out)
}

/// Returns the parts of a number with its unit. With the sign `+`, the spaces and the name, of one to three letters,
/// take four columns.
#[inline(always)]
pub(crate) fn layout_parts<'a>(whole: u128, fraction: Fraction<'a>, unit: Unit, spec: FormatSpec) -> TextParts<'a> {
    let number = decimal_len(whole) + fraction.len();
    let name = unit.as_str();
    let gap = match spec.sign {
        Sign::Unset => 1,
        Sign::Plus => 4 - name.len(),
        Sign::Minus => 0,
    };
    let columns = number + gap + name.len();
    let pad = match spec.width {
        None => 0,
        Some(width) => usize::from(width).saturating_sub(columns),
    };
    let before = match spec.align {
        Some(Align::Right) => pad,
        Some(Align::Left) | Some(Align::Center) | None => 0,
    };
    TextParts { before, sign: "", whole, fraction, after: pad - before + gap, name, len: columns + pad }
}
