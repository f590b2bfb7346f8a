// Rendered from crates/byte_unit_c/src/spec.rt by `tools/dev render rust`. Do not edit.

//! Format specs in the C API.

use byte_unit::rendered::format::{Align, FormatSpec, Sign};

/// A format spec, with codes in place of the enums. If every field is zero, the spec is that of `{}`.
#[repr(C)]
#[derive(Clone, Copy)]
pub struct Spec {
    /// The number of digits after the decimal point, at most 65,535, if `has_precision` is 1. Otherwise 0.
    pub precision: u32,
    /// The minimum width in columns, at most 65,535. 0 if there is none.
    pub width: u32,
    /// Whether a precision is set: 0 or 1.
    pub has_precision: u8,
    /// Whether a size is formatted with a unit: 0 or 1.
    pub alternate: u8,
    /// The sign: 0 unset, 1 plus, 2 minus.
    pub sign: u8,
    /// The alignment: 0 unset, 1 left, 2 center, 3 right.
    pub align: u8,
}

impl Spec {
    /// Converts to a `FormatSpec`. Returns `None` if a field is invalid: `alternate` or `has_precision` is neither 0
    /// nor 1, the code of the sign or of the alignment is unknown, the precision or the width exceeds 65,535, or the
    /// precision is not 0 and `has_precision` is 0.
    pub fn get(self) -> Option<FormatSpec> {
        Some(FormatSpec {
            alternate: switch_at(self.alternate)?,
            sign: sign_at(self.sign)?,
            precision: precision_at(self.has_precision, self.precision)?,
            width: width_at(self.width)?,
            align: align_at(self.align)?,
        })
    }
}

/// Returns the `bool` with a code. Returns `None` if the code is 2 or more.
fn switch_at(code: u8) -> Option<bool> {
    match code {
        0 => Some(false),
        1 => Some(true),
        _ => None,
    }
}

/// Returns the sign with a code. Returns `None` if the code is 3 or more.
fn sign_at(code: u8) -> Option<Sign> {
    match code {
        0 => Some(Sign::Unset),
        1 => Some(Sign::Plus),
        2 => Some(Sign::Minus),
        _ => None,
    }
}

/// Returns the alignment with a code, where 0 is unset. Returns `None` if the code is 4 or more.
fn align_at(code: u8) -> Option<Option<Align>> {
    match code {
        0 => Some(None),
        1 => Some(Some(Align::Left)),
        2 => Some(Some(Align::Center)),
        3 => Some(Some(Align::Right)),
        _ => None,
    }
}

/// Returns the precision `n` if `has_precision` is 1, and unset if both are 0. Returns `None` if `n` is above 65,535,
/// or above 0 with `has_precision` 0, or if `has_precision` is 2 or more.
fn precision_at(has_precision: u8, n: u32) -> Option<Option<u16>> {
    match (has_precision, n) {
        (0, 0) => Some(None),
        (1, 0..65536) => Some(Some(n as u16)),
        _ => None,
    }
}

/// Returns the width `n`, unset if it is 0. Returns `None` if `n` is above 65,535.
fn width_at(n: u32) -> Option<Option<u16>> {
    match n {
        0 => Some(None),
        1..65536 => Some(Some(n as u16)),
        _ => None,
    }
}
