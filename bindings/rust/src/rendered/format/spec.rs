// Rendered from crates/byte_unit_format/src/spec.rt by `tools/dev render rust`. Do not edit.

//! The options of formatting.

/// The sign of digits without a unit, or the spacing between a number and its unit.
#[derive(Debug, Clone, Copy, PartialEq, Eq, Hash)]
pub enum Sign {
    /// No sign. One space before a unit.
    Unset,
    /// A plus sign before digits without a unit. With a unit, unit and spacing are padded to four columns.
    Plus,
    /// No sign. No space before a unit.
    Minus,
}

/// The alignment of a number within the width.
#[derive(Debug, Clone, Copy, PartialEq, Eq, Hash)]
pub enum Align {
    /// On the left, with the spaces after it.
    Left,
    /// Digits without a unit are centered, with the extra space on the right. A number with a unit is on the left.
    Center,
    /// On the right, with the spaces before it.
    Right,
}

/// The options of a format such as `{:>+#10.2}`: here right alignment, a plus sign, the alternate form, a width of 10
/// and a precision of 2.
///
/// # Examples
/// ```
/// # use byte_unit::rendered::{base::{size::parse_line, *}, bit::*, byte::*, choice::*, format::*, math::*};
/// use byte_unit::FormatSpec;
///
/// let wide = FormatSpec { width: Some(10), ..FormatSpec::ALTERNATE };
/// assert!(wide.alternate && wide.precision == None);
/// ```
#[derive(Debug, Clone, Copy, PartialEq, Eq, Hash)]
pub struct FormatSpec {
    /// Whether a size is printed with a unit; an adjusted size always is. If set, an adjusted size with a precision is
    /// rounded to at most 16 places, ties up, without trailing zeros.
    pub alternate: bool,
    /// The sign.
    pub sign: Sign,
    /// The number of digits after the point. A size with its unit has at most this number, and never more than 28; 3 if
    /// unset. An adjusted size has exactly this number if its unit has a prefix, in the alternate form at most this
    /// number in each unit, and else all its digits. Digits without a unit ignore it.
    pub precision: Option<u16>,
    /// The least number of columns, padded with spaces.
    pub width: Option<u16>,
    /// The alignment. If unset, digits without a unit are on the right, a number with a unit on the left.
    pub align: Option<Align>,
}

/// [`FormatSpec::PLAIN`].
impl Default for FormatSpec {
    fn default() -> FormatSpec {
        Self::PLAIN
    }
}

impl FormatSpec {
    /// No options set: `{}`.
    pub const PLAIN: FormatSpec =
        FormatSpec { alternate: false, sign: Sign::Unset, precision: None, width: None, align: None };

    /// The alternate form, with nothing else set: `{:#}`.
    pub const ALTERNATE: FormatSpec = FormatSpec { alternate: true, ..FormatSpec::PLAIN };
}
