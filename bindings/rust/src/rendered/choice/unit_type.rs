// Rendered from crates/byte_unit_choice/src/unit_type.rt by `tools/dev render rust`. Do not edit.

//! The types of prefixes that a choice of a unit may take: binary, decimal, or either.

/// The type of the prefixes that a choice may take.
///
/// # Examples
/// ```
/// # use byte_unit::rendered::{base::{size::parse_line, *}, bit::*, byte::*, choice::*, format::*, math::*};
/// use byte_unit::{Decimal, Unit, UnitType};
///
/// assert_eq!(largest_unit(2000, Family::Bytes, UnitType::Binary, 8), Some(Unit::KiB));
/// assert_eq!(largest_unit(2000, Family::Bytes, UnitType::Decimal, 8), Some(Unit::KB));
/// ```
#[derive(Clone, Copy, Debug, PartialEq, Eq, Hash)]
pub enum UnitType {
    /// Binary (IEC) prefixes, as in `KiB`.
    Binary,
    /// Decimal (SI) prefixes, as in `KB`.
    Decimal,
    /// Either: the largest unit not above the size, binary or decimal.
    Both,
}
