// Rendered from crates/byte_unit_c/src/codes.rt by `tools/dev render rust`. Do not edit.

//! The codes of units and unit types in the C API.

use byte_unit::rendered::base::Unit;
use byte_unit::rendered::choice::UnitType;

/// Returns the unit with a code, which is its index among the variants. Returns `None` if the code is 38, the number of
/// units, or more.
pub fn unit_at(code: u32) -> Option<Unit> {
    byte_unit::rendered::base::unit_at(code as usize)
}

/// Returns the code of a unit.
pub fn unit_code(unit: Unit) -> u32 {
    unit as u32
}

/// Returns the unit type with a code: 0 binary, 1 decimal, 2 both. Returns `None` if the code is 3 or more.
pub fn type_at(code: u32) -> Option<UnitType> {
    match code {
        0 => Some(UnitType::Binary),
        1 => Some(UnitType::Decimal),
        2 => Some(UnitType::Both),
        _ => None,
    }
}
