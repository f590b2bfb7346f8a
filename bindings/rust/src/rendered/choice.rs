// Rendered from crates/byte_unit_choice/src/lib.rt by `tools/dev render rust`. Do not edit.

//! The choice of a unit for a size: the largest of a unit set in which the size is exact, or that is not above it.
//!
//! A size is a number here. Whether it counts bytes or bits is given by the [`Kind`](crate::rendered::base::Kind), or by the
//! number of bits of its own unit, 8 or 1.

pub use crate::rendered::choice::choice::{
    Family, appropriate_unit, choose_unit, exact_unit, largest_unit, recoverable_unit,
};
pub use crate::rendered::choice::unit_type::UnitType;

mod choice;
mod tables;
mod unit_type;
