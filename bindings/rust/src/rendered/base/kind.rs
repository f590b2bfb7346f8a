// Rendered from crates/byte_unit_base/src/kind.rt by `tools/dev render rust`. Do not edit.

//! The kind of a size: bytes or bits.

use crate::rendered::base::unit::Unit;

/// The kind of a size: what it counts.
#[derive(Debug, Clone, Copy, PartialEq, Eq)]
pub enum Kind {
    /// Bytes, of eight bits each.
    Byte,
    /// Bits.
    Bit,
}

impl Kind {
    /// Returns the number of bits in one of the kind: 8 or 1.
    ///
    /// # Examples
    /// ```
    /// # use byte_unit::rendered::{base::{size::parse_line, *}, bit::*, byte::*, choice::*, format::*, math::*};
    /// use byte_unit::{Bit, Byte};
    ///
    /// assert_eq!((Kind::Byte.bits(), Kind::Bit.bits()), (8, 1));
    /// ```
    pub const fn bits(self) -> u128 {
        match self {
            Kind::Byte => 8,
            Kind::Bit => 1,
        }
    }

    /// Returns the base unit of the kind, which has no prefix: `B` or `Bit`.
    ///
    /// # Examples
    /// ```
    /// # use byte_unit::rendered::{base::{size::parse_line, *}, bit::*, byte::*, choice::*, format::*, math::*};
    /// use byte_unit::{Bit, Byte, Unit};
    ///
    /// assert_eq!((Kind::Byte.unit(), Kind::Bit.unit()), (Unit::B, Unit::Bit));
    /// ```
    pub const fn unit(self) -> Unit {
        match self {
            Kind::Byte => Unit::B,
            Kind::Bit => Unit::Bit,
        }
    }
}
