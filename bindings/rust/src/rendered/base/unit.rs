// Rendered from crates/byte_unit_base/src/unit.rt by `tools/dev render rust`. Do not edit.

//! The units of bits and bytes: their names, their bits and their prefixes.

use crate::rendered::base::read::unit::unit_with_prefix;
use crate::rendered::base::unit::tables::{UNIT_BITS, UNITS};

pub(crate) mod parse;
pub(crate) mod tables;

/// A unit of bits or bytes, with a decimal (SI) prefix, with a binary (IEC) prefix, or without one.
///
/// The variants are in ascending order of their prefixes, from K to R, and within a prefix in ascending order of their
/// bits.
#[derive(Clone, Copy, Debug, PartialEq, Eq, Hash)]
pub enum Unit {
    /// One bit.
    Bit,
    /// One byte: 8 bits.
    B,
    /// 10^3 bits.
    Kbit,
    /// 2^10 bits.
    Kibit,
    /// 10^3 bytes.
    KB,
    /// 2^10 bytes.
    KiB,
    /// 10^6 bits.
    Mbit,
    /// 2^20 bits.
    Mibit,
    /// 10^6 bytes.
    MB,
    /// 2^20 bytes.
    MiB,
    /// 10^9 bits.
    Gbit,
    /// 2^30 bits.
    Gibit,
    /// 10^9 bytes.
    GB,
    /// 2^30 bytes.
    GiB,
    /// 10^12 bits.
    Tbit,
    /// 2^40 bits.
    Tibit,
    /// 10^12 bytes.
    TB,
    /// 2^40 bytes.
    TiB,
    /// 10^15 bits.
    Pbit,
    /// 2^50 bits.
    Pibit,
    /// 10^15 bytes.
    PB,
    /// 2^50 bytes.
    PiB,
    /// 10^18 bits.
    Ebit,
    /// 2^60 bits.
    Eibit,
    /// 10^18 bytes.
    EB,
    /// 2^60 bytes.
    EiB,
    /// 10^21 bits.
    Zbit,
    /// 2^70 bits.
    Zibit,
    /// 10^21 bytes.
    ZB,
    /// 2^70 bytes.
    ZiB,
    /// 10^24 bits.
    Ybit,
    /// 2^80 bits.
    Yibit,
    /// 10^24 bytes.
    YB,
    /// 2^80 bytes.
    YiB,
    /// 10^27 bits.
    Rbit,
    /// 2^90 bits.
    Ribit,
    /// 10^27 bytes.
    RB,
    /// 2^90 bytes.
    RiB,
}

/// The prefix and the base unit of a unit.
#[derive(Clone, Copy)]
pub(crate) struct Shape {
    /// The position of the prefix letter, from 1 for K, or 0 if there is no prefix.
    pub(crate) power: u32,
    /// Whether the prefix is binary (IEC).
    pub(crate) binary: bool,
    /// Whether the unit counts bits, and not bytes.
    pub(crate) bit: bool,
}

/// The name and the shape of a unit.
#[derive(Clone, Copy)]
pub(crate) struct UnitData {
    pub(crate) name: &'static str,
    pub(crate) shape: Shape,
}

impl Unit {
    /// Returns the number of bits of the unit: from 1 to 2^93.
    ///
    /// # Examples
    /// ```
    /// # use byte_unit::rendered::{base::{size::parse_line, *}, bit::*, byte::*, choice::*, format::*, math::*};
    /// use byte_unit::Unit;
    ///
    /// assert_eq!((Unit::KiB.as_bits_u128(), Unit::RiB.as_bits_u128()), (8192, 1 << 93));
    /// ```
    pub const fn as_bits_u128(self) -> u128 {
        UNIT_BITS[self as usize]
    }

    /// Returns the name of the unit, of one to three ASCII letters: the prefix letter if there is one, an `i` if the
    /// prefix is binary, and `b` for bits or `B` for bytes.
    ///
    /// # Examples
    /// ```
    /// # use byte_unit::rendered::{base::{size::parse_line, *}, bit::*, byte::*, choice::*, format::*, math::*};
    /// use byte_unit::Unit;
    ///
    /// assert_eq!((Unit::Kibit.as_str(), Unit::MB.as_str()), ("Kib", "MB"));
    /// ```
    pub const fn as_str(self) -> &'static str {
        UNITS[self as usize].name
    }

    /// Returns `true` if the unit counts bits, and `false` if it counts bytes.
    ///
    /// # Examples
    /// ```
    /// # use byte_unit::rendered::{base::{size::parse_line, *}, bit::*, byte::*, choice::*, format::*, math::*};
    /// use byte_unit::Unit;
    ///
    /// assert!(Unit::Kbit.is_bit() && !Unit::KB.is_bit());
    /// ```
    pub const fn is_bit(self) -> bool {
        UNITS[self as usize].shape.bit
    }

    /// Returns `true` if the prefix is binary (IEC). Of the units without a prefix, `B` counts as binary and `Bit` does
    /// not, as in the Rust crate.
    ///
    /// # Examples
    /// ```
    /// # use byte_unit::rendered::{base::{size::parse_line, *}, bit::*, byte::*, choice::*, format::*, math::*};
    /// use byte_unit::{Bit, Unit};
    ///
    /// assert!(Unit::KiB.is_binary_multiples() && !Unit::KB.is_binary_multiples());
    /// assert!(Unit::B.is_binary_multiples() && !Unit::Bit.is_binary_multiples());
    /// ```
    pub const fn is_binary_multiples(self) -> bool {
        UNITS[self as usize].shape.binary
    }

    /// Returns the exponents of 2 and of 5 in the number of bits of the unit, which has no other prime factor.
    ///
    /// # Examples
    /// ```
    /// # use byte_unit::rendered::{base::{size::parse_line, *}, bit::*, byte::*, choice::*, format::*, math::*};
    /// use byte_unit::Unit;
    ///
    /// assert_eq!(Unit::KB.powers(), (6, 3)); // 8000 is 2^6 * 5^3.
    /// ```
    pub fn powers(self) -> (u32, u32) {
        let Shape { power, binary, bit } = self.shape();
        // A byte is 2^3 bits, and a decimal prefix is (2^3 * 5^3)^power.
        let byte = if bit { 0 } else { 3 };
        if binary { (10 * power + byte, 0) } else { (3 * power + byte, 3 * power) }
    }

    /// Returns the unit with the binary (IEC) prefix of the same letter, in bits or bytes as before. A unit without a
    /// prefix, or with a binary one, is returned as it is.
    ///
    /// # Examples
    /// ```
    /// # use byte_unit::rendered::{base::{size::parse_line, *}, bit::*, byte::*, choice::*, format::*, math::*};
    /// use byte_unit::Unit;
    ///
    /// assert_eq!((Unit::MB.to_binary(), Unit::Kbit.to_binary()), (Unit::MiB, Unit::Kibit));
    /// assert_eq!((Unit::B.to_binary(), Unit::GiB.to_binary()), (Unit::B, Unit::GiB));
    /// ```
    pub fn to_binary(self) -> Unit {
        let Shape { power, bit, .. } = self.shape();
        unit_with_prefix(power as usize, true, bit)
    }

    /// Returns the shape of the unit, which determines its name and its bits.
    fn shape(self) -> Shape {
        UNITS[self as usize].shape
    }
}

/// Converts a unit to its number of bits, as `as_bits_u128` does.
impl From<Unit> for u128 {
    fn from(unit: Unit) -> u128 {
        unit.as_bits_u128()
    }
}
