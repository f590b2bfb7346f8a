// Rendered from crates/byte_unit_c/src/values.rt by `tools/dev render rust`. Do not edit.

//! Numbers in the C API.

use byte_unit::rendered::math::Decimal;

/// An unsigned integer of 128 bits as two halves, since standard C has no type for it.
#[repr(C)]
#[derive(Clone, Copy)]
pub struct Number {
    pub low: u64,
    pub high: u64,
}

/// 2^64.
const TWO_POW_64: u128 = 1 << 64;

impl Number {
    /// The integer 0.
    pub const ZERO: Number = Number { low: 0, high: 0 };

    /// Creates a `Number` from an integer.
    pub fn new(n: u128) -> Number {
        Number { low: (n % TWO_POW_64) as u64, high: (n / TWO_POW_64) as u64 }
    }

    /// Returns the integer.
    pub fn get(self) -> u128 {
        u128::from(self.high) * TWO_POW_64 + u128::from(self.low)
    }
}

/// A decimal: the integer part, and the fractional part scaled by 10^28, which is below 10^28.
#[repr(C)]
#[derive(Clone, Copy)]
pub struct DecimalParts {
    pub whole: Number,
    pub fraction: Number,
}

impl DecimalParts {
    /// The decimal 0.
    pub const ZERO: DecimalParts = DecimalParts { whole: Number::ZERO, fraction: Number::ZERO };

    /// Creates `DecimalParts` from a decimal.
    pub fn new(decimal: Decimal) -> DecimalParts {
        DecimalParts { whole: Number::new(decimal.whole()), fraction: Number::new(decimal.fraction()) }
    }
}
