// Rendered from crates/byte_unit_choice/src/tables.rt by `tools/dev render rust`. Do not edit.

//! The tables of the units of each unit set, the largest first.

use crate::rendered::base::Unit;
use crate::with_prefixes;

/// A row of a table: a unit, its number of bits, and the exponents of 2 and of 5 in that number.
#[derive(Clone, Copy)]
pub(crate) struct UnitRow {
    pub(crate) unit: Unit,
    pub(crate) bits: u128,
    pub(crate) twos: u32,
    pub(crate) fives: u32,
}

/// Writes the row of one unit.
macro_rules! row {
    ($unit:ident, $bits:expr, $twos:expr, $fives:expr) => {
        UnitRow { unit: Unit::$unit, bits: $bits, twos: $twos, fives: $fives }
    };
}

/// Writes the rows of a unit set, the largest first: each prefix puts its own before those that are made.
macro_rules! rows {
    ($set:ident $letter:literal $bit:ident $ibit:ident $b:ident $ib:ident $($rest:tt)*) => {
        rows_before![$set [] $letter $bit $ibit $b $ib $($rest)*]
    };
}

/// Makes the rows of the first prefix, for bytes and for bits, and goes on with those of the other prefixes.
macro_rules! rows_before {
    // 1000^n is 2^(3 n) * 5^(3 n) and 1024^n is 2^(10 n); a byte is 2^3 bits.
    ($set:ident [$($made:tt)*]
        $letter:literal $bit:ident $ibit:ident $b:ident $ib:ident $n:literal $decimal:literal $binary:literal
        $(, $($rest:tt)*)?
    ) => {
        put_rows![$set [$($made)*]
            [row!($ib, $binary * 8, 10 * $n + 3, 0), row!($b, $decimal * 8, 3 * $n + 3, 3 * $n),]
            [row!($ibit, $binary, 10 * $n, 0), row!($bit, $decimal, 3 * $n, 3 * $n),]
            $($($rest)*)?
        ]
    };
    ($set:ident [$($made:tt)*]) => {
        [$($made)*]
    };
}

/// Puts the rows of a prefix that are in the unit set before those that are made.
macro_rules! put_rows {
    (all [$($made:tt)*] [$($bytes:tt)*] [$($bits:tt)*] $($rest:tt)*) => {
        rows_before![all [$($bytes)* $($bits)* $($made)*] $($rest)*]
    };
    (bytes [$($made:tt)*] [$($bytes:tt)*] $bits:tt $($rest:tt)*) => {
        rows_before![bytes [$($bytes)* $($made)*] $($rest)*]
    };
    (bits [$($made:tt)*] $bytes:tt [$($bits:tt)*] $($rest:tt)*) => {
        rows_before![bits [$($bits)* $($made)*] $($rest)*]
    };
}

/// The units of bytes and of bits with a prefix, four for each of the nine, the largest first.
pub(crate) static ALL: [UnitRow; 36] = with_prefixes!(rows all);

/// The units of bytes with a prefix, the largest first.
pub(crate) static BYTES: [UnitRow; 18] = with_prefixes!(rows bytes);

/// The units of bits with a prefix, the largest first.
pub(crate) static BITS: [UnitRow; 18] = with_prefixes!(rows bits);
