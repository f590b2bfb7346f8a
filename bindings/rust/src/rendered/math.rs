// Rendered from crates/byte_unit_math/src/lib.rt by `tools/dev render rust`. Do not edit.

//! The arithmetic of sizes: exact decimals, products rounded up, exact quotients with a step count, and decimal
//! expansions.

pub use crate::rendered::math::decimal::{DECIMAL_PLACES, Decimal, WHOLE_LIMIT};
pub use crate::rendered::math::decimal_digits::{NUMBER_DIGITS, decimal_len, fmt_u128, put_fraction, put_u128};
pub use crate::rendered::math::dividing::{div_rem, div_rem_thousand, rounded_quotient};
pub use crate::rendered::math::expansion::{EXPANSION_PLACES, Expansion, Ties, glyphs_of};
pub use crate::rendered::math::factors::{Factors, factors_of, two_five};
pub use crate::rendered::math::lanes::{PADDED_DIGITS, put_padded_digits};
pub use crate::rendered::math::least::{least_size, least_size_counted};
pub use crate::rendered::math::quotient::{exact_quotient, factored_quotient};
pub use crate::rendered::math::short::{ShortExpansion, rounded_expansion, short_expansion};
pub use crate::rendered::math::steps::Steps;
pub use crate::rendered::math::tens::power_of_ten;

mod decimal;
mod decimal_digits;
mod dividing;
mod expansion;
mod factors;
mod lanes;
mod least;
mod quotient;
mod short;
mod steps;
mod tens;
