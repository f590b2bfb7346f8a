//! Conversions between this package's decimals and those of `rust_decimal`.

use crate::{Decimal, ExceededBoundsError, rust_decimal};

impl TryFrom<rust_decimal::Decimal> for Decimal {
    type Error = ExceededBoundsError;

    /// Converts a decimal of `rust_decimal`, exactly.
    ///
    /// # Errors
    ///
    /// Returns an `ExceededBoundsError` if it is negative.
    fn try_from(number: rust_decimal::Decimal) -> Result<Self, Self::Error> {
        let mantissa = u128::try_from(number.mantissa()).map_err(|_| ExceededBoundsError)?;
        Decimal::from_u128_with_scale(mantissa, number.scale()).ok_or(ExceededBoundsError)
    }
}

impl TryFrom<Decimal> for rust_decimal::Decimal {
    type Error = ExceededBoundsError;

    /// Converts a decimal to one of `rust_decimal`, exactly.
    ///
    /// # Errors
    ///
    /// Returns an `ExceededBoundsError` if its digits, before and after the point, make a number of 2^96 or more.
    fn try_from(number: Decimal) -> Result<Self, Self::Error> {
        let whole = number.whole().checked_mul(10u128.pow(number.places()));
        let mantissa = whole.and_then(|whole| i128::try_from(whole.checked_add(number.digits())?).ok());
        mantissa
            .and_then(|mantissa| Self::try_from_i128_with_scale(mantissa, number.places()).ok())
            .ok_or(ExceededBoundsError)
    }
}
