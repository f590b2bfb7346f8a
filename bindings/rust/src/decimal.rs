//! What `Decimal` has beside what is rendered: its text by a formatter with its flags, and floats.

use core::fmt::{self, Display, Formatter};

use crate::rendered::math::{Expansion, WHOLE_LIMIT};
use crate::support::InlineText;
use crate::{Decimal, InexactFloatError};

/// The length of the longest decimal: 34 digits, a point, 28 digits.
const DECIMAL_LEN: usize = 63;

impl Display for Decimal {
    /// Formats all digits, without trailing zeros. Width, fill, alignment and sign are as for an integer; the precision
    /// has no effect.
    fn fmt(&self, f: &mut Formatter<'_>) -> fmt::Result {
        let digits = Expansion::from_decimal(*self);
        if f.width().is_none() && !f.sign_plus() {
            return digits.fmt(f);
        }
        f.pad_integral(true, "", InlineText::<DECIMAL_LEN>::of(&digits).as_str())
    }
}

impl TryFrom<f64> for Decimal {
    type Error = InexactFloatError;

    /// Converts the exact value of the float, as of `3.5`.
    ///
    /// # Errors
    ///
    /// Returns an `InexactFloatError` if the float is negative, not a number, 2^112 or more, or has more than 28 digits
    /// after the point, as the float that is nearest to 50.84 has.
    fn try_from(number: f64) -> Result<Self, Self::Error> {
        // With at most 28 binary digits after the point, a number has at most 28 decimal ones: n / 2^28 is
        // n * 5^28 / 10^28.
        const BINARY: f64 = (1u64 << 28) as f64;
        if !(number >= 0.0 && number < WHOLE_LIMIT as f64) {
            return Err(InexactFloatError);
        }
        let whole = number as u128;
        let scaled = (number - whole as f64) * BINARY;
        let digits = scaled as u128;
        if digits as f64 != scaled {
            return Err(InexactFloatError);
        }
        Decimal::new(whole, digits * 5u128.pow(28)).ok_or(InexactFloatError)
    }
}
