// Rendered from crates/byte_unit_math/src/quotient.rt by `tools/dev render rust`. Do not edit.

//! Exact quotients by long division and by factors.

use crate::rendered::math::dividing::{GROUP_DIGITS, div_rem, div_rem_u24};
use crate::rendered::math::tens::{POWERS_OF_FIVE, power_of_ten};
use crate::rendered::math::{DECIMAL_PLACES, Decimal, Factors, Steps};

/// Returns `size / unit` if it is exact within `places` digits after the point, and `None` otherwise. More than 28
/// places count as 28.
///
/// Precondition: `1 <= unit <= 2^93` and `size < 2^112`.
///
/// Adds the steps of a long division digit by digit: one for each digit after the point, up to the first number of them
/// at which the quotient is exact, or else for all that it may have.
///
/// # Examples
/// ```
/// # use byte_unit::rendered::{base::{size::parse_line, *}, bit::*, byte::*, choice::*, format::*, math::*};
/// use byte_unit::Decimal;
///
/// let mut steps = Steps::new();
/// assert_eq!(exact_quotient(1, 8, 3, &mut steps), Some(Decimal::from_u128_with_scale(125, 3).unwrap()));
/// assert_eq!(exact_quotient(1, 8, 2, &mut steps), None);
/// assert_eq!(steps.count(), 3 + 2);
/// ```
#[inline]
pub fn exact_quotient(size: u128, unit: u128, places: u32, steps: &mut Steps) -> Option<Decimal> {
    let most = places.min(DECIMAL_PLACES);
    let (whole, mut rest) = div_rem(size, unit);
    let mut fraction = 0;
    let mut digits = 0;
    while rest > 0 && digits < most {
        let count = GROUP_DIGITS.min(most - digits);
        let power = power_of_ten(count);
        let (group, left) = div_rem(rest * power, unit);
        fraction = fraction * power + group;
        rest = left;
        digits += count;
    }
    if rest > 0 {
        steps.advance_by(most);
        return None;
    }
    let number = Decimal::from_digits(whole, fraction, digits);
    steps.advance_by(number.places());
    Some(number)
}

/// Returns `number / (2^twos * 5^fives)`, from the factors, without long division.
///
/// Precondition: `1 <= number.left`, `number.twos` and `number.fives` are below 2^16,
/// `places <= 28`, `twos <= number.twos + places`, `fives <= number.fives + places`, and the quotient scaled by
/// `10^places` is below 2^112.
///
/// Adds the steps of long division: one for each digit after the point of the result.
///
/// # Examples
/// ```
/// # use byte_unit::rendered::{base::{size::parse_line, *}, bit::*, byte::*, choice::*, format::*, math::*};
/// use byte_unit::Decimal;
///
/// let mut steps = Steps::new();
/// let twelve = Factors { left: 3, twos: 2, fives: 0 };
/// assert_eq!(factored_quotient(twelve, 3, 0, 1, &mut steps), Decimal::from_u128_with_scale(15, 1).unwrap());
/// assert_eq!(steps.count(), 1);
/// ```
#[inline(always)]
pub fn factored_quotient(number: Factors, twos: u32, fives: u32, places: u32, steps: &mut Steps) -> Decimal {
    // The quotient times 10^places, a whole number: the exponents are those of the number plus the places, less the
    // unit's, and the power of 2 is a shift.
    let power = POWERS_OF_FIVE[(number.fives + places - fives) as usize];
    let count = (number.left << (number.twos + places - twos)) * power;
    let (whole, digits) = match places {
        0 => (count, 0),
        1 => div_rem_u24(count, 10),
        2 => div_rem_u24(count, 100),
        3 => div_rem_u24(count, 1000),
        _ => div_rem(count, power_of_ten(places)),
    };
    let quotient = Decimal::from_digits(whole, digits, places);
    steps.advance_by(quotient.places());
    quotient
}
