// Rendered from crates/byte_unit_math/src/factors.rt by `tools/dev render rust`. Do not edit.

//! The exponents of 2 and 5 in a size, and its cofactor.

use crate::rendered::math::steps::Steps;

/// A factored number: `left * 2^twos * 5^fives`.
#[derive(Clone, Copy, Debug)]
pub struct Factors {
    /// The cofactor: what is left without the powers of 2 and 5.
    pub left: u128,
    /// The exponent of 2.
    pub twos: u32,
    /// The exponent of 5.
    pub fives: u32,
}

/// Returns the exponents of 2 and of 5 in the size.
///
/// Precondition: `1 <= size < 10^30`.
///
/// Adds the steps of trial division, computed from the exponents: one for each division by 2 or 5 that succeeds, and
/// one for each of the two that fail, at most 101 in all: a size is below 2^100, so it has at most 99 such factors. The
/// exponent of 2 itself is read from the trailing zero bits, without division.
///
/// # Examples
/// ```
/// # use byte_unit::rendered::{base::{size::parse_line, *}, bit::*, byte::*, choice::*, format::*, math::*};
/// let mut steps = Steps::new();
/// assert_eq!(two_five(1_000, &mut steps), (3, 3));
/// assert_eq!(two_five(7, &mut steps), (0, 0));
/// assert_eq!(steps.count(), 8 + 2);
/// ```
pub fn two_five(size: u128, steps: &mut Steps) -> (u32, u32) {
    let Factors { left: _, twos, fives } = factors_of(size, steps);
    (twos, fives)
}

/// Returns the size as its factors, with the precondition and the step count of [`two_five`].
///
/// # Examples
/// ```
/// # use byte_unit::rendered::{base::{size::parse_line, *}, bit::*, byte::*, choice::*, format::*, math::*};
/// let mut steps = Steps::new();
/// let factors = factors_of(7_000, &mut steps);
/// assert_eq!((factors.left, factors.twos, factors.fives), (7, 3, 3));
/// assert_eq!(steps.count(), 8);
/// ```
#[inline(always)]
pub fn factors_of(size: u128, steps: &mut Steps) -> Factors {
    let twos = size.trailing_zeros();
    let mut left = size >> twos;
    let mut fives = 0;
    // Divisions of 64 bits are faster, so they take over as soon as the cofactor fits.
    while left >= 1 << 64 && left % 5 == 0 {
        left /= 5;
        fives += 1;
    }
    if left < 1 << 64 {
        let (short, others) = divide_out_fives(left as u64);
        left = u128::from(short);
        fives += others;
    }
    steps.advance_by(twos + fives + 2);
    Factors { left, twos, fives }
}

/// Divides out the factors 5 of an odd number, and returns the cofactor and the exponent of 5.
fn divide_out_fives(number: u64) -> (u64, u32) {
    let mut left = number;
    let mut fives = 0;
    while left % 5 == 0 {
        left /= 5;
        fives += 1;
    }
    (left, fives)
}
