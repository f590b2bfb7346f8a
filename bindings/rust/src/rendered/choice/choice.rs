// Rendered from crates/byte_unit_choice/src/choice.rt by `tools/dev render rust`. Do not edit.

//! The choice of a unit for a size: unit sets, the largest unit of a set in which a size is exact, and the largest that
//! is not above it.

use crate::rendered::base::{Kind, PREFIXES, Unit};
use crate::rendered::choice::UnitType;
use crate::rendered::choice::tables::{ALL, BITS, BYTES, UnitRow};
use crate::rendered::math::{DECIMAL_PLACES, Decimal, Factors, Steps, exact_quotient, factored_quotient, factors_of};

/// The set of units that a choice may take. All of them have a prefix: `Bit` and `B` are in no set.
///
/// # Examples
/// ```
/// # use byte_unit::rendered::{base::{size::parse_line, *}, bit::*, byte::*, choice::*, format::*, math::*};
/// use byte_unit::{Unit, UnitType};
///
/// assert_eq!(largest_unit(1000, Family::All, UnitType::Both, 8), Some(Unit::KB));
/// assert_eq!(largest_unit(1000, Family::Bits, UnitType::Both, 8), Some(Unit::Kibit));
/// ```
#[derive(Clone, Copy, Debug, PartialEq, Eq)]
pub enum Family {
    /// All units with a prefix.
    All,
    /// Those of bytes, as `KB` and `KiB`.
    Bytes,
    /// Those of bits, as `Kbit` and `Kibit`.
    Bits,
}

/// Up to this many places a number is computed from the factors of the size. A unit with a prefix has 1000 bits or
/// more, so the number times 10^5 is below 8 * 10^30 / 1000 * 10^5, which is below 2^112, the bound of
/// `factored_quotient`.
const FEW_PLACES: u32 = 5;

/// Chooses the largest unit of the unit set, not above the size, in which the size is exact within `places` decimal
/// places. Returns the number and the unit. Returns `None` if no unit of the set is such.
///
/// The bits of the size's own unit are `own_bits`: 8 for a size in bytes, and 1 for a size in bits. More than 28 places
/// count as 28.
///
/// Preconditions: `size < 10^30`; `own_bits` is 8 or 1.
///
/// `steps` is raised as by `two_five` for the size as it is given, and by one for each place of the number, as long
/// division would: by at most 116 for a size in bytes, as for `7 << 87` at 27 places, and by at most 119 for a size in
/// bits, as for `7 << 90` at 27 places with `Family::All`. A size of zero adds no step. These are steps of division:
/// the code makes few of them, and what it does instead, as the comparisons of the search, is not counted.
///
/// # Examples
/// ```
/// # use byte_unit::rendered::{base::{size::parse_line, *}, bit::*, byte::*, choice::*, format::*, math::*};
/// use byte_unit::{Decimal, Unit};
///
/// let mut steps = Steps::new();
/// let chosen = choose_unit(1536, Family::Bytes, 8, 3, &mut steps);
/// assert_eq!(chosen, Some((Decimal::from_u128_with_scale(15, 1).unwrap(), Unit::KiB)));
/// assert_eq!(steps.count(), 12);
/// assert_eq!(choose_unit(999, Family::Bytes, 8, 3, &mut Steps::new()), None);
/// ```
#[inline(always)]
pub fn choose_unit(
    size: u128,
    family: Family,
    own_bits: u128,
    places: usize,
    steps: &mut Steps,
) -> Option<(Decimal, Unit)> {
    if size == 0 {
        return None;
    }
    let most = places.min(DECIMAL_PLACES as usize) as u32;
    let in_bits = size * own_bits;
    let Factors { left, twos, fives } = factors_of(size, steps);
    // The exponent of 2 of the size in bits.
    let twos = twos + own_bits.trailing_zeros();
    let most_twos = twos + most;
    let most_fives = fives + most;
    // A unit of the n-th prefix has an exponent of 2 of 10 n or more, or one of 5 of 3 n. For most sizes that leaves
    // few prefixes.
    let first = (most_twos / 10).max(most_fives / 3);
    for row in multiples_within(family, in_bits, first) {
        // With `&&`, the row `places` of docs/SPEED.md takes seven instructions more.
        if (row.bits <= in_bits) & (row.twos <= most_twos) & (row.fives <= most_fives) {
            let lacking = row.twos.saturating_sub(twos);
            // Each place supplies one factor 2 and one factor 5, so there are as many as the size lacks of either.
            let places = lacking.max(row.fives.saturating_sub(fives));
            let number = if places > FEW_PLACES {
                quotient_by(row, in_bits, most, steps)
            } else {
                let factors = Factors { left, twos, fives };
                factored_quotient(factors, row.twos, row.fives, places, steps)
            };
            return Some((number, row.unit));
        }
    }
    None
}

/// Returns a size of `in_bits` bits in the unit of a row, in which it is exact within `most` places, by long division.
#[inline(never)]
fn quotient_by(row: &UnitRow, in_bits: u128, most: u32, steps: &mut Steps) -> Decimal {
    exact_quotient(in_bits, row.bits, most, steps).unwrap()
}

/// Returns the size in the largest unit, not above it, in which it is exact within `precision` decimal places: the
/// number and the unit. If there is no such unit, returns the size itself in `B` or `Bit`.
///
/// The unit is of the size's own kind, or of either kind if `allow` is set. A precision above 28 counts as 28.
///
/// Precondition: `size < 10^30`.
///
/// `steps` is raised as by `choose_unit`: by at most 116 for bytes and by at most 119 for bits. At precision 27,
/// `7 << 87` bytes take 116 steps, and `7 << 90` bits take 119 if `allow` is set.
///
/// # Examples
/// ```
/// # use byte_unit::rendered::{base::{size::parse_line, *}, bit::*, byte::*, choice::*, format::*, math::*};
/// use byte_unit::{Byte, Decimal, Unit};
///
/// let (number, unit) = recoverable_unit(50_840_000, Kind::Byte, false, 2, &mut Steps::new());
/// assert!(number == Decimal::from_u128_with_scale(5084, 2).unwrap() && unit == Unit::MB);
/// ```
#[inline(always)]
pub fn recoverable_unit(size: u128, kind: Kind, allow: bool, precision: usize, steps: &mut Steps) -> (Decimal, Unit) {
    let family = match (kind, allow) {
        (_, true) => Family::All,
        (Kind::Byte, false) => Family::Bytes,
        (Kind::Bit, false) => Family::Bits,
    };
    match choose_unit(size, family, kind.bits(), precision, steps) {
        Some(chosen) => chosen,
        None => (Decimal::from_digits(size, 0, 0), kind.unit()),
    }
}

/// Returns the size in the largest unit, not above it, that divides it: the number and the unit. If there is no such
/// unit, returns the size itself in `B` or `Bit`.
///
/// The unit is of the size's own kind, or of either kind if `allow` is set.
///
/// Precondition: `size < 10^30`.
///
/// # Examples
/// ```
/// # use byte_unit::rendered::{base::{size::parse_line, *}, bit::*, byte::*, choice::*, format::*, math::*};
/// use byte_unit::{Bit, Byte, Unit};
///
/// assert_eq!(exact_unit(50_840_000, Kind::Byte, false), (50_840, Unit::KB));
/// assert_eq!(exact_unit(16, Kind::Bit, true), (16, Unit::Bit));
/// ```
pub fn exact_unit(size: u128, kind: Kind, allow: bool) -> (u128, Unit) {
    let (number, unit) = recoverable_unit(size, kind, allow, 0, &mut Steps::new());
    (number.whole(), unit)
}

/// Returns the largest unit of the unit set and of the type that is not above the size. Returns `None` if there is
/// none.
///
/// The bits of the size's own unit are `own_bits`: 8 for a size in bytes, and 1 for a size in bits.
///
/// Precondition: `own_bits` is 8 or 1.
///
/// # Examples
/// ```
/// # use byte_unit::rendered::{base::{size::parse_line, *}, bit::*, byte::*, choice::*, format::*, math::*};
/// use byte_unit::{Unit, UnitType};
///
/// assert_eq!(largest_unit(10_000, Family::Bytes, UnitType::Both, 8), Some(Unit::KiB));
/// assert_eq!(largest_unit(1000, Family::Bytes, UnitType::Binary, 8), None);
/// ```
#[inline(always)]
pub fn largest_unit(size: u128, family: Family, unit_type: UnitType, own_bits: u128) -> Option<Unit> {
    // Every unit is far below `u128::MAX`, so saturation changes nothing.
    let in_bits = size.saturating_mul(own_bits);
    // The largest unit is first. Prefixes that are surely too large are left out, and others may be too large.
    for row in multiples_within(family, in_bits, PREFIXES as u32) {
        if row.bits > in_bits {
            continue;
        }
        let unit = row.unit;
        let is_of_type = match unit_type {
            UnitType::Binary => unit.is_binary_multiples(),
            UnitType::Decimal => !unit.is_binary_multiples(),
            UnitType::Both => true,
        };
        if is_of_type {
            return Some(unit);
        }
    }
    None
}

/// Returns the largest unit of the size's own kind and of the type that is not above the size. If there is none,
/// returns `B` or `Bit`.
///
/// # Examples
/// ```
/// # use byte_unit::rendered::{base::{size::parse_line, *}, bit::*, byte::*, choice::*, format::*, math::*};
/// use byte_unit::{Byte, Unit, UnitType};
///
/// assert_eq!(appropriate_unit(10_000, Kind::Byte, UnitType::Both), Unit::KiB);
/// assert_eq!(appropriate_unit(1000, Kind::Byte, UnitType::Binary), Unit::B);
/// ```
#[inline(always)]
pub fn appropriate_unit(size: u128, kind: Kind, unit_type: UnitType) -> Unit {
    let family = match kind {
        Kind::Byte => Family::Bytes,
        Kind::Bit => Family::Bits,
    };
    largest_unit(size, family, unit_type, kind.bits()).unwrap_or(kind.unit())
}

/// Returns the units of the first `first` prefixes, the largest first, without those whose prefix is too large for a
/// size of `in_bits` bits: the number of bits of a unit of the n-th prefix has at least 10 n binary digits.
#[inline(always)]
fn multiples_within(family: Family, in_bits: u128, first: u32) -> &'static [UnitRow] {
    let digits = u128::BITS - in_bits.leading_zeros();
    let prefixes = PREFIXES.min((digits / 10).min(first) as usize);
    let units: &[UnitRow] = match family {
        Family::All => &ALL,
        Family::Bytes => &BYTES,
        Family::Bits => &BITS,
    };
    // Each prefix has the same number of rows, and the largest prefix is first.
    &units[units.len() / PREFIXES * (PREFIXES - prefixes)..]
}
