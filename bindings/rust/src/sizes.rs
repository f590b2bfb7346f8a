//! What the original's types of sizes have beside what is rendered: floats, comparisons with numbers, texts by a formatter
//! with its flags, and those of adjusted sizes in a buffer.

use core::cmp::Ordering;
use core::fmt::{self, Debug, Display, Formatter};
use core::hash::{Hash, Hasher};

use crate::rendered::base::Kind;
use crate::text;
use crate::{AdjustedBit, AdjustedByte, Bit, Byte, ExceededBoundsError, FormatSpec, Needed, Sign, Unit};

/// Defines the methods and traits of a type of sizes. `$units` and `$unit` are what it counts.
macro_rules! of_size {
    ($Size:ident, $kind:expr, $units:literal, $unit:literal) => {
        /// Constructors from floats, and one without a test.
        impl $Size {
            #[doc = concat!("Creates a size from a number of ", $units, " that is below 10^30.")]
            ///
            /// # Safety
            ///
            /// The number is below 10^30.
            ///
            /// # Examples
            ///
            /// ```
            #[doc = concat!("use byte_unit::", stringify!($Size), ";")]
            ///
            /// // SAFETY: 15 is below 10^30.
            #[doc = concat!("assert_eq!(unsafe { ", stringify!($Size), "::from_u128_unsafe(15) }.as_u64(), 15);")]
            /// ```
            #[inline]
            pub const unsafe fn from_u128_unsafe(size: u128) -> Self {
                match Self::from_u128(size) {
                    Some(size) => size,
                    // SAFETY: the number is below 10^30, so it is a size.
                    None => unsafe { core::hint::unreachable_unchecked() },
                }
            }

            #[doc = concat!("Creates a size from the exact value of a float, rounded up to a whole ", $unit, ".")]
            /// Returns `None` if it is negative, not a number, or 10^30 or more.
            ///
            /// # Examples
            ///
            /// ```
            #[doc = concat!("use byte_unit::", stringify!($Size), ";")]
            ///
            #[doc = concat!("assert_eq!(", stringify!($Size), "::from_f64(14.5).unwrap().as_u64(), 15);")]
            #[doc = concat!("assert_eq!(", stringify!($Size), "::from_f64(f64::NAN), None);")]
            /// ```
            pub fn from_f64(size: f64) -> Option<Self> {
                if size.is_nan() || size < 0.0 {
                    return None;
                }
                // Below 2^53 the whole part is exact as a float; from there on a float has no other part.
                let whole = size as u128;
                Self::from_u128(whole.saturating_add(u128::from((whole as f64) < size)))
            }

            /// Creates a size as [`from_f64`](Self::from_f64) does.
            pub fn from_f32(size: f32) -> Option<Self> {
                Self::from_f64(size.into())
            }
        }

        impl Debug for $Size {
            fn fmt(&self, f: &mut Formatter<'_>) -> fmt::Result {
                f.debug_tuple(stringify!($Size)).field(&self.as_u128()).finish()
            }
        }

        impl Display for $Size {
            /// Formats the digits, or with `#` the size with its unit. See the documentation of the crate.
            fn fmt(&self, f: &mut Formatter<'_>) -> fmt::Result {
                text::format_size(self.as_u128(), $kind, f)
            }
        }

        of_size! { @try_from $Size f64 from_f64, f32 from_f32 }
        of_size! { @compare $Size u64 u128 }
    };

    (@try_from $Size:ident $($float:ident $from:ident),*) => { $(
        impl TryFrom<$float> for $Size {
            type Error = ExceededBoundsError;

            fn try_from(size: $float) -> Result<Self, Self::Error> {
                Self::$from(size).ok_or(ExceededBoundsError)
            }
        }
    )* };

    // Comparisons with integers, on both sides.
    (@compare $Size:ident $($number:ty)*) => { $(
        impl PartialEq<$number> for $Size {
            fn eq(&self, other: &$number) -> bool {
                self.as_u128() == u128::from(*other)
            }
        }

        impl PartialEq<$Size> for $number {
            fn eq(&self, other: &$Size) -> bool {
                other == self
            }
        }

        impl PartialOrd<$number> for $Size {
            fn partial_cmp(&self, other: &$number) -> Option<Ordering> {
                self.as_u128().partial_cmp(&u128::from(*other))
            }
        }

        impl PartialOrd<$Size> for $number {
            fn partial_cmp(&self, other: &$Size) -> Option<Ordering> {
                u128::from(*self).partial_cmp(&other.as_u128())
            }
        }
    )* };
}

of_size! { Byte, Kind::Byte, "bytes", "byte" }
of_size! { Bit, Kind::Bit, "bits", "bit" }

/// Defines the methods and traits of a type of sizes in a given unit.
macro_rules! of_adjusted {
    ($Size:ident, $Adjusted:ident, $kind:expr, $get_size:ident) => {
        impl $Adjusted {
            /// Returns the 64-bit float that is nearest to the size in the unit; of two that are as near, the even one.
            ///
            /// # Examples
            ///
            /// ```
            #[doc = concat!("use byte_unit::{", stringify!($Size), ", Unit};")]
            ///
            #[doc = concat!("let size = ", stringify!($Size), "::from_u64_with_unit(1536, Unit::B).unwrap();")]
            /// assert_eq!(size.get_adjusted_unit(Unit::KiB).get_value(), 1.5);
            /// ```
            pub fn get_value(&self) -> f64 {
                text::nearest_float(self.$get_size().as_u128(), $kind, self.get_unit())
            }

            /// Writes the text of the size in the unit, which is ASCII, to the beginning of `out`, and returns it.
            ///
            /// # Errors
            ///
            /// Returns [`Needed`] with the length of the text if `out` is shorter, and leaves `out` unchanged.
            ///
            /// # Examples
            ///
            /// ```
            #[doc = concat!("use byte_unit::{", stringify!($Size), ", FormatSpec, Needed, Unit};")]
            ///
            #[doc = concat!("let adjusted = ", stringify!($Size), "::KIBIBYTE.get_adjusted_unit(Unit::KB);")]
            /// assert_eq!(adjusted.write_text(FormatSpec::PLAIN, &mut [0; 8]), Ok(b"1.024 KB".as_slice()));
            /// assert_eq!(adjusted.write_text(FormatSpec::PLAIN, &mut []), Err(Needed { len: 8 }));
            /// ```
            #[inline]
            pub fn write_text(self, spec: FormatSpec, out: &mut [u8]) -> Result<&[u8], Needed> {
                let (size, unit) = (self.$get_size().as_u128(), self.get_unit());
                let len = crate::rendered::format::write_adjusted(size, $kind, unit, spec, out);
                out.get(..len).ok_or(Needed { len })
            }
        }

        impl Display for $Adjusted {
            /// Formats the size in the unit. See the documentation of the crate.
            fn fmt(&self, f: &mut Formatter<'_>) -> fmt::Result {
                text::format_adjusted(self.$get_size().as_u128(), $kind, self.get_unit(), f)
            }
        }

        impl Hash for $Adjusted {
            fn hash<H: Hasher>(&self, state: &mut H) {
                self.$get_size().hash(state);
            }
        }

        impl From<$Adjusted> for f64 {
            /// Returns the nearest float.
            fn from(adjusted: $Adjusted) -> Self {
                adjusted.get_value()
            }
        }
    };
}

of_adjusted! { Byte, AdjustedByte, Kind::Byte, get_byte }
of_adjusted! { Bit, AdjustedBit, Kind::Bit, get_bit }

impl Display for Unit {
    /// Formats the name, with the formatter's width, fill, alignment and precision.
    fn fmt(&self, f: &mut Formatter<'_>) -> fmt::Result {
        f.pad(self.as_str())
    }
}

#[allow(clippy::derivable_impls)] // The definition of the type is rendered.
impl Default for Sign {
    fn default() -> Self {
        Sign::Unset
    }
}

impl AsRef<str> for Unit {
    fn as_ref(&self) -> &str {
        self.as_str()
    }
}
