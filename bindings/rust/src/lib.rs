//! Exact sizes in bytes and in bits: `1.5 GiB` is 1610612736, and 1610612736 is `1.5 GiB`.
//!
//! The names and signatures are those of the crate byte-unit 5.2.6 by magiclen. The code that parses and formats sizes
//! and chooses units is written and proved in Rattle, which is Rust with contracts, and rendered as Rust without them.
//!
//! # First program
//!
//! ```
//! use byte_unit::{Byte, Unit, UnitType};
//!
//! let quota: Byte = "1.5 GiB".parse()?;
//! let free = quota.subtract(Byte::from_u64_with_unit(900, Unit::MB).unwrap()).unwrap();
//! assert_eq!(free.as_u64(), 710_612_736);
//! assert_eq!(format!("{free:#}"), "693957.75 KiB");
//! assert_eq!(format!("{:.2}", free.get_appropriate_unit(UnitType::Binary)), "677.69 MiB");
//!
//! let error = "1.5 XB".parse::<Byte>().unwrap_err();
//! assert!(error.to_string().starts_with("the character 'X' is incorrect"));
//! assert_eq!(Byte::error_position("1.5 XB"), Some(4));
//! # Ok::<(), byte_unit::ParseError>(())
//! ```
//!
//! # With serde
//!
#![cfg_attr(not(doctest), doc = include_str!("serde_fields.md"))]
//!
//! # With clap
//!
#![cfg_attr(not(doctest), doc = include_str!("clap.md"))]
//!
//! # Calls
//!
//! [`Bit`] has them too, with `b` for its own unit.
//!
//! | To | Call |
//! |---|---|
//! | parse a string | `text.parse()`, [`Byte::parse_str`]; [`Byte::parse_str_binary`] if `K` means 1024, as in `10m` |
//! | parse what may not be UTF-8 | [`Byte::parse_bytes`] |
//! | parse a size in words, such as `5 bytes` | [`Byte::parse_str_as`], as a [`ParseSpec`] says |
//! | tell where a string is wrong, and what is meant | [`Byte::error_position`], [`hint_of`] |
//! | convert from a number | [`Byte::from_u64`], [`Byte::from_u128`], [`Byte::from_u64_with_unit`], [`Byte::from_f64`] |
//! | convert to a number | [`Byte::as_u64`], [`Byte::as_u64_checked`], [`Byte::as_u128`] |
//! | format exactly | `{:#}` |
//! | format for people, rounded | [`Byte::approximate_text`], [`Byte::get_appropriate_unit`] |
//! | format in a unit | [`Byte::get_adjusted_unit`] |
//! | format without an allocation | [`Byte::write_text`] |
//! | calculate | [`Byte::add`], [`Byte::subtract`], [`Byte::multiply`], [`Byte::divide`]: `None` if it is no size |
//! | parse a unit | [`Unit::parse_str`] |
//! | parse a column | [`Byte::parse_many`], [`Byte::parse_buffers`] |
//!
//! # Formatting
//!
//! | Format | Text of 10240 bytes |
//! |---|---|
//! | `{}` | `10240`; width, fill, alignment, sign and leading zeros as for an integer |
//! | `{:#}` | `10 KiB`: the largest unit, not above the size, that represents it exactly with at most 3 decimals |
//! | `{:#.6}` | at most 6 digits, and never more than 28 |
//! | `{:#12}`, `{:>#12}` | `10       KiB`, `      10 KiB`: spaces after or before the number |
//! | `{:-#}`, `{:+#}` | `10KiB`, `10 KiB`: no spaces, or unit and spaces take four columns |
//!
//! An adjusted size always has its unit: `{}` is all its digits, `{:.2}` is rounded to two places, ties to even, and
//! `{:#.2}` to at most two, ties up, without trailing zeros. With a unit, the padding is always spaces.
//!
//! # Without std
//!
//! No call allocates but `approximate_text`, which the feature `std` has. Without that feature, the package needs
//! `core` alone.
#![no_std]
#![warn(missing_docs)]

// The length of a text with a precision of 65535 has more than 16 bits.
#[cfg(target_pointer_width = "16")]
compile_error!("byte-unit is for pointers of 32 or of 64 bits");

#[cfg(feature = "std")]
extern crate std;

// First, as its methods then are, in the documentation, which has them in the order of the modules.
mod text;

mod decimal;
mod errors;
// The rendered sources, and what they need, are for the packages of this repository alone: their functions may have
// preconditions, which rustc does not check.
#[cfg(not(feature = "internal"))]
mod rendered;
#[cfg(feature = "internal")]
#[doc(hidden)]
pub mod rendered;
#[cfg(feature = "rust_decimal")]
mod rust_decimal_traits;
#[cfg(feature = "serde")]
pub mod serde_fields;
#[cfg(feature = "serde")]
mod serde_traits;
mod sizes;
#[cfg(not(feature = "internal"))]
#[allow(dead_code)]
mod support;
#[cfg(feature = "internal")]
#[allow(missing_docs)]
#[doc(hidden)]
pub mod support;

// Last, for the same reason.
mod many;

#[cfg(feature = "rust_decimal")]
pub extern crate rust_decimal;

pub use core::num::TryFromIntError;

pub use errors::{BuffersError, InexactFloatError, Needed, RowError};
pub use many::Offset;
pub use rendered::base::{
    ExceededBoundsError, Hint, Kind, ParseError, ParseSpec, Unit, UnitParseError, ValueParseError, hint_of,
};
pub use rendered::bit::{AdjustedBit, Bit};
pub use rendered::byte::{AdjustedByte, Byte};
pub use rendered::choice::UnitType;
pub use rendered::format::{Align, FormatSpec, Sign};
pub use rendered::math::Decimal;
