// Rendered from crates/byte_unit_format/src/lib.rt by `tools/dev render rust`. Do not edit.

//! Formatting of sizes: digits only, a number with its unit, a size, a size in a given unit, and the digits of a size
//! with the size in its unit after them.
//!
//! Sizes in bytes and in bits share these functions, which take their `Kind`.

mod adjusted;
mod form;
mod layout;
mod parts;
mod plain;
mod spec;

pub use adjusted::{adjusted_len, display_adjusted, number_in_unit, write_adjusted};
pub use form::put::NARROW_TEXT;
pub use form::with_digits::write_with_digits;
pub use form::{binary_spec, text_len, write_text};
pub use layout::{layout_len, write_layout};
pub use parts::put;
pub use plain::{plain_len, write_plain};
pub use spec::{Align, FormatSpec, Sign};
