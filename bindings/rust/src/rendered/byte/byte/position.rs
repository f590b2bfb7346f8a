// Rendered from crates/byte_unit_byte/src/byte/position.rt by `tools/dev render rust`. Do not edit.

//! Where a string that is no size in bytes is wrong.

use super::Byte;
use crate::rendered::base::size;

impl Byte {
    /// Returns the index in bytes of the first wrong character of a string that [`Byte::parse_str`] rejects: up to
    /// there the string, without the white space at its ends, begins a size, and with that character it begins none.
    /// If it ends too early, the index is that of its end, before white space there; of white space alone, its length.
    ///
    /// Returns `None` if the string is accepted, or if only its size is too large. The index does not depend on
    /// `ignore_case`. If the number is too long, it is that of the digit which makes it so.
    ///
    /// # Examples
    /// ```
    /// # use byte_unit::rendered::{base::{size::parse_line, *}, bit::*, byte::*, choice::*, format::*, math::*};
    /// use byte_unit::Byte;
    ///
    /// assert_eq!(Byte::error_position("1 byte"), Some(3));
    /// assert_eq!(Byte::error_position("  1."), Some(4));
    /// assert_eq!(Byte::error_position("0.12345678901234567890123456789 KB"), Some(30));
    /// assert_eq!(Byte::error_position("1.5 KiB"), None);
    /// ```
    #[inline]
    pub fn error_position<S: AsRef<str>>(s: S) -> Option<usize> {
        let s = s.as_ref();
        size::error_position(s)
    }
}
