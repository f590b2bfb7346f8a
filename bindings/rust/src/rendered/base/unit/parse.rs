// Rendered from crates/byte_unit_base/src/unit/parse.rt by `tools/dev render rust`. Do not edit.

//! The parser of a unit in a string.

use crate::rendered::base::read::leading_len;
use crate::rendered::base::read::unit::read_unit;
use crate::rendered::base::spec::Flags;
use crate::rendered::base::stop::{Stop, UnitStop};
use crate::rendered::base::{Unit, UnitParseError};
use core::str::FromStr;

impl Unit {
    /// Parses a unit from a string. White space at its ends is ignored.
    ///
    /// A unit is an optional prefix and an optional suffix. The prefix is a letter in either case, optionally followed
    /// by `i` or `I`. The suffix is `B` for bytes; `b` for bits, or with `ignore_case` for bytes; or `bit` or `bits` in
    /// any case for bits. Without a suffix the unit is of bytes if `prefer_byte` is set, and else of bits.
    ///
    /// # Errors
    /// Returns the first character, from the left, that cannot continue a unit, with characters that are valid in its
    /// place, and whether the string could end there. The characters are not all that are valid: the other case of a
    /// letter and an `i` after a prefix are left out. If the string ends after the `bi` of a suffix, the character is
    /// `i`, also for an `I`.
    ///
    /// # Examples
    /// ```
    /// # use byte_unit::rendered::{base::{size::parse_line, *}, bit::*, byte::*, choice::*, format::*, math::*};
    /// use byte_unit::Unit;
    ///
    /// assert_eq!(Unit::parse_str("Kib", false, true)?, Unit::Kibit);
    /// assert_eq!(Unit::parse_str("Kib", true, true)?, Unit::KiB);
    /// assert!(Unit::parse_str("Kx", false, true).is_err());
    /// # Ok::<(), Box<dyn std::error::Error>>(())
    /// ```
    pub fn parse_str<S: AsRef<str>>(s: S, ignore_case: bool, prefer_byte: bool) -> Result<Unit, UnitParseError> {
        let s = s.as_ref();
        let flags = Flags::new(ignore_case, prefer_byte);
        match read_unit_text(s, flags) {
            Ok(unit) => Ok(unit),
            Err(stop) => Err(stop.reason.error_before(stop.next, flags)),
        }
    }

    /// Returns the index in bytes of the first wrong character of a string that [`Unit::parse_str`] rejects: up to
    /// there the string, without the white space at its ends, begins a unit, and with that character it begins none.
    /// If it ends too early, the index is that of its end, before white space there; of white space alone, its length.
    ///
    /// Returns `None` if the string spells a unit. The index does not depend on the options of `parse_str`.
    ///
    /// # Examples
    /// ```
    /// # use byte_unit::rendered::{base::{size::parse_line, *}, bit::*, byte::*, choice::*, format::*, math::*};
    /// use byte_unit::Unit;
    ///
    /// assert_eq!(Unit::error_position("Kix"), Some(2));
    /// assert_eq!(Unit::error_position(" bi "), Some(3));
    /// assert_eq!(Unit::error_position("Kib"), None);
    /// ```
    pub fn error_position<S: AsRef<str>>(s: S) -> Option<usize> {
        let s = s.as_ref();
        match read_unit_text(s, Flags::ANY) {
            Ok(_) => None,
            Err(stop) => Some(stop.index),
        }
    }
}

/// Parses a unit as [`Unit::parse_str`] does, and leaves the error to be made by [`UnitStop::error_before`].
///
/// # Errors
/// Returns where the parser stops in the string, at the index that [`Unit::error_position`] returns, and what was read
/// before.
///
/// # Examples
/// ```
/// # use byte_unit::rendered::{base::{size::parse_line, *}, bit::*, byte::*, choice::*, format::*, math::*};
/// use byte_unit::Unit;
///
/// let flags = ParseSpec::BYTES.flags();
/// assert!(matches!(read_unit_text("KiB", flags), Ok(Unit::KiB)));
/// assert!(matches!(read_unit_text(" Kix", flags), Err(Stop { next: Some('x'), index: 3, .. })));
/// ```
#[inline(always)]
pub fn read_unit_text(s: &str, flags: Flags) -> Result<Unit, Stop<UnitStop>> {
    let text = s.trim();
    let bytes = text.as_bytes();
    match read_unit(bytes, bytes, 0, flags) {
        Ok(found) => Ok(found),
        Err(stop) => Err(Stop {
            reason: stop.reason,
            next: crate::support::char_at(text, stop.index),
            index: leading_len(s) + stop.index,
        }),
    }
}

/// Parses as `Unit::parse_str` does with `ignore_case` unset and `prefer_byte` set.
impl FromStr for Unit {
    type Err = UnitParseError;

    fn from_str(s: &str) -> Result<Unit, UnitParseError> {
        Unit::parse_str(s, false, true)
    }
}
