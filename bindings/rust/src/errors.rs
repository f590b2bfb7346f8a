//! The errors that the original does not have.

use core::error::Error;
use core::fmt::{self, Display, Formatter};

use crate::ParseError;

/// The error of a text in a column, of `parse_many`.
#[derive(Debug, Clone, Copy, PartialEq, Eq)]
pub struct RowError {
    /// The row of the text, from 0.
    pub row: usize,
    /// Why the text is no size.
    pub error: ParseError,
}

/// The error of a column whose offsets do not fit its data, or whose buffers do not fit its number of texts.
///
/// # Examples
///
/// ```
/// use byte_unit::{BuffersError, Byte};
///
/// let parsed = Byte::parse_buffers(b"1 KB", &[0i32, 5], false, &mut [Byte::MIN], &mut [0]);
/// assert_eq!(parsed, Err(BuffersError));
/// ```
#[derive(Debug, Clone, Copy, PartialEq, Eq)]
pub struct BuffersError;

/// The error of a buffer that is too short for a text, of `write_text`: the length that the text needs.
#[derive(Debug, Clone, Copy, PartialEq, Eq)]
pub struct Needed {
    /// The length of the text in bytes.
    pub len: usize,
}

/// The error of a float that is not a [`Decimal`](crate::Decimal).
///
/// # Examples
///
/// ```
/// use byte_unit::{Decimal, InexactFloatError};
///
/// assert_eq!(Decimal::try_from(0.1), Err(InexactFloatError));
/// assert_eq!(Decimal::try_from(3.5).unwrap().to_string(), "3.5");
/// ```
#[derive(Debug, Clone, Copy, PartialEq, Eq)]
pub struct InexactFloatError;

/// Defines what errors say.
macro_rules! says {
    ($($Error:ident $error:ident $text:literal $($field:expr)*;)*) => { $(
        impl Display for $Error {
            fn fmt(&self, f: &mut Formatter<'_>) -> fmt::Result {
                let $error = self;
                write!(f, $text $(, $field)*)
            }
        }

        impl Error for $Error {}
    )* };
}

says! {
    RowError error "row {}: {}" error.row error.error;
    BuffersError _error "the offsets do not fit the data, or the buffers the number of texts";
    Needed error "the text needs a buffer of {} bytes" error.len;
    InexactFloatError _error "the float is negative, too large, or not exact in 28 decimal places";
}
