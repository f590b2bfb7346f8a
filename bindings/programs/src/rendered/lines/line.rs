// Rendered from crates/byte_unit_lines/src/line.rt by `tools/dev render rust`. Do not edit.

//! The answer to one line.

use crate::rattle::Vec;
use crate::rattle::alloc::{AllocError, Allocator};
use byte_unit::rendered::base::size::parse_line;
use byte_unit::rendered::base::{Kind, ParseError, ParseSpec, ValueParseError};
use byte_unit::rendered::format::write_with_digits;

/// A bound on the length in bytes of an answer: two strings of at most 37 bytes, ` = ` between them, and the line end.
/// No text of a size without a width is longer than 37 bytes.
const ANSWER_MAX: usize = 78;

/// Appends the answer to the line at the beginning of bytes, its first `len` bytes, with its line end.
///
/// Precondition: `len <= bytes.len()`, and the line ends there: the next byte is a line end, or
/// there is none.
///
/// # Errors
/// Returns `AllocError`, and appends nothing, if allocation fails.
pub(crate) fn add_answer<A: Allocator>(
    bytes: &[u8],
    len: usize,
    kind: Kind,
    out: &mut Vec<u8, A>,
) -> Result<(), AllocError> {
    match kind {
        Kind::Byte => add_answer_of::<false, A>(bytes, len, out),
        Kind::Bit => add_answer_of::<true, A>(bytes, len, out),
    }
}

/// Does what [`add_answer`] does, with a size in bits if `BITS`, and else in bytes.
///
/// The kind is a constant for the row `1.5 KiB` of lines in docs/SPEED.md, and the arm for errors comes before that for
/// sizes for the row `rejected lines`.
fn add_answer_of<const BITS: bool, A: Allocator>(
    bytes: &[u8],
    len: usize,
    out: &mut Vec<u8, A>,
) -> Result<(), AllocError> {
    let spec = if BITS { ParseSpec::BITS } else { ParseSpec::BYTES };
    match parse_line(bytes, len, spec) {
        None => out.extend_from_slice(b"not text\n"),
        Some(Err(error)) => out.extend_from_slice(fault_line_of(&error)),
        Some(Ok(size)) => {
            let mut answer = [0; ANSWER_MAX];
            let end = write_with_digits(size, spec.kind, *b" = ", &mut answer);
            answer[end] = b'\n';
            out.extend_from_slice(&answer[..end + 1])
        }
    }
}

/// Returns the message for a parse error, with the line end.
fn fault_line_of(error: &ParseError) -> &'static [u8] {
    match error {
        ParseError::Value(ValueParseError::ExceededBounds(_)) => b"out of range\n",
        ParseError::Value(ValueParseError::NotNumber(_)) => b"not a number\n",
        ParseError::Value(ValueParseError::NoValue) => b"no value\n",
        ParseError::Value(ValueParseError::NumberTooLong) => b"number too long\n",
        ParseError::Unit(_) => b"bad unit\n",
    }
}
