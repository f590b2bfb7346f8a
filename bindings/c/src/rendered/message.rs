// Rendered from crates/byte_unit_c/src/message.rt by `tools/dev render rust`. Do not edit.

//! The messages of errors, with their locations.

use crate::rendered::texts::write;
use crate::slices::Out;
use byte_unit::rendered::base::{Expected, LocatedError, Location, ParseError, ValueParseError};
use byte_unit::rendered::format::put;
use byte_unit::rendered::math::{decimal_len, put_u128};
use byte_unit::support::InlineText;

/// The words for the end of a text.
const END: &[u8] = b" (at the end of the text)";

/// Writes the message of an error, and after it its location, to the start of `out` if they fit, and returns their
/// length, at most 256 bytes.
///
/// Most messages are known but for a character and its number, and are put together without a `Formatter`, for the row
/// `explain 1 byte` of docs/SPEED.md.
///
/// Precondition: `error.expected` is what the error names as expected.
pub fn write_message(error: &LocatedError, out: &mut [Out<u8>]) -> usize {
    match message_parts(error) {
        Some((character, rest)) => write_quoted(character, rest, error.location, out),
        None => write_formatted(error, out),
    }
}

/// Writes a message as `write_message` does, by its `Display`.
#[cold]
#[inline(never)]
fn write_formatted(error: &LocatedError, out: &mut [Out<u8>]) -> usize {
    write(some_message(message_of(error).as_str().as_bytes()), out)
}

/// Returns the character that the message of an error quotes, and what follows it there. Returns `None` if it quotes no
/// character, or not as it is.
fn message_parts(error: &LocatedError) -> Option<(u8, &'static [u8])> {
    match &error.error {
        ParseError::Value(ValueParseError::NotNumber(c)) if is_plain(*c) => Some((*c as u8, b"' is not a number")),
        ParseError::Unit(unit) if is_plain(unit.character) => {
            let rest = rest_of_message(error.expected, unit.also_expect_no_character)?;
            Some((unit.character as u8, rest))
        }
        _ => None,
    }
}

/// Returns whether a message has the character between quotes (39) as it is.
fn is_plain(c: char) -> bool {
    // The printable ASCII characters, without the two that `Debug` escapes.
    (' ' <= c) & (c <= '~') & (c != '\'') & (c != '\\')
}

/// Returns the rest of the message of an error in the unit, after its character, from what is expected and whether the
/// string could end there. Returns `None` if no parser returns such an error.
fn rest_of_message(expected: Expected, may_end: bool) -> Option<&'static [u8]> {
    match (expected, may_end) {
        (Expected::Beginning, true) => {
            Some(b"' is incorrect ('B', 'K', 'M', 'G', 'T', 'P', 'E', 'Z', 'Y' or 'R' or no character is expected)")
        }
        (Expected::EitherB, true) => Some(b"' is incorrect ('B' or 'b' or no character is expected)"),
        (Expected::UpperB, true) => Some(b"' is incorrect ('B' or no character is expected)"),
        (Expected::LowerB, true) => Some(b"' is incorrect ('b' or no character is expected)"),
        (Expected::I, true) => Some(b"' is incorrect ('i' or no character is expected)"),
        (Expected::T, false) => Some(b"' is incorrect ('t' is expected)"),
        (Expected::S, true) => Some(b"' is incorrect ('s' or no character is expected)"),
        (Expected::Nothing, true) => Some(b"' is incorrect (no character is expected)"),
        _ => None,
    }
}

/// Writes `the character '`, a character of ASCII, the rest of a message and the words for a location to the start of
/// `out` if they fit, and returns their length.
fn write_quoted(character: u8, rest: &[u8], location: Location, out: &mut [Out<u8>]) -> usize {
    // The beginning has 15 bytes, and the character one.
    let len = 16 + rest.len() + location_len(location);
    if len <= out.len() {
        put_quoted(character, rest, location, out, len);
    }
    len
}

/// Returns the length of the words for a location.
fn location_len(location: Location) -> usize {
    match location {
        Location::Whole => 0,
        // ` (character ` has 12 bytes, and `)` one.
        Location::Character(number) => 13 + decimal_len(number as u128),
        Location::End => END.len(),
    }
}

/// Writes what `write_quoted` does so that it ends before the index `end`, and returns the index where it begins.
fn put_quoted(character: u8, rest: &[u8], location: Location, out: &mut [Out<u8>], end: usize) -> usize {
    let after = put_location(location, out, end);
    let quote = put(rest, out, after);
    let beginning = put(&[character], out, quote);
    put(b"the character '", out, beginning)
}

/// Writes the words for a location so that they end before the index `end`, and returns the index where they begin.
fn put_location(location: Location, out: &mut [Out<u8>], end: usize) -> usize {
    match location {
        Location::Whole => end,
        Location::Character(number) => {
            let digits = put(b")", out, end);
            let words = put_u128(number as u128, out, digits);
            put(b" (character ", out, words)
        }
        Location::End => put(END, out, end),
    }
}

/// Returns the message of an error. The longest message has some 150 bytes, so none is truncated.
fn message_of(error: &LocatedError) -> InlineText<256> {
    InlineText::of(error)
}

/// Returns the message, or `the text is not a size` if it is empty. No message is empty, but std specifies no message
/// that quotes a character past ASCII.
fn some_message(message: &[u8]) -> &[u8] {
    if message.is_empty() { b"the text is not a size" } else { message }
}
