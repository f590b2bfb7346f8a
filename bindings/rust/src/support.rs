//! What the rendered sources use of Rattle's std that stable Rust does not have, and functions of theirs of which rustc
//! makes fewer instructions as they are written here.

use core::fmt::{self, Display, Formatter, Write};

use crate::rendered::math::power_of_ten;

pub mod lanes;

/// Reads the digits of `bytes` from the index `from` on. Returns the index after the last of them, and the number
/// `so_far` with these digits appended, wrapped to 64 bits.
#[inline(always)]
pub fn read_digits(bytes: &[u8], from: usize, so_far: u64) -> (usize, u64) {
    let mut value = so_far;
    let Some(mut rest) = bytes.get(from..) else { return (from, value) };
    while let Some((eight, after)) = rest.split_first_chunk() {
        // A digit is its value here, and any other byte is ten or more.
        let word = u64::from_le_bytes(*eight) ^ 0x3030_3030_3030_3030;
        // The lowest upper bit is that of the first byte that is ten or more: no sum before it carries into the next.
        let others = (word.wrapping_add(0x7676_7676_7676_7676) | word) & 0x8080_8080_8080_8080;
        if others != 0 {
            let count = others.trailing_zeros() / 8;
            // Leading zeros in place of the bytes after the digits. Two shifts, since a shift by 64 is not defined.
            let digits = value_of_eight(word << (56 - 8 * count) << 8);
            value = value.wrapping_mul(power_of_ten(count) as u64).wrapping_add(digits);
            return (bytes.len() - rest.len() + count as usize, value);
        }
        value = value.wrapping_mul(100_000_000).wrapping_add(value_of_eight(word));
        rest = after;
    }
    while let Some((digit, after)) = rest.split_first().filter(|(byte, _)| byte.is_ascii_digit()) {
        value = value.wrapping_mul(10).wrapping_add(u64::from(digit - b'0'));
        rest = after;
    }
    (bytes.len() - rest.len(), value)
}

/// Returns the value of eight digits, of which the first is the lowest byte: of pairs, then of fours, then of all.
#[inline(always)]
pub fn value_of_eight(word: u64) -> u64 {
    let pairs = (word.wrapping_mul(1 + (10 << 8)) >> 8) & 0x00ff_00ff_00ff_00ff;
    let fours = (pairs.wrapping_mul(1 + (100 << 16)) >> 16) & 0x0000_ffff_0000_ffff;
    fours.wrapping_mul(1 + (10_000 << 32)) >> 32
}

/// A place for a byte of a text: in Rust a byte. In C's memory it may have no value before it is written.
pub trait Place: Copy {
    /// Makes a place of its byte.
    fn of(byte: u8) -> Self;

    /// Copies bytes to as many places.
    fn copy(places: &mut [Self], bytes: &[u8]);
}

impl Place for u8 {
    #[inline(always)]
    fn of(byte: u8) -> u8 {
        byte
    }

    #[inline(always)]
    fn copy(places: &mut [u8], bytes: &[u8]) {
        places.copy_from_slice(bytes);
    }
}

/// Returns the character at an index, or `None` at the end.
#[inline(always)]
pub fn char_at(text: &str, index: usize) -> Option<char> {
    match text.as_bytes().get(index) {
        Some(byte) if byte.is_ascii() => Some(char::from(*byte)),
        _ => text[index..].chars().next(),
    }
}

/// Writes a character as `Debug` does, without quotes, between two texts: at once if it is not escaped.
pub fn write_quoted(f: &mut Formatter<'_>, before: &str, c: char, after: &str) -> fmt::Result {
    f.write_str(before)?;
    match c {
        ' '..='~' if c != '\'' && c != '\\' => f.write_char(c)?,
        _ => c.escape_debug().try_for_each(|part| f.write_char(part))?,
    }
    f.write_str(after)
}

/// A text of at most `N` bytes, without an allocation.
pub struct InlineText<const N: usize> {
    bytes: [u8; N],
    len: usize,
}

impl<const N: usize> InlineText<N> {
    /// Formats a value. A text that is longer than `N` bytes ends before the first part that does not fit.
    pub fn of<T: Display + ?Sized>(value: &T) -> Self {
        let mut text = InlineText { bytes: [0; N], len: 0 };
        // What does not fit is left out.
        let _ = write!(text, "{value}");
        text
    }

    /// Returns the text.
    pub fn as_str(&self) -> &str {
        core::str::from_utf8(&self.bytes[..self.len]).unwrap_or_default()
    }
}

impl<const N: usize> Write for InlineText<N> {
    fn write_str(&mut self, part: &str) -> fmt::Result {
        let end = self.len + part.len();
        self.bytes.get_mut(self.len..end).ok_or(fmt::Error)?.copy_from_slice(part.as_bytes());
        self.len = end;
        Ok(())
    }
}

/// Returns the number if it is not negative: `try_from` is no `const fn`.
#[inline]
pub const fn u128_of(number: i128) -> Option<u128> {
    if number >= 0 { Some(number as u128) } else { None }
}

/// Returns the number if it is below 2^64: `try_from` is no `const fn`.
#[inline]
pub const fn u64_of(number: u128) -> Option<u64> {
    if number <= u64::MAX as u128 { Some(number as u64) } else { None }
}
