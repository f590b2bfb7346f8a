// Rendered from crates/byte_unit_command/src/blanks.rt by `tools/dev render rust`. Do not edit.

//! Fields that a byte or blanks separate.

use crate::rendered::command::options::Separator;
use crate::rendered::stream::end_of;

/// Returns the bytes between two fields: none between blanks, where each field begins with the blanks before it.
#[inline(always)]
pub(crate) fn between(separator: &Separator) -> &[u8] {
    match separator {
        Separator::Byte(byte) => std::slice::from_ref(byte),
        Separator::Blanks => &[],
    }
}

/// Returns the number of bytes of the first field, or `None` if there is no other field.
#[inline(always)]
pub(crate) fn end_of_first(separator: Separator, bytes: &[u8]) -> Option<usize> {
    match separator {
        Separator::Byte(byte) => end_of(bytes, byte),
        Separator::Blanks => end_of_field(bytes),
    }
}

/// Returns the least number of columns of a size that replaces the field with this number. Without a width, a size
/// between blanks takes the columns of the field.
#[inline(always)]
pub(crate) fn columns_in(separator: Option<Separator>, width: u16, number: u64, field: &[u8]) -> usize {
    match separator {
        Some(Separator::Blanks) if width == 0 => columns_of(number > 1, field),
        _ => width as usize,
    }
}

/// Returns the blank before a field that separates it from the field before it; nothing for the first field, and if
/// fields are not between blanks.
#[inline(always)]
pub(crate) fn separating_blank(separator: Option<Separator>, number: u64, field: &[u8]) -> &[u8] {
    match (separator, field) {
        (Some(Separator::Blanks), [_, ..]) if number > 1 => &field[..1],
        _ => &[],
    }
}

/// Returns the columns of a field between blanks, without the blank that separates it if it is not the first field.
///
/// They are 0 for a first field that begins with no blank: it is not aligned to the right, so its size is not either.
fn columns_of(later: bool, field: &[u8]) -> usize {
    if later {
        return field.len().saturating_sub(1);
    }
    if begins_blank(field) {
        return field.len();
    }
    0
}

/// Returns `true` if there is a blank at the beginning.
fn begins_blank(bytes: &[u8]) -> bool {
    match bytes {
        [] => false,
        [first, ..] => is_blank(*first),
    }
}

/// Returns the number of bytes of the first field between blanks, or `None` if there is no other field.
fn end_of_field(bytes: &[u8]) -> Option<usize> {
    let mut i = 0;
    while bytes.len() - i > 1 {
        if ends_field(bytes[i], bytes[i + 1]) {
            return Some(i + 1);
        }
        i += 1;
    }
    None
}

/// Returns `true` if a field ends after this byte, before the next one.
fn ends_field(byte: u8, next: u8) -> bool {
    !is_blank(byte) && is_blank(next)
}

/// Returns `true` if the byte is a space or a tab.
fn is_blank(byte: u8) -> bool {
    byte == b' ' || byte == b'\t'
}
