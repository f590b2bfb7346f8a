// Rendered from crates/byte_unit_base/src/read/unit.rt by `tools/dev render rust`. Do not edit.

//! Parses a unit from a line, by tables.

use crate::rendered::base::Unit;
use crate::rendered::base::read::load::eight_at;
use crate::rendered::base::spec::Flags;
use crate::rendered::base::stop::{ByteStop, UnitStop, letters};
use crate::rendered::base::unit::tables::{BY_POWER, LETTER_POWERS};

/// Parses a unit from a line, from an index on to its end. Nothing is trimmed. The line is at the beginning of `bytes`.
///
/// There is no branch on the letters where eight bytes can be loaded, for the row `mix` of docs/SPEED.md.
///
/// # Errors
/// Returns what was read and where it stops, by the index counted from `from`: at a character that cannot continue the
/// unit, or at the end if the suffix is incomplete, as only `bi` is, of length 2.
#[inline(always)]
pub(crate) fn read_unit(line: &[u8], bytes: &[u8], from: usize, flags: Flags) -> Result<Unit, ByteStop<UnitStop>> {
    if from == line.len() {
        return Ok(unit_with_prefix(0, false, !flags.prefer_byte));
    }
    let text = eight_at(bytes, from);
    let power = usize::from(LETTER_POWERS[(text % 256) as usize]);
    let second = (text / 256 % 256) as u8;
    let binary = (power != 0) & ((second == b'i') | (second == b'I'));
    let start = usize::from(power != 0) + usize::from(binary);
    let suffix = text >> (8 * start);
    let length = crate::support::lanes::suffix_len(suffix);
    let upper = (suffix % 256) as u8 == b'B';
    let end = start + length;
    if end == line.len() - from && length != 2 {
        return Ok(unit_with_prefix(power, binary, counts_bits(length, upper, flags)));
    }
    Err(ByteStop { index: end, reason: UnitStop { has_prefix: power != 0, word: letters(length) } })
}

/// Returns the unit with the prefix of this position, or without a prefix if it is 0.
#[inline(always)]
pub(crate) fn unit_with_prefix(power: usize, binary: bool, bit: bool) -> Unit {
    BY_POWER[power][2 * usize::from(binary) + usize::from(bit)]
}

/// Returns whether a unit with this suffix, the first `length` letters of `bits`, is of bits. The suffix `b` is of
/// bytes as `B` (`upper`), and with `ignore_case` in lower case too.
#[inline(always)]
fn counts_bits(length: usize, upper: bool, flags: Flags) -> bool {
    (length > 2) | ((length == 1) & !upper & !flags.ignore_case) | ((length == 0) & !flags.prefer_byte)
}
