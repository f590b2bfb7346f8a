// Rendered from crates/byte_unit_command/src/options.rt by `tools/dev render rust`. Do not edit.

//! What a call of the program is to do.

use crate::rendered::command::field_list::FieldList;
pub use byte_unit::rendered::base::{Kind, ParseSpec, Unit};
pub use byte_unit::rendered::choice::UnitType;

/// How a size is formatted.
#[derive(Debug, Clone, Copy, PartialEq, Eq)]
pub enum Form {
    /// In the largest unit, not above the size, that represents it exactly within the precision. If a decimal prefix in
    /// a size means the binary one, as digits unless that unit has a binary prefix.
    Exact,
    /// As digits.
    Plain,
    /// In this unit.
    InUnit(Unit),
    /// As the number of this unit, without the unit.
    NumberOf(Unit),
    /// In the largest unit of the type that is not above the size.
    Largest(UnitType),
}

/// What happens at a field that is not a size.
#[derive(Debug, Clone, Copy, PartialEq, Eq)]
pub enum Invalid {
    /// The run ends before the field's record, with a message.
    Abort,
    /// The field is copied, with a message and exit status 2.
    Fail,
    /// The field is copied, with a message.
    Warn,
    /// The field is copied, without a message.
    Ignore,
}

/// What separates the fields of a record.
#[derive(Debug, Clone, Copy, PartialEq, Eq)]
pub enum Separator {
    /// This byte, between two fields.
    Byte(u8),
    /// Blanks, which are spaces and tabs: a field begins with those before it.
    Blanks,
}

/// A range of fields, which are counted from 1.
#[derive(Debug, Clone, Copy, PartialEq, Eq)]
pub struct FieldRange {
    /// The first field.
    pub first: u64,
    /// The last field; `None` for all that follow the first.
    pub last: Option<u64>,
}

/// The options of a call.
#[derive(Debug, Clone, Copy)]
pub struct Options<'a> {
    /// How a size is read.
    pub spec: ParseSpec,
    /// How a size is formatted.
    pub form: Form,
    /// The number of digits after the point: at most this many in the exact form (3 for `None`), and exactly this many
    /// in a unit with a prefix (all for `None`). The other texts have all their digits.
    pub precision: Option<u16>,
    /// What follows the text of a size, and is taken off before a field is read, also before white space; nothing for
    /// none.
    pub suffix: &'a [u8],
    /// The least number of bytes of a size, with its suffix; 0 for none.
    pub width: u16,
    /// Whether the spaces that fill the width are after the size, and not before it.
    pub align_left: bool,
    /// What separates fields; `None` if a record is one field.
    pub separator: Option<Separator>,
    /// The fields that are converted.
    pub fields: &'a FieldList,
    /// The byte that ends a record of the input.
    pub record_end: u8,
    /// The byte that ends a record of the output, and the total.
    pub output_end: u8,
    /// The number of records at the beginning that are copied.
    pub header: u64,
    /// What happens at a field that is not a size.
    pub invalid: Invalid,
    /// Whether the total of the sizes follows the last record.
    pub total: bool,
    /// The maximum of the sizes: a size above it has a message, and is counted as `Tally::beyond`.
    pub max: Option<u128>,
    /// The minimum of the sizes: a size below it has a message, and is counted as `Tally::beyond`.
    pub min: Option<u128>,
    /// Whether the message of a rejected field has a hint.
    pub hints: bool,
}
