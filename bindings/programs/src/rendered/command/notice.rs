// Rendered from crates/byte_unit_command/src/notice.rt by `tools/dev render rust`. Do not edit.

//! Messages about fields, for standard error.

use crate::rattle::alloc::{AllocError, Allocator};
use crate::rattle::{String, Vec};
use crate::rendered::command::options::{Invalid, Options};
use crate::rendered::command::size::without_suffix;
use byte_unit::rendered::base::{Hint, LocatedError, Location, Quoted, hint_of, size};
use std::str;

/// The context of a record: what says how its fields are converted, and where they are.
#[derive(Clone, Copy)]
pub(crate) struct Context<'a> {
    /// The options of the run.
    pub options: &'a Options<'a>,
    /// What a record is called: `line`, `record` or `operand`.
    pub word: &'static str,
    /// The number of the record, counted from 1.
    pub number: u64,
}

/// Messages that are not written yet.
pub(crate) struct Notices<A: Allocator> {
    /// The messages, each whole.
    pub messages: Vec<u8, A>,
    /// A buffer for one message.
    pub line: String<A>,
    /// A buffer for the message of a parse error.
    pub words: String<A>,
}

/// Why a field is named in a message.
enum FieldError {
    /// It is not UTF-8.
    NotUtf8,
    /// It is rejected by the parser. Holds the error, and the hint that is told.
    Rejected(LocatedError, Option<Hint>),
    /// Its size is above the maximum.
    Above,
    /// Its size is below the minimum.
    Below,
}

/// Appends a message that a field is not a size, unless rejected fields are ignored. Parses the field for the error.
///
/// Precondition: the field is not a size.
///
/// # Errors
///
/// Returns `AllocError` if allocation fails. Nothing is appended then.
pub(crate) fn add_reject_notice<A: Allocator>(
    context: &Context,
    number: u64,
    field: &[u8],
    notices: &mut Notices<A>,
) -> Result<(), AllocError> {
    if !tells_rejected(context.options.invalid) {
        return Ok(());
    }
    let reason = reason_of(context.options, field);
    add_message(context, number, field, &reason, notices)
}

/// Returns `true` if there are messages about rejected fields.
fn tells_rejected(invalid: Invalid) -> bool {
    match invalid {
        Invalid::Ignore => false,
        Invalid::Abort | Invalid::Fail | Invalid::Warn => true,
    }
}

/// Returns the reason why a field is not a size.
///
/// Precondition: the field is not a size.
fn reason_of(options: &Options, field: &[u8]) -> FieldError {
    let text = without_suffix(options.suffix, field);
    match size::explain(text, options.spec) {
        Some(Err(error)) => {
            let hint = told_hint(options, error.location, text);
            FieldError::Rejected(error, hint)
        }
        // Never: a field that is parsed as a size is one.
        Some(Ok(_)) => FieldError::NotUtf8,
        None => FieldError::NotUtf8,
    }
}

/// Returns the hint for a text that is told, if hints are. There is none if only the size is too large.
fn told_hint(options: &Options, location: Location, text: &[u8]) -> Option<Hint> {
    match location {
        Location::Whole => None,
        Location::Character(_) | Location::End => {
            if options.hints {
                hint_of(str::from_utf8(text).ok()?)
            } else {
                None
            }
        }
    }
}

/// Appends the messages about a size that is beyond a limit.
///
/// # Errors
///
/// Returns `AllocError` if allocation fails.
#[cold]
#[inline(never)]
pub(crate) fn add_limit_notice<A: Allocator>(
    context: &Context,
    number: u64,
    field: &[u8],
    size: u128,
    notices: &mut Notices<A>,
) -> Result<(), AllocError> {
    let above = context.options.max.is_some_and(|most| most < size);
    let below = context.options.min.is_some_and(|least| size < least);
    add_message_if(above, context, number, field, &FieldError::Above, notices)?;
    add_message_if(below, context, number, field, &FieldError::Below, notices)
}

/// Appends a message if it is to be told.
///
/// # Errors
///
/// Returns `AllocError` if allocation fails. Nothing is appended then.
fn add_message_if<A: Allocator>(
    told: bool,
    context: &Context,
    number: u64,
    field: &[u8],
    reason: &FieldError,
    notices: &mut Notices<A>,
) -> Result<(), AllocError> {
    if told { add_message(context, number, field, reason, notices) } else { Ok(()) }
}

/// Appends a message.
///
/// # Errors
///
/// Returns `AllocError` if allocation fails. Nothing is appended then.
fn add_message<A: Allocator>(
    context: &Context,
    number: u64,
    field: &[u8],
    reason: &FieldError,
    notices: &mut Notices<A>,
) -> Result<(), AllocError> {
    notices.line.clear();
    add_heading(context, number, &mut notices.line)?;
    add_quoted(field, &mut notices.line)?;
    add_words(reason, &mut notices.words, &mut notices.line)?;
    notices.line.push_str("\n")?;
    notices.messages.extend_from_slice(notices.line.as_bytes())
}

/// Appends the beginning of a message about a field: where the field is.
///
/// # Errors
///
/// Returns `AllocError` if allocation fails.
fn add_heading<A: Allocator>(context: &Context, number: u64, line: &mut String<A>) -> Result<(), AllocError> {
    let word = context.word;
    let record = context.number;
    write!(line, "byte-unit: {word} {record}: ")?;
    match context.options.separator {
        None => Ok(()),
        Some(_) => write!(line, "field {number}: "),
    }
}

/// Appends a field or a value in quotes, as [`Quoted`] writes it, with a colon after it.
///
/// # Errors
///
/// Returns `AllocError` if allocation fails.
pub(crate) fn add_quoted<A: Allocator>(field: &[u8], line: &mut String<A>) -> Result<(), AllocError> {
    write!(line, "'{}': ", Quoted(field))
}

/// Appends the words for a reason. `words` is a buffer for them.
///
/// # Errors
///
/// Returns `AllocError` if allocation fails.
fn add_words<A: Allocator>(reason: &FieldError, words: &mut String<A>, line: &mut String<A>) -> Result<(), AllocError> {
    match reason {
        FieldError::NotUtf8 => line.push_str("not UTF-8"),
        FieldError::Rejected(error, hint) => {
            add_error(error, words, line)?;
            add_hint(hint, line)
        }
        FieldError::Above => line.push_str("above the maximum"),
        FieldError::Below => line.push_str("below the minimum"),
    }
}

/// Appends a hint, if there is one.
///
/// # Errors
///
/// Returns `AllocError` if allocation fails.
fn add_hint<A: Allocator>(hint: &Option<Hint>, line: &mut String<A>) -> Result<(), AllocError> {
    match hint {
        Some(hint) => write!(line, "; hint: {hint}"),
        None => Ok(()),
    }
}

/// Appends the message of an error of the parser, and where it is. `words` is a buffer for the message.
///
/// # Errors
///
/// Returns `AllocError` if allocation fails.
pub(crate) fn add_error<A: Allocator>(
    error: &LocatedError,
    words: &mut String<A>,
    line: &mut String<A>,
) -> Result<(), AllocError> {
    // Not to `line`: no contract says what `write!` leaves in its target for an error with a character that is not
    // ASCII, and what is in `line` has to stay.
    words.clear();
    write!(words, "{}", error.error)?;
    line.push_str(words.as_str())?;
    write!(line, "{}", error.location)
}
