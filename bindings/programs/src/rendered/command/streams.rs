// Rendered from crates/byte_unit_command/src/streams.rt by `tools/dev render rust`. Do not edit.

//! The streams of a run.

use crate::rendered::stream::{Reading, Writing};

/// What a run reads from and writes to.
pub struct Streams<R, W, E> {
    /// The input.
    pub reader: Reading<R>,
    /// What a message calls a record of the input: `line`, `record` or `operand`.
    pub word: &'static str,
    /// The output.
    pub writer: Writing<W>,
    /// Where messages about fields go. It records a failure; a run goes on without them then.
    pub errors: Writing<E>,
}
