// Rendered from crates/byte_unit_command/src/error.rt by `tools/dev render rust`. Do not edit.

//! Why a run ended early.

use crate::rendered::stream::run;

/// The reason of its own for which a run ended before the end of its input, or without its total.
#[derive(Debug, Clone, Copy, PartialEq, Eq)]
pub enum EndReason {
    /// A field was rejected in the mode `abort`.
    Rejected,
    /// The total of the sizes is 10^30 or more.
    Total,
}

/// The reason why a run ended before the end of its input, or without its total.
pub type RunError = run::RunError<EndReason>;

/// The result of a step of a run.
pub(crate) type RunResult = Result<(), RunError>;
