// Rendered from crates/byte_unit_lines/src/ending.rt by `tools/dev render rust`. Do not edit.

//! A call of the program: what its arguments ask for, its run, and how it ends.

use crate::rattle::String;
use crate::rattle::alloc::Global;
use crate::rattle::io::{Read, Write};
use crate::rendered::lines::report::{RunError, run};
use crate::rendered::stream::{Reading, Writing};
use byte_unit::rendered::base::Kind;

/// How a call of the program ended.
#[derive(Debug, Clone, Copy, PartialEq, Eq)]
pub enum Ending {
    /// All lines were answered.
    Done,
    /// The arguments are invalid.
    Usage,
    /// The run failed.
    Failed(RunError),
}

impl Ending {
    /// Returns the exit status: 0 if all lines were answered, 1 if the run failed, 2 if the arguments are invalid.
    pub fn status(self) -> u8 {
        match self {
            Ending::Done => 0,
            Ending::Failed(_) => 1,
            Ending::Usage => 2,
        }
    }

    /// Returns the line for standard error, without its line end, or `None` if all lines were answered.
    pub fn line(self) -> Option<&'static str> {
        match self {
            Ending::Done => None,
            Ending::Failed(error) => Some(fault_words(error)),
            Ending::Usage => Some("usage: byte_unit_lines [byte|bit]"),
        }
    }
}

/// Returns the line for standard error, without its line end, if a run fails with this error.
pub fn fault_words(error: RunError) -> &'static str {
    match error {
        RunError::Memory => "out of memory",
        RunError::Read => "read failed",
        RunError::Write => "write failed",
        RunError::Ended(never) => match never {},
    }
}

/// Runs the program for the kind of sizes that the arguments ask for. If they are invalid, reads and writes nothing.
pub fn serve<R: Read, W: Write>(
    alloc: Global,
    words: &[String],
    reader: &mut Reading<R>,
    writer: &mut Writing<W>,
) -> Ending {
    match kind_of(words) {
        None => Ending::Usage,
        Some(kind) => match run(alloc, reader, writer, kind) {
            Ok(()) => Ending::Done,
            Err(error) => Ending::Failed(error),
        },
    }
}

/// Returns the kind of sizes that the arguments ask for: bytes for `byte` or no argument, bits for `bit`.
///
/// Returns `None` for any other argument, and if there is more than one.
pub fn kind_of(words: &[String]) -> Option<Kind> {
    match words {
        [] => Some(Kind::Byte),
        [word] => match word.as_str() {
            "byte" => Some(Kind::Byte),
            "bit" => Some(Kind::Bit),
            _ => None,
        },
        _ => None,
    }
}
