//! The programs `byte_unit_lines` and `byte-unit`: each is what its `main` calls.

#[cfg(feature = "command")]
mod clap;
#[cfg(feature = "command")]
mod names;
// `byte_unit_lines` uses less of it.
#[cfg_attr(not(feature = "command"), allow(dead_code, unused_imports, unused_macros))]
mod rattle;
mod rendered;

use rattle::HostRuntime;
use std::process::ExitCode;

/// Answers the lines of standard input, as `byte_unit_lines` does.
pub fn answer_lines() -> ExitCode {
    rendered::lines::main(HostRuntime)
}

/// Converts sizes, as `byte-unit` does.
#[cfg(feature = "command")]
pub fn convert_sizes() -> ExitCode {
    rendered::cli::main(HostRuntime)
}
