// Rendered from crates/byte_unit_cli/src/main.rt by `tools/dev render rust`. Do not edit.

//! Converts sizes: the operands, or the lines of standard input, each to the form that the options ask for.

use crate::clap::ArgMatches;
use crate::clap::error::ErrorKind;
use crate::rattle::alloc::AllocError;
use crate::rattle::io::Read;
use crate::rattle::{HostRuntime, String, Vec, eprint, eprintln, format};
use crate::rattle::{env, io};
use crate::rendered::command::arguments::command;
use crate::rendered::command::ending::{message, status};
use crate::rendered::command::field_list::fields_of;
use crate::rendered::command::meaning::options_of;
use crate::rendered::command::operands::joined;
use crate::rendered::command::options::{Options, Unit};
use crate::rendered::command::run::run;
use crate::rendered::command::streams::Streams;
use crate::rendered::command::values::values_of;
use crate::rendered::command::wrong::{Wrong, escaped_lines, with_marks};
use crate::rendered::stream::{Reading, Writing};
use std::process::ExitCode;

/// The exit status if a write failed, or if the call was out of memory.
const FAILED: u8 = 1;

/// The exit status of a call that is wrong.
const WRONG: u8 = 2;

/// The exit status if the reader of the output has gone, as a shell has it for the signal of a broken pipe: 128 and the
/// number of the signal, 13.
const CLOSED: u8 = 141;

/// Converts what `input` gives, and returns the exit status.
fn convert<R: Read>(rt: &HostRuntime, options: &Options, word: &'static str, input: R) -> u8 {
    let mut streams = Streams {
        reader: Reading::new(input),
        word,
        writer: Writing::new(io::writer(rt)),
        errors: Writing::new(rt.stderr()),
    };
    let ended = run(rt.alloc(), options, &mut streams);
    if let Err(error) = ended {
        if streams.writer.closed() {
            return CLOSED;
        }
        if let Some(text) = message(error) {
            // Ignored on failure: the exit status reports the ending too.
            let _ = eprintln!(rt; "byte-unit: {text}");
        }
    }
    status(options.invalid, ended)
}

/// Converts the operands, or standard input if there are none, and returns the exit status.
///
/// # Errors
///
/// Returns `AllocError` if allocation fails before anything is read.
fn convert_call(rt: &HostRuntime, matches: &ArgMatches, options: &Options) -> Result<u8, AllocError> {
    if let Some(operands) = matches.get_strs("SIZE") {
        let input = joined(rt.alloc(), operands)?;
        let status = convert(rt, options, "operand", input.as_slice());
        if status == WRONG && has_split_size(operands) {
            let _ = eprintln!(rt;
                "byte-unit: a number and its unit were two operands; quote them as one, as in '5 KB'"
            );
        }
        return Ok(status);
    }
    let input = rt.reader();
    if input.is_terminal() {
        let _ = eprintln!(rt;
            "byte-unit: reading sizes from the terminal, one a line; end with Ctrl-D"
        );
    }
    let word = if options.record_end == 0 { "record" } else { "line" };
    Ok(convert(rt, options, word, input))
}

/// Returns `true` if an operand is a number and the next one a unit, as in `byte-unit 5 KB`.
fn has_split_size(operands: &[&str]) -> bool {
    operands.windows(2).any(|pair| match pair {
        [number, unit] => is_number(number) && is_unit(unit),
        _ => false,
    })
}

/// Returns `true` if the word has only digits and points.
fn is_number(word: &str) -> bool {
    !word.is_empty() && word.bytes().all(|byte| byte.is_ascii_digit() || byte == b'.')
}

/// Returns `true` if the word spells a unit, in any case.
fn is_unit(word: &str) -> bool {
    Unit::parse_str(word, true, true).is_ok() && !word.trim().is_empty()
}

/// Writes what is wrong with the call, and returns the exit status.
///
/// # Errors
///
/// Returns `AllocError` if allocation fails.
fn report(rt: &HostRuntime, wrong: &Wrong) -> Result<u8, AllocError> {
    let message = wrong.message(rt.alloc())?;
    // Ignored on failure: the exit status reports what is wrong too.
    let _ = eprintln!(rt; "byte-unit: {message}");
    Ok(WRONG)
}

/// Writes the help or the version, and returns the exit status.
///
/// # Errors
///
/// Returns an error if allocation fails.
fn print(rt: &HostRuntime, error: &crate::clap::Error) -> io::Result<u8> {
    match error.print(rt) {
        Ok(()) => Ok(0),
        Err(failure) if failure.kind() == io::ErrorKind::OutOfMemory => Err(failure),
        Err(failure) if failure.kind() == io::ErrorKind::BrokenPipe => Ok(CLOSED),
        Err(_) => {
            let _ = eprintln!(rt; "byte-unit: write failed");
            Ok(FAILED)
        }
    }
}

/// Does what a call without matches asks for: writes the help, the version, or what clap finds wrong with it. Returns
/// the exit status.
///
/// # Errors
///
/// Returns an error if allocation fails.
fn print_or_report(rt: &HostRuntime, words: &[String], error: &crate::clap::Error) -> io::Result<u8> {
    if error.kind() == ErrorKind::OutOfMemory {
        return Err(io::Error::from(AllocError));
    }
    if !error.use_stderr() {
        return print(rt, error);
    }
    let text = error_text(rt, words, error)?;
    let text = escaped_lines(rt.alloc(), text.as_str())?;
    let message = text.strip_prefix("error: ").unwrap_or(text.as_str());
    // Ignored on failure: the exit status reports what is wrong too.
    let _ = eprint!(rt; "byte-unit: {message}");
    Ok(WRONG)
}

/// Returns what clap finds wrong with the words of a call, with a zero byte for each line feed of a word: clap's text
/// does not tell these from its own.
///
/// # Errors
///
/// Returns `AllocError` if allocation fails.
fn error_text(rt: &HostRuntime, words: &[String], error: &crate::clap::Error) -> Result<String, AllocError> {
    let marked = with_marks(rt.alloc(), words)?;
    match command(rt.alloc())?.try_get_matches_from(marked.as_slice()) {
        Ok(_) => clap_text(rt, error),
        Err(error) => clap_text(rt, &error),
    }
}

/// Returns what clap says of an error.
///
/// # Errors
///
/// Returns `AllocError` if allocation fails, or if it failed in clap.
fn clap_text(rt: &HostRuntime, error: &crate::clap::Error) -> Result<String, AllocError> {
    if error.kind() == ErrorKind::OutOfMemory {
        return Err(AllocError);
    }
    format!(in rt.alloc(); "{error}")
}

/// Parses the command line, does what it asks for, and returns the exit status.
///
/// # Errors
///
/// Returns an error if the arguments cannot be read, or if allocation fails.
fn answer(rt: &HostRuntime) -> io::Result<u8> {
    let mut words = Vec::new(rt.alloc());
    for word in env::args(rt)? {
        words.push(word)?;
    }
    let matches = match command(rt.alloc())?.try_get_matches_from(words.as_slice()) {
        Ok(matches) => matches,
        Err(error) => return print_or_report(rt, words.as_slice(), &error),
    };
    let values = values_of(&matches);
    let fields = fields_of(rt.alloc(), values.field)?;
    match options_of(&values, fields.as_ref()) {
        Ok(options) => Ok(convert_call(rt, &matches, &options)?),
        Err(wrong) => Ok(report(rt, &wrong)?),
    }
}

/// Runs the program, and exits with its status.
pub fn main(rt: HostRuntime) -> ExitCode {
    match answer(&rt) {
        Ok(status) => ExitCode::from(status),
        Err(error) if error.kind() == io::ErrorKind::OutOfMemory => {
            let _ = eprintln!(rt; "byte-unit: out of memory");
            ExitCode::from(FAILED)
        }
        Err(_) => {
            let _ = eprintln!(rt; "byte-unit: an argument is not UTF-8");
            ExitCode::from(WRONG)
        }
    }
}
