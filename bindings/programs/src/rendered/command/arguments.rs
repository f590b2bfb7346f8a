// Rendered from crates/byte_unit_command/src/arguments.rt by `tools/dev render rust`. Do not edit.

//! The command line as clap reads it.

use crate::clap::{Arg, ArgAction, Command, value_parser};
use crate::rattle::alloc::{AllocError, Global};

/// The units, the examples and the statuses at the end of the help. No line has more than 80 columns.
const AFTER_HELP: &str = "\
A SIZE is a number and a unit, such as 1.5 GiB, 100MB or 4096. A unit is a
prefix, one of B, b, bit and bits, or both. K, M, G, T, P, E, Z, Y and R are
powers of 1000, or of 1024 with --from=iec; Ki, Mi .. Ri are powers of 1024. B
is bytes; b, bit and bits are bits. A number or a prefix alone is in bytes, or
in bits with --bits.

The programs du, df and ls with -h mean 1024 by K: use --from=iec. PREFIXES is
iec, or one of auto, si and iec-i, with which K is 1000.

UNIT is such a unit, or one of these words:
  exact  the largest unit, not above the size, that represents it exactly with
         at most N digits after the point, 3 without -p and 28 at most (the
         default); with --from=iec digits, if that unit is not binary
  plain  digits
  si     the largest decimal unit that is not above the size
  iec    the largest binary unit that is not above the size
  auto   the larger of these two

FIELDS is a list such as 2, 1,3, 2- or -3, as of cut.

Examples:
  byte-unit '1.5 GiB' 100MB
  du -h | byte-unit -d '\\t' --from=iec --to=plain
  du -sb * | byte-unit -d '\\t' -H
  ls -l | byte-unit --blanks --field=5 --header -H
  byte-unit --total < sizes
  byte-unit --max='20 GB' < sizes > /dev/null

Exit status:
  0    each field was converted, or copied by --invalid=warn or ignore
  1    a read or a write failed, or out of memory
  2    a field was rejected (--invalid=abort or fail), the total is too large,
       or the call is wrong
  3    a size is above --max or below --min
  127  the processor lacks a feature of x86-64-v2
  141  the reader of the output has gone";

/// Returns the command, with its options.
///
/// The contract says what clap's parser reads of it: the name and the letter of each option, whether it takes a value,
/// and which numbers are values; and that the last of an option that is given twice holds. It does not say, and tests
/// do, which abbreviations of a long name are taken, that `--ignore-case` excludes `--bits` and `--blanks` excludes
/// `--delimiter`, that a number after `--header` needs `=`, that `--padding`, `--field` and `--suffix` take a value
/// with a hyphen, and the texts of the help and the version.
///
/// # Errors
///
/// Returns `AllocError` if allocation fails.
pub fn command<'a>(alloc: Global) -> Result<Command<'a>, AllocError> {
    let command = Command::new(alloc, "byte-unit")
        .version("3.0.0")
        .about("Converts sizes in bytes or bits, exactly: operands, or standard input.")
        .override_usage("byte-unit [OPTION].. [SIZE]..")
        .after_help(AFTER_HELP)
        .args_override_self(true)
        .infer_long_args(true);
    let ignore_case =
        flag(alloc, "ignore-case", "ignore case; b then means bytes").short('i').conflicts_with("bits")?;
    let from = "iec: K, M, .. in sizes are powers of 1024";
    let suffix = "text after sizes, as /s; not needed in the input";
    let delimiter = "fields are separated by this character";
    let blanks = "fields are separated by blanks, as in ls -l";
    let field = "convert these fields [default: 1]";
    let header = "copy the first N lines, 1 without N";
    let padding = "columns of a size; left-aligned if negative";
    let invalid = "what a rejected field does: abort, fail, warn or ignore";
    let zero_terminated = "records end with a zero byte, not a line end";
    command
        .arg(flag(alloc, "bits", "sizes are bits, not bytes"))?
        .arg(ignore_case)?
        .arg(value(alloc, "from", "PREFIXES", from))?
        .arg(flag(alloc, "words", "sizes may have words, as 5 bytes has"))?
        .arg(value(alloc, "to", "UNIT", "convert to this unit or form"))?
        .arg(flag(alloc, "no-unit", "with a unit in --to, its number alone"))?
        .arg(value(alloc, "suffix", "TEXT", suffix).allow_hyphen_values(true))?
        .arg(value(alloc, "precision", "N", "digits after the point").short('p').value_parser(value_parser!(u16)))?
        .arg(flag(alloc, "human-readable", "as --to=iec -p 1").short('H'))?
        .arg(value(alloc, "delimiter", "C", delimiter).short('d'))?
        .arg(flag(alloc, "blanks", blanks).conflicts_with("delimiter")?)?
        .arg(value(alloc, "field", "FIELDS", field).allow_hyphen_values(true))?
        .arg(
            value(alloc, "header", "N", header)
                .num_args(0..=1)
                .require_equals(true)
                .default_missing_value("1")
                .value_parser(value_parser!(u64)),
        )?
        .arg(value(alloc, "padding", "N", padding).allow_hyphen_values(true))?
        .arg(value(alloc, "invalid", "MODE", invalid))?
        .arg(flag(alloc, "total", "a last line has the sum of all sizes"))?
        .arg(value(alloc, "max", "SIZE", "status 3 if a size is above it"))?
        .arg(value(alloc, "min", "SIZE", "status 3 if a size is below it"))?
        .arg(flag(alloc, "no-hints", "messages without hints"))?
        .arg(flag(alloc, "zero-terminated", zero_terminated).short('z'))?
        .arg(Arg::new(alloc, "SIZE").num_args(0..).help("the sizes, in place of standard input"))
}

/// Creates an option that takes no value.
fn flag<'a>(alloc: Global, name: &'a str, help: &'a str) -> Arg<'a> {
    Arg::new(alloc, name).long(name).action(ArgAction::SetTrue).help(help)
}

/// Creates an option that takes a value.
fn value<'a>(alloc: Global, name: &'a str, value: &'a str, help: &'a str) -> Arg<'a> {
    Arg::new(alloc, name).long(name).value_name(value).help(help)
}
