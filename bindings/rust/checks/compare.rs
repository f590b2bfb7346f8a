//! Makes calls of the crate `byte-unit`: the original, or the Rust package in its place.
//!
//! Reads a request of `tools/dev compare-original` in each line, and writes a line with its results, separated by tabs;
//! `-` is none. TEXT is in hexadecimal digits, and SPEC is `:FLAGS width precision`, where a width of 0 and a precision
//! of `-` are none:
//!
//!     t TEXT                          parse as bytes, as bytes with `b` ignored, as bits
//!     u TEXT                          parse a unit in each of four ways
//!     n SIZE PRECISION UNIT SPEC      the units and the texts of a size, as bytes and as bits
//!     f COUNT UNIT                    the size of so many units, as bytes and as bits

use std::fmt::Display;
use std::io::{self, BufRead, BufWriter, Write};

use byte_unit::{Bit, Byte, Unit, UnitType};

/// Formats a value with flags, a width and a precision, of which a format string has to have the flags.
macro_rules! formatted {
    ($value:expr, $flags:expr, $width:expr, $precision:expr, $($given:literal)*) => {
        match ($flags, $width, $precision) {
            $(($given, 0, None) => format!(concat!("{:", $given, "}"), $value),
            ($given, width, None) => format!(concat!("{:", $given, "1$}"), $value, width),
            ($given, 0, Some(precision)) => format!(concat!("{:", $given, ".1$}"), $value, precision),
            ($given, width, Some(precision)) => format!(concat!("{:", $given, "1$.2$}"), $value, width, precision),)*
            _ => unreachable!(),
        }
    };
}

/// Returns the text of a value by the three words of a SPEC.
fn text(value: impl Display, spec: &[&str]) -> String {
    let (width, precision): (usize, Option<usize>) = (spec[1].parse().unwrap(), spec[2].parse().ok());
    formatted!(
        value, &spec[0][1..], width, precision,
        "" "<" "^" ">" "#" "<#" "^#" ">#" "+" "<+" "^+" ">+" "+#" "<+#" "^+#" ">+#" "-" "<-" "^-" ">-"
        "-#" "<-#" "^-#" ">-#"
    )
}

/// Returns the text of what was parsed, or the message of the error after `!`.
fn parsed<T: Display>(found: Result<T, impl Display>) -> String {
    found.map_or_else(|error| format!("! {error}"), |value| value.to_string())
}

fn shown(value: Option<impl Display>) -> String {
    value.map_or("-".to_string(), |value| value.to_string())
}

/// Returns the results for a size and for a number of units.
macro_rules! of_kind {
    ($kind:ident, $words:expr) => {{
        let number: u128 = $words[1].parse().unwrap();
        // The fourth word of `n`, and the last of `f`.
        let unit = Unit::parse_str($words[$words.len().min(4) - 1], false, true).ok();
        match ($words[0], $kind::from_u128(number)) {
            ("f", _) => {
                let size = unit.and_then(|unit| $kind::from_u128_with_unit(number, unit));
                vec![shown(size.map(|size| size.as_u128()))]
            },
            // The results of a size are nine: those below.
            (_, None) => vec!["-".to_string(); 9],
            (_, Some(size)) => {
                let mut results = Vec::new();
                for either in [false, true] {
                    let (count, unit) = size.get_exact_unit(either);
                    results.push(format!("{count} {unit}"));
                    let (count, unit) = size.get_recoverable_unit(either, $words[2].parse().unwrap());
                    results.push(format!("{count} {unit}"));
                }
                for unit_type in [UnitType::Binary, UnitType::Decimal, UnitType::Both] {
                    results.push(size.get_appropriate_unit(unit_type).get_unit().to_string());
                }
                results.push(text(size, &$words[4..]));
                results.push(shown(unit.map(|unit| text(size.get_adjusted_unit(unit), &$words[4..]))));
                results
            },
        }
    }};
}

/// Returns the results for a request.
fn results(words: &[&str]) -> Vec<String> {
    if !"tu".contains(words[0]) {
        return [of_kind!(Byte, words), of_kind!(Bit, words)].concat();
    }
    let bytes = (0..words[1].len()).step_by(2).map(|at| u8::from_str_radix(&words[1][at..at + 2], 16).unwrap());
    let text = String::from_utf8(bytes.collect()).unwrap();
    let byte = |ignore_case| parsed(Byte::parse_str(&text, ignore_case).map(|size| size.as_u128()));
    let unit = |ignore_case, bytes| parsed(Unit::parse_str(&text, ignore_case, bytes));
    match words[0] {
        "t" => vec![byte(false), byte(true), parsed(Bit::parse_str(&text).map(|size| size.as_u128()))],
        _ => vec![unit(false, true), unit(true, true), unit(false, false), unit(true, false)],
    }
}

fn main() -> io::Result<()> {
    let mut writer = BufWriter::new(io::stdout().lock());
    for line in io::stdin().lock().lines() {
        writeln!(writer, "{}", results(&line?.split(' ').collect::<Vec<_>>()).join("\t"))?;
    }
    writer.flush()
}
