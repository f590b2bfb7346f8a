//! Answers test vectors: reads records that end with a zero byte, each a call of the file of rows with its text
//! unescaped, and writes a line with the answer for each, or `-` for a call that the package does not have.

use std::io::{self, BufRead, BufWriter, Write};
use std::str;

use byte_unit::{
    Align, Bit, Byte, Decimal, FormatSpec, Needed, ParseError, ParseSpec, Sign, Unit, UnitParseError, UnitType,
    ValueParseError, hint_of,
};

/// Returns the name of a unit's error and its fields, as the vectors have it.
fn unit_error(error: &UnitParseError) -> String {
    let expected: String = error.expected_characters.iter().collect();
    let end = if error.also_expect_no_character { " end" } else { "" };
    format!("Unit \"{}\" [{expected}]{end}", error.character)
}

/// Returns the name of an error and its fields, as the vectors have it.
fn error_of(error: ParseError) -> String {
    match error {
        ParseError::Value(ValueParseError::NoValue) => "NoValue".to_owned(),
        ParseError::Value(ValueParseError::NotNumber(c)) => format!("NotNumber \"{c}\""),
        ParseError::Value(ValueParseError::NumberTooLong) => "NumberTooLong".to_owned(),
        ParseError::Value(ValueParseError::ExceededBounds(number)) => format!("ExceededBounds {number}"),
        ParseError::Unit(error) => unit_error(&error),
    }
}

/// Returns the number of the size that a call of `Bit` or of `Byte` makes; that of `Byte` may have an argument more.
macro_rules! number_by {
    ($in_bits:ident, $call:ident($($given:expr),*) $(, $ignore_case:expr)?) => {
        if $in_bits {
            Bit::$call($($given),*).map(Bit::as_u128)
        } else {
            Byte::$call($($given,)* $($ignore_case)?).map(Byte::as_u128)
        }
    };
}

fn position(of: &str, text: &str) -> Option<usize> {
    match of {
        "unit" => Unit::error_position(text),
        "bit" => Bit::error_position(text),
        _ => Byte::error_position(text),
    }
}

/// Returns a value, or `none`.
fn or_none<T: ToString>(value: Option<T>) -> String {
    value.map_or_else(|| "none".to_owned(), |value| value.to_string())
}

/// Returns the spec of a format string.
fn spec_of(word: &str) -> FormatSpec {
    let mut rest = word.trim_start_matches('{').trim_start_matches(':').trim_end_matches('}');
    let mut spec = FormatSpec::PLAIN;
    for (sign, align) in [("<", Align::Left), ("^", Align::Center), (">", Align::Right)] {
        if let Some(more) = rest.strip_prefix(sign) {
            (rest, spec.align) = (more, Some(align));
        }
    }
    for (sign, value) in [("+", Sign::Plus), ("-", Sign::Minus)] {
        if let Some(more) = rest.strip_prefix(sign) {
            (rest, spec.sign) = (more, value);
        }
    }
    if let Some(more) = rest.strip_prefix('#') {
        (rest, spec.alternate) = (more, true);
    }
    let (width, precision) = rest.split_once('.').unwrap_or((rest, ""));
    FormatSpec { width: width.parse().ok(), precision: precision.parse().ok(), ..spec }
}

fn unit_of(name: &str) -> Unit {
    Unit::parse_str(name, false, true).unwrap()
}

fn type_of(name: &str) -> UnitType {
    match name {
        "binary" => UnitType::Binary,
        "decimal" => UnitType::Decimal,
        _ => UnitType::Both,
    }
}

/// Returns a text in quotation marks.
fn quoted(text: Result<&[u8], Needed>) -> String {
    format!("\"{}\"", str::from_utf8(text.unwrap()).unwrap())
}

/// Answers a call on a size of either type.
macro_rules! answer_of_size {
    ($size:expr, $words:expr) => {{
        let (size, words) = ($size, $words);
        // Longer than each text of the vectors.
        let mut out = vec![0; 1 << 18];
        let either = words[2] == "any";
        match (words[0], words[3]) {
            ("text", "in") => quoted(size.get_adjusted_unit(unit_of(words[4])).write_text(spec_of(words[5]), &mut out)),
            ("text", "by") => {
                quoted(size.get_appropriate_unit(type_of(words[4])).write_text(spec_of(words[5]), &mut out))
            }
            ("text", spec) => quoted(size.write_text(spec_of(spec), &mut out)),
            ("exact", _) => {
                let (count, unit) = size.get_exact_unit(either);
                format!("{count} {unit}")
            }
            (_, precision) => {
                let (count, unit) = size.get_recoverable_unit(either, precision.parse().unwrap());
                format!("{count} {unit}")
            }
        }
    }};
}

/// Answers `compute KIND SIZE OP NUMBER` and `as_u64 KIND SIZE` for a type.
macro_rules! number_of_size {
    ($Size:ident, $words:expr) => {{
        let words = $words;
        match $Size::from_u128(words[2].parse().unwrap()) {
            None => "none".to_owned(),
            Some(size) if words[0] == "as_u64" => format!("{} {}", size.as_u64(), or_none(size.as_u64_checked())),
            Some(size) => {
                let number: u128 = words[4].parse().unwrap();
                or_none(match words[3] {
                    "add" => $Size::from_u128(number).and_then(|number| size.add(number)),
                    "subtract" => $Size::from_u128(number).and_then(|number| size.subtract(number)),
                    "multiply" => size.multiply(number.try_into().unwrap()),
                    _ => size.divide(number.try_into().unwrap()),
                })
            }
        }
    }};
}

/// Returns a decimal of its digits.
fn decimal_of(digits: &str) -> Decimal {
    let (whole, fraction) = digits.split_once('.').unwrap_or((digits, ""));
    Decimal::new(whole.parse().unwrap(), format!("{fraction:0<28}").parse().unwrap()).unwrap()
}

/// Returns the answer to a call, or `-` if the package does not have it.
fn answer(words: &[&str], text: &str) -> String {
    let in_bits = words.get(1) == Some(&"bit");
    let uncased = words.contains(&"uncased");
    match words[0] {
        "parse" => number_by!(in_bits, parse_str(text), uncased).map_or_else(error_of, |size| size.to_string()),
        "unit" => Unit::parse_str(text, uncased, words[2] == "bytes")
            .map_or_else(|error| unit_error(&error), |unit| unit.to_string()),
        "says" => format!("\"{}\"", number_by!(in_bits, parse_str(text), uncased).unwrap_err()),
        "parse_binary" => {
            number_by!(in_bits, parse_str_binary(text), uncased).map_or_else(error_of, |size| size.to_string())
        }
        "words" => {
            let spec =
                ParseSpec { ignore_case: uncased, binary: words[2] == "binary", words: true, ..ParseSpec::BYTES };
            number_by!(in_bits, parse_str_as(text, spec)).map_or_else(error_of, |size| size.to_string())
        }
        "hint" => or_none(hint_of(text).map(|hint| format!("\"{hint}\""))),
        "position" => or_none(position(words[1], text)),
        "make_in" => or_none(number_by!(in_bits, from_u128_with_unit(words[2].parse().unwrap(), unit_of(words[3])))),
        "make_decimal" => or_none(number_by!(in_bits, from_decimal_with_unit(decimal_of(words[2]), unit_of(words[3])))),
        "compute" | "as_u64" if in_bits => number_of_size!(Bit, words),
        "compute" | "as_u64" => number_of_size!(Byte, words),
        "text" | "exact" | "recoverable" => {
            let place = if words[0] == "text" { 2 } else { words.len() - 1 };
            let size = words[place].parse().unwrap();
            if in_bits {
                answer_of_size!(Bit::from_u128(size).unwrap(), words)
            } else {
                answer_of_size!(Byte::from_u128(size).unwrap(), words)
            }
        }
        _ => "-".to_owned(),
    }
}

fn main() -> io::Result<()> {
    let mut out = BufWriter::new(io::stdout());
    for record in io::stdin().lock().split(0) {
        let record = record?;
        let Ok(record) = str::from_utf8(&record) else {
            writeln!(out, "NotUtf8")?;
            continue;
        };
        let (call, text) = record.split_once('"').unwrap_or((record, ""));
        let words: Vec<&str> = call.split_whitespace().collect();
        writeln!(out, "{}", answer(&words, text))?;
    }
    out.flush()
}
