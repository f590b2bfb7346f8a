//! Makes one call of the Rust crate again and again, as `bindings/c/checks/speed.c` does of the C library:
//! `speed HOW CALL WORD COUNT`. By HOW, a text is written into a buffer as in C (`buffer`), or by `write!` into a
//! reused string (`formatter`). A call in KiB includes `get_adjusted_unit`.
#![allow(unexpected_cfgs)]

use std::env;
use std::fmt::Write;
use std::hint::black_box;

use byte_unit::{Byte, Unit};

/// Writes texts into a buffer. The original, whose feature this is alone, has no such method.
#[cfg(not(feature = "rust_decimal"))]
fn into_buffer(call: &str, size: Byte, count: u64) {
    use byte_unit::FormatSpec;

    let mut out = [0; 256];
    /// Writes the text of a value.
    macro_rules! written {
        ($value:ident $(.$method:ident($unit:expr))?, $spec:expr) => {
            for _ in 0..count {
                let _ = black_box(black_box($value)$(.$method($unit))?.write_text($spec, &mut out));
            }
        };
    }
    match call {
        "digits" => written!(size, FormatSpec::PLAIN),
        "unit" => written!(size, FormatSpec::ALTERNATE),
        "places" => written!(size, FormatSpec { precision: Some(28), ..FormatSpec::ALTERNATE }),
        "in-KiB" => written!(size.get_adjusted_unit(Unit::KiB), FormatSpec::PLAIN),
        _ => written!(size.get_adjusted_unit(Unit::KiB), FormatSpec { precision: Some(2), ..FormatSpec::PLAIN }),
    }
}

#[cfg(feature = "rust_decimal")]
fn into_buffer(_: &str, _: Byte, _: u64) {}

fn main() {
    let words: Vec<String> = env::args().collect();
    let (text, count) = (words[3].as_str(), words[4].parse::<u64>().unwrap());
    let size = Byte::from_u64(text.parse().unwrap_or(0));
    let mut out = String::with_capacity(256);
    /// Writes a value in a format.
    macro_rules! written {
        ($format:literal, $value:expr) => {
            for _ in 0..count {
                out.clear();
                write!(out, $format, $value).unwrap();
                black_box(&out);
            }
        };
    }
    match (words[1].as_str(), words[2].as_str()) {
        (_, "parse") => {
            for _ in 0..count {
                black_box(Byte::parse_str(black_box(text), false).map_or(0, |size| size.as_u64()));
            }
        }
        (_, "explain") => written!("{}", Byte::parse_str(black_box(text), false).unwrap_err()),
        ("buffer", call) => into_buffer(call, size, count),
        (_, "digits") => written!("{}", black_box(size)),
        (_, "unit") => written!("{:#}", black_box(size)),
        (_, "places") => written!("{:#.28}", black_box(size)),
        (_, "in-KiB") => written!("{}", black_box(size).get_adjusted_unit(Unit::KiB)),
        (_, "in-KiB-two") => written!("{:.2}", black_box(size).get_adjusted_unit(Unit::KiB)),
        _ => unreachable!(),
    }
}
