//! A program as it is written for the original crate, which `tools/dev test rust` builds against this package by
//! `[patch]`: names and signatures of the original that the examples of its documentation do not have.

use std::error::Error;

use byte_unit::{
    AdjustedBit, Bit, Byte, ExceededBoundsError, ParseError, TryFromIntError, Unit, UnitParseError, ValueParseError,
};

#[derive(Debug, Clone, Copy, PartialEq, Eq, Hash, PartialOrd, Ord, Default)]
struct Quota {
    limit: Byte,
}

const HALF: Option<Byte> = Byte::MEBIBYTE.divide(2);

fn quota(text: &str) -> Result<Quota, Box<dyn Error>> {
    Ok(Quota { limit: Byte::parse_str(text, true)? })
}

/// Says what is wrong with a string, from the fields of the error.
fn reason(error: ParseError) -> String {
    match error {
        ParseError::Value(ValueParseError::ExceededBounds(number)) => format!("{number} is too much"),
        ParseError::Value(ValueParseError::NotNumber(c)) => format!("{c} is no digit"),
        ParseError::Value(ValueParseError::NoValue) => "nothing".to_string(),
        ParseError::Value(ValueParseError::NumberTooLong) => "too long".to_string(),
        ParseError::Unit(UnitParseError { character, expected_characters, also_expect_no_character }) => {
            let expected: String = expected_characters.iter().collect();
            format!("{character} in place of {expected} {also_expect_no_character}")
        }
    }
}

fn main() -> Result<(), Box<dyn Error>> {
    let free = quota("1.5 gib")?.limit.subtract("900 MB".parse()?).ok_or("more is used")?;
    assert_eq!(format!("{free:#}"), "693957.75 KiB");
    assert_eq!(HALF.map(u64::from), Some(1 << 19));
    let checked: Result<Byte, ExceededBoundsError> = Byte::try_from(-1i32);
    let small: Result<u8, TryFromIntError> = u8::try_from(free);
    assert!(checked.is_err() && small.is_err());
    assert!(free > 1000u64 && 1000u128 < free && free != Byte::MAX);
    let bits: AdjustedBit = Bit::parse_str("12 Kb")?.get_adjusted_unit(Unit::KB);
    assert_eq!(f64::from(bits), 1.5);
    assert_eq!(u128::from(Unit::KiB), 8192);
    for (text, expected) in
        [("x", "x is no digit"), ("1 Kx", "x in place of B true"), ("1000.5 RB", "1000.5 is too much")]
    {
        assert_eq!(Byte::parse_str(text, true).map_err(reason), Err(expected.to_string()));
    }
    println!("0 wrong");
    Ok(())
}
