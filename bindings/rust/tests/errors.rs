//! The messages of errors, which are the same with every flag of the formatter, as in the original.

use std::error::Error;

use byte_unit::{
    Bit, BuffersError, Byte, Decimal, ExceededBoundsError, InexactFloatError, Needed, ParseError, RowError,
    UnitParseError, ValueParseError,
};

/// Returns the message of an error without flags, and then with flags of each kind.
macro_rules! messages {
    ($error:ident, $($flags:literal)*) => { [format!("{}", $error), $(format!(concat!("{:", $flags, "}"), $error)),*] };
}

fn check(error: &dyn Error, message: &str) {
    let said = messages!(error, "400" ">20" "<400" "^401" "*>400" "é^400" "+" "-" "#" "020" "0400" ".3" ".0"
        "+020" "+#0400.2" "_<+#400.1");
    for (at, said) in said.iter().enumerate() {
        assert_eq!(said, message, "with the flags {at}");
    }
}

#[test]
fn flags_do_not_change_messages() {
    let number = Decimal::from_u128_with_scale(10_005, 1).unwrap();
    let unit = |character, expected_characters, also_expect_no_character| UnitParseError {
        character,
        expected_characters,
        also_expect_no_character,
    };
    let of_value = |error: ValueParseError, message: &str| {
        check(&error, message);
        check(&ParseError::Value(error), message);
        check(&RowError { row: 7, error: error.into() }, &format!("row 7: {message}"));
    };
    of_value(ValueParseError::ExceededBounds(number), "the value 1000.5 exceeds the valid range");
    of_value(ValueParseError::ExceededBounds(Decimal::ZERO), "the value 0 exceeds the valid range");
    of_value(ValueParseError::NotNumber('x'), "the character 'x' is not a number");
    of_value(ValueParseError::NotNumber('\''), r"the character '\'' is not a number");
    of_value(ValueParseError::NoValue, "no value can be found");
    of_value(ValueParseError::NumberTooLong, "value number is too long");
    for (error, message) in [
        (unit('x', &[], true), "the character 'x' is incorrect (no character is expected)"),
        (unit('x', &['B'], false), "the character 'x' is incorrect ('B' is expected)"),
        (unit('\n', &['B', 'b'], true), r"the character '\n' is incorrect ('B' or 'b' or no character is expected)"),
        (unit('é', &['a', 'b', 'c'], false), "the character 'é' is incorrect ('a', 'b' or 'c' is expected)"),
    ] {
        check(&error, message);
        check(&ParseError::Unit(error), message);
        check(&RowError { row: 0, error: error.into() }, &format!("row 0: {message}"));
    }
    check(&ExceededBoundsError, "value exceeds the valid range");
    check(&BuffersError, "the offsets do not fit the data, or the buffers the number of texts");
    check(&Needed { len: 8 }, "the text needs a buffer of 8 bytes");
    check(&InexactFloatError, "the float is negative, too large, or not exact in 28 decimal places");
}

#[test]
fn the_message_of_a_size_that_is_too_large_has_its_number() {
    let error = Byte::parse_str("1000.50 RB", false).unwrap_err();
    check(&error, "the value 1000.5 exceeds the valid range");
    let error = Bit::parse_str("5192296858534827628530496329220095.0000000000000000000000000001 RiB").unwrap_err();
    let number = "5192296858534827628530496329220095.0000000000000000000000000001";
    check(&error, &format!("the value {number} exceeds the valid range"));
}
