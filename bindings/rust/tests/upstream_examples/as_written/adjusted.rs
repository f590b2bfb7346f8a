//! The examples of `AdjustedByte` and `AdjustedBit`, and of the methods that return them.

/// The examples, with the names of the module and of the type, its units `K`, `M` and `Mi`, its parser, its accessor
/// and the letter in names.
macro_rules! examples {
    ($size:ident, $Size:ident, $k:expr, $m:expr, $mi:expr, $parse:expr, $get:ident, $letter:literal) => {
        mod $size {
            use byte_unit::{Unit, UnitType, $Size};

            /// Compares with an expected text, in which `?` is the letter of the kind.
            fn same(expected: &str, got: String) {
                assert_eq!(expected.replace('?', $letter), got);
            }

            tests! {
                to_string {
                    let size = $Size::from_u64_with_unit(1555, $k).unwrap();
                    same("1.555 M?", size.get_adjusted_unit($m).to_string());
                }
                fmt_with_flags {
                    let size = $Size::from_u64(10000);
                    let binary = size.get_appropriate_unit(UnitType::Binary);
                    let decimal = size.get_appropriate_unit(UnitType::Decimal);
                    same("9.765625 Ki?", format!("{binary}"));
                    same("10 K?", format!("{decimal}"));
                    same("9.77 Ki?", format!("{binary:.2}"));
                    same("10.00 K?", format!("{decimal:.2}"));
                    same("9.77 Ki?", format!("{binary:#.2}"));
                    same("10 K?", format!("{decimal:#.2}"));
                    same("9.77   Ki?", format!("{binary:10.2}"));
                    same("10.00   K?", format!("{decimal:10.2}"));
                    same("  9.77 Ki?", format!("{binary:>10.2}"));
                    same("  10.00 K?", format!("{decimal:>10.2}"));
                    same("  9.77 Ki?", format!("{binary:>+10.2}"));
                    same(" 10.00  K?", format!("{decimal:>+10.2}"));
                    same("9.765625Ki?", format!("{binary:-}"));
                    same("10K?", format!("{decimal:-}"));
                }
                size_of_adjusted {
                    let size = $Size::from_u64_with_unit(1555, $k).unwrap();
                    assert_eq!(size, size.get_adjusted_unit($m).$get());
                }
                get_adjusted_unit {
                    same("125.952 K?", $parse("123Ki?".replace('?', $letter)).get_adjusted_unit($k).to_string());
                }
                get_adjusted_unit_of_fraction {
                    let size = $parse("50.84 M?".replace('?', $letter));
                    same("48.48480224609375 Mi?", size.get_adjusted_unit($mi).to_string());
                }
                get_appropriate_unit {
                    let size = $parse("123Ki?".replace('?', $letter));
                    same("125.952 K?", size.get_appropriate_unit(UnitType::Decimal).to_string());
                }
                get_appropriate_unit_of_fraction {
                    let size = $parse("50.84 M?".replace('?', $letter));
                    same("48.48480224609375 Mi?", size.get_appropriate_unit(UnitType::Binary).to_string());
                }
            }
        }
    };
}

examples! { byte, Byte, Unit::KB, Unit::MB, Unit::MiB, |text| Byte::parse_str(text, true).unwrap(), get_byte, "B" }
examples! { bit, Bit, Unit::Kbit, Unit::Mbit, Unit::Mibit, |text| Bit::parse_str(text).unwrap(), get_bit, "b" }
