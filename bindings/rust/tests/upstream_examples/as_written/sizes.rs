//! The examples of the methods of `Byte` and of `Bit`: formatting, constructors, accessors and arithmetic.

use byte_unit::{Bit, Byte, Unit};

/// The examples that the two types have in common, with the names of the module and of the type, the unit of 1000 and
/// that of 1000000, and the letter in names.
macro_rules! examples {
    ($size:ident, $Size:ident, $thousand:expr, $million:expr, $letter:literal) => {
        mod $size {
            use byte_unit::{Unit, $Size};

            /// Compares with an expected text, in which `?` is the letter of the kind.
            fn same(expected: &str, got: String) {
                assert_eq!(expected.replace('?', $letter), got);
            }

            tests! {
                to_string { assert_eq!("1555000", $Size::from_u64_with_unit(1555, $thousand).unwrap().to_string()); }
                fmt_with_flags {
                    let (binary, decimal) = ($Size::from_u64(10240), $Size::from_u64(10000));
                    same("10240", format!("{binary}"));
                    same("10000", format!("{decimal}"));
                    same("10 Ki?", format!("{binary:#}"));
                    same("10 K?", format!("{decimal:#}"));
                    same("10Ki?", format!("{binary:-#}"));
                    same("10K?", format!("{decimal:-#}"));
                    same("10     Ki?", format!("{binary:#10}"));
                    same("10      K?", format!("{decimal:#10}"));
                    same("    10 Ki?", format!("{binary:>#10}"));
                    same("     10 K?", format!("{decimal:>#10}"));
                    same("    10 Ki?", format!("{binary:>+#10}"));
                    same("    10  K?", format!("{decimal:>+#10}"));
                }
                fmt_with_precision {
                    let size = $Size::from_u64(3211776);
                    same("3211776", format!("{size}"));
                    same("3136.5 Ki?", format!("{size:#}"));
                    same("3.211776 M?", format!("{size:#.6}"));
                    same("3211776 ?", format!("{size:#.0}"));
                }
                from_u128 { assert_eq!($Size::from_u128(15000000).unwrap().as_u64(), 15000000); }
                from_u128_unsafe {
                    // SAFETY: the number is below 10^30.
                    assert_eq!(unsafe { $Size::from_u128_unsafe(15000000) }.as_u64(), 15000000);
                }
                from_u64 { assert_eq!($Size::from_u64(15000000).as_u64(), 15000000); }
                from_f64 { assert_eq!($Size::from_f64(15000000.0).unwrap().as_u64(), 15000000); }
                from_f32 { assert_eq!($Size::from_f32(15000000.0).unwrap().as_u64(), 15000000); }
                from_i128 { assert_eq!($Size::from_i128(15000000).unwrap().as_u64(), 15000000); }
                from_i64 { assert_eq!($Size::from_i64(15000000).unwrap().as_u64(), 15000000); }
                from_u128_with_unit {
                    assert_eq!($Size::from_u128_with_unit(15, $million).unwrap().as_u64(), 15000000);
                }
                from_u64_with_unit { assert_eq!($Size::from_u64_with_unit(15, $million).unwrap().as_u64(), 15000000); }
                from_i64_with_unit { assert_eq!($Size::from_i64_with_unit(15, $million).unwrap().as_u64(), 15000000); }
                add {
                    let (a, b) = ($Size::from_u64(1024), $Size::from_u64(512));
                    assert_eq!(1536, a.add(b).unwrap().as_u64());
                }
                subtract {
                    let (a, b) = ($Size::from_u64(1024), $Size::from_u64(512));
                    assert_eq!(512, a.subtract(b).unwrap().as_u64());
                }
                multiply { assert_eq!(102400, $Size::from_u64(1024).multiply(100).unwrap().as_u64()); }
                divide { assert_eq!(10, $Size::from_u64(1024).divide(100).unwrap().as_u64()); }
            }
        }
    };
}

examples! { byte, Byte, Unit::KB, Unit::MB, "B" }
examples! { bit, Bit, Unit::Kbit, Unit::Mbit, "b" }

tests! {
    byte_from_i128_with_unit { assert_eq!(Byte::from_i128_with_unit(15, Unit::MB).unwrap().as_u64(), 15000000); }
    bit_from_i128_with_unit { assert_eq!(Bit::from_i128_with_unit(15, Unit::Mibit).unwrap().as_u64(), 15 << 20); }
    byte_as_u128_ignoring_case { assert_eq!(125952, Byte::parse_str("123Kib", true).unwrap().as_u128()); }
    byte_as_u128 { assert_eq!(15744, Byte::parse_str("123Kib", false).unwrap().as_u128()); }
    bit_as_u128_of_bytes { assert_eq!(1007616, Bit::parse_str("123KiB").unwrap().as_u128()); }
    bit_as_u128 { assert_eq!(125952, Bit::parse_str("123Kib").unwrap().as_u128()); }
    byte_as_u64 { assert_eq!(1000, Byte::parse_str("1kb", true).unwrap().as_u64()); }
    bit_as_u64 { assert_eq!(1000, Bit::parse_str("1kb").unwrap().as_u64()); }
    byte_as_u64_of_more { assert_eq!(u64::MAX, Byte::parse_str("1zb", true).unwrap().as_u64()); }
    bit_as_u64_of_more { assert_eq!(u64::MAX, Bit::parse_str("1zb").unwrap().as_u64()); }
    byte_as_u64_checked { assert_eq!(Some(1000), Byte::parse_str("1kb", true).unwrap().as_u64_checked()); }
    bit_as_u64_checked { assert_eq!(Some(1000), Bit::parse_str("1k").unwrap().as_u64_checked()); }
    byte_as_u64_checked_of_more { assert_eq!(None, Byte::parse_str("1zb", true).unwrap().as_u64_checked()); }
    bit_as_u64_checked_of_more { assert_eq!(None, Bit::parse_str("1zb").unwrap().as_u64_checked()); }
    byte_parse_str_ignoring_case { assert_eq!(123 * 1024, Byte::parse_str("123Kib", true).unwrap().as_u64()); }
    byte_parse_str { assert_eq!(123 * 1024 / 8, Byte::parse_str("123Kib", false).unwrap().as_u64()); }
    bit_parse_str { assert_eq!(123 * 1024, Bit::parse_str("123Kib").unwrap().as_u64()); }
}
