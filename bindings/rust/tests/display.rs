//! Texts of sizes: by a formatter with each flag, and in a buffer.

use std::fmt::{self, Write};

use byte_unit::{Align, Bit, Byte, FormatSpec, Sign, Unit, UnitType};

#[test]
fn digits_are_formatted_as_an_integer() {
    let (size, number) = (Byte::from_u64(10240), 10240u128);
    assert_eq!(format!("{size:*>12}"), "*******10240");
    assert_eq!(format!("{size:é^12}"), "ééé10240éééé");
    assert_eq!(format!("{size:-<8}"), "10240---");
    assert_eq!(format!("{size:012}"), "000000010240");
    assert_eq!(format!("{size:+}"), "+10240");
    assert_eq!(format!("{size:+08}"), "+0010240");
    assert_eq!(format!("{size:8.1}"), "   10240");
    assert_eq!(format!("{size:_>+65535}"), format!("{number:_>+65535}"));
}

#[test]
fn names_and_debug_texts() {
    let unit = Unit::KiB;
    assert_eq!(format!("{unit}|{unit:>5}|{unit:*^6}|{unit:.1}|{}", unit.as_ref()), "KiB|  KiB|*KiB**|K|KiB");
    let most = 10u128.pow(30) - 1;
    assert_eq!(format!("{:?} {:?}", Byte::MAX, Bit::MAX), format!("Byte({most}) Bit({most})"));
    assert_eq!(format!("{:?}", FormatSpec::default().sign), format!("{:?}", Sign::default()));
}

#[test]
fn ties_are_rounded_as_the_page_says() {
    let texts = [1280, 2048].map(Byte::from_u64).map(|size| {
        let adjusted = size.get_adjusted_unit(Unit::KiB);
        format!("{adjusted:.1}|{adjusted:#.1}|{}", size.approximate_text(UnitType::Binary, 1))
    });
    assert_eq!(texts, ["1.2 KiB|1.3 KiB|1.2 KiB", "2.0 KiB|2 KiB|2.0 KiB"]);
}

#[test]
fn with_a_unit_the_padding_is_spaces_and_no_zeros_lead() {
    let size = Byte::from_u64(1536);
    assert_eq!(format!("{size:*>#12}"), "     1.5 KiB");
    assert_eq!(format!("{size:#012}"), "1.5      KiB");
    assert_eq!(format!("{size:*^#12}"), "1.5      KiB");
    let adjusted = size.get_adjusted_unit(Unit::KB);
    assert_eq!(format!("{adjusted:*>12}"), "    1.536 KB");
    assert_eq!(format!("{adjusted:012}"), "1.536     KB");
}

#[test]
fn no_width_or_precision_is_too_large() {
    let size = Byte::from_u64(1536);
    let text = format!("{size:>#65535.65535}");
    assert_eq!((text.len(), text.trim_start()), (65535, "1.5 KiB"));
    let adjusted = size.get_adjusted_unit(Unit::KB);
    let text = format!("{adjusted:.65535}");
    assert_eq!((text.len(), text.trim_end_matches(" KB").trim_end_matches('0')), (65540, "1.536"));
    let smallest = format!("{:.100}", Bit::from_u64(1).get_adjusted_unit(Unit::RiB));
    assert_eq!(smallest.len(), "0.".len() + 100 + " RiB".len());
}

/// Compares a text by a formatter with the text that the library writes with the same options.
macro_rules! compare {
    ($value:expr, $width:expr, $precision:expr, $($flags:literal $alternate:literal $sign:expr, $align:expr;)*) => { $({
        let (width, precision) = (usize::from($width), usize::from($precision));
        let spec = FormatSpec {
            alternate: $alternate,
            sign: $sign,
            precision: Some($precision),
            width: Some($width),
            align: $align,
        };
        // Longer than each text: 200 columns, or 200 digits after the point and at most 31 before it.
        let mut out = [0; 400];
        let text = format!(concat!("{:", $flags, "width$.precision$}"), $value, width = width, precision = precision);
        assert_eq!(Ok(text.as_bytes()), $value.write_text(spec, &mut out), "{:?}", spec);
    })* };
}

/// Compares the texts with each combination of flags that the formatter and the library have in common.
macro_rules! compare_flags {
    ($value:expr, $width:expr, $precision:expr) => {
        compare! { $value, $width, $precision,
            "" false Sign::Unset, None; "#" true Sign::Unset, None;
            "+" false Sign::Plus, None; "+#" true Sign::Plus, None;
            "-" false Sign::Minus, None; "-#" true Sign::Minus, None;
            "<" false Sign::Unset, Some(Align::Left); "<#" true Sign::Unset, Some(Align::Left);
            "^" false Sign::Unset, Some(Align::Center); "^#" true Sign::Unset, Some(Align::Center);
            ">" false Sign::Unset, Some(Align::Right); ">#" true Sign::Unset, Some(Align::Right);
            "<+" false Sign::Plus, Some(Align::Left); "<+#" true Sign::Plus, Some(Align::Left);
            "^+" false Sign::Plus, Some(Align::Center); "^+#" true Sign::Plus, Some(Align::Center);
            ">-" false Sign::Minus, Some(Align::Right); ">-#" true Sign::Minus, Some(Align::Right);
        }
    };
}

#[test]
fn texts_are_those_of_the_library() {
    for number in [0, 1, 8, 999, 1000, 1024, 1536, 123_456_789, 3_211_776, (1 << 30) + 4, 10u128.pow(30) - 1] {
        let (byte, bit) = (Byte::from_u128(number).unwrap(), Bit::from_u128(number).unwrap());
        for width in [0, 1, 4, 10, 38, 200] {
            for precision in [0, 1, 3, 16, 28, 29, 93, 94, 200] {
                compare_flags!(byte, width, precision);
                compare_flags!(bit, width, precision);
                for unit in [Unit::Bit, Unit::B, Unit::KB, Unit::Kibit, Unit::MiB, Unit::RiB] {
                    compare_flags!(byte.get_adjusted_unit(unit), width, precision);
                    compare_flags!(bit.get_adjusted_unit(unit), width, precision);
                }
            }
        }
    }
}

#[test]
fn a_size_with_its_unit_has_at_most_28_digits_after_the_point() {
    let size = Byte::from_u64((1 << 30) + 4);
    assert_eq!(format!("{size:#.28}"), "1.0000000037252902984619140625 GiB");
    assert_eq!(format!("{size:#.65535}"), "1.0000000037252902984619140625 GiB");
    assert_eq!(format!("{size:#.27}"), "1.073741828 GB");
    // In GiB it has 29 digits after the point.
    let smaller = Byte::from_u64((1 << 30) + 2);
    assert_eq!(format!("{smaller:#.65535}"), "1.073741826 GB");
}

#[test]
fn without_a_precision_all_digits_are_written() {
    let bit = Bit::from_u64(1).get_adjusted_unit(Unit::RiB);
    let digits = format!("{bit}");
    assert_eq!(digits.len(), "0.".len() + 93 + " RiB".len());
    assert_eq!(format!("{bit:.93}"), digits);
    assert_eq!(format!("{bit:.95}"), digits.replace(" RiB", "00 RiB"));
    assert_eq!(format!("{:.5}", Bit::from_u64(12).get_adjusted_unit(Unit::B)), "1.5 B");
}

/// A writer with a limit, beyond which it fails.
struct Limited(usize);

impl Write for Limited {
    fn write_str(&mut self, s: &str) -> fmt::Result {
        self.0 = self.0.checked_sub(s.len()).ok_or(fmt::Error)?;
        Ok(())
    }
}

#[test]
fn an_error_of_the_writer_is_returned() {
    let size = Byte::from_u64(1536);
    assert_eq!(write!(Limited(7), "{size:#}"), Ok(()));
    for limit in 0..7 {
        assert_eq!(write!(Limited(limit), "{size:#}"), Err(fmt::Error));
        // The text of 7 characters has 93 spaces in 100 columns.
        assert_eq!(write!(Limited(limit + 93), "{size:#100}"), Err(fmt::Error));
    }
}

#[test]
fn a_buffer_that_is_too_short_stays_as_it_was() {
    let size = Byte::from_u64(1536);
    for len in 0..7 {
        let mut out = vec![b'?'; len];
        assert_eq!(size.write_text(FormatSpec::ALTERNATE, &mut out).unwrap_err().len, 7);
        assert!(out.iter().all(|&byte| byte == b'?'));
    }
    let mut out = [b'?'; 9];
    assert_eq!(size.write_text(FormatSpec::ALTERNATE, &mut out), Ok(b"1.5 KiB".as_slice()));
    assert_eq!(&out[7..], b"??");
}
