//! Columns and approximate texts, beside the calls of the original for each. The binary reading and positions of errors
//! are in the test vectors.

use byte_unit::{Bit, BuffersError, Byte, RowError, UnitType, ValueParseError};

/// Texts of a column: sizes, and each error that a string can have.
#[rustfmt::skip]
const TEXTS: [&str; 15] = [
    "", "12", "1.5 KiB", "1 Kx", "2 mb", "1000.5 RB", "1.", "é", "1 Ké", "9 bits", "0.1 KB",
    "5192296858534827628530496329220096", "999 RB", " 7 ", "8 Kb",
];

#[test]
fn many_texts() {
    let rows: Vec<_> = Byte::parse_many(TEXTS, false).collect();
    assert_eq!(rows.len(), TEXTS.len());
    for (row, (text, found)) in TEXTS.iter().zip(&rows).enumerate() {
        assert_eq!(*found, Byte::parse_str(text, false).map_err(|error| RowError { row, error }), "{text}");
    }
    let strings = ["12", "1.5 KiB", "0.1 KB"].map(str::to_owned);
    let sizes: Result<Vec<Bit>, _> = Bit::parse_many(&strings).collect();
    assert_eq!(sizes.unwrap(), [12, 12288, 800].map(Bit::from_u64));
    let mut ignoring = Byte::parse_many_binary(["8 Kb"], true).chain(Byte::parse_many_binary(["8 Kb"], false));
    assert_eq!((ignoring.next(), ignoring.next()), (Some(Ok(Byte::from(8192u16))), Some(Ok(Byte::from(1024u16)))));
    assert_eq!(Bit::parse_many_binary(["1 Kb", "-"]).next(), Some(Ok(Bit::from(1024u16))));
}

/// Parses the texts by one call, and compares sizes and codes with those of a call for each.
macro_rules! compare_buffers {
    ($Size:ident, $parse:ident, $parse_buffers:ident, $offset:ty $(, $ignore_case:expr)?) => {{
        let mut offsets: Vec<$offset> = vec![0];
        let data: String = TEXTS.concat();
        TEXTS.iter().for_each(|text| offsets.push(offsets[offsets.len() - 1] + text.len() as $offset));
        let (mut sizes, mut codes) = ([$Size::MAX; TEXTS.len()], [9; TEXTS.len()]);
        let rejected = $Size::$parse_buffers(data.as_bytes(), &offsets $(, $ignore_case)?, &mut sizes, &mut codes);
        let single = TEXTS.map(|text| $Size::$parse(text $(, $ignore_case)?));
        assert_eq!(rejected, Ok(single.iter().filter(|size| size.is_err()).count()));
        assert_eq!(sizes, single.map(|size| size.unwrap_or_default()));
        for (code, size) in codes.iter().zip(single) {
            assert_eq!(*code == 0, size.is_ok());
            assert_eq!(*code == 1, size == Err(ValueParseError::NoValue.into()));
        }
    }};
}

#[test]
fn columns_by_one_call() {
    for ignore_case in [false, true] {
        compare_buffers!(Byte, parse_str, parse_buffers, i32, ignore_case);
        compare_buffers!(Byte, parse_str, parse_buffers, i64, ignore_case);
        compare_buffers!(Byte, parse_str_binary, parse_buffers_binary, i32, ignore_case);
    }
    compare_buffers!(Bit, parse_str, parse_buffers, i64);
    compare_buffers!(Bit, parse_str_binary, parse_buffers_binary, i32);
    let (mut sizes, mut codes) = ([Bit::MAX; 8], [9; 8]);
    let data = b"1.x1000 RB11\xff1.123456789012345678901234567891 Kx";
    let rejected = Bit::parse_buffers(data, &[0i32, 2, 3, 10, 11, 13, 44, 44, 48], &mut sizes, &mut codes);
    assert_eq!((rejected, codes), (Ok(7), [2, 2, 4, 0, 6, 3, 1, 5]));
    assert_eq!(sizes, [0u8, 0, 0, 1, 0, 0, 0, 0].map(Bit::from));
}

#[test]
fn buffers_that_do_not_fit() {
    let (mut sizes, mut codes) = ([Byte::MAX; 2], [9; 2]);
    for offsets in [&[-1i64, 1, 2][..], &[0, 2, 1], &[0, 1, 3], &[0, 2], &[0, 0, 1, 2], &[]] {
        let parsed = Byte::parse_buffers(b"12", offsets, false, &mut sizes, &mut codes);
        assert_eq!((parsed, sizes, codes), (Err(BuffersError), [Byte::MAX; 2], [9; 2]));
    }
    for (sizes_len, codes_len) in [(1, 2), (2, 1), (3, 2), (2, 3), (0, 0)] {
        let (sizes, codes) = (&mut [Byte::MAX; 3][..sizes_len], &mut [9; 3][..codes_len]);
        assert_eq!(Byte::parse_buffers(b"12", &[0i32, 1, 2], false, sizes, codes), Err(BuffersError));
    }
    assert_eq!(Byte::parse_buffers::<i32>(b"", &[], false, &mut [], &mut []), Ok(0));
    assert_eq!(BuffersError.to_string(), "the offsets do not fit the data, or the buffers the number of texts");
}

#[cfg(feature = "std")]
#[test]
fn approximate_texts() {
    let sizes = [0, 1, 999, 1023, 1024, 10_000, 123_456_789, 2u128.pow(90), Byte::MAX.as_u128()];
    for unit_type in [UnitType::Binary, UnitType::Decimal, UnitType::Both] {
        for precision in [0, 1, 2, 28, 93, 94, 160, 300, u16::MAX] {
            for size in sizes {
                let (byte, bit) = (Byte::from_u128(size).unwrap(), Bit::from_u128(size).unwrap());
                let wanted = format!("{:.*}", precision.into(), byte.get_appropriate_unit(unit_type));
                assert_eq!(byte.approximate_text(unit_type, precision), wanted);
                let wanted = format!("{:.*}", precision.into(), bit.get_appropriate_unit(unit_type));
                assert_eq!(bit.approximate_text(unit_type, precision), wanted);
            }
        }
    }
    assert_eq!(Byte::from_u64(123_456_789).approximate_text(UnitType::Binary, 1), "117.7 MiB");
    assert_eq!(Byte::from_u64(12).approximate_text(UnitType::Both, 1), "12 B");
}
