//! Constants, constructors, arithmetic, conversions from and to numbers, comparisons, decimals and adjusted sizes.

use std::collections::HashSet;

use byte_unit::{AdjustedBit, AdjustedByte, Bit, Byte, Decimal, ExceededBoundsError, InexactFloatError, Unit};

const LIMIT: u128 = 10u128.pow(30);

#[test]
fn constant_expressions() {
    const CACHE: Option<Byte> = Byte::from_u64_with_unit(512, Unit::MiB);
    const SUM: Option<Byte> = Byte::KIBIBYTE.add(Byte::MEGABIT);
    assert_eq!(CACHE.unwrap(), 512u64 << 20);
    assert_eq!(SUM.unwrap(), 126_024u64);
    assert_eq!(Byte::MAX.as_u128() + 1, LIMIT);
    assert_eq!((Byte::ROBIBYTE.as_u128(), Bit::RONNABYTE.as_u128()), (1 << 90, 8 * 10u128.pow(27)));
    assert_eq!((Byte::BYTE.as_u64(), Bit::BIT.as_u64(), Byte::KIBIBIT.as_u64()), (1, 1, 128));
    assert_eq!((Byte::default(), format!("{:?}", Bit::BIT)), (Byte::MIN, "Bit(1)".to_owned()));
}

#[test]
fn limits_of_constructors() {
    assert_eq!(Byte::from_u128(LIMIT - 1), Some(Byte::MAX));
    assert_eq!((Byte::from_u128(LIMIT), Byte::from_i128(-1), Byte::from_i64(i64::MIN)), (None, None, None));
    assert_eq!((Byte::from_i128(0), Byte::from_i64(0)), (Some(Byte::MIN), Some(Byte::MIN)));
    let most = u128::from(u64::MAX);
    assert_eq!(Byte::from_u128(most).unwrap().as_u64_checked(), Some(u64::MAX));
    assert_eq!(Byte::from_u128(most + 1).unwrap().as_u64_checked(), None);
    assert_eq!(Byte::from_u64_with_unit(1000, Unit::RB), None);
    assert_eq!(Byte::from_u64_with_unit(999, Unit::RB).unwrap().as_u128(), 999 * 10u128.pow(27));
    assert_eq!(Byte::from_u64_with_unit(9, Unit::Bit).unwrap().as_u64(), 2);
    assert_eq!(Byte::from_i64_with_unit(-1, Unit::KB), None);
    assert_eq!(Byte::try_from(LIMIT), Err(ExceededBoundsError));
    assert_eq!(Byte::try_from(-1isize), Err(ExceededBoundsError));
}

#[test]
fn conversions_to_integers() {
    assert_eq!(u64::from(Byte::MAX), u64::MAX);
    assert_eq!(u128::from(Byte::MAX), LIMIT - 1);
    assert_eq!((u8::try_from(Byte::from_u64(255)), u8::try_from(Byte::from_u64(256)).is_err()), (Ok(255), true));
    assert!(u16::try_from(Byte::MAX).is_err() && u32::try_from(Byte::MAX).is_err());
    assert!(usize::try_from(Byte::MAX).is_err());
}

#[test]
fn comparisons() {
    assert!(Byte::KIBIBYTE == 1024u64 && 1024u128 == Byte::KIBIBYTE && Byte::KIBIBYTE != 1023u64);
    assert!(Byte::KIBIBYTE > 1000u64 && 2000u128 > Byte::KIBIBYTE && Byte::KILOBYTE < Byte::KIBIBYTE);
    assert!(Byte::KIBIBYTE != 1025u64 && Byte::KIBIBYTE < 1025u64 && 1023u64 < Byte::KIBIBYTE);
    assert_eq!((Byte::MAX.eq(&u64::MAX), u64::MAX.eq(&Byte::MAX)), (false, false));
    assert_eq!((Byte::MAX.gt(&u64::MAX), u64::MAX.lt(&Byte::MAX)), (true, true));
    assert_eq!(HashSet::from([Byte::KILOBYTE, Byte::from_u64(1000), Byte::KIBIBYTE]).len(), 2);
    let (a, b) = (Byte::KILOBYTE.get_adjusted_unit(Unit::KB), Byte::KILOBYTE.get_adjusted_unit(Unit::Bit));
    assert!(a == b && a < Byte::KIBIBYTE.into() && HashSet::from([a, b]).len() == 1);
    assert_eq!((Byte::from(b), Unit::from(b)), (Byte::KILOBYTE, Unit::Bit));
}

#[test]
fn sizes_of_floats_are_exact() {
    for (number, size) in [
        (0.0, Some(0)),
        (-0.0, Some(0)),
        (f64::MIN_POSITIVE, Some(1)),
        (0.1, Some(1)),
        (1.0 + f64::EPSILON, Some(2)),
        (4503599627370495.5, Some(4503599627370496)),
        (9007199254740993.0, Some(9007199254740992)),
        (1e27, Some(1_000_000_000_000_000_013_287_555_072)),
        (1e30, None),
        (f64::INFINITY, None),
        (f64::NAN, None),
        (-1e-300, None),
    ] {
        assert_eq!(Byte::from_f64(number).map(Byte::as_u128), size, "{number}");
        assert_eq!(Bit::try_from(number).ok().map(Bit::as_u128), size, "{number}");
    }
    assert_eq!(Byte::from_f32(16777217.0).unwrap(), 16777216u64);
    assert_eq!((Byte::from_f32(0.5).unwrap(), Bit::try_from(1.5f32)), (Byte::BYTE, Ok(Bit::from_u64(2))));
    assert_eq!(Byte::try_from(f32::NAN), Err(ExceededBoundsError));
}

#[test]
fn decimals_of_floats_are_exact() {
    for (number, text) in [
        (0.0, "0"),
        (3.5, "3.5"),
        (437.5, "437.5"),
        (2f64.powi(-28), "0.0000000037252902984619140625"),
        (2f64.powi(60), "1152921504606846976"),
    ] {
        assert_eq!(Decimal::try_from(number).unwrap().to_string(), text);
    }
    for number in [0.1, 50.84, -1.0, 2f64.powi(-29), 2f64.powi(112), f64::NAN, f64::INFINITY] {
        assert_eq!(Decimal::try_from(number), Err(InexactFloatError), "{number}");
    }
}

#[test]
fn decimals() {
    let number = Decimal::new(50, 84 * 10u128.pow(26)).unwrap();
    assert_eq!(format!("{number}|{number:8}|{number:08}|{number:*<7}"), "50.84|   50.84|00050.84|50.84**");
    assert_eq!(format!("{number:+}|{number:+08}|{number:.1}|{number:#}"), "+50.84|+0050.84|50.84|50.84");
    let longest = Decimal::new((1 << 112) - 1, 10u128.pow(28) - 1).unwrap();
    assert_eq!((longest.to_string().len(), format!("{longest:1}")), (34 + 1 + 28, longest.to_string()));
    assert!(Decimal::new(1 << 112, 0).is_none() && number > Decimal::from(50u8) && number < Decimal::from(51u64));
    assert_eq!(Byte::from_decimal(number), Some(Byte::from_u64(51)));
    assert_eq!(Bit::from_decimal_with_unit(number, Unit::KB), Some(Bit::from_u64(406_720)));
    assert_eq!(Byte::from_decimal_with_unit(Decimal::from(1000u16), Unit::RB), None);
    assert_eq!(Decimal::new(0, 10u128.pow(28)), None);
    assert_eq!(Byte::from_decimal_with_unit(Decimal::from(9u8), Unit::Bit), Some(Byte::from_u64(2)));
    let least = Decimal::new(0, 1).unwrap();
    assert_eq!(Byte::from_decimal_with_unit(least, Unit::Bit), Some(Byte::BYTE));
    assert_eq!(Byte::from_decimal_with_unit(least, Unit::RiB).unwrap(), 1u64);
}

#[test]
fn adjusted_sizes_of_sizes_and_of_strings() {
    assert_eq!(AdjustedByte::from(Byte::from_u64(10_000)).get_unit(), Unit::KiB);
    assert_eq!(AdjustedBit::from(Bit::from_u64(1_000)).get_unit(), Unit::Kbit);
    assert_eq!("10 Kb".parse::<AdjustedByte>().unwrap().to_string(), "1.220703125 KiB");
    assert_eq!("7".parse::<AdjustedBit>().unwrap().to_string(), "7 b");
    assert!("7 x".parse::<AdjustedBit>().is_err());
    assert!(Unit::B.is_binary_multiples() && !Unit::Bit.is_binary_multiples());
}

/// The quotient of two floats is the nearest float if both are exact.
#[test]
fn values_of_adjusted_sizes_are_the_nearest_floats() {
    // Numbers of a linear congruential generator, of which 53 bits are exact in a float.
    let mut size = 1u64;
    for _ in 0..2000 {
        size = size.wrapping_mul(6364136223846793005).wrapping_add(1442695040888963407);
        let byte = Byte::from_u64(size >> 11);
        for unit in [Unit::B, Unit::KB, Unit::KiB, Unit::Gibit, Unit::ZB, Unit::RiB] {
            let expected = byte.as_u64() as f64 / (unit.as_bits_u128() as f64 / 8.0);
            assert_eq!(byte.get_adjusted_unit(unit).get_value(), expected, "{byte} {unit}");
        }
    }
    assert_eq!(f64::from(Byte::MAX.get_adjusted_unit(Unit::RB)), 1000.0);
    assert_eq!(f64::from(Bit::from_u64(1536).get_adjusted_unit(Unit::KiB)), 0.1875);
    assert_eq!(Byte::MIN.get_adjusted_unit(Unit::RB).get_value(), 0.0);
}
