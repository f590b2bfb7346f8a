//! The nine examples that are not as they were written, each with what it needs here.

use byte_unit::{Bit, Byte, Decimal, Unit};

tests! {
    // `50.84f64` is not 50.84, so it is no exact decimal; and a decimal, which is never negative, has no `From<i32>`.
    readme_choice_of_units {
        let byte = Byte::from_u64(50840000);
        assert_eq!((50840, Unit::KB), byte.get_exact_unit(false));
        assert!(Decimal::try_from(50.84f64).is_err());
        let number = Decimal::new(50, 84 * 10u128.pow(26)).unwrap();
        assert_eq!((number, Unit::MB), byte.get_recoverable_unit(false, 2));
        assert_eq!((50840u64.into(), Unit::KB), byte.get_recoverable_unit(false, 0));
    }
    // The next four import the `Decimal` of `rust_decimal`.
    byte_from_decimal { assert_eq!(Byte::from_decimal(Decimal::from(15000000u64)).unwrap().as_u64(), 15000000); }
    bit_from_decimal { assert_eq!(Bit::from_decimal(Decimal::from(15000000u64)).unwrap().as_u64(), 15000000); }
    byte_from_decimal_with_unit {
        assert_eq!(Byte::from_decimal_with_unit(Decimal::from(15u64), Unit::MB).unwrap().as_u64(), 15000000);
    }
    bit_from_decimal_with_unit {
        assert_eq!(Bit::from_decimal_with_unit(Decimal::from(15u64), Unit::Mbit).unwrap().as_u64(), 15000000);
    }
    // The last four call `from_f64_with_unit` or `from_f32_with_unit`, which this package leaves out: 0.1 as a float is
    // more than 0.1. A string says which decimal is meant.
    byte_from_f64_with_unit {
        assert_eq!(format!("{} {}", 15.0f64, Unit::MB).parse::<Byte>().unwrap().as_u64(), 15000000);
    }
    byte_from_f32_with_unit {
        assert_eq!(format!("{} {}", 15.0f32, Unit::MB).parse::<Byte>().unwrap().as_u64(), 15000000);
    }
    bit_from_f64_with_unit {
        assert_eq!(format!("{} {}", 15.0f64, Unit::Mbit).parse::<Bit>().unwrap().as_u64(), 15000000);
    }
    bit_from_f32_with_unit {
        assert_eq!(format!("{} {}", 15.0f32, Unit::Mbit).parse::<Bit>().unwrap().as_u64(), 15000000);
    }
}
