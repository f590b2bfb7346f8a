//! The examples of the methods of `Unit`.

use byte_unit::Unit;

tests! {
    as_bits_u128 {
        assert_eq!(1, Unit::Bit.as_bits_u128());
        assert_eq!(8, Unit::B.as_bits_u128());
        assert_eq!(8000, Unit::KB.as_bits_u128());
        assert_eq!(1024, Unit::Kibit.as_bits_u128());
    }
    as_str {
        assert_eq!("B", Unit::B.as_str());
        assert_eq!("KB", Unit::KB.as_str());
        assert_eq!("MiB", Unit::MiB.as_str());
        assert_eq!("Gb", Unit::Gbit.as_str());
        assert_eq!("Tib", Unit::Tibit.as_str());
    }
    is_bit {
        assert!(!Unit::KB.is_bit());
        assert!(Unit::Kbit.is_bit());
    }
    is_binary_multiples {
        assert!(!Unit::KB.is_binary_multiples());
        assert!(Unit::KiB.is_binary_multiples());
    }
    parse_str_ignoring_case { assert_eq!(Unit::KiB, Unit::parse_str("Kib", true, true).unwrap()); }
    parse_str { assert_eq!(Unit::Kibit, Unit::parse_str("Kib", false, true).unwrap()); }
}
