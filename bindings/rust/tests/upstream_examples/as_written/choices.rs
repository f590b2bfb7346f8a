//! The examples of the choice of units.

use byte_unit::{Bit, Byte, Unit};

tests! {
    byte_get_exact_unit_mib { assert_eq!((3, Unit::MiB), Byte::from_u64(3145728).get_exact_unit(true)); }
    byte_get_exact_unit_mbit { assert_eq!((3, Unit::Mbit), Byte::from_u64(375000).get_exact_unit(true)); }
    byte_get_exact_unit_kb { assert_eq!((375, Unit::KB), Byte::from_u64(375000).get_exact_unit(false)); }
    bit_get_exact_unit_mibit { assert_eq!((3, Unit::Mibit), Bit::from_u64(3145728).get_exact_unit(true)); }
    bit_get_exact_unit_mb { assert_eq!((3, Unit::MB), Bit::from_u64(24000000).get_exact_unit(true)); }
    bit_get_exact_unit_mbit { assert_eq!((24, Unit::Mbit), Bit::from_u64(24000000).get_exact_unit(false)); }
    byte_get_recoverable_unit_mib {
        assert_eq!((3.5f64.try_into().unwrap(), Unit::MiB), Byte::from_u64(3670016).get_recoverable_unit(false, 3));
    }
    byte_get_recoverable_unit_mbit {
        assert_eq!((3.5f64.try_into().unwrap(), Unit::Mbit), Byte::from_u64(437500).get_recoverable_unit(true, 3));
    }
    byte_get_recoverable_unit_kb {
        assert_eq!((437.5f64.try_into().unwrap(), Unit::KB), Byte::from_u64(437500).get_recoverable_unit(false, 3));
    }
    bit_get_recoverable_unit_mibit {
        assert_eq!((3.5f64.try_into().unwrap(), Unit::Mibit), Bit::from_u64(3670016).get_recoverable_unit(false, 3));
    }
    bit_get_recoverable_unit_mb {
        assert_eq!((3.5f64.try_into().unwrap(), Unit::MB), Bit::from_u64(28000000).get_recoverable_unit(true, 3));
    }
    bit_get_recoverable_unit_kbit {
        assert_eq!((437.5f64.try_into().unwrap(), Unit::Kbit), Bit::from_u64(437500).get_recoverable_unit(false, 3));
    }
}
