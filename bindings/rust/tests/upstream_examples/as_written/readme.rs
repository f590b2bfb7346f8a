//! The examples of the README, without that of the choice of units.

use byte_unit::{Bit, Byte, Unit, UnitType};

tests! {
    unit {
        assert_eq!("KB", Unit::KB.as_str());
        assert_eq!("MiB", Unit::MiB.as_str());
        assert_eq!(Unit::KB, Unit::parse_str("K", true, true).unwrap());
        assert_eq!(Unit::Kbit, Unit::parse_str("K", true, false).unwrap());
        assert_eq!(Unit::KB, Unit::parse_str("KB", true, true).unwrap());
        assert_eq!(Unit::KB, Unit::parse_str("Kb", true, true).unwrap());
        assert_eq!(Unit::Kbit, Unit::parse_str("Kbit", true, true).unwrap());
        assert_eq!(Unit::KB, Unit::parse_str("KB", false, true).unwrap());
        assert_eq!(Unit::Kbit, Unit::parse_str("Kb", false, true).unwrap());
    }
    from_numbers {
        assert_eq!(15000, Byte::from_u64(15000).as_u64());
        assert_eq!(15000, Byte::from_u64_with_unit(15, Unit::KB).unwrap().as_u64());
    }
    from_string { assert_eq!(50840000, Byte::parse_str("50.84 MB", true).unwrap().as_u64()); }
    to_string {
        let byte = Byte::from_u64(15500);
        assert_eq!("15500", byte.to_string());
        assert_eq!("15.5 KB", format!("{byte:#}"));
        assert_eq!("15500 B", format!("{byte:#.0}"));
    }
    arithmetic {
        let (a, b) = (Byte::from_u64(15500), Byte::from_u64(500));
        assert_eq!(16000, a.add(b).unwrap().as_u64());
        assert_eq!(15000, a.subtract(b).unwrap().as_u64());
        assert_eq!(31000, a.multiply(2).unwrap().as_u64());
        assert_eq!(3100, a.divide(5).unwrap().as_u64());
    }
    adjusted_unit {
        let adjusted_byte = Byte::parse_str("123KiB", true).unwrap().get_adjusted_unit(Unit::KB);
        assert_eq!("125.952 KB", adjusted_byte.to_string());
        assert_eq!("125.95 KB", format!("{adjusted_byte:.2}"));
    }
    appropriate_unit {
        let adjusted_byte = Byte::from_u64(1500000).get_appropriate_unit(UnitType::Binary);
        assert_eq!("1.43 MiB", format!("{adjusted_byte:.2}"));
    }
    bits {
        let adjusted_bit = Bit::parse_str("123Kib").unwrap().get_adjusted_unit(Unit::Kbit);
        assert_eq!("125.952 Kb", adjusted_bit.to_string());
        assert_eq!("125.95 Kb", format!("{adjusted_bit:.2}"));
    }
}
