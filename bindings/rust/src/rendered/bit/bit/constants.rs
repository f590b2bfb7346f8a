// Rendered from crates/byte_unit_bit/src/bit/constants.rt by `tools/dev render rust`. Do not edit.

//! The constants of `Bit`, as literals. `laws::bit_constant` proves that each named after a unit is as large as it.
//!
//! `Ki` to `Ri` are the binary prefixes of the IEC, powers of 1024. `K` to `R` are the decimal prefixes of the SI,
//! powers of 1000.

use super::Bit;

/// Creates a size from the number of its bits.
macro_rules! size {
    ($size:literal) => {
        Bit { size: $size }
    };
}

impl Bit {
    /// One bit.
    pub const BIT: Bit = size!(1);

    /// 1 Kbit is 10^3 bits.
    pub const KILOBIT: Bit = size!(1_000);
    /// 1 Mbit is 10^6 bits.
    pub const MEGABIT: Bit = size!(1_000_000);
    /// 1 Gbit is 10^9 bits.
    pub const GIGABIT: Bit = size!(1_000_000_000);
    /// 1 Tbit is 10^12 bits.
    pub const TERABIT: Bit = size!(1_000_000_000_000);
    /// 1 Pbit is 10^15 bits.
    pub const PETABIT: Bit = size!(1_000_000_000_000_000);
    /// 1 Ebit is 10^18 bits.
    pub const EXABIT: Bit = size!(1_000_000_000_000_000_000);
    /// 1 Zbit is 10^21 bits.
    pub const ZETTABIT: Bit = size!(1_000_000_000_000_000_000_000);
    /// 1 Ybit is 10^24 bits.
    pub const YOTTABIT: Bit = size!(1_000_000_000_000_000_000_000_000);
    /// 1 Rbit is 10^27 bits.
    pub const RONNABIT: Bit = size!(1_000_000_000_000_000_000_000_000_000);

    /// 1 Kibit is 2^10 bits.
    pub const KIBIBIT: Bit = size!(1_024);
    /// 1 Mibit is 2^20 bits.
    pub const MEBIBIT: Bit = size!(1_048_576);
    /// 1 Gibit is 2^30 bits.
    pub const GIBIBIT: Bit = size!(1_073_741_824);
    /// 1 Tibit is 2^40 bits.
    pub const TEBIBIT: Bit = size!(1_099_511_627_776);
    /// 1 Pibit is 2^50 bits.
    pub const PEBIBIT: Bit = size!(1_125_899_906_842_624);
    /// 1 Eibit is 2^60 bits.
    pub const EXBIBIT: Bit = size!(1_152_921_504_606_846_976);
    /// 1 Zibit is 2^70 bits.
    pub const ZEBIBIT: Bit = size!(1_180_591_620_717_411_303_424);
    /// 1 Yibit is 2^80 bits.
    pub const YOBIBIT: Bit = size!(1_208_925_819_614_629_174_706_176);
    /// 1 Ribit is 2^90 bits.
    pub const ROBIBIT: Bit = size!(1_237_940_039_285_380_274_899_124_224);

    /// 1 KB is 8 * 10^3 bits.
    pub const KILOBYTE: Bit = size!(8_000);
    /// 1 MB is 8 * 10^6 bits.
    pub const MEGABYTE: Bit = size!(8_000_000);
    /// 1 GB is 8 * 10^9 bits.
    pub const GIGABYTE: Bit = size!(8_000_000_000);
    /// 1 TB is 8 * 10^12 bits.
    pub const TERABYTE: Bit = size!(8_000_000_000_000);
    /// 1 PB is 8 * 10^15 bits.
    pub const PETABYTE: Bit = size!(8_000_000_000_000_000);
    /// 1 EB is 8 * 10^18 bits.
    pub const EXABYTE: Bit = size!(8_000_000_000_000_000_000);
    /// 1 ZB is 8 * 10^21 bits.
    pub const ZETTABYTE: Bit = size!(8_000_000_000_000_000_000_000);
    /// 1 YB is 8 * 10^24 bits.
    pub const YOTTABYTE: Bit = size!(8_000_000_000_000_000_000_000_000);
    /// 1 RB is 8 * 10^27 bits.
    pub const RONNABYTE: Bit = size!(8_000_000_000_000_000_000_000_000_000);

    /// 1 KiB is 2^13 bits.
    pub const KIBIBYTE: Bit = size!(8_192);
    /// 1 MiB is 2^23 bits.
    pub const MEBIBYTE: Bit = size!(8_388_608);
    /// 1 GiB is 2^33 bits.
    pub const GIBIBYTE: Bit = size!(8_589_934_592);
    /// 1 TiB is 2^43 bits.
    pub const TEBIBYTE: Bit = size!(8_796_093_022_208);
    /// 1 PiB is 2^53 bits.
    pub const PEBIBYTE: Bit = size!(9_007_199_254_740_992);
    /// 1 EiB is 2^63 bits.
    pub const EXBIBYTE: Bit = size!(9_223_372_036_854_775_808);
    /// 1 ZiB is 2^73 bits.
    pub const ZEBIBYTE: Bit = size!(9_444_732_965_739_290_427_392);
    /// 1 YiB is 2^83 bits.
    pub const YOBIBYTE: Bit = size!(9_671_406_556_917_033_397_649_408);
    /// 1 RiB is 2^93 bits.
    pub const ROBIBYTE: Bit = size!(9_903_520_314_283_042_199_192_993_792);

    /// The smallest size: 0 bits.
    pub const MIN: Bit = size!(0);

    /// The largest size: 10^30 - 1 bits.
    pub const MAX: Bit = size!(999_999_999_999_999_999_999_999_999_999);
}
