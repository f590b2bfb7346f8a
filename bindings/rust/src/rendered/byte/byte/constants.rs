// Rendered from crates/byte_unit_byte/src/byte/constants.rt by `tools/dev render rust`. Do not edit.

//! The constants of `Byte`, as literals. `laws::byte_constant` proves that each named after a unit is as large as it.
//!
//! `Ki` to `Ri` are the binary prefixes of the IEC, powers of 1024. `K` to `R` are the decimal prefixes of the SI,
//! powers of 1000.

use super::Byte;

/// Creates a size from the number of its bytes.
macro_rules! size {
    ($size:literal) => {
        Byte { size: $size }
    };
}

impl Byte {
    /// One byte.
    pub const BYTE: Byte = size!(1);

    /// 1 KB is 10^3 bytes.
    pub const KILOBYTE: Byte = size!(1_000);
    /// 1 MB is 10^6 bytes.
    pub const MEGABYTE: Byte = size!(1_000_000);
    /// 1 GB is 10^9 bytes.
    pub const GIGABYTE: Byte = size!(1_000_000_000);
    /// 1 TB is 10^12 bytes.
    pub const TERABYTE: Byte = size!(1_000_000_000_000);
    /// 1 PB is 10^15 bytes.
    pub const PETABYTE: Byte = size!(1_000_000_000_000_000);
    /// 1 EB is 10^18 bytes.
    pub const EXABYTE: Byte = size!(1_000_000_000_000_000_000);
    /// 1 ZB is 10^21 bytes.
    pub const ZETTABYTE: Byte = size!(1_000_000_000_000_000_000_000);
    /// 1 YB is 10^24 bytes.
    pub const YOTTABYTE: Byte = size!(1_000_000_000_000_000_000_000_000);
    /// 1 RB is 10^27 bytes.
    pub const RONNABYTE: Byte = size!(1_000_000_000_000_000_000_000_000_000);

    /// 1 KiB is 2^10 bytes.
    pub const KIBIBYTE: Byte = size!(1_024);
    /// 1 MiB is 2^20 bytes.
    pub const MEBIBYTE: Byte = size!(1_048_576);
    /// 1 GiB is 2^30 bytes.
    pub const GIBIBYTE: Byte = size!(1_073_741_824);
    /// 1 TiB is 2^40 bytes.
    pub const TEBIBYTE: Byte = size!(1_099_511_627_776);
    /// 1 PiB is 2^50 bytes.
    pub const PEBIBYTE: Byte = size!(1_125_899_906_842_624);
    /// 1 EiB is 2^60 bytes.
    pub const EXBIBYTE: Byte = size!(1_152_921_504_606_846_976);
    /// 1 ZiB is 2^70 bytes.
    pub const ZEBIBYTE: Byte = size!(1_180_591_620_717_411_303_424);
    /// 1 YiB is 2^80 bytes.
    pub const YOBIBYTE: Byte = size!(1_208_925_819_614_629_174_706_176);
    /// 1 RiB is 2^90 bytes.
    pub const ROBIBYTE: Byte = size!(1_237_940_039_285_380_274_899_124_224);

    /// 1 Kbit is 125 bytes.
    pub const KILOBIT: Byte = size!(125);
    /// 1 Mbit is 125 * 10^3 bytes.
    pub const MEGABIT: Byte = size!(125_000);
    /// 1 Gbit is 125 * 10^6 bytes.
    pub const GIGABIT: Byte = size!(125_000_000);
    /// 1 Tbit is 125 * 10^9 bytes.
    pub const TERABIT: Byte = size!(125_000_000_000);
    /// 1 Pbit is 125 * 10^12 bytes.
    pub const PETABIT: Byte = size!(125_000_000_000_000);
    /// 1 Ebit is 125 * 10^15 bytes.
    pub const EXABIT: Byte = size!(125_000_000_000_000_000);
    /// 1 Zbit is 125 * 10^18 bytes.
    pub const ZETTABIT: Byte = size!(125_000_000_000_000_000_000);
    /// 1 Ybit is 125 * 10^21 bytes.
    pub const YOTTABIT: Byte = size!(125_000_000_000_000_000_000_000);
    /// 1 Rbit is 125 * 10^24 bytes.
    pub const RONNABIT: Byte = size!(125_000_000_000_000_000_000_000_000);

    /// 1 Kibit is 2^7 bytes.
    pub const KIBIBIT: Byte = size!(128);
    /// 1 Mibit is 2^17 bytes.
    pub const MEBIBIT: Byte = size!(131_072);
    /// 1 Gibit is 2^27 bytes.
    pub const GIBIBIT: Byte = size!(134_217_728);
    /// 1 Tibit is 2^37 bytes.
    pub const TEBIBIT: Byte = size!(137_438_953_472);
    /// 1 Pibit is 2^47 bytes.
    pub const PEBIBIT: Byte = size!(140_737_488_355_328);
    /// 1 Eibit is 2^57 bytes.
    pub const EXBIBIT: Byte = size!(144_115_188_075_855_872);
    /// 1 Zibit is 2^67 bytes.
    pub const ZEBIBIT: Byte = size!(147_573_952_589_676_412_928);
    /// 1 Yibit is 2^77 bytes.
    pub const YOBIBIT: Byte = size!(151_115_727_451_828_646_838_272);
    /// 1 Ribit is 2^87 bytes.
    pub const ROBIBIT: Byte = size!(154_742_504_910_672_534_362_390_528);

    /// The smallest size: 0 bytes.
    pub const MIN: Byte = size!(0);

    /// The largest size: 10^30 - 1 bytes.
    pub const MAX: Byte = size!(999_999_999_999_999_999_999_999_999_999);
}
