//! Every public call, with drawn arguments, many of them extreme: none panics, with debug assertions and tests of
//! overflow. `test_rust.py` compares the names with those of the documentation.

use std::hash::{DefaultHasher, Hash, Hasher};
use std::panic::catch_unwind;

use byte_unit::{
    AdjustedBit, AdjustedByte, Align, Bit, Byte, Decimal, FormatSpec, Kind, ParseSpec, Sign, Unit, UnitType,
    ValueParseError, hint_of,
};

/// How often each of the calls is made: there are more than 100 of them.
const ROUNDS: u64 = 10_000;

#[rustfmt::skip]
const UNITS: [Unit; 12] = [
    Unit::Bit, Unit::B, Unit::Kbit, Unit::Kibit, Unit::KB, Unit::KiB, Unit::EB, Unit::EiB, Unit::Rbit, Unit::Ribit,
    Unit::RB, Unit::RiB,
];

/// Numbers of a linear congruential generator: the upper half of its state.
struct Random(u128);

impl Random {
    fn next(&mut self) -> u64 {
        self.0 = self.0.wrapping_mul(0x2360_ed05_1fc6_5da4_4385_df64_9fcc_f645).wrapping_add(1);
        (self.0 >> 64) as u64
    }

    fn below(&mut self, limit: usize) -> usize {
        self.next() as usize % limit
    }

    fn of<T: Copy>(&mut self, values: &[T]) -> T {
        values[self.below(values.len())]
    }

    fn bool(&mut self) -> bool {
        self.below(2) == 0
    }

    /// Returns a number of any length, or one near a limit.
    fn number(&mut self) -> u128 {
        let limits = [0, 1 << 32, 1 << 53, 1 << 64, 1 << 90, 1 << 112, 10u128.pow(27), 10u128.pow(28), 10u128.pow(30)];
        let drawn = u128::from(self.next()) << 64 | u128::from(self.next());
        match self.below(3) {
            0 => self.of(&limits).wrapping_add(u128::from(self.next() % 3)).wrapping_sub(1),
            _ => drawn >> self.below(128),
        }
    }

    fn int(&mut self) -> i128 {
        self.number() as i128
    }

    fn index(&mut self) -> usize {
        self.number() as usize
    }

    fn float(&mut self) -> f64 {
        let near = self.number() as f64;
        let floats = [f64::NAN, f64::INFINITY, -0.0, f64::MIN, f64::MAX, f64::MIN_POSITIVE, near, near / 3.0, -near];
        if self.bool() { f64::from_bits(self.next()) } else { self.of(&floats) }
    }

    fn byte(&mut self) -> Byte {
        Byte::from_u128(self.number()).unwrap_or(Byte::MAX)
    }

    fn bit(&mut self) -> Bit {
        Bit::from_u128(self.number()).unwrap_or(Bit::MAX)
    }

    fn adjusted_byte(&mut self) -> AdjustedByte {
        self.byte().get_adjusted_unit(self.of(&UNITS))
    }

    fn adjusted_bit(&mut self) -> AdjustedBit {
        self.bit().get_adjusted_unit(self.of(&UNITS))
    }

    fn decimal(&mut self) -> Decimal {
        let places = self.below(30) as u32;
        Decimal::from_u128_with_scale(self.number(), places).unwrap_or_default()
    }

    fn unit(&mut self) -> Unit {
        self.of(&UNITS)
    }

    fn unit_type(&mut self) -> UnitType {
        self.of(&[UnitType::Binary, UnitType::Decimal, UnitType::Both])
    }

    fn kind(&mut self) -> Kind {
        self.of(&[Kind::Byte, Kind::Bit])
    }

    fn reading(&mut self) -> ParseSpec {
        ParseSpec { kind: self.kind(), ignore_case: self.bool(), binary: self.bool(), words: self.bool() }
    }

    /// Returns a width or a precision, which is seldom a long one.
    fn columns(&mut self) -> u16 {
        let long = if self.below(500) == 0 { u16::MAX } else { 95 };
        self.of(&[0, 1, 3, 16, 28, 93, 94, long])
    }

    fn spec(&mut self) -> FormatSpec {
        FormatSpec {
            alternate: self.bool(),
            sign: self.of(&[Sign::Unset, Sign::Plus, Sign::Minus]),
            precision: Some(self.columns()).filter(|_| self.bool()),
            width: Some(self.columns()).filter(|_| self.bool()),
            align: self.of(&[None, Some(Align::Left), Some(Align::Center), Some(Align::Right)]),
        }
    }

    /// Returns a buffer of any length, most of them too short or longer than needed.
    fn buffer(&mut self) -> Vec<u8> {
        vec![0; self.below(300)]
    }

    /// Returns a text that is near a size: most pieces are those of one.
    fn text(&mut self) -> String {
        #[rustfmt::skip]
        let pieces = [
            "", " ", "0", "1", "7", "999", "1024", ".", ".5", "K", "Ki", "MiB", "b", "B", "bit", "bits", "R", "RiB",
            "+", "-", "e9", "é", "\u{a0}", "\0", "\u{10ffff}", "00000000", "12345678", "0000000000000000000000000001",
            "5192296858534827628530496329220095", "bI", "byte", "s", "kilo", "gig", "/s", "ps", ",", "'",
        ];
        (0..self.below(6)).map(|_| self.of(&pieces)).collect()
    }

    fn bytes(&mut self) -> Vec<u8> {
        let mut bytes = self.text().into_bytes();
        if self.bool() && !bytes.is_empty() {
            let at = self.below(bytes.len());
            bytes[at] = self.next() as u8;
        }
        bytes
    }

    /// Returns data, offsets that often do not fit it, and numbers of sizes and codes that often do not fit these.
    fn column(&mut self) -> (Vec<u8>, Vec<i64>, usize, usize) {
        let data = self.bytes();
        let mut offsets: Vec<i64> = (0..self.below(5)).map(|_| self.below(data.len() + 1) as i64).collect();
        offsets.sort();
        let texts = offsets.len().saturating_sub(1);
        if self.below(4) == 0 && !offsets.is_empty() {
            let at = self.below(offsets.len());
            offsets[at] = self.int() as i64;
        }
        (data, offsets, texts + self.below(5) / 4, texts + self.below(5) / 4)
    }
}

fn hash_of(value: impl Hash) -> u64 {
    let mut hasher = DefaultHasher::new();
    value.hash(&mut hasher);
    hasher.finish()
}

/// Formats a value with flags of each kind, a width and a precision.
macro_rules! formatted {
    ($random:ident, $value:expr) => {{
        let (value, width, precision) = ($value, $random.columns().into(), $random.columns().into());
        format!("{value}{value:#}{value:+}{value:-#}{value:010}{value:*^#9}{value:>+#60.1}{value:?}").len()
            + format!("{value:width$.precision$}{value:>#width$.precision$}{value:#.precision$}").len()
    }};
}

/// Names of calls, and what makes each of them with drawn arguments.
type Calls = Vec<(&'static str, fn(&mut Random))>;

/// Makes such a list.
macro_rules! calls {
    ($random:ident: $($name:ident: $call:expr),* $(,)?) => {
        vec![$((stringify!($name), |$random: &mut Random| { let _ = std::hint::black_box($call); })),*]
    };
}

/// The calls of a type of sizes. `$ignore_case` is an argument of bytes alone.
macro_rules! calls_of_size {
    ($Size:ident $Adjusted:ident $size:ident $adjusted:ident $get:ident $(, $ignore_case:ident)?) => {
        calls! { r:
            from_u128: $Size::from_u128(r.number()),
            from_u64: $Size::from_u64(r.next()),
            from_i128: $Size::from_i128(r.int()),
            from_i64: $Size::from_i64(r.int() as i64),
            from_u128_with_unit: $Size::from_u128_with_unit(r.number(), r.unit()),
            from_u64_with_unit: $Size::from_u64_with_unit(r.number() as u64, r.unit()),
            from_i128_with_unit: $Size::from_i128_with_unit(r.int(), r.unit()),
            from_i64_with_unit: $Size::from_i64_with_unit(r.int() as i64, r.unit()),
            from_f64: $Size::from_f64(r.float()),
            from_f32: $Size::from_f32(r.float() as f32),
            from_decimal: $Size::from_decimal(r.decimal()),
            from_decimal_with_unit: $Size::from_decimal_with_unit(r.decimal(), r.unit()),
            parse_str: $Size::parse_str(r.text() $(, r.$ignore_case())?),
            parse_str_as: $Size::parse_str_as(&r.text(), r.reading()),
            parse_str_binary: $Size::parse_str_binary(r.text() $(, r.$ignore_case())?),
            parse_bytes: $Size::parse_bytes(&r.bytes() $(, r.$ignore_case())?),
            parse_bytes_binary: $Size::parse_bytes_binary(&r.bytes() $(, r.$ignore_case())?),
            parse_many: $Size::parse_many([r.text(), r.text()] $(, r.$ignore_case())?).count(),
            parse_many_binary: $Size::parse_many_binary([r.text()] $(, r.$ignore_case())?).last(),
            parse_buffers: {
                let (data, offsets, sizes, codes) = r.column();
                let (sizes, codes) = (&mut vec![$Size::MAX; sizes][..], &mut vec![9; codes][..]);
                $Size::parse_buffers(&data, &offsets $(, r.$ignore_case())?, sizes, codes)
            },
            parse_buffers_binary: {
                let (data, offsets, sizes, codes) = r.column();
                let offsets: Vec<i32> = offsets.iter().map(|&offset| offset as i32).collect();
                let (sizes, codes) = (&mut vec![$Size::MAX; sizes][..], &mut vec![9; codes][..]);
                $Size::parse_buffers_binary(&data, &offsets $(, r.$ignore_case())?, sizes, codes)
            },
            error_position: $Size::error_position(r.text()),
            FromStr: r.text().parse::<$Size>().map_err(|error| formatted!(r, error)),
            get_adjusted_unit: r.$size().get_adjusted_unit(r.unit()),
            get_appropriate_unit: r.$size().get_appropriate_unit(r.unit_type()),
            get_exact_unit: r.$size().get_exact_unit(r.bool()),
            get_recoverable_unit: r.$size().get_recoverable_unit(r.bool(), r.index()),
            as_u128: r.$size().as_u128(),
            as_u64: r.$size().as_u64(),
            as_u64_checked: r.$size().as_u64_checked(),
            eq_u64: r.$size().eq_u64(r.next()),
            eq_u128: r.$size().eq_u128(r.number()),
            cmp_u64: r.$size().cmp_u64(r.next()),
            cmp_u128: r.$size().cmp_u128(r.number()),
            add: r.$size().add(r.$size()),
            subtract: r.$size().subtract(r.$size()),
            multiply: r.$size().multiply(r.index()),
            divide: r.$size().divide(r.index()),
            approximate_text: r.$size().approximate_text(r.unit_type(), r.columns()),
            write_text: {
                let (size, spec) = (r.$size(), r.spec());
                size.write_text(spec, &mut r.buffer()).is_ok()
            },
            Display: formatted!(r, r.$size()),
            Ord: r.$size().cmp(&r.$size()),
            PartialOrd: (r.$size() < r.number(), r.next() >= r.$size(), r.number() == r.$size()),
            Hash: hash_of(r.$size()),
            From: (u128::from(r.$size()), u64::from(r.$size()), $Adjusted::from(r.$size())),
            TryFrom: ($Size::try_from(r.number()), $Size::try_from(r.int()), $Size::try_from(r.int() as i8)),
            TryFromFloats: ($Size::try_from(r.float()), $Size::try_from(r.float() as f32)),
            TryInto: (u8::try_from(r.$size()), u16::try_from(r.$size()), usize::try_from(r.$size())),
            get_unit: r.$adjusted().get_unit(),
            $get: r.$adjusted().$get(),
            get_value: r.$adjusted().get_value(),
            write_text: {
                let (adjusted, spec) = (r.$adjusted(), r.spec());
                adjusted.write_text(spec, &mut r.buffer()).is_ok()
            },
            Display: formatted!(r, r.$adjusted()),
            Ord: (r.$adjusted().cmp(&r.$adjusted()), hash_of(r.$adjusted())),
            From: ($Size::from(r.$adjusted()), Unit::from(r.$adjusted()), f64::from(r.$adjusted())),
            FromStr: r.text().parse::<$Adjusted>(),
        }
    };
}

/// The calls of units and of decimals.
fn other_calls() -> Calls {
    calls! { r:
        parse_str: Unit::parse_str(r.text(), r.bool(), r.bool()).map_err(|error| formatted!(r, error)),
        error_position: Unit::error_position(r.text()),
        as_bits_u128: r.unit().as_bits_u128(),
        as_str: r.unit().as_str(),
        is_bit: r.unit().is_bit(),
        is_binary_multiples: r.unit().is_binary_multiples(),
        powers: r.unit().powers(),
        to_binary: r.unit().to_binary(),
        Display: formatted!(r, r.unit()),
        FromStr: r.text().parse::<Unit>(),
        new: Decimal::new(r.number(), r.number()),
        from_u128: Decimal::from_u128(r.number()),
        from_u128_with_scale: {
            let places = r.of(&[0, 1, 27, 28, 29, u32::MAX]);
            Decimal::from_u128_with_scale(r.number(), places)
        },
        ignoring_case: r.reading().ignoring_case(r.bool()),
        of_kind: r.reading().of_kind(r.kind()),
        reading_words: r.reading().reading_words(r.bool()),
        unit_meant: r.reading().unit_meant(r.unit()),
        flags: r.reading().flags(),
        bits: r.kind().bits(),
        unit: r.kind().unit(),
        parts: hint_of(&r.text()).map(|hint| (hint.parts(), hint.to_string())),
        whole: r.decimal().whole(),
        fraction: r.decimal().fraction(),
        places: r.decimal().places(),
        digits: r.decimal().digits(),
        TryFrom: Decimal::try_from(r.float()),
        From: Decimal::from(r.next()),
        Ord: (r.decimal().cmp(&r.decimal()), hash_of(r.decimal())),
        Display: formatted!(r, r.decimal()),
        Display: formatted!(r, ValueParseError::ExceededBounds(r.decimal())),
    }
}

#[test]
fn no_public_call_panics() {
    let lists: [(&str, Calls); 3] = [
        ("Byte", calls_of_size!(Byte AdjustedByte byte adjusted_byte get_byte, bool)),
        ("Bit", calls_of_size!(Bit AdjustedBit bit adjusted_bit get_bit)),
        ("", other_calls()),
    ];
    let (mut panics, mut count) = (Vec::new(), 0);
    for (of, calls) in &lists {
        for (name, call) in calls {
            println!("drawn: {name}");
            count += ROUNDS;
            if catch_unwind(|| (0..ROUNDS).for_each(|seed| call(&mut Random(seed.into())))).is_err() {
                panics.push((of, name));
            }
        }
    }
    assert_eq!(panics, []);
    assert!(count > 1_000_000, "{count} calls");
}
