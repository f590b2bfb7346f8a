//! The traits of serde: a size is written as a string with its unit, or in a binary format as a number, and read from a
//! string, an integer or the text of an XML element; an adjusted size and a unit are strings.

use core::convert::Infallible;
use core::fmt::{self, Display, Formatter};
use core::marker::PhantomData;
use core::str::{self, FromStr};

use serde::de::{DeserializeSeed, Error, MapAccess, Unexpected, Visitor};
use serde::{Deserialize, Deserializer, Serialize, Serializer};

use crate::text::TEXT_LEN;
use crate::{AdjustedBit, AdjustedByte, Bit, Byte, FormatSpec, Sign, Unit};

/// What is parsed from a string.
pub(crate) trait Parsed: FromStr {
    /// What is expected, for errors.
    const EXPECTED: &'static str;
}

/// Parses a string.
struct Parser<T>(PhantomData<T>);

impl<'de, T: Parsed> Visitor<'de> for Parser<T>
where
    T::Err: Display,
{
    type Value = T;

    fn expecting(&self, f: &mut Formatter<'_>) -> fmt::Result {
        f.write_str(T::EXPECTED)
    }

    fn visit_str<E: Error>(self, text: &str) -> Result<T, E> {
        text.parse().map_err(E::custom)
    }
}

impl<'de, T: Parsed> DeserializeSeed<'de> for Parser<T>
where
    T::Err: Display,
{
    type Value = T;

    fn deserialize<D: Deserializer<'de>>(self, deserializer: D) -> Result<T, D::Error> {
        // An element of XML could be read as a string, too, and is a map here.
        deserializer.deserialize_any(self)
    }
}

/// Whether the key of a map is that of the text of an XML element, by `quick_xml` or `serde_xml_rs`.
struct IsText(bool);

impl FromStr for IsText {
    type Err = Infallible;

    fn from_str(key: &str) -> Result<Self, Infallible> {
        Ok(IsText(key == "$text" || key == "$value"))
    }
}

impl Parsed for IsText {
    const EXPECTED: &'static str = "a key";
}

/// The value of an attribute, which is not read.
struct Attribute;

impl FromStr for Attribute {
    type Err = Infallible;

    fn from_str(_: &str) -> Result<Self, Infallible> {
        Ok(Attribute)
    }
}

impl Parsed for Attribute {
    const EXPECTED: &'static str = "an attribute";
}

/// What a text is parsed as, which is an error only if there is no other text.
struct Text<T: FromStr>(Result<T, T::Err>);

impl<T: FromStr> FromStr for Text<T> {
    type Err = Infallible;

    fn from_str(text: &str) -> Result<Self, Infallible> {
        Ok(Text(text.parse()))
    }
}

impl<T: Parsed> Parsed for Text<T> {
    const EXPECTED: &'static str = T::EXPECTED;
}

/// What is also converted from a number.
pub(crate) trait Converted: Parsed {
    /// Converts a number, or returns `None` if it is too large.
    fn from_number(number: u128) -> Option<Self>;
}

/// Parses a string or the text of an XML element, or converts an integer. A float is an error.
struct Converter<T>(PhantomData<T>);

/// Returns the error for an integer that is negative or too large.
fn out_of_range<T: Parsed, E: Error, N: Display>(number: N) -> E {
    E::custom(format_args!("invalid value: integer `{number}`, expected {}", T::EXPECTED))
}

impl<'de, T: Converted> Visitor<'de> for Converter<T>
where
    T::Err: Display,
{
    type Value = T;

    fn expecting(&self, f: &mut Formatter<'_>) -> fmt::Result {
        f.write_str(T::EXPECTED)
    }

    fn visit_str<E: Error>(self, text: &str) -> Result<T, E> {
        text.parse().map_err(E::custom)
    }

    fn visit_u64<E: Error>(self, number: u64) -> Result<T, E> {
        self.visit_u128(number.into())
    }

    fn visit_u128<E: Error>(self, number: u128) -> Result<T, E> {
        T::from_number(number).ok_or_else(|| out_of_range::<T, E, _>(number))
    }

    fn visit_i64<E: Error>(self, number: i64) -> Result<T, E> {
        self.visit_i128(number.into())
    }

    fn visit_i128<E: Error>(self, number: i128) -> Result<T, E> {
        match u128::try_from(number) {
            Ok(number) => self.visit_u128(number),
            Err(_) => Err(out_of_range::<T, E, _>(number)),
        }
    }

    fn visit_f64<E: Error>(self, number: f64) -> Result<T, E> {
        let why = "the format hands over a float, which may be rounded: write the number with a unit, as a string";
        Err(E::custom(format_args!("invalid type: floating point `{number}`, expected {}; {why}", T::EXPECTED)))
    }

    /// Reads an XML element, which is a map of its attributes and its text. A comment, for one, makes it two texts.
    fn visit_map<A: MapAccess<'de>>(self, mut map: A) -> Result<T, A::Error> {
        let no_size = || A::Error::invalid_type(Unexpected::Map, &self);
        let mut size = None;
        while let Some(IsText(is_text)) = map.next_key_seed(Parser(PhantomData))? {
            if !is_text {
                let Attribute = map.next_value_seed(Parser(PhantomData)).map_err(|_| no_size())?;
            } else if size.is_some() {
                return Err(A::Error::duplicate_field("$text"));
            } else {
                size = Some(map.next_value_seed(Parser(PhantomData))?);
            }
        }
        match size {
            Some(Text(size)) => size.map_err(A::Error::custom),
            None => Err(no_size()),
        }
    }
}

/// Reads a string, or an integer, as the number of bytes or bits. In a human-readable format it is the input that says
/// which of them comes.
pub(crate) fn convert<'de, T: Converted, D: Deserializer<'de>>(deserializer: D) -> Result<T, D::Error>
where
    T::Err: Display,
{
    if deserializer.is_human_readable() {
        deserializer.deserialize_any(Converter(PhantomData))
    } else {
        deserializer.deserialize_u128(Converter(PhantomData))
    }
}

/// Defines the traits of a type of sizes and of its adjusted sizes. `$expected` has examples for errors.
macro_rules! serde_of_size {
    ($Size:ident, $Adjusted:ident, $expected:literal) => {
        impl Parsed for $Size {
            const EXPECTED: &'static str =
                concat!("a string such as ", $expected, ", or a non-negative integer smaller than 10^30");
        }

        impl Converted for $Size {
            fn from_number(number: u128) -> Option<Self> {
                Self::from_u128(number)
            }
        }

        impl Serialize for $Size {
            fn serialize<S: Serializer>(&self, serializer: S) -> Result<S::Ok, S::Error> {
                if serializer.is_human_readable() {
                    serializer.collect_str(&format_args!("{self:#}"))
                } else {
                    serializer.serialize_u128(self.as_u128())
                }
            }
        }

        impl<'de> Deserialize<'de> for $Size {
            fn deserialize<D: Deserializer<'de>>(deserializer: D) -> Result<Self, D::Error> {
                convert(deserializer)
            }
        }

        impl Parsed for $Adjusted {
            const EXPECTED: &'static str = concat!("a string such as ", $expected);
        }

        impl Serialize for $Adjusted {
            /// Writes the size in its unit, or as a size alone is written, if it is the greatest one or has more digits
            /// in its unit than are parsed.
            fn serialize<S: Serializer>(&self, serializer: S) -> Result<S::Ok, S::Error> {
                let (size, readable) = ($Size::from(*self), serializer.is_human_readable());
                let sign = if readable { Sign::Unset } else { Sign::Minus };
                let mut out = [0; TEXT_LEN];
                let written = self.write_text(FormatSpec { sign, ..FormatSpec::ALTERNATE }, &mut out);
                match written.map(str::from_utf8) {
                    Ok(Ok(text)) if size != $Size::MAX && text.parse() == Ok(size) => serializer.serialize_str(text),
                    _ if readable => serializer.collect_str(&format_args!("{size:#}")),
                    _ => serializer.collect_str(&format_args!("{size:-#}")),
                }
            }
        }

        impl<'de> Deserialize<'de> for $Adjusted {
            fn deserialize<D: Deserializer<'de>>(deserializer: D) -> Result<Self, D::Error> {
                deserializer.deserialize_str(Parser(PhantomData))
            }
        }
    };
}

serde_of_size! { Byte, AdjustedByte, r#""123", "123KiB", "50.84 MB""# }
serde_of_size! { Bit, AdjustedBit, r#""123", "123Kib", "50.84 Mb""# }

impl Parsed for Unit {
    const EXPECTED: &'static str = r#"a string such as "B", "KB" or "MiB""#;
}

impl Serialize for Unit {
    fn serialize<S: Serializer>(&self, serializer: S) -> Result<S::Ok, S::Error> {
        serializer.serialize_str(self.as_str())
    }
}

impl<'de> Deserialize<'de> for Unit {
    fn deserialize<D: Deserializer<'de>>(deserializer: D) -> Result<Self, D::Error> {
        deserializer.deserialize_str(Parser(PhantomData))
    }
}
