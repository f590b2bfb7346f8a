//! The traits of serde: by JSON, TOML and XML, by each type of integer, and by bincode, which is not human-readable.

use std::collections::HashMap;
use std::fmt::Debug;

use byte_unit::{AdjustedBit, AdjustedByte, Bit, Byte, Unit, UnitType};
use serde::de::value::{Error, MapDeserializer};
use serde::de::{DeserializeOwned, IntoDeserializer, Visitor};
use serde::{Deserialize, Deserializer};
use serde_json::{from_str, from_value, to_string};

#[test]
fn sizes_are_strings() {
    for (number, text) in [(0, "\"0 B\""), (1536, "\"1.5 KiB\""), (15500, "\"15.5 KB\""), (123456, "\"123.456 KB\"")] {
        let size = Byte::from_u64(number);
        assert_eq!(to_string(&size).unwrap(), text);
        assert_eq!(from_str::<Byte>(text).unwrap(), size);
    }
    assert_eq!(to_string(&Bit::from_u64(1536)).unwrap(), "\"1.5 Kib\"");
    assert_eq!(from_str::<Bit>("\"1 KB\"").unwrap().as_u64(), 8000);
    assert_eq!(from_str::<Byte>("\"1 Kb\"").unwrap().as_u64(), 125);
    assert_eq!(from_str::<Vec<Byte>>("[\"1 KB\", \"12\"]").unwrap(), [Byte::KILOBYTE, Byte::from_u64(12)]);
}

#[test]
fn errors_name_the_reason() {
    let error = from_str::<Byte>("\"1 byte\"").unwrap_err().to_string();
    assert!(error.contains("the character 'y' is incorrect ('i' or no character is expected)"), "{error}");
    let error = from_str::<Byte>("true").unwrap_err().to_string();
    assert!(error.contains("expected a string such as \"123\", \"123KiB\", \"50.84 MB\""), "{error}");
    let error = from_str::<Bit>("true").unwrap_err().to_string();
    assert!(error.contains("expected a string such as \"123\", \"123Kib\", \"50.84 Mb\""), "{error}");
    assert!(from_str::<Unit>("\"KX\"").is_err() && from_str::<AdjustedByte>("null").is_err());
}

/// What is expected of a size in bytes, in errors.
const EXPECTED: &str =
    "expected a string such as \"123\", \"123KiB\", \"50.84 MB\", or a non-negative integer smaller than 10^30";

/// What follows it in the error for a float.
const FLOAT: &str = "; the format hands over a float, which may be rounded: write the number with a unit, as a string";

#[test]
fn integers_are_numbers_of_bytes_or_bits() {
    for number in [0, 123456, i64::MAX as u64, u64::MAX] {
        assert_eq!(from_str::<Byte>(&number.to_string()).unwrap(), Byte::from_u64(number));
        assert_eq!(from_str::<Bit>(&number.to_string()).unwrap(), Bit::from_u64(number));
        let value = from_str::<serde_json::Value>(&number.to_string()).unwrap();
        assert_eq!(from_value::<Byte>(value.clone()).unwrap(), Byte::from_u64(number));
        assert_eq!(from_value::<Bit>(value).unwrap(), Bit::from_u64(number));
    }
    let sizes = [Byte::from_u64(1), Byte::KILOBYTE, Byte::MIN];
    assert_eq!(from_str::<Vec<Byte>>("[1, \"1 KB\", 0]").unwrap(), sizes);
    assert_eq!(from_str::<Option<Byte>>("7").unwrap(), Some(Byte::from_u64(7)));
    assert_eq!(from_str::<Option<Byte>>("null").unwrap(), None);
    let settings = from_str::<HashMap<String, Byte>>("{\"cache\": 123456}").unwrap();
    assert_eq!(settings["cache"], Byte::from_u64(123456));
    let limits = from_str::<HashMap<Byte, u8>>("{\"1 KB\": 1, \"12\": 2}").unwrap();
    assert_eq!((limits[&Byte::KILOBYTE], limits[&Byte::from_u64(12)]), (1, 2));
}

#[test]
fn other_numbers_are_rejected() {
    for (text, reason) in [
        ("-1", "invalid value: integer `-1`"),
        ("-9223372036854775808", "invalid value: integer `-9223372036854775808`"),
        ("1.5", "invalid type: floating point `1.5`"),
        ("1.0", "invalid type: floating point `1"),
        ("1e3", "invalid type: floating point `1000"),
        ("18446744073709551616", "invalid type: floating point `18446744073709552000"),
        ("null", "invalid type: null"),
        ("true", "invalid type: boolean `true`"),
        ("[1]", "invalid type: sequence"),
        ("{}", "invalid type: map"),
    ] {
        let error = from_str::<Byte>(text).unwrap_err().to_string();
        assert!(error.starts_with(reason) && error.contains(EXPECTED), "{text}: {error}");
        assert_eq!(error.contains(FLOAT), reason.contains("floating point"), "{text}: {error}");
        assert!(from_str::<Bit>(text).is_err(), "{text}");
    }
    for text in ["7", "-1", "1.5"] {
        assert!(from_str::<AdjustedByte>(text).is_err() && from_str::<AdjustedBit>(text).is_err(), "{text}");
        let error = from_str::<Unit>(text).unwrap_err().to_string();
        assert!(error.starts_with("invalid type: ") && error.contains("a string such as \"B\""), "{error}");
    }
}

#[test]
fn sizes_in_toml() {
    let most = i64::MAX as u64;
    let document = format!("no = 0\ncache = 123456\nmost = {most}\ntext = \"1.5 KiB\"\ndigits = \"12\"\n");
    let bytes = toml::from_str::<HashMap<String, Byte>>(&document).unwrap();
    let bits = toml::from_str::<HashMap<String, Bit>>(&document).unwrap();
    for (key, number) in [("no", 0), ("cache", 123456), ("most", most), ("text", 1536), ("digits", 12)] {
        assert_eq!(bytes[key].as_u64(), number, "{key}");
        assert_eq!(bits[key].as_u64(), if key == "text" { 8 * number } else { number }, "{key}");
    }
    for (value, reason) in [
        ("-1", "invalid value: integer `-1`"),
        ("1.5", "invalid type: floating point `1.5`"),
        ("1e3", "invalid type: floating point `1000"),
        ("true", "invalid type: boolean `true`"),
    ] {
        let error = toml::from_str::<HashMap<String, Byte>>(&format!("cache = {value}")).unwrap_err().to_string();
        assert!(error.starts_with(reason) && error.contains(EXPECTED), "{value}: {error}");
    }
    assert!(toml::from_str::<HashMap<String, Byte>>("cache = 18446744073709551615").is_err());
    assert_eq!(toml::to_string(&HashMap::from([("cache", Byte::KILOBYTE)])).unwrap(), "cache = \"1 KB\"\n");
}

/// Reads a value from a format that calls the visitor with a number of the type `N`.
fn from_number<'de, T: Deserialize<'de>, N: IntoDeserializer<'de, Error>>(number: N) -> Result<T, Error> {
    T::deserialize(number.into_deserializer())
}

#[test]
fn each_type_of_integer_is_read() {
    assert_eq!(from_number(123u8), Ok(Byte::from_u64(123)));
    assert_eq!(from_number(123i16), Ok(Byte::from_u64(123)));
    assert_eq!(from_number(i64::MAX), Ok(Bit::from_u64(i64::MAX as u64)));
    assert_eq!(from_number(u64::MAX), Ok(Bit::from_u64(u64::MAX)));
    let most = 10u128.pow(30) - 1;
    assert_eq!((from_number(most), from_number(most)), (Ok(Byte::MAX), Ok(Bit::MAX)));
    assert_eq!((from_number(most as i128), from_number(0i128)), (Ok(Byte::MAX), Ok(Bit::MIN)));
    let wrong: [(Result<Byte, Error>, &str); 5] = [
        (from_number(10u128.pow(30)), "1000000000000000000000000000000"),
        (from_number(10i128.pow(30)), "1000000000000000000000000000000"),
        (from_number(-1i8), "-1"),
        (from_number(-1i128), "-1"),
        (from_number(i128::MIN), "-170141183460469231731687303715884105728"),
    ];
    for (result, number) in wrong {
        assert_eq!(result.unwrap_err().to_string(), format!("invalid value: integer `{number}`, {EXPECTED}"));
    }
    let error = from_number::<Byte, _>(1.5f64).unwrap_err().to_string();
    assert_eq!(error, format!("invalid type: floating point `1.5`, {EXPECTED}{FLOAT}"));
    assert!(from_number::<Bit, _>(2.0f32).is_err());
    // As RON has it.
    assert_eq!(from_number('1'), Ok(Byte::BYTE));
}

/// A number of 64 bits in a format that is not human-readable, as CBOR has it.
struct Binary(u64);

impl<'de> Deserializer<'de> for Binary {
    type Error = Error;

    fn deserialize_any<V: Visitor<'de>>(self, visitor: V) -> Result<V::Value, Error> {
        visitor.visit_u64(self.0)
    }

    fn is_human_readable(&self) -> bool {
        false
    }

    serde::forward_to_deserialize_any! {
        bool i8 i16 i32 i64 i128 u8 u16 u32 u64 u128 f32 f64 char str string bytes byte_buf option unit unit_struct
        newtype_struct seq tuple tuple_struct map struct enum identifier ignored_any
    }
}

#[test]
fn a_binary_format_may_have_shorter_integers() {
    assert_eq!(Byte::deserialize(Binary(7)), Ok(Byte::from_u64(7)));
    assert_eq!(Bit::deserialize(Binary(u64::MAX)), Ok(Bit::from_u64(u64::MAX)));
}

#[test]
fn an_xml_element_is_read_by_its_text() {
    let read = |entries: &[(&'static str, &'static str)]| {
        let map = || MapDeserializer::<_, Error>::new(entries.iter().copied());
        (Byte::deserialize(map()), Bit::deserialize(map()))
    };
    for entries in [&[("$text", "1.5 KiB")][..], &[("$value", "1.5 KiB")], &[("@id", "7"), ("$text", "1.5 KiB")]] {
        assert_eq!(read(entries), (Ok(Byte::from_u64(1536)), Ok(Bit::from_u64(12288))));
    }
    for (entries, reason) in [
        (&[("$text", "x")][..], "the character 'x' is not a number"),
        (&[("$text", "1"), ("$text", "0 KB")], "duplicate field `$text`"),
        (&[("$text", "1."), ("$value", "5 KB")], "duplicate field `$text`"),
        (&[("@id", "7")], "invalid type: map"),
    ] {
        let error = read(entries).0.unwrap_err().to_string();
        assert!(error.starts_with(reason), "{error}");
    }
}

/// Reads a document by `quick_xml`, and by `serde_xml_rs` the same.
fn from_xml<T: DeserializeOwned + PartialEq + Debug>(document: &str) -> T {
    let value = quick_xml::de::from_str(document).unwrap();
    assert_eq!(serde_xml_rs::from_str::<T>(document).unwrap(), value);
    value
}

#[test]
fn sizes_in_xml() {
    let document = "<config cache=\"1 KB\"><limit id=\"7\">\n 1.5 KiB </limit><most>12</most></config>";
    let bytes = from_xml::<HashMap<String, Byte>>(document);
    let bits = from_xml::<HashMap<String, Option<Bit>>>(document);
    for (name, bytes_of, bits_of) in [("cache", 1000, 8000), ("limit", 1536, 12288), ("most", 12, 12)] {
        assert_eq!((bytes[name], bits[name]), (Byte::from_u64(bytes_of), Some(Bit::from_u64(bits_of))));
    }
    let lists = from_xml::<HashMap<String, Vec<Byte>>>("<config><limit>1 KB</limit><limit>2</limit></config>");
    assert_eq!(lists["limit"], [Byte::KILOBYTE, Byte::from_u64(2)]);
    let written = serde_xml_rs::to_string(&HashMap::from([("limit", Bit::from_u64(1536))])).unwrap();
    assert_eq!((written.as_str(), from_xml(&written)), ("<limit>1.5 Kib</limit>", Bit::from_u64(1536)));
}

/// The elements `limit` of a document, or the errors of `quick_xml` and of `serde_xml_rs`.
fn limits_of(text: &str) -> [Result<Byte, String>; 2] {
    let document = format!("<config><limit>{text}</limit></config>");
    let limit = |limits: HashMap<String, Byte>| limits["limit"];
    [
        quick_xml::de::from_str(&document).map(limit).map_err(|error| error.to_string()),
        serde_xml_rs::from_str(&document).map(limit).map_err(|error| error.to_string()),
    ]
}

#[test]
fn an_xml_element_has_one_text_and_no_children() {
    for text in ["<![CDATA[1 KB]]>", "<!-- a -->1 KB", "1 KB<!-- b -->", "1 &#75;B"] {
        assert_eq!(limits_of(text), [Ok(Byte::KILOBYTE), Ok(Byte::KILOBYTE)], "{text}");
    }
    for text in ["1 KB<x>3</x>", "<x>3</x>1 KB", "1 KB<x/>", "1 K<x id=\"7\">B</x>", "<x>1 KB</x>", ""] {
        for error in limits_of(text).map(Result::unwrap_err) {
            assert!(error.contains("invalid type: map") && error.contains(EXPECTED), "{text}: {error}");
        }
    }
    // `serde_xml_rs` joins the parts of a text.
    for (text, joined) in [("1<!-- a --> KB", 1000), ("1 <![CDATA[KB]]>", 1000), ("1.<!-- a -->5 KB", 1500)] {
        let error = "duplicate field `$text`".to_owned();
        assert_eq!(limits_of(text), [Err(error), Ok(Byte::from_u64(joined))], "{text}");
    }
}

#[test]
fn a_map_that_is_no_xml_element_is_rejected() {
    for text in
        ["{\"size\": 1}", "{\"id\": 1, \"$text\": \"1 KB\"}", "{\"id\": {}, \"$text\": \"1 KB\"}", "{\"id\": \"7\"}"]
    {
        let error = from_str::<Byte>(text).unwrap_err().to_string();
        assert!(error.starts_with("invalid type: map") && error.contains(EXPECTED), "{text}: {error}");
    }
    assert!(from_str::<Byte>("{\"$text\": 12}").is_err());
    // A map of strings could be an element.
    assert_eq!(from_str::<Byte>("{\"id\": \"7\", \"$text\": \"1 KB\"}").unwrap(), Byte::KILOBYTE);
}

#[derive(Debug, PartialEq, Deserialize)]
struct Limit {
    limit: Byte,
}

#[derive(Debug, PartialEq, Deserialize)]
struct Flat {
    #[serde(flatten)]
    inner: Limit,
}

#[derive(Debug, PartialEq, Deserialize)]
#[serde(untagged)]
enum Untagged {
    Limit(Limit),
}

#[derive(Debug, PartialEq, Deserialize)]
#[serde(tag = "kind")]
enum Tagged {
    A { limit: Byte },
}

#[test]
fn flattened_fields_and_enums_have_sizes() {
    let limit = || Limit { limit: Byte::KILOBYTE };
    let (json, xml) = ("{\"kind\": \"A\", \"limit\": \"1 KB\"}", "<r kind=\"A\"><limit>1 KB</limit></r>");
    assert_eq!((from_str(json).unwrap(), from_xml(xml)), (Flat { inner: limit() }, Flat { inner: limit() }));
    assert_eq!((from_str(json).unwrap(), from_xml(xml)), (Untagged::Limit(limit()), Untagged::Limit(limit())));
    let tagged = || Tagged::A { limit: Byte::KILOBYTE };
    assert_eq!((from_str(json).unwrap(), from_xml(xml)), (tagged(), tagged()));
}

#[test]
fn units_and_adjusted_sizes_are_strings() {
    assert_eq!(to_string(&[Unit::Kibit, Unit::KB]).unwrap(), "[\"Kib\",\"KB\"]");
    assert_eq!(from_str::<[Unit; 2]>("[\"MiB\", \"Mb\"]").unwrap(), [Unit::MiB, Unit::Mbit]);
    let adjusted = Byte::from_u64(1536).get_adjusted_unit(Unit::KB);
    assert_eq!(to_string(&adjusted).unwrap(), "\"1.536 KB\"");
    assert_eq!(from_str::<AdjustedByte>("\"1.536 KB\"").unwrap(), adjusted);
    let greatest = Byte::MAX.get_adjusted_unit(Unit::RiB);
    assert_eq!(to_string(&greatest).unwrap(), format!("\"{:#}\"", Byte::MAX));
    assert_eq!(to_string(&Byte::MAX.get_adjusted_unit(Unit::B)).unwrap(), "\"999999999999999999999999999.999 KB\"");
    assert_eq!(from_str::<AdjustedByte>(&to_string(&greatest).unwrap()).unwrap(), greatest);
    let bit = Bit::from_u64(12).get_adjusted_unit(Unit::B);
    assert_eq!(from_str::<AdjustedBit>(&to_string(&bit).unwrap()).unwrap(), bit);
    // 2^-28 has 28 digits after the point, and 2^-29 one more than is parsed.
    for (number, text) in [(4, "\"3.0000000037252902984619140625 GiB\""), (2, "\"3221225.474 KB\"")] {
        let size = Byte::from_u64((3 << 30) + number);
        assert_eq!(to_string(&size.get_adjusted_unit(Unit::GiB)).unwrap(), text);
    }
}

#[test]
fn each_stored_adjusted_size_is_read() {
    let mut state = 1u128;
    for at in 0..20_000 {
        // A linear congruential generator, for numbers of any length up to 30 digits.
        state = state.wrapping_mul(0x2360_ed05_1fc6_5da4_4385_df64_9fcc_f645).wrapping_add(1);
        let number = (state >> 27) % 10u128.pow(at % 31);
        let (byte, bit) = (Byte::from_u128(number).unwrap(), Bit::from_u128(number).unwrap());
        for unit_type in [UnitType::Binary, UnitType::Decimal, UnitType::Both] {
            let (byte, bit) = (byte.get_appropriate_unit(unit_type), bit.get_appropriate_unit(unit_type));
            assert_eq!(from_str::<AdjustedByte>(&to_string(&byte).unwrap()).unwrap(), byte);
            assert_eq!(from_str::<AdjustedBit>(&to_string(&bit).unwrap()).unwrap(), bit);
        }
    }
}

#[test]
fn in_a_binary_format_sizes_are_numbers() {
    assert_eq!(bincode::serialize(&Byte::MAX).unwrap(), Byte::MAX.as_u128().to_le_bytes());
    assert_eq!(bincode::serialize(&Bit::from_u64(7)).unwrap(), 7u128.to_le_bytes());
    let adjusted = Byte::from_u64(1536).get_adjusted_unit(Unit::KB);
    let long = Byte::from_u64((3 << 30) + 2).get_adjusted_unit(Unit::GiB);
    let texts = bincode::serialize(&("KiB", "1.536KB", "3221225.474KB")).unwrap();
    assert_eq!(bincode::serialize(&(Unit::KiB, adjusted, long)).unwrap(), texts);
    assert_eq!(bincode::deserialize::<(Unit, AdjustedByte)>(&texts).unwrap(), (Unit::KiB, adjusted));
    assert_eq!(bincode::deserialize::<Byte>(&7u128.to_le_bytes()).unwrap().as_u64(), 7);
    assert_eq!(bincode::deserialize::<Bit>(&(10u128.pow(30) - 1).to_le_bytes()).unwrap(), Bit::MAX);
    let error = bincode::deserialize::<Byte>(&10u128.pow(30).to_le_bytes()).unwrap_err().to_string();
    assert!(error.starts_with("invalid value: integer `1000000000000000000000000000000`, expected"), "{error}");
}
