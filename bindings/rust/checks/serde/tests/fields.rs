//! The ways of `serde_fields` to store sizes, in fields of each type.

use std::collections::{BTreeMap, HashMap};
use std::fmt::Debug;

use byte_unit::serde_fields::{Field, binary, number, string, words};
use byte_unit::{Bit, Byte};
use serde::de::DeserializeOwned;
use serde::{Deserialize, Serialize};
use serde_json::{from_str, to_string};

#[derive(Debug, PartialEq, Serialize, Deserialize)]
#[serde(transparent, bound = "T: Field<binary::Way>")]
struct Binary<T>(#[serde(with = "binary")] T);

#[derive(Debug, PartialEq, Serialize, Deserialize)]
#[serde(transparent, bound = "T: Field<words::Way>")]
struct InWords<T>(#[serde(with = "words")] T);

#[derive(Debug, PartialEq, Serialize, Deserialize)]
#[serde(transparent, bound = "T: Field<number::Way>")]
struct Number<T>(#[serde(with = "number")] T);

#[derive(Debug, PartialEq, Serialize, Deserialize)]
#[serde(transparent, bound = "T: Field<string::Way>")]
struct Text<T>(#[serde(with = "string")] T);

const SIZE: Byte = Byte::from_u64(1536);

/// Checks that a field is read from a text of JSON, and written as another, which is read as the same field.
fn check<F: Serialize + DeserializeOwned + PartialEq + Debug>(field: F, text: &str, stored: &str) {
    assert_eq!((from_str::<F>(text).unwrap(), to_string(&field).unwrap().as_str()), (field, stored));
    assert_eq!(to_string(&from_str::<F>(stored).unwrap()).unwrap(), stored);
}

/// Checks that the error for a text begins with words.
fn rejects<F: DeserializeOwned + Debug>(text: &str, words: &str) {
    let error = from_str::<F>(text).unwrap_err().to_string();
    assert!(error.starts_with(words), "{error}");
}

/// Checks that bincode has the same for two values.
fn stored_alike(one: impl Serialize, other: impl Serialize) {
    assert_eq!(bincode::serialize(&one).unwrap(), bincode::serialize(&other).unwrap());
}

#[test]
fn sizes() {
    check(Binary(Byte::from_u64(10 << 20)), r#""10m""#, r#""10 MiB""#);
    check(Binary(Byte::from_u64(512 << 20)), r#""512mb""#, r#""512 MiB""#);
    check(Binary(Byte::KILOBYTE), "1000", r#""1000""#);
    check(InWords(Byte::from_u64(100_000_000)), r#""100 MegaBytes""#, r#""100 MB""#);
    check(InWords(Byte::from_u64(9)), r#""9 b""#, r#""9 B""#);
    check(InWords(SIZE), "1536", r#""1.5 KiB""#);
    check(Number(SIZE), "1536", "1536");
    check(Number(Bit::from_u64(u64::MAX)), "18446744073709551615", "18446744073709551615");
    check(Text(Byte::from_u64(10_000_000)), r#""10m""#, r#""10 MB""#);
    check(Text(Bit::from_u64(1536)), r#""1.5 kibit""#, r#""1.5 Kib""#);
    rejects::<Binary<Byte>>(r#""1 byte""#, "the character 'y' is incorrect");
    rejects::<Binary<Byte>>(
        "-1",
        r#"invalid value: integer `-1`, expected a string such as "123", "10m", "128MB", or a"#,
    );
    rejects::<InWords<Byte>>(r#""5 byte s""#, "the character 'y' is incorrect");
    rejects::<InWords<Byte>>("[]", r#"invalid type: sequence, expected a string such as "123", "5 bytes", "10 Mega"#);
    rejects::<Number<Byte>>(r#""1536""#, "invalid type: string");
    rejects::<Text<Byte>>("1536", "invalid type: integer `1536`, expected a string such as");
    let large = Number(Byte::from_u128(1 << 64).unwrap());
    assert_eq!(to_string(&large).unwrap_err().to_string(), "the size is 2^64 or more");
    stored_alike((Binary(Byte::KILOBYTE), InWords(SIZE)), (1000u128, 1536u128));
    stored_alike((Number(SIZE), Text(SIZE)), (1536u64, "1.5 KiB"));
}

#[test]
fn each_stored_binary_size_is_read() {
    let mut state = 1u128;
    for at in 0..20_000 {
        state = state.wrapping_mul(0x2360_ed05_1fc6_5da4_4385_df64_9fcc_f645).wrapping_add(1);
        let size = Byte::from_u128(((state >> 27) % 10u128.pow(at % 31)) << (at % 3)).unwrap_or(Byte::MAX);
        let text = to_string(&Binary(size)).unwrap();
        assert_eq!((from_str::<Binary<Byte>>(&text).unwrap().0, from_str::<Byte>(&text).unwrap()), (size, size));
    }
}

#[test]
fn collections() {
    check(Binary(Some(SIZE)), r#""1.5k""#, r#""1.5 KiB""#);
    check(InWords(vec![Some(SIZE)]), r#"["1536 bytes"]"#, r#"["1.5 KiB"]"#);
    check(Number(None::<Byte>), "null", "null");
    check(Binary(vec![SIZE, Byte::KILOBYTE]), r#"["1.5k", 1000]"#, r#"["1.5 KiB","1000"]"#);
    check(Number(BTreeMap::from([(1u8, SIZE), (2, Byte::MIN)])), r#"{"2": 0, "1": 1536}"#, r#"{"1":1536,"2":0}"#);
    let nested = HashMap::from([("a".to_string(), vec![None, Some(SIZE)])]);
    check(Text(nested), r#"{"a": [null, "1536"]}"#, r#"{"a":[null,"1.5 KiB"]}"#);
    rejects::<Number<Vec<Byte>>>("{}", "invalid type: map, expected a sequence");
    rejects::<Number<BTreeMap<u8, Byte>>>("[]", "invalid type: sequence, expected a map");
}
