#![cfg_attr(not(doctest), doc = include_str!("serde_fields.md"))]

use core::marker::PhantomData;
use core::str::FromStr;

use serde::ser::Error;
use serde::{Deserialize, Deserializer, Serialize, Serializer};

use crate::rendered::base::Kind;
use crate::rendered::format::binary_spec;
use crate::serde_traits::{Converted, Parsed, convert};
use crate::{AdjustedBit, AdjustedByte, Bit, Byte, ParseError, ParseSpec};

/// What a field may be that is stored in the way `W`: a size, or a collection of such fields.
pub trait Field<W>: Sized {
    /// Writes the field. An error is the format's, or that of a size that cannot be written so.
    fn write<S: Serializer>(&self, serializer: S) -> Result<S::Ok, S::Error>;

    /// Reads the field. An error is the format's, or the reason why the field is no size.
    fn read<'de, D: Deserializer<'de>>(deserializer: D) -> Result<Self, D::Error>;
}

/// Defines the module of a way to store sizes.
macro_rules! ways {
    ($($(#[$doc:meta])* $way:ident)*) => { $(
        $(#[$doc])*
        pub mod $way {
            use super::{Deserializer, Field, Serializer};

            /// The way, as a parameter of [`Field`].
            #[derive(Debug)]
            pub enum Way {}

            /// Writes a field, for `with`.
            pub fn serialize<T: Field<Way>, S: Serializer>(field: &T, serializer: S) -> Result<S::Ok, S::Error> {
                field.write(serializer)
            }

            /// Reads a field, for `with`.
            pub fn deserialize<'de, T: Field<Way>, D: Deserializer<'de>>(deserializer: D) -> Result<T, D::Error> {
                T::read(deserializer)
            }
        }
    )* };
}

ways! {
    /// Sizes in bytes of programs for which `K` is 1024: `10m` is 10485760, and `b` means bytes.
    ///
    /// What is written has a binary unit or none, so that it is the same size in this way and without `with`.
    binary
    /// Sizes in bytes whose strings may have words for units, with case ignored: `100 megabytes` is 100000000.
    words
    /// Sizes as integers of 64 bits, of bytes or bits. A size of 2^64 or more is an error when it is written.
    number
    /// Sizes as strings with their units, in binary formats too.
    string
}

/// Defines a size in bytes whose string is read by another call.
macro_rules! read_by {
    ($Size:ident, $text:ident => $parsed:expr, $examples:literal) => {
        struct $Size(Byte);

        impl FromStr for $Size {
            type Err = ParseError;

            fn from_str($text: &str) -> Result<Self, ParseError> {
                $parsed.map(Self)
            }
        }

        impl Parsed for $Size {
            const EXPECTED: &'static str =
                concat!("a string such as ", $examples, ", or a non-negative integer smaller than 10^30");
        }

        impl Converted for $Size {
            fn from_number(number: u128) -> Option<Self> {
                Byte::from_u128(number).map(Self)
            }
        }
    };
}

read_by! { ByteBinary, text => Byte::parse_str_binary(text, true), r#""123", "10m", "128MB""# }
read_by! { ByteInWords, text => Byte::parse_str_as(text, IN_WORDS), r#""123", "5 bytes", "10 MegaBytes""# }

/// How a size that may have words is read.
const IN_WORDS: ParseSpec = ParseSpec { ignore_case: true, words: true, ..ParseSpec::BYTES };

impl Field<words::Way> for Byte {
    fn write<S: Serializer>(&self, serializer: S) -> Result<S::Ok, S::Error> {
        self.serialize(serializer)
    }

    fn read<'de, D: Deserializer<'de>>(deserializer: D) -> Result<Self, D::Error> {
        convert::<ByteInWords, D>(deserializer).map(|size| size.0)
    }
}

impl Field<binary::Way> for Byte {
    fn write<S: Serializer>(&self, serializer: S) -> Result<S::Ok, S::Error> {
        let has_binary_unit = binary_spec(self.as_u128(), Kind::Byte, None).alternate;
        if serializer.is_human_readable() && !has_binary_unit {
            return serializer.collect_str(self);
        }
        self.serialize(serializer)
    }

    fn read<'de, D: Deserializer<'de>>(deserializer: D) -> Result<Self, D::Error> {
        convert::<ByteBinary, D>(deserializer).map(|size| size.0)
    }
}

/// Defines the other ways to store a type of sizes.
macro_rules! stored_size {
    ($Size:ident $Adjusted:ident) => {
        impl Field<number::Way> for $Size {
            fn write<S: Serializer>(&self, serializer: S) -> Result<S::Ok, S::Error> {
                let number = self.as_u64_checked();
                serializer.serialize_u64(number.ok_or_else(|| S::Error::custom("the size is 2^64 or more"))?)
            }

            fn read<'de, D: Deserializer<'de>>(deserializer: D) -> Result<Self, D::Error> {
                u64::deserialize(deserializer).map(Self::from_u64)
            }
        }

        impl Field<string::Way> for $Size {
            fn write<S: Serializer>(&self, serializer: S) -> Result<S::Ok, S::Error> {
                serializer.collect_str(&format_args!("{self:#}"))
            }

            /// Reads what is read as an adjusted size, which is a string in each format.
            fn read<'de, D: Deserializer<'de>>(deserializer: D) -> Result<Self, D::Error> {
                $Adjusted::deserialize(deserializer).map(Self::from)
            }
        }
    };
}

stored_size! { Byte AdjustedByte }
stored_size! { Bit AdjustedBit }

/// A field of a collection, or a reference to it, with the traits by which the collection is written and read.
struct Element<T, W>(T, PhantomData<W>);

impl<T: Field<W>, W> Serialize for Element<&T, W> {
    fn serialize<S: Serializer>(&self, serializer: S) -> Result<S::Ok, S::Error> {
        self.0.write(serializer)
    }
}

impl<'de, T: Field<W>, W> Deserialize<'de> for Element<T, W> {
    fn deserialize<D: Deserializer<'de>>(deserializer: D) -> Result<Self, D::Error> {
        Ok(Element(T::read(deserializer)?, PhantomData))
    }
}

impl<T: Field<W>, W> Field<W> for Option<T> {
    fn write<S: Serializer>(&self, serializer: S) -> Result<S::Ok, S::Error> {
        self.as_ref().map(|field| Element(field, PhantomData)).serialize(serializer)
    }

    fn read<'de, D: Deserializer<'de>>(deserializer: D) -> Result<Self, D::Error> {
        Ok(Option::<Element<T, W>>::deserialize(deserializer)?.map(|element| element.0))
    }
}

/// The collections of std. What reads those of serde is in its feature `std`: a feature that named it would have cargo
/// lock serde for each program.
#[cfg(feature = "std")]
mod collections {
    use core::fmt::{self, Formatter};
    use core::hash::Hash;
    use std::collections::{BTreeMap, HashMap};
    use std::vec::Vec;

    use serde::de::{DeserializeOwned, MapAccess, SeqAccess, Visitor};

    use super::*;

    /// Reads a collection of fields.
    struct Sequence<C, T, W>(PhantomData<(C, T, W)>);

    impl<'de, C: Default + Extend<T>, T: Field<W>, W> Visitor<'de> for Sequence<C, T, W> {
        type Value = C;

        fn expecting(&self, f: &mut Formatter<'_>) -> fmt::Result {
            f.write_str("a sequence")
        }

        fn visit_seq<A: SeqAccess<'de>>(self, mut fields: A) -> Result<C, A::Error> {
            let mut read = C::default();
            while let Some(element) = fields.next_element::<Element<T, W>>()? {
                read.extend([element.0]);
            }
            Ok(read)
        }
    }

    /// Reads a map to fields.
    struct Map<C, K, T, W>(PhantomData<(C, K, T, W)>);

    impl<'de, C: Default + Extend<(K, T)>, K: Deserialize<'de>, T: Field<W>, W> Visitor<'de> for Map<C, K, T, W> {
        type Value = C;

        fn expecting(&self, f: &mut Formatter<'_>) -> fmt::Result {
            f.write_str("a map")
        }

        fn visit_map<A: MapAccess<'de>>(self, mut fields: A) -> Result<C, A::Error> {
            let mut read = C::default();
            while let Some((key, element)) = fields.next_entry::<K, Element<T, W>>()? {
                read.extend([(key, element.0)]);
            }
            Ok(read)
        }
    }

    impl<T: Field<W>, W> Field<W> for Vec<T> {
        fn write<S: Serializer>(&self, serializer: S) -> Result<S::Ok, S::Error> {
            serializer.collect_seq(self.iter().map(|field| Element(field, PhantomData)))
        }

        fn read<'de, D: Deserializer<'de>>(deserializer: D) -> Result<Self, D::Error> {
            deserializer.deserialize_seq(Sequence(PhantomData))
        }
    }

    /// Defines the traits of a map, whose keys are written and read by their own.
    macro_rules! stored_map {
        ($Map:ident $Key:ident $(+ $More:ident)?) => {
            impl<K: Serialize + DeserializeOwned + $Key $(+ $More)?, T: Field<W>, W> Field<W> for $Map<K, T> {
                fn write<S: Serializer>(&self, serializer: S) -> Result<S::Ok, S::Error> {
                    serializer.collect_map(self.iter().map(|(key, field)| (key, Element(field, PhantomData))))
                }

                fn read<'de, D: Deserializer<'de>>(deserializer: D) -> Result<Self, D::Error> {
                    deserializer.deserialize_map(Map(PhantomData))
                }
            }
        };
    }

    stored_map! { BTreeMap Ord }
    stored_map! { HashMap Eq + Hash }
}
