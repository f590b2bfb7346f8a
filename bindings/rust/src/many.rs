//! The parsing of columns of texts: the types of offsets, and the methods of sizes.

use crate::{Bit, BuffersError, Byte, ParseError, RowError, ValueParseError};

/// An offset in the data of a column: `i32` or `i64`.
pub trait Offset: sealed::Offset {}

impl Offset for i32 {}
impl Offset for i64 {}

/// Keeps other crates from implementing `Offset` for more types.
mod sealed {
    pub trait Offset: Copy {
        /// Returns the index, or `None` if it is negative.
        fn index(self) -> Option<usize>;
    }

    impl Offset for i32 {
        fn index(self) -> Option<usize> {
            self.try_into().ok()
        }
    }

    impl Offset for i64 {
        fn index(self) -> Option<usize> {
            self.try_into().ok()
        }
    }
}

/// Returns the code of a text's error, which is zero for a size.
fn code_of<T>(parsed: &Option<Result<T, ParseError>>) -> u8 {
    match parsed {
        Some(Ok(_)) => 0,
        Some(Err(ParseError::Value(ValueParseError::NoValue))) => 1,
        Some(Err(ParseError::Value(ValueParseError::NotNumber(_)))) => 2,
        Some(Err(ParseError::Value(ValueParseError::NumberTooLong))) => 3,
        Some(Err(ParseError::Value(ValueParseError::ExceededBounds(_)))) => 4,
        Some(Err(ParseError::Unit(_))) => 5,
        None => 6,
    }
}

/// Returns whether the offsets ascend within the data, and each text has an element of both buffers.
fn do_fit<O: Offset>(data: &[u8], offsets: &[O], sizes_len: usize, codes_len: usize) -> bool {
    let texts = offsets.len().saturating_sub(1);
    let mut least = 0;
    sizes_len == texts
        && codes_len == texts
        && offsets.iter().all(|offset| match offset.index() {
            Some(index) if least <= index && index <= data.len() => {
                least = index;
                true
            }
            _ => false,
        })
}

/// Parses the texts of a column, each by `parse`, and returns the number of those that are no sizes.
#[inline(always)]
fn parse_column<O: Offset, T: Default>(
    data: &[u8],
    offsets: &[O],
    sizes: &mut [T],
    codes: &mut [u8],
    parse: impl Fn(&[u8]) -> Option<Result<T, ParseError>>,
) -> Result<usize, BuffersError> {
    if !do_fit(data, offsets, sizes.len(), codes.len()) {
        return Err(BuffersError);
    }
    let mut rejected = 0;
    for ((ends, size), code) in offsets.windows(2).zip(sizes).zip(codes) {
        let text = ends[0].index().zip(ends[1].index()).and_then(|(start, end)| data.get(start..end));
        let parsed = parse(text.unwrap_or_default());
        *code = code_of(&parsed);
        rejected += usize::from(*code != 0);
        *size = parsed.and_then(Result::ok).unwrap_or_default();
    }
    Ok(rejected)
}

/// Defines the calls of a type of sizes that parse many texts, over the calls for one; `ignore_case` is a parameter of
/// bytes alone. `$K`, a unit of 1000, `$false`, the argument for `ignore_case`, and `$sum` are for the examples.
macro_rules! column_methods {
    ($Size:ident $many:ident $parse:ident $buffers:ident $bytes:ident, $K:literal, $sum:literal
        $(, $ignore_case:ident, $false:literal)?) => {
        /// Columns.
        impl $Size {
            #[doc = concat!("Parses texts as [`", stringify!($parse), "`](Self::", stringify!($parse), ") does,")]
            /// one after the other: each gives a size, or a [`RowError`] with its row. The first row is 0.
            ///
            /// # Examples
            ///
            /// ```
            #[doc = concat!("use byte_unit::", stringify!($Size), ";")]
            ///
            #[doc = concat!("let texts = [\"512\", \"1 Kx\", \"2 ", $K, "\"];")]
            #[doc = concat!(
                "let mut sizes = ", stringify!($Size), "::", stringify!($many), "(texts" $(, ", ", $false)?, ");"
            )]
            #[doc = concat!("let first: ", stringify!($Size), " = sizes.next().unwrap().unwrap();")]
            /// let error = sizes.next().unwrap().unwrap_err();
            /// assert_eq!((error.row, error.to_string().get(..27)), (1, Some("row 1: the character 'x' is")));
            #[doc = concat!("assert_eq!(first.as_u64() + sizes.next().unwrap().unwrap().as_u64(), ", $sum, ");")]
            /// ```
            pub fn $many<I>(texts: I $(, $ignore_case: bool)?) -> impl Iterator<Item = Result<Self, RowError>>
            where
                I: IntoIterator,
                I::Item: AsRef<str>,
            {
                texts.into_iter().enumerate().map(move |(row, text)| {
                    Self::$parse(text $(, $ignore_case)?).map_err(|error| RowError { row, error })
                })
            }

            #[doc = concat!("Parses a column in Arrow's layout, each text as `", stringify!($bytes), "` does:")]
            /// text `i` is `data[offsets[i]..offsets[i + 1]]`, so there is one offset more than texts. Returns the
            /// number of texts that are no sizes.
            ///
            /// Writes the size of each text to `sizes`, and zero to `codes`; of a text that is none, zero to `sizes`,
            /// and to `codes` the reason: 1 no value, 2 not a number, 3 a number that is too long, 4 a size that is
            /// too large, 5 a bad unit, 6 bytes that are not UTF-8.
            ///
            /// # Errors
            ///
            /// Returns [`BuffersError`] and writes nothing if an offset is negative, less than the one before it or
            /// past the end of `data`, or if `sizes` and `codes` do not have one element for each text.
            ///
            /// # Examples
            ///
            /// ```
            #[doc = concat!("use byte_unit::", stringify!($Size), ";")]
            ///
            #[doc = concat!("let (data, offsets) = (b\"2 ", $K, "2 x512\", [0, 4, 7, 10]);")]
            #[doc = concat!("let (mut sizes, mut codes) = ([", stringify!($Size), "::MIN; 3], [0; 3]);")]
            #[doc = concat!("let rejected = ", stringify!($Size), "::", stringify!($buffers), "(data, &offsets",
                $(", ", $false,)? ", &mut sizes, &mut codes)?;")]
            /// assert_eq!((rejected, codes), (1, [0, 5, 0]));
            #[doc = concat!("assert_eq!(sizes[0].as_u64() + sizes[2].as_u64(), ", $sum, ");")]
            /// # Ok::<(), byte_unit::BuffersError>(())
            /// ```
            pub fn $buffers<O: Offset>(
                data: &[u8],
                offsets: &[O],
                $($ignore_case: bool,)?
                sizes: &mut [Self],
                codes: &mut [u8],
            ) -> Result<usize, BuffersError> {
                parse_column(data, offsets, sizes, codes, |text| Self::$bytes(text $(, $ignore_case)?))
            }
        }
    };
}

column_methods! { Byte parse_many parse_str parse_buffers parse_bytes, "KB", "2512", ignore_case, "false" }
column_methods! {
    Byte parse_many_binary parse_str_binary parse_buffers_binary parse_bytes_binary, "KB", "2560", ignore_case, "false"
}
column_methods! { Bit parse_many parse_str parse_buffers parse_bytes, "Kb", "2512" }
column_methods! { Bit parse_many_binary parse_str_binary parse_buffers_binary parse_bytes_binary, "Kb", "2560" }
