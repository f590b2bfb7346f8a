// Rendered from crates/byte_unit_base/src/lib.rt by `tools/dev render rust`. Do not edit.

//! Units of bits and bytes, and the parsers of units and sizes.
//!
//! What sizes in bytes and in bits have in common is here once, as functions that take the [`Kind`].

pub use crate::rendered::base::errors::{
    ExceededBoundsError, LocatedError, Location, ParseError, UnitParseError, ValueParseError,
};
pub use crate::rendered::base::hint::{Hint, hint_of};
pub use crate::rendered::base::kind::Kind;
pub use crate::rendered::base::quoted::{MAX_QUOTE_LEN, Quoted, quote};
pub use crate::rendered::base::read::{Measure, read_size, read_text};
pub use crate::rendered::base::spec::{Flags, ParseSpec};
pub use crate::rendered::base::stop::{Expected, NumberStop, Reason, Stop, UnitStop, error_at, location_at};
pub use crate::rendered::base::unit::Unit;
pub use crate::rendered::base::unit::parse::read_unit_text;
pub use crate::rendered::base::unit::tables::{PREFIXES, prefix_letter, unit_at};
pub use crate::rendered::base::words::measure_in_words;

mod errors;
mod hint;
mod kind;
mod quoted;
mod read;
pub mod size;
mod spec;
mod stop;
mod unit;
mod words;
