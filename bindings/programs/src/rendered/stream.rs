// Rendered from crates/byte_unit_stream/src/lib.rt by `tools/dev render rust`. Do not edit.

//! A reader and a writer that record a failure, the search for the end of a record, and writing all of a buffer; and a
//! reader and a writer in memory, for tests.

mod reader;
pub mod run;
mod search;
mod writer;

pub use crate::rendered::stream::reader::Reading;
pub use crate::rendered::stream::search::end_of;
pub use crate::rendered::stream::writer::{Writing, write_whole};
