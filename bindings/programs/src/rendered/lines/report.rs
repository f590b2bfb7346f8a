// Rendered from crates/byte_unit_lines/src/report.rt by `tools/dev render rust`. Do not edit.

//! The report on an input: the answers to its lines. The run is that of `byte_unit_stream`, with an answer as its step.

use crate::rattle::Vec;
use crate::rattle::alloc::{Allocator, Global};
use crate::rattle::io::{self, Read, Write};
use crate::rendered::lines::line::add_answer;
use crate::rendered::stream::run::{self, CHUNK, RecordSteps, run_steps};
use crate::rendered::stream::{Reading, Writing};
use byte_unit::rendered::base::Kind;
use std::convert::Infallible;

/// The byte that ends a line.
const LINE_END: u8 = b'\n';

/// The reason why a run ended before the end of its input. No line is one.
pub type RunError = run::RunError<Infallible>;

/// The answers that are not written yet.
pub(crate) struct Answers<A: Allocator> {
    /// The kind of the sizes.
    pub(crate) kind: Kind,
    /// The answers, each whole.
    pub(crate) waiting: Vec<u8, A>,
}

impl<A: Allocator> RecordSteps for Answers<A> {
    type End = Infallible;

    // Inlined for the row `1.5 KiB` of lines in docs/SPEED.md.
    #[inline(always)]
    fn step(&mut self, bytes: &[u8], len: usize) -> Result<(), RunError> {
        match add_answer(bytes, len, self.kind, &mut self.waiting) {
            Ok(()) => Ok(()),
            Err(_) => Err(RunError::Memory),
        }
    }

    fn close(&mut self) -> Result<(), RunError> {
        Ok(())
    }

    fn waiting(&self) -> &[u8] {
        &self.waiting
    }

    fn untold(&self) -> &[u8] {
        &[]
    }

    fn clear(&mut self) {
        self.waiting.clear();
    }
}

/// What a run keeps from one read to the next.
pub struct Buffers<A: Allocator> {
    /// The answers that are not written yet.
    pub(crate) answers: Answers<A>,
    /// The part that was read of a line whose end was not read yet.
    pub(crate) line: Vec<u8, A>,
}

impl<A: Allocator + Copy> Buffers<A> {
    /// Creates empty buffers. Does not allocate.
    pub fn new(alloc: A) -> Buffers<A> {
        Buffers { answers: Answers { kind: Kind::Byte, waiting: Vec::new(alloc) }, line: Vec::new(alloc) }
    }
}

/// Reads the whole input, and writes the answer to each line.
///
/// On `Ok` the report on the whole input has been written. A line may have any length: that `Memory` is returned only
/// if an allocation fails is tested, through [`run_with_buffers`], not proved.
///
/// # Errors
/// - `Read` if a read fails. The answers to all lines that ended before have been written.
/// - `Memory` if allocation fails. The answers to some number of first lines have been written, each whole.
/// - `Write` if a write fails. A beginning of the report on what was read has been written.
pub fn run<R: Read, W: Write>(
    alloc: Global,
    reader: &mut Reading<R>,
    writer: &mut Writing<W>,
    kind: Kind,
) -> Result<(), RunError> {
    let mut buffer = [0u8; CHUNK];
    let mut buffers = Buffers::new(alloc);
    run_with_buffers(&mut buffers, &mut buffer, reader, writer, kind)
}

/// Does what [`run`] does, with any allocator, in the caller's buffers; it reads into `buffer`.
///
/// The buffers may be those of an earlier run, whatever its result: what they hold is dropped first.
///
/// Precondition: `buffer` is not empty.
///
/// # Errors
/// Those of [`run`].
pub fn run_with_buffers<A: Allocator, R: Read, W: Write>(
    buffers: &mut Buffers<A>,
    buffer: &mut [u8],
    reader: &mut Reading<R>,
    writer: &mut Writing<W>,
    kind: Kind,
) -> Result<(), RunError> {
    buffers.answers.kind = kind;
    // No line has messages.
    let mut errors = Writing::new(io::sink());
    run_steps(&mut buffers.answers, LINE_END, &mut buffers.line, buffer, reader, writer, &mut errors)
}
