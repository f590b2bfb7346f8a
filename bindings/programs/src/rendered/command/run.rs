// Rendered from crates/byte_unit_command/src/run.rt by `tools/dev render rust`. Do not edit.

//! The run and its buffers: the loop over records is that of `byte_unit_stream`, with the conversion of a record as its
//! step.

use crate::rattle::alloc::{Allocator, Global};
use crate::rattle::io::{Read, Write};
use crate::rattle::{String, Vec};
use crate::rendered::command::converter::Converter;
use crate::rendered::command::error::{EndReason, RunError, RunResult};
use crate::rendered::command::notice::{Context, Notices};
use crate::rendered::command::options::{Form, Invalid, Options};
use crate::rendered::command::streams::Streams;
use crate::rendered::command::tally::Tally;
use crate::rendered::command::text::{DIGITS, add_in_width};
use crate::rendered::stream::run::{CHUNK, RecordSteps, run_steps};
use byte_unit::rendered::base::size::SIZE_LIMIT;
use byte_unit::rendered::format::NARROW_TEXT;
use byte_unit::rendered::math::EXPANSION_PLACES;

/// Reads the whole input, and writes each record, with the chosen fields replaced.
///
/// Messages about fields are written to `streams.errors`. Once a write to it has failed, the run goes on without them.
///
/// On `Ok` the whole output has been written. Returns what was counted.
///
/// A record may have any length: that `Memory` is returned only if an allocation fails is tested, not proved.
///
/// # Errors
///
/// - `Read` if a read fails. All records that ended before have been written.
/// - `Memory` if allocation fails. Some number of first records have been written, each whole.
/// - `Write` if a write fails. A beginning of the output has been written.
/// - `Ended` for `Rejected` if a field is rejected in the mode `abort`. The records before it have been written.
/// - `Ended` for `Total` if the total is asked for and is 10^30 or more. All records have been written.
pub fn run<R: Read, W: Write, E: Write>(
    alloc: Global,
    options: &Options,
    streams: &mut Streams<R, W, E>,
) -> Result<Tally, RunError> {
    let mut buffer = Vec::new(alloc);
    buffer.resize(CHUNK, 0)?;
    // By reference: so a rejected line takes 3,874 instructions, and by value 3,897.
    let mut buffers = RunBuffers::new(&alloc, options);
    run_with_buffers(&mut buffers, options, &mut buffer, streams)
}

/// Does what [`run`] does, with any allocator, in the caller's buffers, and with reads of at most the length of
/// `buffer`.
///
/// The buffers may be those of an earlier run, whatever its result: what they hold is dropped first.
///
/// Precondition: `buffer` is not empty.
///
/// # Errors
///
/// Those of [`run`].
pub fn run_with_buffers<'a, A: Allocator, R: Read, W: Write, E: Write>(
    buffers: &mut RunBuffers<'a, A>,
    options: &'a Options<'a>,
    buffer: &mut [u8],
    streams: &mut Streams<R, W, E>,
) -> Result<Tally, RunError> {
    let most = read_max(options, buffer.len());
    let converter = &mut buffers.converter;
    converter.header = options.header;
    converter.tally = Tally::NONE;
    converter.context = Context { options, word: streams.word, number: 0 };
    match run_steps(
        converter,
        options.record_end,
        &mut buffers.part,
        &mut buffer[..most],
        &mut streams.reader,
        &mut streams.writer,
        &mut streams.errors,
    ) {
        Ok(()) => Ok(buffers.converter.tally),
        Err(error) => Err(error),
    }
}

/// What a run keeps from one read to the next.
pub struct RunBuffers<'a, A: Allocator> {
    /// The part that was read of a record whose end was not read yet.
    pub(crate) part: Vec<u8, A>,
    /// How far the run has come, and what was converted and is not written yet.
    pub(crate) converter: Converter<'a, A>,
}

impl<'a, A: Allocator + Copy> RunBuffers<'a, A> {
    /// Creates empty buffers. Does not allocate.
    pub fn new(alloc: A, options: &'a Options<'a>) -> RunBuffers<'a, A> {
        RunBuffers {
            part: Vec::new(alloc),
            converter: Converter {
                context: Context { options, word: "", number: 0 },
                header: 0,
                tally: Tally::NONE,
                waiting: Vec::new(alloc),
                notices: Notices { messages: Vec::new(alloc), line: String::new(alloc), words: String::new(alloc) },
                digits: [0u8; DIGITS],
            },
        }
    }
}

impl<'a, A: Allocator> RecordSteps for Converter<'a, A> {
    type End = EndReason;

    #[inline(always)]
    fn step(&mut self, bytes: &[u8], len: usize) -> RunResult {
        let written = self.waiting.len();
        let told = self.notices.messages.len();
        match self.append_record(&bytes[..len]) {
            Ok(()) => Ok(()),
            Err(error) => {
                self.waiting.truncate(written);
                // Otherwise the messages stay: the last is the one about the rejected field.
                if error == RunError::Memory {
                    self.notices.messages.truncate(told);
                }
                Err(error)
            }
        }
    }

    fn close(&mut self) -> RunResult {
        let options = self.context.options;
        if !options.total {
            return Ok(());
        }
        let total = self.tally.total;
        if total >= SIZE_LIMIT {
            return Err(RunError::Ended(EndReason::Total));
        }
        let (width, waiting) = (options.width as usize, &mut self.waiting);
        add_in_width(options, width, total, &mut self.digits, waiting)?;
        waiting.extend_from_slice(&[options.output_end])?;
        Ok(())
    }

    fn waiting(&self) -> &[u8] {
        &self.waiting
    }

    fn untold(&self) -> &[u8] {
        &self.notices.messages
    }

    fn clear(&mut self) {
        self.waiting.clear();
        self.notices.messages.clear();
    }
}

/// The most bytes that the texts of the sizes of one read may take, if each byte of it begins a field: 40 for each byte
/// of a chunk. So [`run`] reads a whole chunk at once if no text is longer and no messages are counted.
const TEXTS_MAX: usize = 40 * CHUNK;

/// The bytes that are counted for the messages about a field, in a run that can have more than one message. An
/// estimate: it makes reads shorter, and bounds no message.
const MESSAGE: usize = 128;

/// Returns the most bytes that a run reads at once into a buffer of `len` bytes: fewer if texts are long or there can
/// be messages, so that few of them wait to be written; and at least one.
fn read_max(options: &Options, len: usize) -> usize {
    // In the mode `abort` a run ends with its first message about a rejected field.
    let tells_rejected = matches!(options.invalid, Invalid::Fail | Invalid::Warn);
    let message = if tells_rejected || options.max.is_some() || options.min.is_some() { MESSAGE } else { 0 };
    let field = text_max(options) + message;
    len.min((TEXTS_MAX / field).max(1))
}

/// Returns the most bytes of the text of a size with the suffix.
fn text_max(options: &Options) -> usize {
    let number_len = match options.form {
        Form::Exact | Form::Plain => NARROW_TEXT,
        Form::InUnit(_) | Form::NumberOf(_) | Form::Largest(_) => match options.precision {
            // But for the digits after the point, a size in a given unit takes fewer bytes than a narrow text.
            None => NARROW_TEXT + EXPANSION_PLACES,
            Some(precision) => NARROW_TEXT + EXPANSION_PLACES.max(precision as usize),
        },
    };
    let len = number_len + options.suffix.len();
    len.max(options.width as usize)
}
