// Rendered from crates/byte_unit_stream/src/writer.rt by `tools/dev render rust`. Do not edit.

//! A writer that records a failure, and writing all of a buffer.

use crate::rattle::io::{ErrorKind, Write};

/// A writer that records whether a write has failed. After a failure it does not call the writer again.
pub struct Writing<W> {
    /// The writer.
    inner: W,
    /// How the first write that failed has failed; `None` if none has.
    failure: Option<Failure>,
}

/// How a write failed.
#[derive(Debug, Clone, Copy, PartialEq, Eq)]
enum Failure {
    /// The reader of the output has gone.
    Closed,
    /// In any other way.
    Other,
}

impl<W: Write> Writing<W> {
    /// Creates a `Writing` over a writer, with no failure recorded.
    pub fn new(inner: W) -> Writing<W> {
        Writing { inner, failure: None }
    }

    /// Returns `true` if a write has returned `None`.
    pub fn failed(&self) -> bool {
        self.failure.is_some()
    }

    /// Returns `true` if a write has failed because the reader of the output has gone: with an error of the kind
    /// `BrokenPipe`.
    pub fn closed(&self) -> bool {
        match self.failure {
            Some(Failure::Closed) => true,
            Some(Failure::Other) | None => false,
        }
    }

    /// Returns the writer inside, with the bytes that it holds.
    pub fn into_inner(self) -> W {
        let Writing { inner, failure: _ } = self;
        inner
    }

    /// Writes a non-empty beginning of `bytes` by one call of the writer, and returns its length.
    ///
    /// Precondition: `bytes` is not empty.
    ///
    /// Returns `None` if the writer returns an error of any kind, or accepts no byte. After a failure, returns `None`
    /// without calling the writer.
    #[doc(hidden)]
    pub fn write(&mut self, bytes: &[u8]) -> Option<usize> {
        if self.failure.is_some() {
            return None;
        }
        match self.inner.write(bytes) {
            Ok(n) if n > 0 => Some(n),
            // No byte was accepted: an error, as in `Write::write_all` of std, since a loop would not end.
            Ok(_) => {
                self.record_failure(ErrorKind::WriteZero);
                None
            }
            Err(error) => {
                self.record_failure(error.kind());
                None
            }
        }
    }

    /// Records that a write has failed with an error of this kind.
    fn record_failure(&mut self, kind: ErrorKind) {
        self.failure = Some(if kind == ErrorKind::BrokenPipe { Failure::Closed } else { Failure::Other });
    }
}

/// Writes all of `bytes`, in as many calls of the writer as it takes.
///
/// # Errors
///
/// Returns `error` if a write fails. A beginning of `bytes` has been written.
pub fn write_whole<W: Write, E: Copy>(writer: &mut Writing<W>, bytes: &[u8], error: E) -> Result<(), E> {
    let mut rest = bytes;
    while !rest.is_empty() {
        match writer.write(rest) {
            None => return Err(error),
            Some(n) => rest = &rest[n..],
        }
    }
    Ok(())
}

/// Writes messages, unless a write has failed before. Records a failure, and no more.
pub(crate) fn tell<W: Write>(errors: &mut Writing<W>, messages: &[u8]) {
    if messages.is_empty() {
        return;
    }
    if !errors.failed() {
        let _ = write_whole(errors, messages, ());
    }
}
