// Rendered from crates/byte_unit_stream/src/reader.rt by `tools/dev render rust`. Do not edit.

//! A reader that records a failure.

use crate::rattle::io::Read;

/// A reader that records whether a read has failed. After a failure it does not call the reader again.
///
/// It also counts its reads. The bound of 2^64 - 1 on that count is what proves that a loop of reads ends.
pub struct Reading<R> {
    /// The reader.
    inner: R,
    /// Whether a read has returned `None`.
    failed: bool,
    /// The number of calls of the reader.
    count: u64,
}

impl<R: Read> Reading<R> {
    /// Creates a `Reading` over a reader, with no read made and no failure recorded.
    pub fn new(inner: R) -> Reading<R> {
        Reading { inner, failed: false, count: 0 }
    }

    /// Returns `true` if a read has returned `None`.
    pub fn failed(&self) -> bool {
        self.failed
    }

    /// Returns the reader inside, with the bytes that it has left.
    pub fn into_inner(self) -> R {
        let Reading { inner, failed: _, count: _ } = self;
        inner
    }

    /// Reads once into the beginning of `buf`, and returns the number of bytes read. If `buf` is not empty, 0 means
    /// the end of the input.
    ///
    /// Returns `None` if the reader returns an error of any kind. After that, and after 2^64 - 1 reads, returns `None`
    /// without calling the reader. Each other call counts as a read, also if it returns `None`.
    ///
    /// No contract of std says when a reader returns an error: that `None` is returned for no other reason is tested,
    /// not proved.
    pub fn read(&mut self, buf: &mut [u8]) -> Option<usize> {
        if self.failed || self.count == u64::MAX {
            // `failed` is not set yet if the number of reads has just reached its bound.
            self.failed = true;
            return None;
        }
        self.count += 1;
        match self.inner.read(buf) {
            Ok(n) => Some(n),
            Err(_) => {
                self.failed = true;
                None
            }
        }
    }
}
