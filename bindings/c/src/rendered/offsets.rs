// Rendered from crates/byte_unit_c/src/offsets.rt by `tools/dev render rust`. Do not edit.

//! The offsets of many texts in one buffer.

/// Offsets of 64 or of 32 bits.
#[derive(Clone, Copy)]
pub enum Offsets<'a> {
    /// Offsets of 64 bits.
    Long(&'a [i64]),
    /// Offsets of 32 bits.
    Short(&'a [i32]),
}

impl<'a> Offsets<'a> {
    /// Returns the number of offsets.
    pub fn len(self) -> usize {
        match self {
            Offsets::Long(offsets) => offsets.len(),
            Offsets::Short(offsets) => offsets.len(),
        }
    }

    /// Returns an offset by its index.
    ///
    /// Precondition: `i` is less than the number of offsets.
    fn at(self, i: usize) -> i64 {
        match self {
            Offsets::Long(offsets) => offsets[i],
            Offsets::Short(offsets) => offsets[i] as i64,
        }
    }

    /// Returns whether the first offset is 0 or more, none is less than the one before it, and the last is at most
    /// `len`.
    pub fn ascend_to(self, len: usize) -> bool {
        let mut low = 0;
        for i in 0..self.len() {
            let offset = self.at(i);
            if offset < low {
                return false;
            }
            low = offset;
        }
        // `low` is the last offset, or 0, and so not negative.
        low as u64 <= len as u64
    }

    /// Returns the bytes of a text by its index: those from offset `i` up to offset `i + 1`.
    ///
    /// Preconditions: the offsets ascend to at most the length of `data`, and `i + 1` is less
    /// than their number.
    #[doc(hidden)]
    pub fn text_at<'d>(self, data: &'d [u8], i: usize) -> &'d [u8] {
        let begin = position(self.at(i));
        let end = position(self.at(i + 1));
        part(data, begin, end)
    }
}

/// Converts an offset to a position in a buffer.
///
/// Precondition: the offset is 0 or more.
fn position(offset: i64) -> usize {
    offset as usize
}

/// Returns the bytes from `begin` up to `end`.
///
/// Precondition: `begin <= end <= data.len()`.
fn part<'d>(data: &'d [u8], begin: usize, end: usize) -> &'d [u8] {
    &data[begin..end]
}
