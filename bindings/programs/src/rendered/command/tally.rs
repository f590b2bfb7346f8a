// Rendered from crates/byte_unit_command/src/tally.rt by `tools/dev render rust`. Do not edit.

//! What a run counts.

use crate::rendered::command::options::Options;
use byte_unit::rendered::base::size::SIZE_LIMIT;

/// What was counted in the fields that were converted.
#[derive(Debug, Clone, Copy, PartialEq, Eq)]
pub struct Tally {
    /// The sum of the sizes, or 10^30 if it reaches that.
    pub total: u128,
    /// Whether a size is above the maximum or below the minimum.
    pub beyond: bool,
    /// Whether a field was rejected.
    pub rejected: bool,
}

impl Tally {
    /// The tally of no field.
    pub const NONE: Tally = Tally { total: 0, beyond: false, rejected: false };

    /// Counts a size. Returns `true` if it is above the maximum or below the minimum.
    pub(crate) fn add(&mut self, options: &Options, size: u128) -> bool {
        self.total = self.total.saturating_add(size).min(SIZE_LIMIT);
        let beyond = options.max.is_some_and(|most| most < size) || options.min.is_some_and(|least| size < least);
        if beyond {
            self.beyond = true;
        }
        beyond
    }

    /// Counts a field that is not a size.
    pub(crate) fn reject(&mut self) {
        self.rejected = true;
    }
}
