// Rendered from crates/byte_unit_math/src/steps.rt by `tools/dev render rust`. Do not edit.

//! A step counter, of which contracts say by how much a call raises it.

/// A step count. It starts at 0, never falls, and saturates at `u64::MAX`.
///
/// The steps are those of a method that a call names, such as trial division. Most calls compute their number and work
/// in another way, so a count bounds no running time.
///
/// # Examples
/// ```
/// # use byte_unit::rendered::{base::{size::parse_line, *}, bit::*, byte::*, choice::*, format::*, math::*};
/// let mut steps = Steps::new();
/// assert_eq!(two_five(1_000, &mut steps), (3, 3));
/// assert_eq!(steps.count(), 8);
/// ```
#[derive(Clone, Copy, Debug)]
pub struct Steps {
    /// The number of steps so far.
    count: u64,
}

impl Steps {
    /// Creates a step count of 0.
    ///
    /// # Examples
    /// ```
    /// # use byte_unit::rendered::{base::{size::parse_line, *}, bit::*, byte::*, choice::*, format::*, math::*};
    /// assert_eq!(Steps::new().count(), 0);
    /// ```
    pub fn new() -> Steps {
        Steps { count: 0 }
    }

    /// Returns the number of steps counted so far.
    ///
    /// # Examples
    /// ```
    /// # use byte_unit::rendered::{base::{size::parse_line, *}, bit::*, byte::*, choice::*, format::*, math::*};
    /// let mut steps = Steps::new();
    /// two_five(7, &mut steps);
    /// assert_eq!(steps.count(), 2);
    /// ```
    pub fn count(&self) -> u64 {
        self.count
    }

    /// Adds a number of steps, saturating.
    pub(crate) fn advance_by(&mut self, steps: u32) {
        self.count = self.count.saturating_add(u64::from(steps));
    }
}
