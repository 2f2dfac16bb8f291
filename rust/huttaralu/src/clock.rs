//! The clock of a step.

use core::fmt;

/// When a step of the year begins.
///
/// ```
/// let clock = huttaralu::clock_of(240 + 13 * 10 + 5)?;
/// assert_eq!((clock.day, clock.hour, clock.minute), (2, 13, 30));
/// assert_eq!(clock.to_string(), "day 2, 13:30");
/// # Ok::<(), huttaralu::Refusal>(())
/// ```
#[derive(Clone, Copy, Debug, PartialEq, Eq, PartialOrd, Ord, Hash)]
pub struct Clock {
    /// The day of the year, from 1.
    pub day: u32,
    /// The hour, 0 to 23.
    pub hour: u32,
    /// The minute, a multiple of 6.
    pub minute: u32,
}

impl fmt::Display for Clock {
    fn fmt(&self, f: &mut fmt::Formatter<'_>) -> fmt::Result {
        write!(f, "day {}, {:02}:{:02}", self.day, self.hour, self.minute)
    }
}
