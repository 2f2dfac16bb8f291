//! Huttaralu keeps strictly increasing lists of steps (when is this place under water?) as small images, and
//! answers questions about them. The library behind this crate is written in Rattle, and every answer is
//! proved for every input: an image is accepted exactly when it reads as a list by the rules, what is written
//! is the shortest image that any cut of the list can have, and two chains of operations that mean the same
//! set end in identical bytes.
//!
//! A step is six minutes, 0 to [`LARGEST_STEP`]; a list has up to [`MOST_STEPS`] of them. The pupil's
//! question, with one finger on the causeway and one on the boat slip, is when both are under water:
//!
//! ```
//! use huttaralu::{both, clock_of, write};
//!
//! let causeway = write(&[100, 101, 102, 103])?;
//! let slip = write(&[102, 103, 104])?;
//! let wet = both(&causeway, &slip)?;
//! assert_eq!(wet.steps(), [102, 103]);
//!
//! let next = wet.first_at(100).unwrap();
//! assert_eq!(clock_of(next.step)?.to_string(), "day 1, 10:12");
//! # Ok::<(), huttaralu::Refusal>(())
//! ```
//!
//! # Which form to use
//!
//! - [`write()`], [`both`], [`either`] and [`without`] allocate what they need and give an [`ImageBuf`].
//! - [`Image::check`] takes bytes that are there already, as from a file, and answers questions about them
//!   without allocating.
//! - [`write_into`], [`both_into`], [`either_into`] and [`without_into`] work in what the caller lends, and
//!   [`plain`] has all twelve functions so. These need no `alloc`: with `default-features = false` the crate
//!   is for machines that have none.
//!
//! Bad input is refused by a number and a place. [`Refusal`] has both, and displays the words of the rules.

#![no_std]

#[cfg(feature = "alloc")]
extern crate alloc;

mod blocks;
mod clock;
mod cursor;
#[doc(hidden)] // the answers in the fields of the C interface, for tests that look at each of them
pub mod ffi;
mod image;
pub mod plain;
mod refusal;

#[cfg(feature = "alloc")]
mod allocated;

#[cfg(feature = "alloc")]
pub use allocated::{both, either, without, write, ImageBuf, Steps};
pub use blocks::{Block, Blocks, Kind};
pub use clock::Clock;
pub use cursor::Cursor;
pub use image::Image;
#[doc(inline)]
pub use limits::{LARGEST_STEP, MOST_STEPS, STEPS_IN_A_YEAR};
#[doc(inline)]
pub use plain::{
    both as both_into, clock_of, either as either_into, without as without_into, write as write_into,
    Counted, Found,
};
pub use refusal::{Reason, Refusal, Side};

use limits::{COUNTS_SIZE, ENTRY_SIZE, WORK_SHARE};

/// The steps of a day: one every six minutes.
pub const STEPS_IN_A_DAY: u32 = 240;

/// The numbers of work that writing n steps borrows.
///
/// ```
/// assert_eq!(huttaralu::work_needed(0), 16);
/// assert_eq!(huttaralu::work_needed(99), 1600);
/// ```
pub const fn work_needed(n: usize) -> usize {
    WORK_SHARE * (n + 1)
}

/// A number of bytes that the image of any n steps fits.
///
/// One block of codes has at most four bytes a step, and one row has a bit for each possible step; the image
/// that is written is no longer than the shorter of the two.
///
/// ```
/// use huttaralu::{most_bytes, write};
///
/// assert_eq!(most_bytes(0), 8);
/// assert!(write(&[3, 5, 8])?.bytes().len() <= most_bytes(3));
/// # Ok::<(), huttaralu::Refusal>(())
/// ```
pub const fn most_bytes(n: usize) -> usize {
    const ROW: usize = (LARGEST_STEP as usize + 1) / 8;
    if n == 0 {
        COUNTS_SIZE
    } else if n < ROW / 4 {
        COUNTS_SIZE + ENTRY_SIZE + 4 * n
    } else {
        COUNTS_SIZE + ENTRY_SIZE + ROW
    }
}
