//! Huttaralu's functions by hand: safe Rust, tuned, without proofs.
//!
//! This crate is what the library is measured against. It follows document 01 to the byte, asks for the same
//! buffers, refuses by the same numbers, and leaves the same content in what it was lent, so that both do the
//! same work.
//!
//! ```
//! let list = [0, 7];
//! let mut work = [0; 16 * 3];
//! let mut out = [0; 22];
//! let written = native::write(&list, &mut work, &mut out).unwrap();
//! assert_eq!((written.steps, written.bytes), (2, 22));
//! assert_eq!(out[21], 0x81);
//! ```

#![forbid(unsafe_code)]

mod ask;
mod codes;
mod image;
mod pair;
mod plan;
mod row;
mod write;

pub use ask::{first_at, rank, start, Cursor, Found, Moved};
pub use image::{check, read};
pub use limits::{
    COUNTS_SIZE, ENTRY_SIZE, LARGEST_STEP, MOST_STEPS, NUMBER_SIZE, STEPS_IN_A_YEAR, WORK_SHARE,
};
pub use pair::{both, either, without};
pub use write::write;

/// Why something was refused: the table's number, the side of a pair (else 0) and the place.
#[derive(Clone, Copy, Debug, PartialEq, Eq)]
pub struct Refusal {
    /// Number in the table of refusals.
    pub number: u32,
    /// 1 or 2 for an image of a pair, else 0.
    pub side: u32,
    /// Where, as the table says for this number.
    pub place: u32,
}

impl Refusal {
    pub(crate) fn new(number: u32, place: usize) -> Refusal {
        Refusal { number, side: 0, place: place as u32 }
    }

    pub(crate) fn on_side(self, side: u32) -> Refusal {
        Refusal { side, ..self }
    }
}

/// What was written: number of steps, and length of the image.
#[derive(Clone, Copy, Debug, PartialEq, Eq)]
pub struct Counted {
    /// Steps of the list.
    pub steps: u32,
    /// Bytes of its image.
    pub bytes: u32,
}

/// A moment of the year.
#[derive(Clone, Copy, Debug, PartialEq, Eq)]
pub struct Clock {
    /// Day of the year, from 1.
    pub day: u32,
    /// Hour of the day.
    pub hour: u32,
    /// Minute of the hour.
    pub minute: u32,
}

/// The clock of a step, or refusal 18.
pub fn clock_of(step: u32) -> Result<Clock, Refusal> {
    if step >= STEPS_IN_A_YEAR {
        return Err(Refusal::new(18, 0));
    }
    Ok(Clock { day: step / 240 + 1, hour: step % 240 / 10, minute: step % 10 * 6 })
}
