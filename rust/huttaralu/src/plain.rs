//! The library's twelve functions, one to one, over plain slices.
//!
//! Nothing is allocated here. What a function writes goes to the buffers that the caller lends, and each says
//! what they then hold. An image is any bytes: every function checks all of it first, and refuses by the
//! table of the rules. Whoever asks one image often checks it once by [`Image::check`](crate::Image::check).

use crate::{ffi, Clock, Refusal};

/// What was written: the number of steps, and the bytes of their image.
#[derive(Clone, Copy, Debug, PartialEq, Eq, Hash)]
pub struct Counted {
    /// The number of steps.
    pub steps: usize,
    /// The length of the image, in bytes.
    pub bytes: usize,
}

/// A step with its rank.
#[derive(Clone, Copy, Debug, PartialEq, Eq, Hash)]
pub struct Found {
    /// The step.
    pub step: u32,
    /// Its rank: how many steps of the list are below it.
    pub rank: u32,
}

/// A cursor as the C interface has it: a rank, to be used with the image that it was started on.
///
/// It may be stored and built again from its rank. A move refuses one whose rank is above n.
/// [`crate::Cursor`] is the one that keeps its image and cannot be refused.
#[derive(Clone, Copy, Debug, PartialEq, Eq, PartialOrd, Ord, Hash)]
pub struct Cursor {
    /// The rank of the step that `next` would give.
    pub rank: u32,
}

/// A move's answer: the step that was given, if any, and the moved cursor.
#[derive(Clone, Copy, Debug, PartialEq, Eq, Hash)]
pub struct Moved {
    /// The step that the cursor stood at; nothing at the end.
    pub step: Option<u32>,
    /// The cursor after the move.
    pub cursor: Cursor,
}

/// Checks an image and answers its number of steps.
///
/// Refusals: 1 to 10. Cost: one pass over the image.
///
/// ```
/// use huttaralu::plain;
///
/// assert_eq!(plain::check(&[0; 8]), Ok(0));
/// assert_eq!(plain::check(&[0; 7]).unwrap_err().number(), 1);
/// assert_eq!(plain::check(&[0; 9]).unwrap_err().number(), 2);
/// ```
pub fn check(image: &[u8]) -> Result<usize, Refusal> {
    let told = ffi::check(image);
    Refusal::told(told.refusal).map(|()| told.steps as usize)
}

/// Reads an image back and answers its number of steps, n.
///
/// The first n places of `steps` then hold the steps; the others are unchanged. A refusal changes none.
///
/// Refusals: 1 to 10; 16 if `steps` has fewer than n places. Cost: two passes over the image.
///
/// ```
/// use huttaralu::{plain, write};
///
/// let image = write(&[3, 5, 8])?;
/// let mut steps = [0; 4];
/// assert_eq!(plain::read(image.as_ref(), &mut steps)?, 3);
/// assert_eq!(steps, [3, 5, 8, 0]);
///
/// let refusal = plain::read(image.as_ref(), &mut steps[..2]).unwrap_err();
/// assert_eq!((refusal.number(), refusal.place()), (16, 3));
/// # Ok::<(), huttaralu::Refusal>(())
/// ```
pub fn read(image: &[u8], steps: &mut [u32]) -> Result<usize, Refusal> {
    let told = ffi::read(image, steps);
    Refusal::told(told.refusal).map(|()| told.steps as usize)
}

/// Writes a list of n steps as the shortest image that it can have.
///
/// The image then stands at the front of `out`, and the first [`work_needed`](crate::work_needed)`(n)`
/// numbers of `work` are 0. The rest of both is unchanged. A refusal changes neither, except 15, which leaves
/// `work` as acceptance does.
///
/// Refusals, in this order: 13 for more than [`MOST_STEPS`](crate::MOST_STEPS) steps, 12 for a step above
/// [`LARGEST_STEP`](crate::LARGEST_STEP), 11 for a list that does not rise, 14 if `work` is too short, 15 if
/// `out` is shorter than the image. Cost: a number of passes over the list and its work area.
///
/// ```
/// use huttaralu::{work_needed, write_into, Counted};
///
/// let mut work = [0; work_needed(2)];
/// let mut out = [0; 40];
/// assert_eq!(write_into(&[0, 7], &mut work, &mut out)?, Counted { steps: 2, bytes: 22 });
/// assert_eq!(out[21], 0x81); // a row: steps 0 and 7 are the lowest and the highest bit of one byte
///
/// let refusal = write_into(&[0, 7], &mut work, &mut out[..21]).unwrap_err();
/// assert_eq!((refusal.number(), refusal.place()), (15, 22));
/// # Ok::<(), huttaralu::Refusal>(())
/// ```
pub fn write(list: &[u32], work: &mut [u32], out: &mut [u8]) -> Result<Counted, Refusal> {
    counted(ffi::write(list, work, out))
}

/// Answers the step at a rank. Ranks count from 0.
///
/// Refusals: 1 to 10; 17 for a rank not below n. Cost: one pass over the image, and a search.
///
/// ```
/// use huttaralu::{plain, write};
///
/// let image = write(&[3, 5, 8])?;
/// assert_eq!(plain::rank(image.as_ref(), 2), Ok(8));
/// assert_eq!(plain::rank(image.as_ref(), 3).unwrap_err().number(), 17);
/// # Ok::<(), huttaralu::Refusal>(())
/// ```
pub fn rank(image: &[u8], rank: u32) -> Result<u32, Refusal> {
    let told = ffi::rank(image, rank);
    Refusal::told(told.refusal).map(|()| told.step)
}

/// Answers the first step at or after a bound, with its rank, or nothing if every step is below the bound.
///
/// Refusals: 1 to 10. Cost: one pass over the image, and a search.
///
/// ```
/// use huttaralu::{plain, write, Found};
///
/// let image = write(&[3, 5, 8])?;
/// assert_eq!(plain::first_at(image.as_ref(), 4)?, Some(Found { step: 5, rank: 1 }));
/// assert_eq!(plain::first_at(image.as_ref(), 9)?, None);
/// # Ok::<(), huttaralu::Refusal>(())
/// ```
pub fn first_at(image: &[u8], bound: u32) -> Result<Option<Found>, Refusal> {
    let told = ffi::first_at(image, bound);
    Refusal::told(told.refusal)?;
    Ok((told.found == 1).then_some(Found { step: told.step, rank: told.rank }))
}

/// Starts a cursor at rank 0.
///
/// Refusals: 1 to 10. Cost: one pass over the image.
///
/// ```
/// use huttaralu::plain;
///
/// assert_eq!(plain::start(&[0; 8])?.rank, 0);
/// # Ok::<(), huttaralu::Refusal>(())
/// ```
pub fn start(image: &[u8]) -> Result<Cursor, Refusal> {
    moved(ffi::start(image)).map(|moved| moved.cursor)
}

/// Gives the step at the cursor's rank and moves by one; at the end gives nothing and stays.
///
/// Refusals: 1 to 10; 19 for a cursor whose rank is above n. Cost: one pass over the image, and a search.
///
/// ```
/// use huttaralu::{plain, write};
///
/// let image = write(&[3, 5])?;
/// let start = plain::start(image.as_ref())?;
/// let first = plain::next(start, image.as_ref())?;
/// let second = plain::next(first.cursor, image.as_ref())?;
/// let end = plain::next(second.cursor, image.as_ref())?;
/// assert_eq!([first.step, second.step, end.step], [Some(3), Some(5), None]);
/// assert_eq!(end.cursor, second.cursor);
/// # Ok::<(), huttaralu::Refusal>(())
/// ```
pub fn next(cursor: Cursor, image: &[u8]) -> Result<Moved, Refusal> {
    moved(ffi::next(ffi::Cursor { rank: cursor.rank }, image))
}

/// Moves the cursor to the first rank not below its own whose step is at least the bound, or to the end. It
/// never goes back.
///
/// Refusals: 1 to 10; 19 for a cursor whose rank is above n. Cost: one pass over the image, and a search.
///
/// ```
/// use huttaralu::{plain, write};
///
/// let image = write(&[3, 5, 8])?;
/// let cursor = plain::skip(plain::start(image.as_ref())?, image.as_ref(), 6)?;
/// assert_eq!(cursor.rank, 2);
/// assert_eq!(plain::skip(cursor, image.as_ref(), 0)?, cursor);
/// # Ok::<(), huttaralu::Refusal>(())
/// ```
pub fn skip(cursor: Cursor, image: &[u8], bound: u32) -> Result<Cursor, Refusal> {
    moved(ffi::skip(ffi::Cursor { rank: cursor.rank }, image, bound)).map(|moved| moved.cursor)
}

/// Writes the shortest image of the steps that both images have, n in number.
///
/// The first n places of `steps` then hold the steps, the image stands at the front of `out`, and the first
/// [`work_needed`](crate::work_needed)`(n)` numbers of `work` are 0. The rest of each is unchanged. A refusal
/// changes none, except 15, which leaves `steps` and `work` as acceptance does.
///
/// Refusals, in this order: 1 to 10 for the first image, then for the second, with the [side](Refusal::side);
/// 13 for a result of more than [`MOST_STEPS`](crate::MOST_STEPS) steps, 16 if `steps` is too short for the
/// result, 14 if `work` is, 15 if `out` is. Cost: three passes over each image, to check, count and store, and
/// then that of writing.
///
/// ```
/// use huttaralu::{both_into, work_needed, write, Counted};
///
/// let (causeway, slip) = (write(&[1, 2, 3])?, write(&[2, 3, 4])?);
/// let (mut steps, mut work, mut out) = ([0; 3], [0; work_needed(3)], [0; 40]);
/// let counted = both_into(causeway.as_ref(), slip.as_ref(), &mut steps, &mut work, &mut out)?;
/// assert_eq!(steps, [2, 3, 0]);
/// assert_eq!(&out[..counted.bytes], write(&[2, 3])?.as_ref());
/// # Ok::<(), huttaralu::Refusal>(())
/// ```
pub fn both(
    first: &[u8],
    second: &[u8],
    steps: &mut [u32],
    work: &mut [u32],
    out: &mut [u8],
) -> Result<Counted, Refusal> {
    counted(ffi::both(first, second, steps, work, out))
}

/// Writes the shortest image of the steps that at least one of two images has.
///
/// Buffers, refusals and cost are those of [`both`].
///
/// ```
/// use huttaralu::{either_into, work_needed, write};
///
/// let (causeway, slip) = (write(&[1, 2, 3])?, write(&[2, 3, 4])?);
/// let (mut steps, mut work, mut out) = ([0; 4], [0; work_needed(4)], [0; 40]);
/// let counted = either_into(causeway.as_ref(), slip.as_ref(), &mut steps, &mut work, &mut out)?;
/// assert_eq!(steps, [1, 2, 3, 4]);
/// assert_eq!(&out[..counted.bytes], write(&[1, 2, 3, 4])?.as_ref());
/// # Ok::<(), huttaralu::Refusal>(())
/// ```
pub fn either(
    first: &[u8],
    second: &[u8],
    steps: &mut [u32],
    work: &mut [u32],
    out: &mut [u8],
) -> Result<Counted, Refusal> {
    counted(ffi::either(first, second, steps, work, out))
}

/// Writes the shortest image of the steps that the first image has and the second has not.
///
/// Buffers, refusals and cost are those of [`both`].
///
/// ```
/// use huttaralu::{without_into, work_needed, write};
///
/// let (causeway, slip) = (write(&[1, 2, 3])?, write(&[2, 3, 4])?);
/// let (mut steps, mut work, mut out) = ([0; 3], [0; work_needed(3)], [0; 40]);
/// let counted = without_into(causeway.as_ref(), slip.as_ref(), &mut steps, &mut work, &mut out)?;
/// assert_eq!(steps, [1, 0, 0]);
/// assert_eq!(&out[..counted.bytes], write(&[1])?.as_ref());
/// # Ok::<(), huttaralu::Refusal>(())
/// ```
pub fn without(
    first: &[u8],
    second: &[u8],
    steps: &mut [u32],
    work: &mut [u32],
    out: &mut [u8],
) -> Result<Counted, Refusal> {
    counted(ffi::without(first, second, steps, work, out))
}

/// Answers the day, hour and minute of a step of the year.
///
/// Refusals: 18 for a step that is not below [`STEPS_IN_A_YEAR`](crate::STEPS_IN_A_YEAR).
///
/// ```
/// use huttaralu::{clock_of, Clock, STEPS_IN_A_YEAR};
///
/// assert_eq!(clock_of(STEPS_IN_A_YEAR - 1)?, Clock { day: 365, hour: 23, minute: 54 });
/// assert_eq!(clock_of(STEPS_IN_A_YEAR).unwrap_err().number(), 18);
/// # Ok::<(), huttaralu::Refusal>(())
/// ```
pub fn clock_of(step: u32) -> Result<Clock, Refusal> {
    let told = ffi::clock_of(step);
    Refusal::told(told.refusal).map(|()| Clock { day: told.day, hour: told.hour, minute: told.minute })
}

fn counted(told: ffi::Counted) -> Result<Counted, Refusal> {
    Refusal::told(told.refusal).map(|()| Counted { steps: told.steps as usize, bytes: told.bytes as usize })
}

fn moved(told: ffi::Moved) -> Result<Moved, Refusal> {
    Refusal::told(told.refusal).map(|()| Moved {
        step: (told.found == 1).then_some(told.step),
        cursor: Cursor { rank: told.cursor.rank },
    })
}
