//! Document 01 once more, in slow and obvious Rust.
//!
//! It follows the document and shares nothing with the library but the limits and sizes of the header, so
//! that the two can be held against each other. An image is judged by reading all of it into a list, every
//! question is asked of that list, and the shortest image is found by trying every end of every block.
//! [`brute`] goes further and tries every cut there is.

pub mod brute;
pub mod image;
pub mod plan;

mod code;

pub use code::code_of;
pub use image::{image_of, verdict, Block, Kind};
pub use limits::{
    COUNTS_SIZE, ENTRY_SIZE, LARGEST_STEP, MOST_STEPS, NUMBER_SIZE, STEPS_IN_A_YEAR, WORK_SHARE,
};
pub use plan::shortest;

use std::collections::BTreeSet;

/// The steps of a day, and of an hour; the minutes of a step.
const DAY: u32 = 240;
const HOUR: u32 = 10;
const MINUTES: u32 = 6;

/// Number, side and place of a refusal.
#[derive(Clone, Copy, Debug, PartialEq, Eq)]
pub struct Refusal {
    /// The number in the table.
    pub number: u32,
    /// 1 or 2 for an image of a pair, else 0.
    pub side: u32,
    /// The place.
    pub place: u32,
}

/// A refusal of no side.
pub(crate) fn refuse<T>(number: u32, place: usize) -> Result<T, Refusal> {
    Err(Refusal { number, side: 0, place: u32::try_from(place).expect("a place fits 32 bits") })
}

/// The numbers of work for n steps.
pub fn work_for(n: usize) -> usize {
    WORK_SHARE * (n + 1)
}

/// The number of steps.
pub fn check(image: &[u8]) -> Result<u32, Refusal> {
    verdict(image).map(|list| list.len() as u32)
}

/// The number of steps, which are put in the step buffer.
pub fn read(image: &[u8], steps: &mut [u32]) -> Result<u32, Refusal> {
    let list = verdict(image)?;
    if steps.len() < list.len() {
        return refuse(16, list.len());
    }
    steps[..list.len()].copy_from_slice(&list);
    Ok(list.len() as u32)
}

/// The number of steps and the length of the image, which is put in the output.
pub fn write(list: &[u32], work: &mut [u32], out: &mut [u8]) -> Result<(u32, u32), Refusal> {
    if list.len() > MOST_STEPS {
        return refuse(13, 0);
    }
    if let Some(index) = list.iter().position(|&step| step > LARGEST_STEP) {
        return refuse(12, index);
    }
    if let Some(index) = (1..list.len()).find(|&index| list[index] <= list[index - 1]) {
        return refuse(11, index);
    }
    put(list, work, out)
}

/// The end of writing, and of a pair: 14, 15, and what the work area and the output then hold.
fn put(list: &[u32], work: &mut [u32], out: &mut [u8]) -> Result<(u32, u32), Refusal> {
    let needed = work_for(list.len());
    if work.len() < needed {
        return refuse(14, needed);
    }
    work[..needed].fill(0);
    let image = shortest(list);
    if out.len() < image.len() {
        return refuse(15, image.len());
    }
    out[..image.len()].copy_from_slice(&image);
    Ok((list.len() as u32, image.len() as u32))
}

/// The step at a rank.
pub fn rank(image: &[u8], rank: u32) -> Result<u32, Refusal> {
    let list = verdict(image)?;
    match list.get(rank as usize) {
        Some(&step) => Ok(step),
        None => refuse(17, list.len()),
    }
}

/// The first step at or after a bound, with its rank.
pub fn first_at(image: &[u8], bound: u32) -> Result<Option<(u32, u32)>, Refusal> {
    let list = verdict(image)?;
    Ok(list.iter().position(|&step| step >= bound).map(|rank| (list[rank], rank as u32)))
}

/// The rank of a new cursor.
pub fn start(image: &[u8]) -> Result<u32, Refusal> {
    verdict(image).map(|_| 0)
}

/// The step at the cursor's rank, if there is one, and the rank of the moved cursor.
pub fn next(cursor: u32, image: &[u8]) -> Result<(Option<u32>, u32), Refusal> {
    let list = own_list(cursor, image)?;
    match list.get(cursor as usize) {
        Some(&step) => Ok((Some(step), cursor + 1)),
        None => Ok((None, cursor)),
    }
}

/// The rank of the moved cursor.
pub fn skip(cursor: u32, image: &[u8], bound: u32) -> Result<u32, Refusal> {
    let list = own_list(cursor, image)?;
    let n = list.len() as u32;
    Ok((cursor..n).find(|&rank| list[rank as usize] >= bound).unwrap_or(n))
}

/// The list of an image that has this cursor.
fn own_list(cursor: u32, image: &[u8]) -> Result<Vec<u32>, Refusal> {
    let list = verdict(image)?;
    if cursor as usize > list.len() {
        return refuse(19, 0);
    }
    Ok(list)
}

/// What is asked of two images.
#[derive(Clone, Copy, Debug, PartialEq, Eq)]
pub enum Operation {
    /// The steps that both have.
    Both,
    /// The steps that at least one has.
    Either,
    /// The steps that the first has and the second has not.
    Without,
}

impl Operation {
    /// The set of an operation, in order.
    pub fn of(self, first: &[u32], second: &[u32]) -> Vec<u32> {
        let first: BTreeSet<u32> = first.iter().copied().collect();
        let second: BTreeSet<u32> = second.iter().copied().collect();
        match self {
            Operation::Both => first.intersection(&second).copied().collect(),
            Operation::Either => first.union(&second).copied().collect(),
            Operation::Without => first.difference(&second).copied().collect(),
        }
    }
}

/// The number of steps of the result and the length of its image. The steps are put in the step buffer, the
/// image in the output.
pub fn pair(
    operation: Operation,
    first: &[u8],
    second: &[u8],
    steps: &mut [u32],
    work: &mut [u32],
    out: &mut [u8],
) -> Result<(u32, u32), Refusal> {
    let on_side = |side| move |refusal| Refusal { side, ..refusal };
    let first = verdict(first).map_err(on_side(1))?;
    let second = verdict(second).map_err(on_side(2))?;
    let result = operation.of(&first, &second);
    if result.len() > MOST_STEPS {
        return refuse(13, 0);
    }
    if steps.len() < result.len() {
        return refuse(16, result.len());
    }
    if work.len() < work_for(result.len()) {
        return refuse(14, work_for(result.len()));
    }
    steps[..result.len()].copy_from_slice(&result);
    put(&result, work, out)
}

/// Day, hour and minute of a step.
pub fn clock_of(step: u32) -> Result<(u32, u32, u32), Refusal> {
    if step >= STEPS_IN_A_YEAR {
        return refuse(18, 0);
    }
    Ok((step / DAY + 1, step % DAY / HOUR, step % HOUR * MINUTES))
}
