//! Questions: the step at a rank, the first step at or after a bound, a cursor.

use crate::image::{Block, Parts};
use crate::{codes, row, Refusal};

/// A step with its rank.
#[derive(Clone, Copy, Debug, PartialEq, Eq)]
pub struct Found {
    /// The step.
    pub step: u32,
    /// Its rank in the list.
    pub rank: u32,
}

/// A place in an image: the rank of the step that comes next.
#[derive(Clone, Copy, Debug, PartialEq, Eq)]
pub struct Cursor {
    /// From 0 to the number of steps.
    pub rank: u32,
}

/// What a move gives: a step if there is one, and the moved cursor.
#[derive(Clone, Copy, Debug, PartialEq, Eq)]
pub struct Moved {
    /// The step that "next" met.
    pub step: Option<u32>,
    /// The cursor after the move.
    pub cursor: Cursor,
}

fn kth(block: Block, rank: u32) -> u32 {
    let index = rank - block.from;
    if block.row {
        row::kth(block.part, block.past, index)
    } else {
        codes::kth(block.part, block.past, index)
    }
}

fn first_in(block: Block, bound: u32) -> Found {
    let (step, index) = if block.row {
        row::first_at(block.part, block.past, bound)
    } else {
        codes::first_at(block.part, block.past, bound)
    };
    Found { step, rank: block.from + index }
}

/// The step at a rank.
pub fn rank(image: &[u8], rank: u32) -> Result<u32, Refusal> {
    let (parts, count) = Parts::checked(image)?;
    if rank >= count {
        return Err(Refusal::new(17, count as usize));
    }
    Ok(kth(parts.block_of_rank(rank), rank))
}

/// The first step at or after a bound, if there is one.
pub fn first_at(image: &[u8], bound: u32) -> Result<Option<Found>, Refusal> {
    let (parts, _) = Parts::checked(image)?;
    Ok(parts.block_at(bound).map(|block| first_in(block, bound)))
}

/// A cursor at rank 0.
pub fn start(image: &[u8]) -> Result<Cursor, Refusal> {
    Parts::checked(image)?;
    Ok(Cursor { rank: 0 })
}

impl Cursor {
    fn checked(self, image: &[u8]) -> Result<(Parts<'_>, u32), Refusal> {
        let (parts, count) = Parts::checked(image)?;
        if self.rank > count {
            return Err(Refusal::new(19, 0));
        }
        Ok((parts, count))
    }

    /// The step at the cursor's rank, and the cursor one further on; at the end nothing, and the same cursor.
    pub fn next(self, image: &[u8]) -> Result<Moved, Refusal> {
        let (parts, count) = self.checked(image)?;
        if self.rank == count {
            return Ok(Moved { step: None, cursor: self });
        }
        let step = kth(parts.block_of_rank(self.rank), self.rank);
        Ok(Moved { step: Some(step), cursor: Cursor { rank: self.rank + 1 } })
    }

    /// The cursor at the first rank, not below its own, whose step is at least `bound`, or at the end.
    pub fn skip_to(self, image: &[u8], bound: u32) -> Result<Cursor, Refusal> {
        let (parts, count) = self.checked(image)?;
        let rank = parts.block_at(bound).map_or(count, |block| first_in(block, bound).rank);
        Ok(Cursor { rank: rank.max(self.rank) })
    }
}
