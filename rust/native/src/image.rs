//! The directory of an image, and what goes through all of it: checking, reading back, finding a block.

use crate::{codes, row, Refusal, ENTRY_SIZE, LARGEST_STEP, MOST_STEPS, NUMBER_SIZE};

/// An image whose counts fit its length.
#[derive(Clone, Copy)]
pub struct Parts<'a> {
    entries: &'a [[u8; ENTRY_SIZE]],
    payload: &'a [u8],
}

/// One block: whether it is a row, one past the last step before it, its own last step, the number of steps
/// up to its beginning and to its end, and its part of the payload.
#[derive(Clone, Copy)]
pub struct Block<'a> {
    pub row: bool,
    pub past: u32,
    pub last: u32,
    pub from: u32,
    pub upto: u32,
    pub part: &'a [u8],
}

#[derive(Clone, Copy)]
struct Entry {
    kind: u8,
    last: u32,
    upto: u32,
    end: u32,
}

fn number(bytes: &[u8]) -> u32 {
    u32::from_le_bytes([bytes[0], bytes[1], bytes[2], bytes[3]])
}

#[inline(always)]
fn entry(bytes: &[u8; ENTRY_SIZE]) -> Entry {
    Entry { kind: bytes[0], last: number(&bytes[1..]), upto: number(&bytes[5..]), end: number(&bytes[9..]) }
}

impl<'a> Parts<'a> {
    /// Cuts an image into its sections, by its counts.
    fn cut(image: &'a [u8]) -> Result<Parts<'a>, Refusal> {
        let short = Refusal::new(1, 0);
        let (count, rest) = image.split_at_checked(NUMBER_SIZE).ok_or(short)?;
        let directory = number(count) as u64 * ENTRY_SIZE as u64;
        if directory + NUMBER_SIZE as u64 > rest.len() as u64 {
            return Err(short);
        }
        let (entries, rest) = rest.split_at(directory as usize);
        let (count, payload) = rest.split_at(NUMBER_SIZE);
        let length = number(count) as usize;
        if payload.len() < length {
            return Err(short);
        }
        if payload.len() > length {
            return Err(Refusal::new(2, 0));
        }
        Ok(Parts { entries: entries.as_chunks().0, payload })
    }

    /// An image that was checked.
    pub fn checked(image: &'a [u8]) -> Result<(Parts<'a>, u32), Refusal> {
        let parts = Parts::cut(image)?;
        parts.check_entries()?;
        let mut steps = 0;
        for (place, block) in parts.blocks().enumerate() {
            let owed = u64::from(block.upto - block.from);
            if block.row {
                let (count, ends) = row::check(block.part, block.last + 1 - block.past, place)?;
                if count != owed {
                    return Err(Refusal::new(8, place));
                }
                if !ends {
                    return Err(Refusal::new(9, place));
                }
            } else {
                let (count, end) = codes::check(block.part, block.past, place)?;
                if count != owed {
                    return Err(Refusal::new(8, place));
                }
                if end != u64::from(block.last) + 1 {
                    return Err(Refusal::new(9, place));
                }
            }
            steps = block.upto;
        }
        Ok((parts, steps))
    }

    fn check_entries(&self) -> Result<(), Refusal> {
        let (mut past, mut upto, mut end) = (0, 0, 0);
        for (place, bytes) in self.entries.iter().enumerate() {
            let entry = entry(bytes);
            let number = if entry.kind > 1 {
                3
            } else if entry.last > LARGEST_STEP || entry.last < past {
                4
            } else if entry.upto <= upto || entry.upto > MOST_STEPS as u32 {
                5
            } else if entry.end <= end || entry.end as usize > self.payload.len() {
                6
            } else {
                (past, upto, end) = (entry.last + 1, entry.upto, entry.end);
                continue;
            };
            return Err(Refusal::new(number, place));
        }
        if end as usize != self.payload.len() {
            return Err(Refusal::new(6, self.entries.len()));
        }
        Ok(())
    }

    /// The block at an index.
    pub fn block(&self, index: usize) -> Block<'a> {
        let this = entry(&self.entries[index]);
        let (past, from, start) = match index.checked_sub(1) {
            None => (0, 0, 0),
            Some(before) => {
                let before = entry(&self.entries[before]);
                (before.last + 1, before.upto, before.end)
            }
        };
        Block {
            row: this.kind == 1,
            past,
            last: this.last,
            from,
            upto: this.upto,
            part: &self.payload[start as usize..this.end as usize],
        }
    }

    /// All blocks in turn.
    pub fn blocks(&self) -> impl Iterator<Item = Block<'a>> + 'a {
        let payload = self.payload;
        let (mut past, mut from, mut start) = (0, 0, 0);
        self.entries.iter().map(move |bytes| {
            let this = entry(bytes);
            let part = &payload[start..this.end as usize];
            let block = Block { row: this.kind == 1, past, last: this.last, from, upto: this.upto, part };
            (past, from, start) = (this.last + 1, this.upto, this.end as usize);
            block
        })
    }

    /// Number of blocks.
    pub fn count(&self) -> usize {
        self.entries.len()
    }

    /// The last step; 0 if there is none.
    pub fn last(&self) -> u32 {
        self.entries.last().map_or(0, |bytes| entry(bytes).last)
    }

    /// The block that holds a rank below n.
    pub fn block_of_rank(&self, rank: u32) -> Block<'a> {
        self.block(self.entries.partition_point(|bytes| entry(bytes).upto <= rank))
    }

    /// The first block whose last step is at least `bound`, if there is one.
    pub fn block_at(&self, bound: u32) -> Option<Block<'a>> {
        let index = self.entries.partition_point(|bytes| entry(bytes).last < bound);
        (index < self.entries.len()).then(|| self.block(index))
    }
}

/// The number of steps of an accepted image, or its first refusal.
pub fn check(image: &[u8]) -> Result<u32, Refusal> {
    Ok(Parts::checked(image)?.1)
}

/// Puts the steps of an image at the front of `steps` and answers their number.
pub fn read(image: &[u8], steps: &mut [u32]) -> Result<u32, Refusal> {
    let (parts, count) = Parts::checked(image)?;
    let Some(steps) = steps.get_mut(..count as usize) else {
        return Err(Refusal::new(16, count as usize));
    };
    for block in parts.blocks() {
        let places = &mut steps[block.from as usize..block.upto as usize];
        if block.row {
            row::read(block.part, block.past, places);
        } else {
            codes::read(block.part, block.past, places);
        }
    }
    Ok(count)
}
