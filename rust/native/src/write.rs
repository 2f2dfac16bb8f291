//! From a list to its shortest image.

use crate::plan::Plan;
use crate::{codes, row, Counted, Refusal};
use crate::{COUNTS_SIZE, ENTRY_SIZE, LARGEST_STEP, MOST_STEPS, NUMBER_SIZE, WORK_SHARE};

/// Numbers of work for a list of `count` steps.
pub fn work_for(count: usize) -> usize {
    WORK_SHARE * (count + 1)
}

/// Writes the shortest image of a list to the front of `out`.
pub fn write(list: &[u32], work: &mut [u32], out: &mut [u8]) -> Result<Counted, Refusal> {
    check(list)?;
    if work.len() < work_for(list.len()) {
        return Err(Refusal::new(14, work_for(list.len())));
    }
    put(list, work, out)
}

fn check(list: &[u32]) -> Result<(), Refusal> {
    if list.len() > MOST_STEPS {
        return Err(Refusal::new(13, 0));
    }
    // A rising list is within the limit if its last step is. Every pair is looked at, so that the loop has no
    // way out in the middle and goes by several pairs at once.
    let rising = list.windows(2).fold(true, |all, pair| all & (pair[0] < pair[1]));
    if rising && list.last().is_none_or(|&last| last <= LARGEST_STEP) {
        return Ok(());
    }
    if let Some(place) = list.iter().position(|&step| step > LARGEST_STEP) {
        return Err(Refusal::new(12, place));
    }
    let place = list.windows(2).position(|pair| pair[0] >= pair[1]).expect("some pair does not rise");
    Err(Refusal::new(11, place + 1))
}

/// Writes a list that keeps the rules, with a work area that is long enough.
pub fn put(list: &[u32], work: &mut [u32], out: &mut [u8]) -> Result<Counted, Refusal> {
    let count = list.len();
    let work = &mut work[..work_for(count)];
    let (least, rest) = work.split_at_mut(count + 1);
    let (open, rest) = rest.split_at_mut(count);
    let blocks = &mut rest[..count];

    let plan = Plan::new(list, least, open);
    let bytes = COUNTS_SIZE + plan.cost() as usize;
    let written = match out.get_mut(..bytes) {
        None => Err(Refusal::new(15, bytes)),
        Some(out) => {
            let mut from = 0;
            let mut found = 0;
            while from < count {
                let (end, is_row) = plan.block(from);
                blocks[found] = (end as u32) << 1 | u32::from(is_row);
                from = end;
                found += 1;
            }
            emit(list, &blocks[..found], out);
            Ok(Counted { steps: count as u32, bytes: bytes as u32 })
        }
    };
    work.fill(0);
    written
}

/// Fills an image whose length is right.
fn emit(list: &[u32], blocks: &[u32], out: &mut [u8]) {
    let (directory, rest) = out.split_at_mut(NUMBER_SIZE + ENTRY_SIZE * blocks.len());
    let (payload_count, payload) = rest.split_at_mut(NUMBER_SIZE);
    let (directory_count, entries) = directory.split_at_mut(NUMBER_SIZE);
    directory_count.copy_from_slice(&(blocks.len() as u32).to_le_bytes());
    payload_count.copy_from_slice(&(payload.len() as u32).to_le_bytes());

    let (mut from, mut past, mut at) = (0, 0, 0);
    for (entry, &mark) in entries.as_chunks_mut::<ENTRY_SIZE>().0.iter_mut().zip(blocks) {
        let (upto, is_row) = (mark as usize >> 1, mark & 1 == 1);
        let steps = &list[from..upto];
        let last = steps[steps.len() - 1];
        if is_row {
            let size = (last + 1 - past).div_ceil(8) as usize;
            row::put(steps, past, &mut payload[at..at + size]);
            at += size;
        } else {
            at += codes::put(steps, past, &mut payload[at..]);
        }
        entry[0] = u8::from(is_row);
        entry[1..5].copy_from_slice(&last.to_le_bytes());
        entry[5..9].copy_from_slice(&(upto as u32).to_le_bytes());
        entry[9..13].copy_from_slice(&(at as u32).to_le_bytes());
        (from, past) = (upto, last + 1);
    }
}
