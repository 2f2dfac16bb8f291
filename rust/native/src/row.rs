//! A bit row: bit j stands for the step j places past the block before.

use crate::Refusal;

/// Bits of a word.
const WORD: u32 = 64;
/// A word with fewer ones is read one by one, a fuller one byte by byte from the table. Of 3, 5, 7, 10 and 14 this
/// was as fast as any for random rows.
const FULL_ENOUGH: u32 = 5;

/// For each byte the positions of its ones, lowest first, then zeros.
static ONES: [[u8; 8]; 256] = ones();

const fn ones() -> [[u8; 8]; 256] {
    let mut table = [[0; 8]; 256];
    let mut byte = 0;
    while byte < 256 {
        let mut bit = 0;
        let mut found = 0;
        while bit < 8 {
            if byte >> bit & 1 == 1 {
                table[byte][found] = bit as u8;
                found += 1;
            }
            bit += 1;
        }
        byte += 1;
    }
    table
}

/// The words of a row, the last one filled up with zeros.
#[inline(always)]
pub fn words(part: &[u8]) -> impl Iterator<Item = u64> + '_ {
    let (whole, rest) = part.as_chunks::<8>();
    let mut last = [0; 8];
    last[..rest.len()].copy_from_slice(rest);
    whole
        .iter()
        .map(|bytes| u64::from_le_bytes(*bytes))
        .chain((!rest.is_empty()).then_some(u64::from_le_bytes(last)))
}

/// The number of ones in a row of `span` bits and whether its last bit is one; refusal 10 otherwise.
pub fn check(part: &[u8], span: u32, block: usize) -> Result<(u64, bool), Refusal> {
    if part.len() != span.div_ceil(8) as usize {
        return Err(Refusal::new(10, block));
    }
    let last_bit = (span - 1) % 8;
    let last = part[part.len() - 1];
    if last as u32 >> last_bit > 1 {
        return Err(Refusal::new(10, block));
    }
    Ok((count(part), last >> last_bit == 1))
}

fn count(part: &[u8]) -> u64 {
    let (whole, rest) = part.as_chunks::<8>();
    let in_words: u64 = whole.iter().map(|bytes| u64::from(u64::from_le_bytes(*bytes).count_ones())).sum();
    in_words + rest.iter().map(|byte| u64::from(byte.count_ones())).sum::<u64>()
}

/// Puts the steps of a row into `steps`, which has one place for each.
pub fn read(part: &[u8], past: u32, steps: &mut [u32]) {
    let mut index = 0;
    let mut base = past;
    for word in words(part) {
        index = put_ones(word, base, steps, index);
        base = base.wrapping_add(WORD);
    }
}

/// Puts the steps of one word into `steps` from `index` on, and answers the index after them. Places after
/// them that lie within `steps` may be overwritten: only steps that are still to come belong there.
#[inline(always)]
pub fn put_ones(word: u64, base: u32, steps: &mut [u32], index: usize) -> usize {
    let count = word.count_ones();
    if count >= FULL_ENOUGH {
        if let Some(places) = steps[index..].first_chunk_mut::<{ WORD as usize }>() {
            if word == u64::MAX {
                for (offset, place) in places.iter_mut().enumerate() {
                    *place = base + offset as u32;
                }
            } else {
                put_bytes(word, base, places);
            }
            return index + count as usize;
        }
    }
    let mut word = word;
    for place in &mut steps[index..index + count as usize] {
        *place = base + word.trailing_zeros();
        word &= word - 1;
    }
    index + count as usize
}

#[inline(always)]
fn put_bytes(word: u64, base: u32, places: &mut [u32; WORD as usize]) {
    let mut at = 0;
    for (k, byte) in word.to_le_bytes().into_iter().enumerate() {
        let base = base + 8 * k as u32;
        // At most 8·k ones came before, so eight places are left.
        for (place, &one) in places[at..at + 8].iter_mut().zip(&ONES[byte as usize]) {
            *place = base + u32::from(one);
        }
        at += byte.count_ones() as usize;
    }
}

/// The step at an index of a row.
pub fn kth(part: &[u8], past: u32, index: u32) -> u32 {
    let mut left = index;
    let mut base = past;
    for word in words(part) {
        let count = word.count_ones();
        if left < count {
            let mut word = word;
            for _ in 0..left {
                word &= word - 1;
            }
            return base + word.trailing_zeros();
        }
        left -= count;
        base += WORD;
    }
    unreachable!("the index lies within a row that was checked")
}

/// The first step of a row that is at least `bound`, with its index; the row's last step is.
pub fn first_at(part: &[u8], past: u32, bound: u32) -> (u32, u32) {
    let skip = bound.saturating_sub(past);
    let whole = (skip / WORD) as usize * 8;
    let mut index = count(&part[..whole]) as u32;
    let mut base = past + skip / WORD * WORD;
    let mut mask = u64::MAX << (skip % WORD);
    for word in words(&part[whole..]) {
        if word & mask != 0 {
            index += (word & !mask).count_ones();
            return (base + (word & mask).trailing_zeros(), index);
        }
        index += word.count_ones();
        base += WORD;
        mask = u64::MAX;
    }
    unreachable!("a row that was checked ends with a step at or after the bound")
}

/// Neighbours that are stored in one go.
const RUN: usize = 16;

/// Stores the bits of `steps` in `part`, which is as long as the row.
pub fn put(steps: &[u32], past: u32, part: &mut [u8]) {
    part.fill(0);
    let (words, rest) = part.as_chunks_mut::<8>();
    let whole = words.len() as u32 * WORD;
    let (inner, outer) = steps.split_at(steps.partition_point(|&step| step - past < whole));
    // The word of the last step is stored again with each step, which is cheaper than to ask whether it is full.
    let (mut at, mut word) = (0, 0);
    let mut set = |bits: u64, bit: u32| {
        word = if bit / WORD == at { word } else { 0 } | bits << (bit % WORD);
        at = bit / WORD;
        words[at as usize] = word.to_le_bytes();
    };
    let (runs, single) = inner.as_chunks::<RUN>();
    for run in runs {
        let bit = run[0] - past;
        if run[RUN - 1] - run[0] != RUN as u32 - 1 {
            for step in run {
                set(1, step - past);
            }
        } else {
            let room = WORD - bit % WORD;
            set((1 << RUN) - 1, bit);
            if room < RUN as u32 {
                set((1 << (RUN as u32 - room)) - 1, bit + room);
            }
        }
    }
    for step in single {
        set(1, step - past);
    }
    for step in outer {
        let bit = step - past - whole;
        rest[(bit / 8) as usize] |= 1 << (bit % 8);
    }
}
