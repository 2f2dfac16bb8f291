//! A block of codes: for each step the gap to the step before it, less one, as a variable-byte code.
//!
//! Codes of one and two bytes come by chance, so a loop that branches on each would guess wrong all the time.
//! Checking and skipping therefore go by chunks of bytes without asking where a code begins, and reading takes
//! the ends of all codes in eight bytes at once.

use crate::Refusal;

/// A byte with this bit is not the last of its code.
const MORE: u8 = 0x80;
/// The high bits of eight bytes.
const MORE_OF_EIGHT: u64 = 0x8080_8080_8080_8080;
/// Codes that are read or written in one go where all of them are single bytes.
const GROUP: usize = 16;
/// Bytes that are checked or skipped in one go.
const CHUNK: usize = 32;

/// Bytes of the code of `gap`.
#[inline(always)]
pub fn size(gap: u32) -> u32 {
    1 + u32::from(gap >= 1 << 7) + u32::from(gap >= 1 << 14) + u32::from(gap >= 1 << 21)
}

/// Reads the code at `at`, of an image that was checked: the gap, and where the next code starts.
#[inline(always)]
pub fn next(part: &[u8], at: usize) -> (u32, usize) {
    let mut byte = part[at];
    let mut gap = u32::from(byte & !MORE);
    let mut at = at + 1;
    while byte & MORE != 0 {
        byte = part[at];
        gap = gap << 7 | u32::from(byte & !MORE);
        at += 1;
    }
    (gap, at)
}

/// Hands over the steps from the code at `at` on, of an image that was checked, until one is not taken. Answers
/// where the code of that one starts and what it counts from.
#[inline(always)]
pub fn walk(part: &[u8], at: usize, past: u32, mut take: impl FnMut(u32) -> bool) -> (usize, u32) {
    let (mut at, mut past) = (at, past);
    while at < part.len() {
        let Some(eight) = part[at..].first_chunk() else {
            let (gap, next) = next(part, at);
            if !take(past + gap) {
                break;
            }
            (at, past) = (next, past + gap + 1);
            continue;
        };
        let word = u64::from_le_bytes(*eight);
        if word & MORE_OF_EIGHT == 0 {
            for (k, &byte) in eight.iter().enumerate() {
                let step = past + u32::from(byte);
                if !take(step) {
                    return (at + k, past);
                }
                past = step + 1;
            }
            at += 8;
            continue;
        }
        let mut ends = !word & MORE_OF_EIGHT;
        let mut start = 0;
        while ends != 0 {
            let end = ends.trailing_zeros() + 1;
            let step = past + squeezed(((word >> start) as u32).swap_bytes() >> (32 - (end - start)));
            if !take(step) {
                return (at + start as usize / 8, past);
            }
            past = step + 1;
            start = end;
            ends &= ends - 1;
        }
        at += start as usize / 8;
    }
    (at, past)
}

/// The number whose groups of seven bits stand in the bytes of `spread`.
#[inline(always)]
fn squeezed(spread: u32) -> u32 {
    spread & 0x7F | spread >> 1 & 0x3F80 | spread >> 2 & 0x1F_C000 | spread >> 3 & 0xFE0_0000
}

/// What the bytes of a chunk add up to, wherever codes begin in them.
struct Tally {
    /// Codes that end in them.
    count: u64,
    /// Sum of gaps; of a code that ends later, what its bytes here weigh.
    sum: u64,
    /// Whether a code starts with 80 hex or has more than four bytes.
    faulty: bool,
}

/// Eight bytes of a block from `at` on, filled up with zeros, which are codes of 0.
#[inline(always)]
fn word(part: &[u8], at: usize) -> u64 {
    let rest = part.get(at..).unwrap_or(&[]);
    let eight = rest.first_chunk().copied().unwrap_or_else(|| {
        let mut eight = [0; 8];
        eight[..rest.len()].copy_from_slice(rest);
        eight
    });
    u64::from_le_bytes(eight)
}

/// Tallies the chunk at `at`. A byte weighs 128 to the number of bytes that follow it in its code. Everything goes
/// by eight bytes at once: a mask of high bits for each of the next three bytes says how many follow.
#[inline(always)]
fn tally(part: &[u8], at: usize) -> Tally {
    let words: [u64; CHUNK / 8] = std::array::from_fn(|k| word(part, at + 8 * k));
    if words.iter().fold(0, |all, word| all | word) & MORE_OF_EIGHT == 0 {
        let sum = across(words.iter().map(|&word| lanes(word)).sum());
        return Tally { count: CHUNK as u64, sum, faulty: false };
    }
    let mut before = at.checked_sub(1).map_or(0, |before| u64::from(part[before])) << 56;
    let (mut ends, mut faults, mut sums) = (0, 0, [0; 4]);
    for (k, &here) in words.iter().enumerate() {
        let after = if k + 1 < words.len() { words[k + 1] } else { word(part, at + CHUNK) };
        let low = here & !MORE_OF_EIGHT;
        let more = |ahead: u32| {
            let shifted = if ahead == 0 { here } else { here >> (8 * ahead) | after << (64 - 8 * ahead) };
            shifted & MORE_OF_EIGHT
        };
        let (first, second) = (more(0), more(0) & more(1));
        ends += (first ^ MORE_OF_EIGHT) >> 7;
        sums[0] += lanes(low & !low_bits(first));
        sums[1] += lanes(low & low_bits(first & !second));
        // Codes of three and four bytes are seldom.
        if second != 0 {
            let (third, fourth) = (second & more(2), second & more(2) & more(3));
            sums[2] += lanes(low & low_bits(second & !third));
            sums[3] += lanes(low & low_bits(third));
            faults |= fourth;
        }
        // A first byte of 80 hex: only the high bit, and none in the byte before.
        let starts = !(here << 8 | before >> 56) & first;
        faults |= starts & !(low + !MORE_OF_EIGHT);
        before = here;
    }
    let [ones, twos, threes, fours] = sums.map(across);
    Tally {
        count: ends.wrapping_mul(0x0101_0101_0101_0101) >> 56,
        sum: ones + (twos << 7) + (threes << 14) + (fours << 21),
        faulty: faults != 0,
    }
}

/// The low seven bits of each byte whose high bit is set.
#[inline(always)]
fn low_bits(high: u64) -> u64 {
    high - (high >> 7)
}

/// Sums of neighbouring bytes.
#[inline(always)]
fn lanes(bytes: u64) -> u64 {
    const EVEN: u64 = 0x00FF_00FF_00FF_00FF;
    (bytes & EVEN) + (bytes >> 8 & EVEN)
}

/// The sum of four numbers of sixteen bits, which fits them.
#[inline(always)]
fn across(lanes: u64) -> u64 {
    lanes.wrapping_mul(0x0001_0001_0001_0001) >> 48
}

/// Whether each byte of a group is a code by itself.
#[inline(always)]
fn all_single(group: &[u8; GROUP]) -> bool {
    (word(group, 0) | word(group, 8)) & MORE_OF_EIGHT == 0
}

/// The number of codes in a block and one past its last step, counted from `past`; refusal 7 otherwise.
pub fn check(part: &[u8], past: u32, block: usize) -> Result<(u64, u64), Refusal> {
    if part.len() < CHUNK {
        return check_short(part, past).ok_or(Refusal::new(7, block));
    }
    let mut count = 0;
    let mut end = u64::from(past);
    let mut faulty = part.last().is_some_and(|&last| last & MORE != 0);
    for at in (0..part.len()).step_by(CHUNK) {
        let tally = tally(part, at);
        count += tally.count;
        end += tally.sum;
        faulty |= tally.faulty;
    }
    if faulty {
        return Err(Refusal::new(7, block));
    }
    count -= (part.len().next_multiple_of(CHUNK) - part.len()) as u64;
    Ok((count, end + count))
}

/// The same code by code, for a block too short to be worth a chunk.
fn check_short(part: &[u8], past: u32) -> Option<(u64, u64)> {
    let (mut at, mut count, mut end) = (0, 0, u64::from(past));
    while at < part.len() {
        let length = 1 + part[at..].iter().take(4).position(|byte| byte & MORE == 0)?;
        if part[at] == MORE {
            return None;
        }
        let code = &part[at..at + length];
        end += 1 + code.iter().fold(0, |gap, &byte| gap << 7 | u64::from(byte & !MORE));
        count += 1;
        at += length;
    }
    Some((count, end))
}

/// Puts the steps of a block into `steps`, which has one place for each.
pub fn read(part: &[u8], past: u32, steps: &mut [u32]) {
    let (mut at, mut past, mut index) = (0, past, 0);
    while at < part.len() {
        while let (Some(group), Some(places)) =
            (part[at..].first_chunk::<GROUP>(), steps[index..].first_chunk_mut::<GROUP>())
        {
            if !all_single(group) {
                break;
            }
            for (place, &byte) in places.iter_mut().zip(group) {
                *place = past + u32::from(byte);
                past = *place + 1;
            }
            at += GROUP;
            index += GROUP;
        }
        // Where long codes are, more will follow: some groups go by single codes before the next trial.
        let stop = index + 4 * GROUP;
        (at, past) = walk(part, at, past, |step| {
            if index == stop {
                return false;
            }
            steps[index] = step;
            index += 1;
            true
        });
    }
}

/// Passes over chunks as long as `pass` says so of the codes that end in one and what is one past the last of
/// them. Answers where to go on and what to count from; that may be inside a code, whose first bytes are then
/// counted already.
#[inline(always)]
fn skip(part: &[u8], past: u32, mut pass: impl FnMut(u32, u32) -> bool) -> (usize, u32) {
    let (mut at, mut past) = (0, past);
    while at + CHUNK <= part.len() {
        let tally = tally(part, at);
        let after = past + (tally.sum + tally.count) as u32;
        if !pass(tally.count as u32, after) {
            break;
        }
        (at, past) = (at + CHUNK, after);
    }
    (at, past)
}

/// The step at an index of a block.
pub fn kth(part: &[u8], past: u32, index: u32) -> u32 {
    let mut left = index;
    let (at, past) = skip(part, past, |count, _| {
        let within = left < count;
        left -= if within { 0 } else { count };
        !within
    });
    let mut found = 0;
    walk(part, at, past, |step| {
        found = step;
        let further = left > 0;
        left = left.saturating_sub(1);
        further
    });
    found
}

/// The first step of a block that is at least `bound`, with its index; the block's last step is.
pub fn first_at(part: &[u8], past: u32, bound: u32) -> (u32, u32) {
    let mut index = 0;
    let (at, past) = skip(part, past, |count, after| {
        let below = after <= bound;
        index += if below { count } else { 0 };
        below
    });
    let mut found = 0;
    walk(part, at, past, |step| {
        found = step;
        index += u32::from(step < bound);
        step < bound
    });
    (found, index)
}

/// Stores the codes of `steps` at the front of `part` and answers their length. Bytes after them may be
/// overwritten: only codes that are still to come belong there.
pub fn put(steps: &[u32], past: u32, part: &mut [u8]) -> usize {
    let mut past = past;
    let mut at = 0;
    let mut index = 0;
    while index < steps.len() {
        if let (Some(group), Some(bytes)) =
            (steps[index..].first_chunk::<GROUP>(), part[at..].first_chunk_mut::<GROUP>())
        {
            let mut gaps = [0; GROUP];
            gaps[0] = group[0] - past;
            for k in 1..GROUP {
                gaps[k] = group[k] - group[k - 1] - 1;
            }
            if gaps.iter().fold(0, |all, &gap| all | gap) < u32::from(MORE) {
                for (byte, &gap) in bytes.iter_mut().zip(&gaps) {
                    *byte = gap as u8;
                }
                past = group[GROUP - 1] + 1;
                index += GROUP;
                at += GROUP;
                continue;
            }
        }
        // Where a long code is, more will follow: some groups go one by one before the next trial.
        let stop = steps.len().min(index + 4 * GROUP);
        for &step in &steps[index..stop] {
            at = put_one(step - past, part, at);
            past = step + 1;
        }
        index = stop;
    }
    at
}

/// All four bytes are stored, where there is room: to ask for each code how many it has would cost more.
#[inline(always)]
fn put_one(gap: u32, part: &mut [u8], at: usize) -> usize {
    let size = size(gap);
    let spread = gap & 0x7F | gap << 1 & 0x7F00 | gap << 2 & 0x7F_0000 | gap << 3 & 0x7F00_0000;
    let code = ((spread | 0x8080_8000) << (32 - 8 * size)).to_be_bytes();
    let end = at + size as usize;
    match part[at..].first_chunk_mut() {
        Some(four) => *four = code,
        None => part[at..end].copy_from_slice(&code[..size as usize]),
    }
    end
}
