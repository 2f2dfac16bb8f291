//! Both, either, and first without second.
//!
//! Where steps are dense, the two images are laid over each other in windows of some thousand steps: each fills
//! a bitmap, the operation joins the bitmaps word by word, and the ones of the result are its steps. A row goes
//! into a window by shifted words, and a window that can give no step is passed over.
//!
//! Where steps are thin, a window would be nearly empty. Then both images are read into small buffers and merged
//! without branching on which side comes first.

use crate::image::{Block, Parts};
use crate::write::{put, work_for};
use crate::{codes, row, Counted, Refusal, MOST_STEPS};

const WORD: u32 = 64;
const WORDS: usize = 64;
/// Steps of a window.
const WINDOW: u32 = WORD * WORDS as u32;

type Window = [u64; WORDS];

/// Steps that are merged in one go.
const BUFFER: usize = 256;
/// After the last step.
const END: u32 = u32::MAX;

/// The steps of an image from some window on.
#[derive(Clone)]
struct Walk<'a> {
    parts: Parts<'a>,
    index: usize,
    block: Option<Block<'a>>,
    /// Where to go on in the block's part, and what the next code there counts from.
    at: usize,
    past: u32,
}

impl<'a> Walk<'a> {
    fn new(parts: Parts<'a>) -> Walk<'a> {
        let mut walk = Walk { parts, index: 0, block: None, at: 0, past: 0 };
        walk.enter(0);
        walk
    }

    fn enter(&mut self, index: usize) {
        self.index = index;
        self.block = (index < self.parts.count()).then(|| self.parts.block(index));
        self.at = 0;
        self.past = self.block.map_or(0, |block| block.past);
    }

    /// No step from `from` on comes before this one; none if there are no more.
    fn ahead(&self, from: u32) -> Option<u32> {
        let block = self.block?;
        let next = if block.row { block.past } else { self.past + codes::next(block.part, self.at).0 };
        Some(next.max(from))
    }

    /// Puts the steps of the window that starts at `from` into `window`, and passes over all before it.
    fn fill(&mut self, from: u32, window: &mut Window) {
        window.fill(0);
        let end = from + WINDOW;
        while let Some(block) = self.block {
            if block.last >= from {
                if block.past >= end {
                    return;
                }
                if block.row {
                    fill_row(block, from, window);
                } else if self.fill_codes(block.part, from, window) {
                    return;
                }
                if block.last >= end {
                    return;
                }
            }
            self.enter(self.index + 1);
        }
    }

    /// Goes on with a block of codes; whether it reaches past the window.
    fn fill_codes(&mut self, part: &[u8], from: u32, window: &mut Window) -> bool {
        (self.at, self.past) = codes::walk(part, self.at, self.past, |step| {
            if step >= from {
                let bit = step - from;
                if bit >= WINDOW {
                    return false;
                }
                window[(bit / WORD) as usize] |= 1 << (bit % WORD);
            }
            true
        });
        self.at < part.len()
    }

    /// Reads steps into a buffer, at least one if there are more, and answers their number.
    fn read(&mut self, buffer: &mut [u32; BUFFER]) -> usize {
        let mut count = 0;
        while let Some(block) = self.block {
            if block.row {
                while self.at < block.part.len() && count + WORD as usize <= BUFFER {
                    let word = word_at(block.part, 8 * self.at);
                    count = row::put_ones(word, block.past + 8 * self.at as u32, buffer, count);
                    self.at += 8;
                }
            } else {
                (self.at, self.past) = codes::walk(block.part, self.at, self.past, |step| {
                    let room = count < BUFFER;
                    if room {
                        buffer[count] = step;
                        count += 1;
                    }
                    room
                });
            }
            if self.at < block.part.len() {
                break;
            }
            self.enter(self.index + 1);
        }
        count
    }
}

/// An image's steps by buffers.
struct Buffered<'a> {
    walk: Walk<'a>,
    steps: [u32; BUFFER],
    at: usize,
    count: usize,
}

impl<'a> Buffered<'a> {
    fn new(walk: Walk<'a>) -> Buffered<'a> {
        let mut buffered = Buffered { walk, steps: [END; BUFFER], at: 0, count: 0 };
        buffered.refill();
        buffered
    }

    /// Reads on if all was merged; after the last step there are only ends.
    fn refill(&mut self) {
        if self.at == self.count {
            self.at = 0;
            self.count = self.walk.read(&mut self.steps);
            if self.count == 0 {
                (self.steps, self.count) = ([END; BUFFER], BUFFER);
            }
        }
    }

    fn is_at_end(&self) -> bool {
        self.steps[self.at] == END
    }
}

/// A row has zeros before its first bit and after its last, so whole words can be laid into the window.
fn fill_row(block: Block, from: u32, window: &mut Window) {
    let first = block.past.saturating_sub(from) / WORD;
    let end = (block.last + 1 - from).div_ceil(WORD).min(WORDS as u32);
    for (k, word) in window.iter_mut().enumerate().take(end as usize).skip(first as usize) {
        let at = i64::from(from) + 64 * k as i64 - i64::from(block.past);
        *word |= if at < 0 { word_at(block.part, 0) << -at } else { word_at(block.part, at as usize) };
    }
}

/// The 64 bits of a row from bit `at` on, zeros after its end.
#[inline(always)]
fn word_at(part: &[u8], at: usize) -> u64 {
    let shift = at % 8;
    let rest = part.get(at / 8..).unwrap_or(&[]);
    if let Some(nine) = rest.first_chunk::<9>() {
        let low = u64::from_le_bytes(nine[..8].try_into().expect("eight bytes"));
        return low >> shift | (u64::from(nine[8]) << 1) << (63 - shift);
    }
    let mut bytes = [0; 8];
    bytes[..rest.len()].copy_from_slice(rest);
    u64::from_le_bytes(bytes) >> shift
}

/// One of the three operations.
trait Operation {
    /// With more places to a step than this, merging is faster: where the two ways met for random lists.
    const THIN: u32;
    /// The result's word of two words.
    fn join(first: u64, second: u64) -> u64;
    /// Where the next window has to start, given the steps that the images have ahead.
    fn window(first: Option<u32>, second: Option<u32>) -> Option<u32>;
    /// Whether the smaller of the two next steps belongs to the result.
    fn keeps(first: u32, second: u32) -> bool;
    /// Whether nothing can follow, given which of the images are at their end.
    fn is_over(first: bool, second: bool) -> bool;
    /// No result has more steps, given the numbers of theirs.
    fn most(first: u32, second: u32) -> u32;
}

struct Both;
struct Either;
struct Without;

impl Operation for Both {
    const THIN: u32 = 70;
    fn join(first: u64, second: u64) -> u64 {
        first & second
    }
    fn keeps(first: u32, second: u32) -> bool {
        first == second
    }
    fn is_over(first: bool, second: bool) -> bool {
        first | second
    }
    fn window(first: Option<u32>, second: Option<u32>) -> Option<u32> {
        Some(first?.max(second?))
    }
    fn most(first: u32, second: u32) -> u32 {
        first.min(second)
    }
}

impl Operation for Either {
    const THIN: u32 = 11;
    fn join(first: u64, second: u64) -> u64 {
        first | second
    }
    fn keeps(_: u32, _: u32) -> bool {
        true
    }
    fn is_over(first: bool, second: bool) -> bool {
        first & second
    }
    fn window(first: Option<u32>, second: Option<u32>) -> Option<u32> {
        first.into_iter().chain(second).min()
    }
    fn most(first: u32, second: u32) -> u32 {
        first + second
    }
}

impl Operation for Without {
    const THIN: u32 = 14;
    fn join(first: u64, second: u64) -> u64 {
        first & !second
    }
    fn keeps(first: u32, second: u32) -> bool {
        first < second
    }
    fn is_over(first: bool, _: bool) -> bool {
        first
    }
    fn window(first: Option<u32>, _: Option<u32>) -> Option<u32> {
        first
    }
    fn most(first: u32, _: u32) -> u32 {
        first
    }
}

/// Hands over each window of the result that may have a step.
#[inline(always)]
fn windows<O: Operation>(mut first: Walk, mut second: Walk, mut take: impl FnMut(u32, &Window)) {
    let (mut left, mut right) = ([0; WORDS], [0; WORDS]);
    let mut from = 0;
    while let Some(start) = O::window(first.ahead(from), second.ahead(from)) {
        first.fill(start, &mut left);
        second.fill(start, &mut right);
        for (word, &other) in left.iter_mut().zip(&right) {
            *word = O::join(*word, other);
        }
        take(start, &left);
        from = start + WINDOW;
    }
}

/// Hands over the steps of the result by buffers.
#[inline(always)]
fn merge<O: Operation>(first: Walk, second: Walk, mut take: impl FnMut(&[u32])) {
    let (mut first, mut second) = (Buffered::new(first), Buffered::new(second));
    let mut result = [0; BUFFER];
    while !O::is_over(first.is_at_end(), second.is_at_end()) {
        let turns = (first.count - first.at).min(second.count - second.at).min(BUFFER);
        let (mut left, mut right, mut kept) = (first.at, second.at, 0);
        for _ in 0..turns {
            let (one, other) = (first.steps[left % BUFFER], second.steps[right % BUFFER]);
            result[kept % BUFFER] = one.min(other);
            kept += usize::from(O::keeps(one, other));
            // An end is above every step, so it stays where it is.
            left += usize::from(one <= other);
            right += usize::from(other <= one);
        }
        take(&result[..kept]);
        (first.at, second.at) = (left, right);
        first.refill();
        second.refill();
    }
}

fn ones(window: &Window) -> usize {
    window.iter().map(|word| word.count_ones() as usize).sum()
}

fn pair<O: Operation>(
    first: &[u8],
    second: &[u8],
    steps: &mut [u32],
    work: &mut [u32],
    out: &mut [u8],
) -> Result<Counted, Refusal> {
    let (first, in_first) = Parts::checked(first).map_err(|refusal| refusal.on_side(1))?;
    let (second, in_second) = Parts::checked(second).map_err(|refusal| refusal.on_side(2))?;
    let span = first.last().max(second.last());
    let is_thin = span / O::THIN > in_first + in_second;
    let (first, second) = (Walk::new(first), Walk::new(second));

    // Buffers that hold any result need no count before the first step is stored.
    let most = O::most(in_first, in_second) as usize;
    if most > MOST_STEPS || steps.len() < most || work.len() < work_for(most) {
        let mut count = 0;
        if is_thin {
            merge::<O>(first.clone(), second.clone(), |kept| count += kept.len());
        } else {
            windows::<O>(first.clone(), second.clone(), |_, window| count += ones(window));
        }
        if count > MOST_STEPS {
            return Err(Refusal::new(13, 0));
        }
        if steps.len() < count {
            return Err(Refusal::new(16, count));
        }
        if work.len() < work_for(count) {
            return Err(Refusal::new(14, work_for(count)));
        }
    }

    let mut count = 0;
    if is_thin {
        merge::<O>(first, second, |kept| {
            steps[count..count + kept.len()].copy_from_slice(kept);
            count += kept.len();
        });
    } else {
        windows::<O>(first, second, |from, window| {
            let end = count + ones(window);
            let places = &mut steps[count..end];
            let mut index = 0;
            for (k, &word) in window.iter().enumerate() {
                index = row::put_ones(word, from + WORD * k as u32, places, index);
            }
            count = end;
        });
    }
    put(&steps[..count], work, out)
}

/// Writes the steps that are in both images.
pub fn both(
    first: &[u8],
    second: &[u8],
    steps: &mut [u32],
    work: &mut [u32],
    out: &mut [u8],
) -> Result<Counted, Refusal> {
    pair::<Both>(first, second, steps, work, out)
}

/// Writes the steps that are in one image or in both.
pub fn either(
    first: &[u8],
    second: &[u8],
    steps: &mut [u32],
    work: &mut [u32],
    out: &mut [u8],
) -> Result<Counted, Refusal> {
    pair::<Either>(first, second, steps, work, out)
}

/// Writes the steps of the first image that are not in the second.
pub fn without(
    first: &[u8],
    second: &[u8],
    steps: &mut [u32],
    work: &mut [u32],
    out: &mut [u8],
) -> Result<Counted, Refusal> {
    pair::<Without>(first, second, steps, work, out)
}
