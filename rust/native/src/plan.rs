//! The planner: the best cut of a list, in one turn back over it and one forward.
//!
//! Positions count from 0 to n. P_i is one past the step before position i (0 at first), and F_i the least cost
//! of the blocks from i to the end. A block from i to j costs an entry and its part, so
//!
//! - a row and the rest cost 13 + ceil((P_j − P_i)/8) + F_j = 13 + ceil((Y_j − P_i)/8), with Y_j = 8·F_j + P_j.
//!   The least Y_j from a position on is a running minimum, `least`.
//! - codes and the rest cost 13 + `open`, where `open` at i is the code of step i and then, at i + 1, either `open`
//!   again or the end of this block and F.
//!
//! Going back, both are a few sums a step, and these two words are kept. F itself is not needed: a row never
//! makes a smaller Y than the one it ends at, and codes that end where others start are not better than one block.
//!
//! Going forward, the tie rule wants the block with more steps. Codes end at the first position where to go on
//! costs more than to end. A row ends at the last j whose Y_j still gives the same cost; minima never fall as j
//! grows, so it is found by search.

use crate::{codes, ENTRY_SIZE};

const ENTRY: u32 = ENTRY_SIZE as u32;
/// Positions that are looked at in one go for the end of a block of codes.
const GROUP: usize = 16;

/// The two words of each position. `least` is as long as the list and one more, `open` as the list.
pub struct Plan<'a> {
    list: &'a [u32],
    least: &'a [u32],
    open: &'a [u32],
}

/// Positions whose steps are prepared in one go.
const STRIDE: usize = 128;

/// What a turn needs to know of its position: the size of its code, and how much to add to the least Y for a row,
/// and to `open` for a new Y.
#[derive(Clone, Copy, Default)]
struct Ahead {
    size: u32,
    for_row: u32,
    for_codes: u32,
}

impl Ahead {
    #[inline(always)]
    fn new(step: u32, past: u32) -> Ahead {
        Ahead {
            size: codes::size(step - past),
            for_row: (8 * ENTRY + 7).wrapping_sub(past),
            for_codes: 8 * ENTRY + past,
        }
    }
}

/// What goes from turn to turn: the least Y, and the least cost of what follows an open block of codes.
struct Turns {
    best: u32,
    rest: u32,
}

impl Turns {
    /// One position back; answers its `open`.
    #[inline(always)]
    fn turn(&mut self, ahead: &Ahead) -> u32 {
        let open = ahead.size + self.rest;
        self.rest = open.min(self.best.wrapping_add(ahead.for_row) >> 3);
        self.best = self.best.min(8 * open + ahead.for_codes);
        open
    }
}

/// Bytes of a row from `past` to where `least` was found, and of the rest.
#[inline(always)]
fn row(least: u32, past: u32) -> u32 {
    (least - past + 7) >> 3
}

impl<'a> Plan<'a> {
    /// Plans a list in two runs of numbers, of n + 1 and n.
    pub fn new(list: &'a [u32], least: &'a mut [u32], open: &'a mut [u32]) -> Plan<'a> {
        let count = list.len();
        let mut turns = Turns { best: list.last().map_or(0, |last| last + 1), rest: 0 };
        least[count] = turns.best;
        let mut ahead = [Ahead::default(); STRIDE];
        let mut to = count;
        while to > 0 {
            let from = to.saturating_sub(STRIDE);
            // What does not depend on the turns is worked out for many positions at once.
            let ahead = &mut ahead[..to - from];
            ahead[0] = Ahead::new(list[from], from.checked_sub(1).map_or(0, |before| list[before] + 1));
            for (ahead, pair) in ahead[1..].iter_mut().zip(list[from..to].windows(2)) {
                *ahead = Ahead::new(pair[1], pair[0] + 1);
            }
            let places = least[from..to].iter_mut().zip(&mut open[from..to]);
            for ((least, open), ahead) in places.zip(ahead).rev() {
                *open = turns.turn(ahead);
                *least = turns.best;
            }
            to = from;
        }
        Plan { list, least, open }
    }

    /// Bytes of entries and payload of the best cut.
    pub fn cost(&self) -> u32 {
        self.open.first().map_or(0, |&open| ENTRY + open.min(row(self.least[1], 0)))
    }

    fn past(&self, position: usize) -> u32 {
        position.checked_sub(1).map_or(0, |before| self.list[before] + 1)
    }

    /// The block of the best cut that starts at `from`: where it ends, and whether it is a row.
    pub fn block(&self, from: usize) -> (usize, bool) {
        let open = self.open[from];
        let past = self.past(from);
        let row = row(self.least[from + 1], past);
        let codes_end = if open <= row { self.codes_end(from) } else { 0 };
        let row_end = if row <= open { last_within(self.least, from + 1, past + 8 * row) } else { 0 };
        if codes_end >= row_end {
            (codes_end, false)
        } else {
            (row_end, true)
        }
    }

    /// The first position after `from` where to go on with codes costs more than to end.
    fn codes_end(&self, from: usize) -> usize {
        let count = self.list.len();
        let ends = |past: u32, open: u32, least: u32| open > ENTRY + row(least, past + 1);
        let mut at = from + 1;
        while let (Some(before), Some(open), Some(least)) = (
            self.list[at - 1..].first_chunk::<GROUP>(),
            self.open[at..].first_chunk::<GROUP>(),
            self.least[at + 1..].first_chunk::<GROUP>(),
        ) {
            if (0..GROUP).fold(false, |any, k| any | ends(before[k], open[k], least[k])) {
                break;
            }
            at += GROUP;
        }
        while at < count && !ends(self.list[at - 1], self.open[at], self.least[at + 1]) {
            at += 1;
        }
        at
    }
}

/// The last place, from `from` on, whose number is at most `most`; the numbers never fall, and the first is.
fn last_within(numbers: &[u32], from: usize, most: u32) -> usize {
    let mut low = from;
    let mut stride = 1;
    while numbers.get(low + stride).is_some_and(|&number| number <= most) {
        low += stride;
        stride *= 2;
    }
    let high = numbers.len().min(low + stride);
    low + numbers[low + 1..high].partition_point(|&number| number <= most)
}
