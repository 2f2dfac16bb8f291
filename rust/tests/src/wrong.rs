//! Libraries with a mistake, each one that is seen in this trade. They are here to show that the properties
//! find them.

use model::{image_of, Block, Kind, Operation, ENTRY_SIZE, NUMBER_SIZE};

use crate::library::{Answer, Library, Model};

/// What is wrong. All else is as the model has it.
#[derive(Clone, Copy, Debug, PartialEq, Eq)]
pub enum Wrong {
    /// The plan counts a row in whole bits, without its padding.
    RowsUnpadded,
    /// Among equally short images the one whose first block has fewer steps is written.
    FewerStepsFirst,
    /// The same, but only among ends of a row.
    ShorterRowFirst,
    /// After 15 the work area is as it was.
    WorkKeptOn15,
    /// The final end is not held against the payload's length.
    ClosingTestForgotten,
    /// Skipping finds the first step at or after the bound, even if it is behind the cursor.
    SkipGoesBack,
    /// An image with itself is copied, so that its old cut shows in the result.
    SameImageCopied,
    /// A refusal of the result has a side, as if it were one of the second image.
    SideLeftOnTheResult,
}

impl Wrong {
    /// The plan of the model with what is wrong in it. Bytes are counted in bits, so that a row may have its
    /// own.
    fn cut(self, list: &[u32]) -> Vec<Block> {
        const ENTRY: u32 = 8 * ENTRY_SIZE as u32;
        let n = list.len();
        let past = |i: usize| if i == 0 { 0 } else { list[i - 1] + 1 };
        let mut rest = vec![0; n + 1];
        let mut first = vec![Block { kind: Kind::Codes, upto: n }; n];
        for i in (0..n).rev() {
            let mut best: Option<(u32, Block)> = None;
            let mut codes = 0;
            let mut ends = Vec::new();
            for j in i + 1..=n {
                codes += 8 * model::code_of(list[j - 1] - past(j - 1)).len() as u32;
                let span = past(j) - past(i);
                let row = if self == Wrong::RowsUnpadded { span } else { span.next_multiple_of(8) };
                ends.push((ENTRY + codes + rest[j], Block { kind: Kind::Codes, upto: j }));
                ends.push((ENTRY + row + rest[j], Block { kind: Kind::Row, upto: j }));
            }
            if self != Wrong::FewerStepsFirst {
                ends.sort_by_key(|(_, block)| std::cmp::Reverse(block.upto));
            }
            for end in ends {
                let shorter_row = |block: Block| {
                    self == Wrong::ShorterRowFirst && block.kind == Kind::Row && end.1.kind == Kind::Row
                };
                if best.is_none_or(|(least, block)| end.0 < least || end.0 == least && shorter_row(block)) {
                    best = Some(end);
                }
            }
            let (least, block) = best.expect("a block has an end");
            (rest[i], first[i]) = (least, block);
        }
        let mut cut: Vec<Block> = Vec::new();
        while let Some(&block) = first.get(cut.last().map_or(0, |block| block.upto)) {
            cut.push(block);
        }
        cut
    }

    /// The image as one sees it who forgets the closing test: the payload ends where the last block does.
    fn cut_off(self, image: &[u8]) -> Vec<u8> {
        let refused = model::check(image).err().map(|refusal| (refusal.number, refusal.place as usize));
        let m = image
            .get(..NUMBER_SIZE)
            .map_or(0, |m| u32::from_le_bytes(m.try_into().expect("four bytes")) as usize);
        if self != Wrong::ClosingTestForgotten || refused != Some((6, m)) || m == 0 {
            return image.to_vec();
        }
        let (entries, rest) = image.split_at(NUMBER_SIZE + ENTRY_SIZE * m);
        let end: [u8; NUMBER_SIZE] = *entries.last_chunk().expect("an entry ends with its end");
        let payload = &rest[NUMBER_SIZE..NUMBER_SIZE + u32::from_le_bytes(end) as usize];
        [entries, &end, payload].concat()
    }
}

impl Library for Wrong {
    fn check(&self, image: &[u8]) -> Answer {
        Model.check(&self.cut_off(image))
    }

    fn read(&self, image: &[u8], steps: &mut [u32]) -> Answer {
        Model.read(&self.cut_off(image), steps)
    }

    fn write(&self, list: &[u32], work: &mut [u32], out: &mut [u8]) -> Answer {
        let (work_before, out_before) = (work.to_vec(), out.to_vec());
        let answer = Model.write(list, work, out);
        match self {
            Wrong::WorkKeptOn15 if answer.number() == 15 => work.copy_from_slice(&work_before),
            Wrong::RowsUnpadded | Wrong::FewerStepsFirst | Wrong::ShorterRowFirst if answer.number() == 0 => {
                let image = image_of(list, &self.cut(list));
                out.copy_from_slice(&out_before);
                if image.len() <= out.len() {
                    out[..image.len()].copy_from_slice(&image);
                }
                return Answer::accepted([list.len() as u32, image.len() as u32, 0]);
            }
            _ => {}
        }
        answer
    }

    fn rank(&self, image: &[u8], rank: u32) -> Answer {
        Model.rank(image, rank)
    }

    fn first_at(&self, image: &[u8], bound: u32) -> Answer {
        Model.first_at(image, bound)
    }

    fn start(&self, image: &[u8]) -> Answer {
        Model.start(image)
    }

    fn next(&self, cursor: u32, image: &[u8]) -> Answer {
        Model.next(cursor, image)
    }

    fn skip(&self, cursor: u32, image: &[u8], bound: u32) -> Answer {
        let answer = Model.skip(cursor, image, bound);
        if *self == Wrong::SkipGoesBack && answer.number() == 0 {
            return Model.skip(0, image, bound);
        }
        answer
    }

    fn pair(
        &self,
        operation: Operation,
        first: &[u8],
        second: &[u8],
        steps: &mut [u32],
        work: &mut [u32],
        out: &mut [u8],
    ) -> Answer {
        let mut answer = Model.pair(operation, first, second, steps, work, out);
        if *self == Wrong::SideLeftOnTheResult && answer.number() > 10 {
            answer.refusal[1] = 2;
        }
        let copied = first == second && operation != Operation::Without && out.len() >= first.len();
        if *self == Wrong::SameImageCopied && answer.number() == 0 && copied {
            out[..first.len()].copy_from_slice(first);
            answer.values[1] = first.len() as u32;
        }
        answer
    }

    fn clock_of(&self, step: u32) -> Answer {
        Model.clock_of(step)
    }
}
