//! The twelve functions, whoever answers them.

use huttaralu::ffi;
use model::{Operation, Refusal};

/// An answer in the fields of the C interface: number, side and place of the refusal, then the values in
/// their order, then zeros.
#[derive(Clone, Copy, Debug, PartialEq, Eq)]
pub struct Answer {
    /// Number, side and place.
    pub refusal: [u32; 3],
    /// The other fields.
    pub values: [u32; 3],
}

impl Answer {
    /// The answer that refuses: every other field is 0.
    pub fn refused(refusal: Refusal) -> Self {
        Answer { refusal: [refusal.number, refusal.side, refusal.place], values: [0; 3] }
    }

    /// The answer that accepts with these values.
    pub fn accepted(values: [u32; 3]) -> Self {
        Answer { refusal: [0; 3], values }
    }

    fn of<T>(answer: Result<T, Refusal>, values: impl FnOnce(T) -> [u32; 3]) -> Self {
        answer.map_or_else(Answer::refused, |value| Answer::accepted(values(value)))
    }

    /// The number of the refusal, 0 for none.
    pub fn number(&self) -> u32 {
        self.refusal[0]
    }
}

/// Whatever answers the functions of the interface. A cursor is its rank.
pub trait Library {
    /// Steps, 0.
    fn check(&self, image: &[u8]) -> Answer;
    /// Steps, 0.
    fn read(&self, image: &[u8], steps: &mut [u32]) -> Answer;
    /// Steps, bytes.
    fn write(&self, list: &[u32], work: &mut [u32], out: &mut [u8]) -> Answer;
    /// Step.
    fn rank(&self, image: &[u8], rank: u32) -> Answer;
    /// Found, step, rank.
    fn first_at(&self, image: &[u8], bound: u32) -> Answer;
    /// Found, step, cursor.
    fn start(&self, image: &[u8]) -> Answer;
    /// Found, step, cursor.
    fn next(&self, cursor: u32, image: &[u8]) -> Answer;
    /// Found, step, cursor.
    fn skip(&self, cursor: u32, image: &[u8], bound: u32) -> Answer;
    /// Steps, bytes.
    fn pair(
        &self,
        operation: Operation,
        first: &[u8],
        second: &[u8],
        steps: &mut [u32],
        work: &mut [u32],
        out: &mut [u8],
    ) -> Answer;
    /// Day, hour, minute.
    fn clock_of(&self, step: u32) -> Answer;
}

/// The library that is proved, by its C interface.
pub struct Proved;

fn told(refusal: ffi::Refusal, values: [u32; 3]) -> Answer {
    Answer { refusal: [refusal.number, refusal.side, refusal.place], values }
}

fn counted(told_: ffi::Counted) -> Answer {
    told(told_.refusal, [told_.steps, told_.bytes, 0])
}

fn moved(told_: ffi::Moved) -> Answer {
    told(told_.refusal, [told_.found, told_.step, told_.cursor.rank])
}

impl Library for Proved {
    fn check(&self, image: &[u8]) -> Answer {
        counted(ffi::check(image))
    }

    fn read(&self, image: &[u8], steps: &mut [u32]) -> Answer {
        counted(ffi::read(image, steps))
    }

    fn write(&self, list: &[u32], work: &mut [u32], out: &mut [u8]) -> Answer {
        counted(ffi::write(list, work, out))
    }

    fn rank(&self, image: &[u8], rank: u32) -> Answer {
        let ranked = ffi::rank(image, rank);
        told(ranked.refusal, [ranked.step, 0, 0])
    }

    fn first_at(&self, image: &[u8], bound: u32) -> Answer {
        let first = ffi::first_at(image, bound);
        told(first.refusal, [first.found, first.step, first.rank])
    }

    fn start(&self, image: &[u8]) -> Answer {
        moved(ffi::start(image))
    }

    fn next(&self, cursor: u32, image: &[u8]) -> Answer {
        moved(ffi::next(ffi::Cursor { rank: cursor }, image))
    }

    fn skip(&self, cursor: u32, image: &[u8], bound: u32) -> Answer {
        moved(ffi::skip(ffi::Cursor { rank: cursor }, image, bound))
    }

    fn pair(
        &self,
        operation: Operation,
        first: &[u8],
        second: &[u8],
        steps: &mut [u32],
        work: &mut [u32],
        out: &mut [u8],
    ) -> Answer {
        let operation = match operation {
            Operation::Both => ffi::both,
            Operation::Either => ffi::either,
            Operation::Without => ffi::without,
        };
        counted(operation(first, second, steps, work, out))
    }

    fn clock_of(&self, step: u32) -> Answer {
        let clock = ffi::clock_of(step);
        told(clock.refusal, [clock.day, clock.hour, clock.minute])
    }
}

/// Document 01, as the model has it.
pub struct Model;

impl Library for Model {
    fn check(&self, image: &[u8]) -> Answer {
        Answer::of(model::check(image), |steps| [steps, 0, 0])
    }

    fn read(&self, image: &[u8], steps: &mut [u32]) -> Answer {
        Answer::of(model::read(image, steps), |steps| [steps, 0, 0])
    }

    fn write(&self, list: &[u32], work: &mut [u32], out: &mut [u8]) -> Answer {
        Answer::of(model::write(list, work, out), |(steps, bytes)| [steps, bytes, 0])
    }

    fn rank(&self, image: &[u8], rank: u32) -> Answer {
        Answer::of(model::rank(image, rank), |step| [step, 0, 0])
    }

    fn first_at(&self, image: &[u8], bound: u32) -> Answer {
        Answer::of(model::first_at(image, bound), |found| {
            found.map_or([0; 3], |(step, rank)| [1, step, rank])
        })
    }

    fn start(&self, image: &[u8]) -> Answer {
        Answer::of(model::start(image), |rank| [0, 0, rank])
    }

    fn next(&self, cursor: u32, image: &[u8]) -> Answer {
        Answer::of(model::next(cursor, image), |(step, rank)| match step {
            Some(step) => [1, step, rank],
            None => [0, 0, rank],
        })
    }

    fn skip(&self, cursor: u32, image: &[u8], bound: u32) -> Answer {
        Answer::of(model::skip(cursor, image, bound), |rank| [0, 0, rank])
    }

    fn pair(
        &self,
        operation: Operation,
        first: &[u8],
        second: &[u8],
        steps: &mut [u32],
        work: &mut [u32],
        out: &mut [u8],
    ) -> Answer {
        let answer = model::pair(operation, first, second, steps, work, out);
        Answer::of(answer, |(steps, bytes)| [steps, bytes, 0])
    }

    fn clock_of(&self, step: u32) -> Answer {
        Answer::of(model::clock_of(step), |(day, hour, minute)| [day, hour, minute])
    }
}
