//! What is timed: an operation on a set, by each contender.

use std::cell::RefCell;
use std::rc::Rc;

use huttaralu::{most_bytes, plain, work_needed, MOST_STEPS};

use crate::Set;

/// The library's functions.
#[derive(Clone, Copy, Debug, PartialEq, Eq)]
pub enum Operation {
    /// Writing the first list.
    Write,
    /// Checking its image.
    Check,
    /// Reading it back.
    Read,
    /// The step at the middle rank.
    Rank,
    /// The first step at or after the middle of the span.
    FirstAt,
    /// A cursor's move to the next step, at the middle rank.
    Next,
    /// A cursor's skip from the start to the middle of the span.
    Skip,
    /// Both of two images.
    Both,
    /// Either of two images.
    Either,
    /// The first without the second.
    Without,
}

impl Operation {
    /// All of them, in the order of the tables.
    pub const ALL: [Operation; 10] = [
        Operation::Write,
        Operation::Check,
        Operation::Read,
        Operation::Rank,
        Operation::FirstAt,
        Operation::Next,
        Operation::Skip,
        Operation::Both,
        Operation::Either,
        Operation::Without,
    ];

    /// What it is called in tables.
    pub fn name(self) -> &'static str {
        match self {
            Operation::Write => "write",
            Operation::Check => "check",
            Operation::Read => "read",
            Operation::Rank => "rank",
            Operation::FirstAt => "first at",
            Operation::Next => "cursor next",
            Operation::Skip => "cursor skip",
            Operation::Both => "both",
            Operation::Either => "either",
            Operation::Without => "without",
        }
    }

    fn has_two_images(self) -> bool {
        matches!(self, Operation::Both | Operation::Either | Operation::Without)
    }
}

/// Who does the work.
#[derive(Clone, Copy, Debug, PartialEq, Eq)]
pub enum Contender {
    /// Huttaralu, by the lent-buffer functions of its crate.
    Library,
    /// The hand-written implementation.
    Native,
    /// CRoaring.
    CRoaring,
    /// Setting or copying the bytes that have to be touched.
    Floor,
}

impl Contender {
    /// What it is called in tables.
    pub fn name(self) -> &'static str {
        match self {
            Contender::Library => "library",
            Contender::Native => "native",
            Contender::CRoaring => "CRoaring",
            Contender::Floor => "floor",
        }
    }
}

/// One thing to time. `run` gives a number that depends on the answer; for library and native it is the same.
pub struct Case {
    /// Who does it.
    pub contender: Contender,
    /// Steps of the input, of both lists for a pair.
    pub steps: usize,
    /// Does it once.
    pub run: Box<dyn FnMut() -> u64>,
}

/// What the contenders are lent.
struct Lent {
    steps: Vec<u32>,
    work: Vec<u32>,
    out: Vec<u8>,
}

type Shared = Rc<RefCell<Lent>>;

const ACCEPTED: &str = "the sets keep the rules and the buffers are long enough";

/// The cases of an operation on a set: library, native, CRoaring where it has the operation, and the floor.
pub fn cases(operation: Operation, set: &Set) -> Vec<Case> {
    let (first, second) = if operation.has_two_images() {
        // Either of two images must stay within the limit.
        (half(&set.first), half(&set.second))
    } else {
        (&set.first[..], &[][..])
    };
    let steps = first.len() + second.len();
    let lent: Shared = Rc::new(RefCell::new(Lent {
        steps: vec![1; steps],
        work: vec![1; work_needed(steps)],
        out: vec![1; most_bytes(steps)],
    }));
    let middle_rank = (first.len() / 2) as u32;
    let middle_step = first.last().map_or(0, |last| last / 2);
    let images = [first, second].map(|list| {
        let image = huttaralu::write(list).expect(ACCEPTED).into_bytes();
        Rc::<[u8]>::from(image)
    });
    let given = Given { first: first.into(), images, middle_rank, middle_step };
    let mut cases = vec![
        Case { contender: Contender::Library, steps, run: library(operation, given.clone(), lent.clone()) },
        Case { contender: Contender::Native, steps, run: by_hand(operation, given.clone(), lent.clone()) },
    ];
    #[cfg(feature = "croaring")]
    if let Some(run) = croaring(operation, first, second, &given, lent.clone()) {
        cases.push(Case { contender: Contender::CRoaring, steps, run });
    }
    cases.push(Case { contender: Contender::Floor, steps, run: floor(operation, given, lent) });
    cases
}

fn half(list: &[u32]) -> &[u32] {
    &list[..list.len().min(MOST_STEPS / 2)]
}

#[derive(Clone)]
struct Given {
    first: Rc<[u32]>,
    images: [Rc<[u8]>; 2],
    middle_rank: u32,
    middle_step: u32,
}

type Run = Box<dyn FnMut() -> u64>;

fn library(operation: Operation, given: Given, lent: Shared) -> Run {
    let Given { first, images: [image, other], middle_rank, middle_step } = given;
    let cursor = |rank| plain::Cursor { rank };
    match operation {
        Operation::Write => Box::new(move || {
            let Lent { work, out, .. } = &mut *lent.borrow_mut();
            plain::write(&first, work, out).expect(ACCEPTED).bytes as u64
        }),
        Operation::Check => Box::new(move || plain::check(&image).expect(ACCEPTED) as u64),
        Operation::Read => {
            Box::new(move || plain::read(&image, &mut lent.borrow_mut().steps).expect(ACCEPTED) as u64)
        }
        Operation::Rank => Box::new(move || plain::rank(&image, middle_rank).expect(ACCEPTED).into()),
        Operation::FirstAt => Box::new(move || {
            plain::first_at(&image, middle_step).expect(ACCEPTED).map_or(0, |found| found.step.into())
        }),
        Operation::Next => Box::new(move || {
            plain::next(cursor(middle_rank), &image).expect(ACCEPTED).step.unwrap_or(0).into()
        }),
        Operation::Skip => {
            Box::new(move || plain::skip(cursor(0), &image, middle_step).expect(ACCEPTED).rank.into())
        }
        Operation::Both | Operation::Either | Operation::Without => {
            let pair = match operation {
                Operation::Both => plain::both,
                Operation::Either => plain::either,
                _ => plain::without,
            };
            Box::new(move || {
                let Lent { steps, work, out } = &mut *lent.borrow_mut();
                pair(&image, &other, steps, work, out).expect(ACCEPTED).bytes as u64
            })
        }
    }
}

fn by_hand(operation: Operation, given: Given, lent: Shared) -> Run {
    let Given { first, images: [image, other], middle_rank, middle_step } = given;
    let cursor = |rank| native::Cursor { rank };
    match operation {
        Operation::Write => Box::new(move || {
            let Lent { work, out, .. } = &mut *lent.borrow_mut();
            native::write(&first, work, out).expect(ACCEPTED).bytes.into()
        }),
        Operation::Check => Box::new(move || native::check(&image).expect(ACCEPTED).into()),
        Operation::Read => {
            Box::new(move || native::read(&image, &mut lent.borrow_mut().steps).expect(ACCEPTED).into())
        }
        Operation::Rank => Box::new(move || native::rank(&image, middle_rank).expect(ACCEPTED).into()),
        Operation::FirstAt => Box::new(move || {
            native::first_at(&image, middle_step).expect(ACCEPTED).map_or(0, |found| found.step.into())
        }),
        Operation::Next => {
            Box::new(move || cursor(middle_rank).next(&image).expect(ACCEPTED).step.unwrap_or(0).into())
        }
        Operation::Skip => {
            Box::new(move || cursor(0).skip_to(&image, middle_step).expect(ACCEPTED).rank.into())
        }
        Operation::Both | Operation::Either | Operation::Without => {
            let pair = match operation {
                Operation::Both => native::both,
                Operation::Either => native::either,
                _ => native::without,
            };
            Box::new(move || {
                let Lent { steps, work, out } = &mut *lent.borrow_mut();
                pair(&image, &other, steps, work, out).expect(ACCEPTED).bytes.into()
            })
        }
    }
}

/// CRoaring from serialised bytes to an answer. It has no cursor that starts from bytes at a rank.
#[cfg(feature = "croaring")]
fn croaring(operation: Operation, first: &[u32], second: &[u32], given: &Given, lent: Shared) -> Option<Run> {
    use crate::roaring::Bitmap;
    let list = given.first.clone();
    let (rank, bound) = (given.middle_rank, given.middle_step);
    let [bytes, other] = [first, second].map(|list| Bitmap::of(list).bytes());
    // Its form of a list may be longer than the image that the buffer was made for.
    let longest = bytes.len() + other.len() + 4 * (first.len() + second.len());
    if lent.borrow().out.len() < longest {
        lent.borrow_mut().out.resize(longest, 1);
    }
    Some(match operation {
        Operation::Write => Box::new(move || Bitmap::of(&list).put(&mut lent.borrow_mut().out) as u64),
        Operation::Check => Box::new(move || Bitmap::read(&bytes).len()),
        Operation::Read => Box::new(move || Bitmap::read(&bytes).steps(&mut lent.borrow_mut().steps)),
        Operation::Rank => Box::new(move || Bitmap::read(&bytes).rank(rank).unwrap_or(0).into()),
        Operation::FirstAt => {
            Box::new(move || Bitmap::read(&bytes).first_at(bound).map_or(0, |found| found.0.into()))
        }
        Operation::Next | Operation::Skip => return None,
        Operation::Both | Operation::Either | Operation::Without => {
            let pair = match operation {
                Operation::Both => Bitmap::both,
                Operation::Either => Bitmap::either,
                _ => Bitmap::without,
            };
            Box::new(move || {
                let result = pair(&Bitmap::read(&bytes), &Bitmap::read(&other));
                result.put(&mut lent.borrow_mut().out) as u64
            })
        }
    })
}

/// What has to be touched at the least: writing clears the work area (memset), reading back stores the steps
/// (memcpy), a pair takes in two images and clears the work area of its result, and everything else looks at
/// the whole image (memcpy of its bytes).
fn floor(operation: Operation, given: Given, lent: Shared) -> Run {
    let Given { first, images: [image, other], .. } = given.clone();
    match operation {
        Operation::Write => Box::new(move || {
            lent.borrow_mut().work[..work_needed(first.len())].fill(0);
            u64::from(lent.borrow().work[0])
        }),
        Operation::Read => Box::new(move || {
            lent.borrow_mut().steps[..first.len()].copy_from_slice(&first);
            u64::from(lent.borrow().steps[0])
        }),
        Operation::Both | Operation::Either | Operation::Without => {
            library(operation, given, lent.clone())();
            let result = steps_of(&lent.borrow().out);
            Box::new(move || {
                let Lent { work, out, .. } = &mut *lent.borrow_mut();
                out[..image.len()].copy_from_slice(&image);
                out[..other.len()].copy_from_slice(&other);
                work[..work_needed(result)].fill(0);
                u64::from(work[0]) + u64::from(out[0])
            })
        }
        _ => Box::new(move || {
            lent.borrow_mut().out[..image.len()].copy_from_slice(&image);
            u64::from(lent.borrow().out[0])
        }),
    }
}

/// The number of steps of an image at the front of a buffer: upto of its last entry.
fn steps_of(out: &[u8]) -> usize {
    let number = |at: usize| u32::from_le_bytes(out[at..at + 4].try_into().expect("four bytes")) as usize;
    match number(0) {
        0 => 0,
        blocks => number(4 + 13 * (blocks - 1) + 5),
    }
}
