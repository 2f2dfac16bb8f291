//! What is compared. Each property takes a library and a case; the model says what is right.

use model::{Operation, LARGEST_STEP, STEPS_IN_A_YEAR};
use proptest::collection::vec;
use proptest::prelude::*;
use proptest::sample::Index;
use proptest::test_runner::TestCaseError;

use crate::lent::{Lent, Room};
use crate::library::{Answer, Library, Model};
use crate::{images, lists};

type Judged = Result<(), TestCaseError>;

/// A list, and the room of the work area and of the output.
pub fn writing_case() -> impl Strategy<Value = (Vec<u32>, Room, Room)> {
    (lists::any_list(), Room::any(), Room::any())
}

/// Writing gives the model's answer and leaves every buffer as the model does.
pub fn writing(library: &dyn Library, (list, work, out): &(Vec<u32>, Room, Room)) -> Judged {
    let accepted = list.is_sorted_by(|a, b| a < b) && list.last().is_none_or(|&last| last <= LARGEST_STEP);
    let needed = if accepted { model::shortest(list).len() } else { list.len() };
    let lent = (
        Lent::with(list),
        Lent::empty(work.len(model::work_for(list.len()))),
        Lent::<u8>::empty(out.len(needed)),
    );
    let write = |library: &dyn Library| {
        let (list, mut work, mut out) = lent.clone();
        let answer = library.write(list.content(), work.buffer(), out.buffer());
        (answer, list, work, out)
    };
    let (written, right) = (write(library), write(&Model));
    prop_assert_eq!(written.0, right.0);
    prop_assert!(written.1 == right.1, "the list or its guards");
    prop_assert!(written.2 == right.2, "the work area or its guards");
    prop_assert!(written.3 == right.3, "the output or its guards");
    Ok(())
}

/// What is written for a short list is the first among all its shortest images.
pub fn writing_the_shortest(library: &dyn Library, list: &[u32]) -> Judged {
    let shortest = model::brute::shortest(list);
    let mut work = vec![0; model::work_for(list.len())];
    let mut out = vec![0; shortest.len()];
    let answer = library.write(list, &mut work, &mut out);
    prop_assert_eq!(answer, Answer::accepted([list.len() as u32, shortest.len() as u32, 0]));
    prop_assert_eq!(out, shortest);
    Ok(())
}

/// Any bytes, and the room of the step buffer.
pub fn reading_case() -> impl Strategy<Value = (Vec<u8>, Room)> {
    (images::any_image(), Room::any())
}

/// Checking and reading back give the model's answers, and the step buffer is as the model leaves it.
pub fn reading(library: &dyn Library, (image, room): &(Vec<u8>, Room)) -> Judged {
    prop_assert_eq!(library.check(image), Model.check(image));
    let needed = model::check(image).unwrap_or(20) as usize;
    let lent = (Lent::with(image), Lent::<u32>::empty(room.len(needed)));
    let read = |library: &dyn Library| {
        let (image, mut steps) = lent.clone();
        let answer = library.read(image.content(), steps.buffer());
        (answer, image, steps)
    };
    let (told, right) = (read(library), read(&Model));
    prop_assert_eq!(told.0, right.0);
    prop_assert!(told.1 == right.1, "the image or its guards");
    prop_assert!(told.2 == right.2, "the steps or their guards");
    Ok(())
}

/// A number near something of the image's list: a rank, a step, or anything.
#[derive(Clone, Debug)]
pub enum Asked {
    /// A rank of the list, or n.
    Rank(Index),
    /// A step of the list, and so much more or less.
    Near(Index, i8),
    /// Any number.
    Any(u32),
}

impl Asked {
    fn any() -> impl Strategy<Value = Asked> {
        const TELLING: [u32; 5] = [0, 1, LARGEST_STEP, LARGEST_STEP + 1, u32::MAX];
        let at = any::<Index>;
        prop_oneof![
            4 => at().prop_map(Asked::Rank),
            6 => (at(), -1..=1i8).prop_map(|(at, by)| Asked::Near(at, by)),
            1 => any::<u32>().prop_map(Asked::Any),
            1 => prop::sample::select(&TELLING[..]).prop_map(Asked::Any),
        ]
    }

    fn number(&self, list: &[u32]) -> u32 {
        match self {
            Asked::Rank(at) => at.index(list.len() + 1) as u32,
            Asked::Near(_, by) if list.is_empty() => u32::from(by.unsigned_abs()),
            Asked::Near(at, by) => list[at.index(list.len())].saturating_add_signed(i32::from(*by)),
            Asked::Any(number) => *number,
        }
    }
}

/// Any bytes, and what is asked of them.
pub fn asking_case() -> impl Strategy<Value = (Vec<u8>, Vec<Asked>)> {
    (images::any_image(), vec(Asked::any(), 1..=8))
}

/// Rank and first at or after give the model's answers.
pub fn asking(library: &dyn Library, (image, asked): &(Vec<u8>, Vec<Asked>)) -> Judged {
    let image = Lent::with(image);
    let kept = image.clone();
    let list = model::verdict(image.content()).unwrap_or_default();
    for number in asked.iter().map(|asked| asked.number(&list)) {
        let (image, right) = (image.content(), kept.content());
        prop_assert_eq!(library.rank(image, number), Model.rank(right, number), "rank {}", number);
        prop_assert_eq!(
            library.first_at(image, number),
            Model.first_at(right, number),
            "first at {}",
            number
        );
    }
    prop_assert!(image == kept, "the image or its guards");
    Ok(())
}

/// A move of a cursor.
#[derive(Clone, Debug)]
pub enum Move {
    /// To the next step.
    Next,
    /// To a bound.
    Skip(Asked),
    /// First the cursor is replaced by that of a rank, which may be none of this image.
    Other(Asked),
}

/// Any bytes, mostly accepted ones, and moves of a cursor over them.
pub fn moving_case() -> impl Strategy<Value = (Vec<u8>, Vec<Move>)> {
    let moves = prop_oneof![
        4 => Just(Move::Next),
        3 => Asked::any().prop_map(Move::Skip),
        1 => Asked::any().prop_map(Move::Other),
    ];
    (prop_oneof![3 => images::accepted(), 1 => images::any_image()], vec(moves, 0..=12))
}

/// Every cursor that is handed back is the model's, and so is every step.
pub fn moving(library: &dyn Library, (image, moves): &(Vec<u8>, Vec<Move>)) -> Judged {
    let list = model::verdict(image).unwrap_or_default();
    let started = library.start(image);
    prop_assert_eq!(started, Model.start(image));
    let [_, _, mut cursor] = started.values;
    for (number, one) in moves.iter().enumerate() {
        let (moved, right) = match one {
            Move::Next => (library.next(cursor, image), Model.next(cursor, image)),
            Move::Skip(asked) => {
                let bound = asked.number(&list);
                (library.skip(cursor, image, bound), Model.skip(cursor, image, bound))
            }
            Move::Other(asked) => {
                let other = asked.number(&list);
                prop_assert_eq!(
                    library.skip(other, image, 0),
                    Model.skip(other, image, 0),
                    "move {}",
                    number
                );
                (library.next(other, image), Model.next(other, image))
            }
        };
        prop_assert_eq!(moved, right, "move {}: {:?} from {}", number, one, cursor);
        if moved.number() == 0 {
            cursor = moved.values[2];
        }
    }
    Ok(())
}

/// Two images, an operation, and the rooms of steps, work and output.
pub type PairCase = ((Vec<u8>, Vec<u8>), Operation, [Room; 3]);

/// What a pair is tried with.
pub fn pairing_case() -> impl Strategy<Value = PairCase> {
    let operation = prop::sample::select(&[Operation::Both, Operation::Either, Operation::Without][..]);
    (images::two_images(), operation, [Room::any(), Room::any(), Room::any()])
}

/// A pair gives the model's answer and leaves every buffer as the model does.
pub fn pairing(library: &dyn Library, ((first, second), operation, rooms): &PairCase) -> Judged {
    let lists = (model::verdict(first).unwrap_or_default(), model::verdict(second).unwrap_or_default());
    let result = operation.of(&lists.0, &lists.1);
    let needed = [result.len(), model::work_for(result.len()), model::shortest(&result).len()];
    let lent = (
        (Lent::with(first), Lent::with(second)),
        Lent::<u32>::empty(rooms[0].len(needed[0])),
        Lent::<u32>::empty(rooms[1].len(needed[1])),
        Lent::<u8>::empty(rooms[2].len(needed[2])),
    );
    let pair = |library: &dyn Library| {
        let (images, mut steps, mut work, mut out) = lent.clone();
        let (first, second) = (images.0.content(), images.1.content());
        let answer = library.pair(*operation, first, second, steps.buffer(), work.buffer(), out.buffer());
        (answer, images, steps, work, out)
    };
    let (told, right) = (pair(library), pair(&Model));
    prop_assert_eq!(told.0, right.0);
    prop_assert!(told.1 == right.1, "an image or its guards");
    prop_assert!(told.2 == right.2, "the steps or their guards");
    prop_assert!(told.3 == right.3, "the work area or its guards");
    prop_assert!(told.4 == right.4, "the output or its guards");
    Ok(())
}

/// A step: of the year, about its end, or any.
pub fn clock_case() -> impl Strategy<Value = u32> {
    prop_oneof![0..STEPS_IN_A_YEAR, STEPS_IN_A_YEAR - 10..STEPS_IN_A_YEAR + 10, any::<u32>()]
}

/// The clock is the model's.
pub fn clock(library: &dyn Library, step: &u32) -> Judged {
    prop_assert_eq!(library.clock_of(*step), Model.clock_of(*step));
    Ok(())
}
