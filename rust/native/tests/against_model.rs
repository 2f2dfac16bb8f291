//! Native against the model, which is written from document 01 alone: any cut, damaged images, short buffers,
//! and what every lent buffer holds afterwards.

use model::{Block, Kind, Operation};
use native::{Cursor, Refusal};
use tides::Dice;

const ROUNDS: usize = 6_000;
/// What buffers hold before a call.
const FILL: u32 = 0xA5A5_A5A5;

fn same(refusal: Refusal) -> model::Refusal {
    model::Refusal { number: refusal.number, side: refusal.side, place: refusal.place }
}

fn list(dice: &mut Dice) -> Vec<u32> {
    let widest = [1, 3, 9, 40, 300, 40_000, 3_000_000];
    let mut list = vec![];
    let mut step = 0;
    for _ in 0..dice.below(6) {
        let wide = widest[dice.below(widest.len() as u32) as usize];
        for _ in 0..dice.below(50) {
            step += dice.below(wide);
            if step <= native::LARGEST_STEP {
                list.push(step);
                step += 1;
            }
        }
    }
    list
}

/// Some image of a list: the shortest, or any cut whose rows are not too long.
fn image(dice: &mut Dice, list: &[u32]) -> Vec<u8> {
    if dice.below(3) == 0 {
        return model::shortest(list);
    }
    let mut blocks = vec![];
    let mut from = 0;
    while from < list.len() {
        let upto = from + 1 + dice.below((list.len() - from).min(70) as u32) as usize;
        let past = if from == 0 { 0 } else { list[from - 1] + 1 };
        let short = list[upto - 1] - past < 5_000;
        let kind = if short && dice.below(2) == 0 { Kind::Row } else { Kind::Codes };
        blocks.push(Block { kind, upto });
        from = upto;
    }
    model::image_of(list, &blocks)
}

fn damaged(dice: &mut Dice, mut image: Vec<u8>) -> Vec<u8> {
    for _ in 0..1 + dice.below(2) {
        let at = dice.below(image.len() as u32) as usize;
        match dice.below(6) {
            0 => image[at] ^= 1 << dice.below(8),
            1 => image[at] = [0, 1, 0x7F, 0x80, 0xFF][dice.below(5) as usize],
            2 => image[at] = image[at].wrapping_add(1),
            3 => image.truncate(at),
            4 => image.push(dice.below(256) as u8),
            _ => {
                // Bytes move from one block to another.
                let moved = image.remove(at);
                let to = dice.below(image.len() as u32 + 1) as usize;
                image.insert(to, moved);
            }
        }
        if image.is_empty() {
            break;
        }
    }
    image
}

fn any_image(dice: &mut Dice) -> (Vec<u32>, Vec<u8>) {
    let list = list(dice);
    let image = image(dice, &list);
    if dice.below(3) == 0 {
        let image = damaged(dice, image);
        return (list, image);
    }
    (list, image)
}

/// A length at, below or above what is needed.
fn around(dice: &mut Dice, needed: usize) -> usize {
    match dice.below(6) {
        0 => needed.saturating_sub(1 + dice.below(3) as usize),
        1 => dice.below(needed as u32 + 1) as usize,
        2 => needed,
        _ => needed + dice.below(90) as usize,
    }
}

/// Buffers for either side of a comparison.
#[derive(Clone, Debug, PartialEq)]
struct Lent {
    steps: Vec<u32>,
    work: Vec<u32>,
    out: Vec<u8>,
}

impl Lent {
    fn new(dice: &mut Dice, count: usize, bytes: usize) -> Lent {
        Lent {
            steps: vec![FILL; around(dice, count)],
            work: vec![FILL; around(dice, 16 * (count + 1))],
            out: vec![FILL as u8; around(dice, bytes)],
        }
    }
}

#[test]
fn images_are_judged_alike() {
    let mut dice = Dice::new(21);
    let mut refused = [0; 11];
    for _ in 0..4 * ROUNDS {
        let (_, image) = any_image(&mut dice);
        let verdict = model::check(&image);
        assert_eq!(native::check(&image).map_err(same), verdict, "{image:?}");
        refused[verdict.err().map_or(0, |refusal| refusal.number as usize)] += 1;
    }
    assert!(refused.iter().all(|&count| count > 0), "{refused:?}");
}

#[test]
fn questions_are_answered_alike() {
    let mut dice = Dice::new(22);
    for _ in 0..ROUNDS {
        let (list, image) = any_image(&mut dice);
        let rank = dice.below(list.len() as u32 + 3);
        let bound = match list.get(dice.below(list.len() as u32 + 1) as usize) {
            Some(step) => (step + dice.below(3)).saturating_sub(1),
            None => dice.below(u32::MAX),
        };
        assert_eq!(native::rank(&image, rank).map_err(same), model::rank(&image, rank));
        let found = native::first_at(&image, bound).map(|found| found.map(|found| (found.step, found.rank)));
        assert_eq!(found.map_err(same), model::first_at(&image, bound), "{bound} {list:?}");
        assert_eq!(native::start(&image).map(|cursor| cursor.rank).map_err(same), model::start(&image));
        let moved = Cursor { rank }.next(&image).map(|moved| (moved.step, moved.cursor.rank));
        assert_eq!(moved.map_err(same), model::next(rank, &image));
        let skipped = Cursor { rank }.skip_to(&image, bound).map(|cursor| cursor.rank);
        assert_eq!(skipped.map_err(same), model::skip(rank, &image, bound));
        let mut mine = vec![FILL; around(&mut dice, list.len())];
        let mut yours = mine.clone();
        assert_eq!(native::read(&image, &mut mine).map_err(same), model::read(&image, &mut yours));
        assert_eq!(mine, yours);
    }
}

#[test]
fn lists_are_written_alike() {
    let mut dice = Dice::new(23);
    for _ in 0..ROUNDS {
        let mut list = list(&mut dice);
        if !list.is_empty() && dice.below(8) == 0 {
            let at = dice.below(list.len() as u32) as usize;
            list[at] = dice.below(1 << 25);
        }
        let mut mine = Lent::new(&mut dice, list.len(), 8 + 4 * list.len());
        let mut yours = mine.clone();
        let written = native::write(&list, &mut mine.work, &mut mine.out)
            .map(|written| (written.steps, written.bytes))
            .map_err(same);
        assert_eq!(written, model::write(&list, &mut yours.work, &mut yours.out), "{list:?}");
        assert_eq!(mine, yours, "{list:?}");
    }
}

#[test]
fn pairs_are_answered_alike() {
    let mut dice = Dice::new(24);
    for _ in 0..ROUNDS {
        let ((first, left), (second, right)) = (any_image(&mut dice), any_image(&mut dice));
        let operation = [Operation::Both, Operation::Either, Operation::Without][dice.below(3) as usize];
        let count = operation.of(&first, &second).len();
        let mut mine = Lent::new(&mut dice, count, 8 + 4 * count);
        let mut yours = mine.clone();
        let pair = match operation {
            Operation::Both => native::both,
            Operation::Either => native::either,
            Operation::Without => native::without,
        };
        let written = pair(&left, &right, &mut mine.steps, &mut mine.work, &mut mine.out)
            .map(|written| (written.steps, written.bytes))
            .map_err(same);
        let expected =
            model::pair(operation, &left, &right, &mut yours.steps, &mut yours.work, &mut yours.out);
        assert_eq!(written, expected);
        assert_eq!(mine, yours);
    }
}
