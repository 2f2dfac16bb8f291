//! The safe crate against the model: what it makes of the library's answers, and its own walk over blocks and
//! steps.

use huttaralu::{both, either, plain, without, write, Image, ImageBuf, Kind, Reason, Refusal, Side};
use huttaralu::{LARGEST_STEP, MOST_STEPS, STEPS_IN_A_YEAR};
use huttaralu_tests::{cases, images, lists};
use model::Operation;
use proptest::prelude::*;

/// A refusal as the model has it.
fn numbers(refusal: Refusal) -> model::Refusal {
    let side = match refusal.side() {
        None => 0,
        Some(Side::First) => 1,
        Some(Side::Second) => 2,
    };
    model::Refusal { number: refusal.number(), side, place: refusal.place() }
}

proptest! {
    #![proptest_config(cases(5_000))]

    #[test]
    fn any_list_is_written_or_refused(list in lists::any_list()) {
        let (mut work, mut out) = (vec![0; model::work_for(list.len())], vec![0; huttaralu::most_bytes(list.len())]);
        let right = model::write(&list, &mut work, &mut out).map(|(_, bytes)| out[..bytes as usize].to_vec());
        prop_assert_eq!(write(&list).map(ImageBuf::into_bytes).map_err(numbers), right);
    }

    #[test]
    fn any_bytes_are_taken_or_refused(bytes in images::any_image()) {
        let list = model::verdict(&bytes);
        prop_assert_eq!(Image::check(&bytes).map(Image::steps).map_err(numbers), list.clone());
        prop_assert_eq!(ImageBuf::check(bytes).map(|image| image.len()).map_err(numbers), list.map(|list| list.len()));
    }

    #[test]
    fn steps_come_in_turn(bytes in images::accepted()) {
        let list = model::verdict(&bytes).unwrap();
        let image = Image::check(&bytes).unwrap();
        prop_assert_eq!(image.iter().len(), list.len());
        prop_assert!(image.iter().eq(list.iter().copied()));
        prop_assert!(image.iter().rev().eq(list.iter().rev().copied()));
        let mut room = vec![7; list.len() + 1];
        prop_assert_eq!(image.read_into(&mut room).map(|steps| steps.to_vec()), Ok(list));
        prop_assert_eq!(room.last(), Some(&7));
    }

    #[test]
    fn blocks_are_what_the_image_was_cut_into(bytes in images::accepted()) {
        let list = model::verdict(&bytes).unwrap();
        let blocks: Vec<_> = Image::check(&bytes).unwrap().blocks().collect();
        let mut upto = 0;
        let cut: Vec<model::Block> = blocks
            .iter()
            .map(|block| {
                upto += block.len();
                let kind = if block.kind() == Kind::Row { model::Kind::Row } else { model::Kind::Codes };
                model::Block { kind, upto }
            })
            .collect();
        prop_assert_eq!(&model::image_of(&list, &cut), &bytes);
        let mut from = 0;
        for (block, end) in blocks.iter().zip(cut) {
            let steps = &list[from..end.upto];
            prop_assert_eq!(block.ranks(), from..end.upto);
            prop_assert_eq!(block.last(), steps[steps.len() - 1]);
            from = end.upto;
        }
    }

    #[test]
    fn questions_are_those_of_the_list(bytes in images::accepted(), number in any::<u32>(), at in any::<prop::sample::Index>()) {
        let list = model::verdict(&bytes).unwrap();
        let image = Image::check(&bytes).unwrap();
        let near = list.get(at.index(list.len().max(1))).map_or(3, |step| step + 1);
        let rank = at.index(list.len() + 2) as u32;
        for bound in [number, near, near - 1] {
            let found = image.first_at(bound).map(|found| (found.step, found.rank));
            prop_assert_eq!(found, model::first_at(&bytes, bound).unwrap());
            let skipped = image.cursor().skip_to(bound);
            prop_assert_eq!(skipped.rank(), model::skip(0, &bytes, bound).unwrap());
            let (step, next) = skipped.next();
            prop_assert_eq!((step, next.rank()), model::next(skipped.rank(), &bytes).unwrap());
        }
        for rank in [number, rank] {
            prop_assert_eq!(image.rank(rank).map_err(numbers), model::rank(&bytes, rank));
            let cursor = image.cursor_at(rank).map(|cursor| cursor.rank()).map_err(numbers);
            prop_assert_eq!(cursor, model::skip(rank, &bytes, 0));
        }
    }

    #[test]
    fn pairs_are_written_or_refused((first, second) in images::two_images()) {
        let pairs = [
            (Operation::Both, both(&first, &second)),
            (Operation::Either, either(&first, &second)),
            (Operation::Without, without(&first, &second)),
        ];
        for (operation, told) in pairs {
            let n = 4000;
            let (mut steps, mut work, mut out) = (vec![0; n], vec![0; model::work_for(n)], vec![0; huttaralu::most_bytes(n)]);
            let right = model::pair(operation, &first, &second, &mut steps, &mut work, &mut out);
            let right = right.map(|(_, bytes)| out[..bytes as usize].to_vec());
            prop_assert_eq!(told.map(ImageBuf::into_bytes).map_err(numbers), right);
        }
    }
}

#[test]
fn a_list_that_is_too_long_is_refused_without_allocating_for_it() {
    let list: Vec<u32> = (0..=MOST_STEPS as u32).collect();
    assert_eq!(write(&list).unwrap_err().reason(), Reason::TooManySteps);
}

#[test]
fn the_longest_list_fits_what_is_allocated() {
    // Four bytes a code is the most that a list of its length can have, and one row the most of any.
    let most = MOST_STEPS as u32;
    let widest = (LARGEST_STEP + 1) / most;
    for gap in [1, widest - 1, widest] {
        let list: Vec<u32> = (0..most).map(|i| i * gap).collect();
        let image = write(&list).unwrap();
        assert!(image.bytes().len() <= huttaralu::most_bytes(list.len()));
        assert!(image.iter().eq(list));
    }
    let list: Vec<u32> = (1..8).map(|i| i * 2_200_000).collect();
    let image = write(&list).unwrap();
    assert_eq!(image.bytes().len(), huttaralu::most_bytes(list.len()));
}

#[test]
fn reasons_stand_in_the_order_of_their_numbers() {
    assert_eq!(Reason::ALL[0].number(), 1);
    assert!(Reason::ALL.is_sorted_by(|earlier, later| earlier.number() < later.number()));
}

#[test]
fn a_refusal_says_number_place_and_words() {
    let said = |refusal: Refusal| refusal.to_string();
    let image = write(&[3, 5, 8]).unwrap();
    let mut damaged = image.bytes().to_vec();
    damaged[4] = 2;
    assert_eq!(said(Image::check(&damaged).unwrap_err()), "refusal 3 (entry 0): kind above 1");
    assert_eq!(
        said(both(&image, &damaged).unwrap_err()),
        "refusal 3 (entry 0 of the second image): kind above 1"
    );
    assert_eq!(
        said(both(&damaged, &image).unwrap_err()),
        "refusal 3 (entry 0 of the first image): kind above 1"
    );
    assert_eq!(said(image.rank(3).unwrap_err()), "refusal 17 (n is 3): rank not below n");
    let lent = |work: usize, out: usize| {
        plain::write(&[3, 5, 8], &mut vec![0; work], &mut vec![0; out]).unwrap_err()
    };
    assert_eq!(said(lent(63, 100)), "refusal 14 (64 numbers needed): work area too short");
    assert_eq!(said(lent(64, 22)), "refusal 15 (23 bytes needed): output shorter than the image");
    let short = plain::read(image.as_ref(), &mut [0; 2]).unwrap_err();
    assert_eq!(said(short), "refusal 16 (3 steps needed): step buffer too short");
    let clock = huttaralu::clock_of(STEPS_IN_A_YEAR).unwrap_err();
    assert_eq!(said(clock), "refusal 18 (place 0): step after the year given to the clock");
}
