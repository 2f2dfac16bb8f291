//! Years of tides, up to every step of one, against the model.

use huttaralu_tests::lent::Lent;
use huttaralu_tests::library::{Answer, Library, Model, Proved};
use model::{image_of, work_for, Block, Kind, Operation};
use tides::{Place, BOAT_SLIP, CAUSEWAY, PLACES, SALT_MEADOW, STEPS_IN_A_YEAR};

/// The image that the library writes, which has to be the model's, byte for byte.
fn written(list: &[u32]) -> Vec<u8> {
    let right = model::shortest(list);
    let (mut work, mut out) = (Lent::empty(work_for(list.len())), Lent::empty(right.len()));
    let answer = Proved.write(list, work.buffer(), out.buffer());
    assert_eq!(answer, Answer::accepted([list.len() as u32, right.len() as u32, 0]));
    assert!(out == Lent::with(&right), "{} steps", list.len());
    assert!(work == Lent::with(&vec![0; work_for(list.len())]));
    right
}

#[test]
fn each_place_is_written_as_the_model_writes_it() {
    for (seed, place) in PLACES.iter().enumerate() {
        let list = place.year(seed as u64);
        let image = written(&list);
        let mut steps = Lent::empty(list.len());
        assert_eq!(Proved.read(&image, steps.buffer()), Answer::accepted([list.len() as u32, 0, 0]));
        assert!(steps == Lent::with(&list), "{}", place.name);
    }
}

#[test]
fn every_step_of_the_year() {
    let list: Vec<u32> = (0..STEPS_IN_A_YEAR).collect();
    written(&list);
}

#[test]
fn a_year_is_asked_at_every_edge_of_the_water() {
    let list = SALT_MEADOW.year(7);
    let image = written(&list);
    // One cut of another kind, so that the questions do not only meet shortest images.
    let hundreds: Vec<Block> = (1..=list.len().div_ceil(100))
        .map(|i| Block {
            kind: if i % 2 == 0 { Kind::Row } else { Kind::Codes },
            upto: (100 * i).min(list.len()),
        })
        .collect();
    let other = image_of(&list, &hundreds);
    let edges = list.windows(2).enumerate().filter(|(_, pair)| pair[1] > pair[0] + 1);
    for (rank, pair) in edges.step_by(17) {
        for image in [&image, &other] {
            for bound in [pair[0], pair[0] + 1, pair[1]] {
                assert_eq!(Proved.first_at(image, bound), Model.first_at(image, bound));
            }
            let rank = rank as u32;
            assert_eq!(Proved.rank(image, rank), Answer::accepted([pair[0], 0, 0]));
            assert_eq!(Proved.next(rank + 1, image), Answer::accepted([1, pair[1], rank + 2]));
            assert_eq!(Proved.skip(rank, image, pair[0] + 1), Answer::accepted([0, 0, rank + 1]));
        }
    }
}

#[test]
fn two_places_are_paired_as_the_model_pairs_them() {
    const SEED: u64 = 3;
    let year = |place: Place| written(&place.year(SEED));
    let (meadow, causeway, slip) = (year(SALT_MEADOW), year(CAUSEWAY), year(BOAT_SLIP));
    let pairs = [
        (Operation::Both, &causeway, &slip),
        (Operation::Without, &slip, &causeway),
        (Operation::Either, &meadow, &causeway),
        (Operation::Without, &meadow, &slip),
    ];
    for (operation, first, second) in pairs {
        let n = STEPS_IN_A_YEAR as usize;
        let lent = (Lent::<u32>::empty(n), Lent::<u32>::empty(work_for(n)), Lent::<u8>::empty(n));
        let pair = |library: &dyn Library| {
            let (mut steps, mut work, mut out) = lent.clone();
            let answer = library.pair(operation, first, second, steps.buffer(), work.buffer(), out.buffer());
            (answer, steps, work, out)
        };
        let (told, right) = (pair(&Proved), pair(&Model));
        assert_eq!(told.0, right.0);
        assert!(told == right, "{operation:?}: a buffer or its guards");
    }
}
