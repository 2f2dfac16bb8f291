//! What is compared does the same work: library and native give the same answers and leave the same bytes.

use std::sync::OnceLock;

use bench::{cases, of_length, Contender, Operation, Set, Sizes};
use huttaralu::{plain, work_needed};

/// The sets, made once for all tests.
fn sets() -> &'static [Set] {
    static SETS: OnceLock<Vec<Set>> = OnceLock::new();
    SETS.get_or_init(bench::sets)
}

fn agree(set: &Set) {
    for operation in Operation::ALL {
        let mut cases = cases(operation, set);
        let answers: Vec<u64> = cases
            .iter_mut()
            .filter(|case| matches!(case.contender, Contender::Library | Contender::Native))
            .map(|case| (case.run)())
            .collect();
        assert_eq!(answers[0], answers[1], "{operation:?} of {}", set.name);
    }
}

#[test]
fn sets_agree() {
    for set in sets() {
        agree(set);
    }
    for steps in [1, 10, 1_000, 10_000] {
        agree(&of_length(steps));
    }
}

#[test]
fn images_are_the_same() {
    for set in sets() {
        let images = [&set.first, &set.second].map(|list| {
            let steps = list.len();
            let (mut work, mut theirs) = (vec![1; work_needed(steps)], vec![1; huttaralu::most_bytes(steps)]);
            let mut ours = theirs.clone();
            let written = plain::write(list, &mut work, &mut theirs).unwrap();
            assert_eq!(native::write(list, &mut work, &mut ours).unwrap().bytes as usize, written.bytes);
            assert_eq!(ours, theirs, "{}", set.name);
            theirs.truncate(written.bytes);
            theirs
        });
        let steps = set.first.len();
        let (mut mine, mut work) = (vec![1; steps], vec![1; work_needed(steps)]);
        let mut yours = mine.clone();
        let (mut left, mut right) = (vec![1; 4 * steps + 30], vec![1; 4 * steps + 30]);
        plain::without(&images[0], &images[1], &mut mine, &mut work, &mut left).unwrap();
        native::without(&images[0], &images[1], &mut yours, &mut work, &mut right).unwrap();
        assert_eq!((mine, left), (yours, right), "{}", set.name);
    }
}

#[test]
fn no_other_cut_is_shorter() {
    for set in sets() {
        let sizes = Sizes::of(&set.first);
        for other in [sizes.codes, sizes.row, sizes.blocks_of_128] {
            assert!(sizes.image <= other, "{}", set.name);
        }
    }
}

#[test]
#[cfg(feature = "croaring")]
fn croaring_finds_the_same_steps() {
    for set in sets() {
        for operation in [Operation::Check, Operation::Read, Operation::Rank, Operation::FirstAt] {
            let mut cases = cases(operation, set);
            let answers: Vec<u64> = cases
                .iter_mut()
                .filter(|case| case.contender != Contender::Floor)
                .map(|case| (case.run)())
                .collect();
            assert_eq!(answers.len(), 3);
            assert!(answers.iter().all(|&answer| answer == answers[0]), "{operation:?} of {}", set.name);
        }
    }
}
