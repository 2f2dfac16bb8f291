//! Tests of the tests: each mistake is caught by the property that it is about, and the cases reach every row
//! of the table.

use std::collections::BTreeMap;

use huttaralu_tests::library::{Library, Model};
use huttaralu_tests::wrong::Wrong;
use huttaralu_tests::{lists, properties};
use proptest::strategy::{Strategy, ValueTree};
use proptest::test_runner::{Config, TestCaseError, TestError, TestRng, TestRunner};

/// A run that is the same each time, so that what is caught today is caught tomorrow.
fn runner() -> TestRunner {
    let config = Config { cases: 25_000, failure_persistence: None, ..Config::default() };
    TestRunner::new_with_rng(config.clone(), TestRng::deterministic_rng(config.rng_algorithm))
}

/// Runs a property on a library with a mistake. It has to fail, and the model has to pass the very case that
/// it fails on.
fn caught<S: Strategy>(
    wrong: Wrong,
    cases: S,
    property: impl Fn(&dyn Library, &S::Value) -> Result<(), TestCaseError>,
) {
    match runner().run(&cases, |case| property(&wrong, &case)) {
        Err(TestError::Fail(_, case)) => property(&Model, &case).expect("the model passes every case"),
        other => panic!("{wrong:?} is not caught: {other:?}"),
    }
}

#[test]
fn rows_unpadded_are_caught() {
    caught(Wrong::RowsUnpadded, properties::writing_case(), properties::writing);
}

#[test]
fn rows_unpadded_are_caught_by_brute_force() {
    caught(Wrong::RowsUnpadded, lists::short_list(), |library, list| {
        properties::writing_the_shortest(library, list)
    });
}

#[test]
fn fewer_steps_first_is_caught() {
    caught(Wrong::FewerStepsFirst, properties::writing_case(), properties::writing);
}

#[test]
fn fewer_steps_first_is_caught_by_brute_force() {
    caught(Wrong::FewerStepsFirst, lists::short_list(), |library, list| {
        properties::writing_the_shortest(library, list)
    });
}

#[test]
fn shorter_row_first_is_caught() {
    caught(Wrong::ShorterRowFirst, properties::writing_case(), properties::writing);
}

#[test]
fn shorter_row_first_is_caught_by_brute_force() {
    caught(Wrong::ShorterRowFirst, lists::short_list(), |library, list| {
        properties::writing_the_shortest(library, list)
    });
}

#[test]
fn work_kept_on_15_is_caught() {
    caught(Wrong::WorkKeptOn15, properties::writing_case(), properties::writing);
}

#[test]
fn a_forgotten_closing_test_is_caught() {
    caught(Wrong::ClosingTestForgotten, properties::reading_case(), properties::reading);
}

#[test]
fn a_skip_that_goes_back_is_caught() {
    caught(Wrong::SkipGoesBack, properties::moving_case(), properties::moving);
}

#[test]
fn an_image_that_is_copied_is_caught() {
    caught(Wrong::SameImageCopied, properties::pairing_case(), properties::pairing);
}

#[test]
fn a_side_left_on_the_result_is_caught() {
    caught(Wrong::SideLeftOnTheResult, properties::pairing_case(), properties::pairing);
}

/// How often each refusal is the right answer, by number and by whether its place is 0, among so many cases.
fn refusals<S: Strategy>(cases: S, right: impl Fn(S::Value) -> [u32; 3]) -> BTreeMap<(u32, bool), usize> {
    let mut runner = runner();
    let mut seen = BTreeMap::new();
    for _ in 0..runner.config().cases {
        let case = cases.new_tree(&mut runner).expect("nothing is filtered out").current();
        let [number, _, place] = right(case);
        *seen.entry((number, place == 0)).or_default() += 1;
    }
    seen
}

/// Each of these refusals is seen a number of times.
fn all_seen(seen: &BTreeMap<(u32, bool), usize>, refusals: impl IntoIterator<Item = (u32, bool)>) {
    const ENOUGH: usize = 20;
    for refusal in refusals {
        assert!(
            seen.get(&refusal).copied().unwrap_or(0) >= ENOUGH,
            "{refusal:?} is seen too seldom: {seen:?}"
        );
    }
}

#[test]
fn damaged_images_reach_every_row_of_the_table_in_the_first_block_and_later() {
    let seen = refusals(properties::reading_case(), |(image, _)| Model.check(&image).refusal);
    all_seen(&seen, [(0, true), (1, true), (2, true)]);
    all_seen(&seen, (3..=10).flat_map(|number| [(number, true), (number, false)]));
}

#[test]
fn lists_reach_every_row_of_the_table() {
    let seen = refusals(properties::writing_case(), |(list, work, out)| {
        let mut work = vec![0; work.len(model::work_for(list.len()))];
        let accepted = Model.write(&list, &mut vec![0; model::work_for(list.len())], &mut vec![0; 1 << 20]);
        let mut out = vec![0; out.len(accepted.values[1] as usize)];
        Model.write(&list, &mut work, &mut out).refusal
    });
    // 13 is for the limits' own tests: so long a list is no case for many.
    all_seen(&seen, [(0, true), (11, false), (12, true), (12, false), (14, false), (15, false)]);
}
