//! The proved library against the model, on cases that are made at random: 246,000 of them, or as many times
//! that as `HUTTARALU_CASES_TIMES` says.

use huttaralu_tests::cases;
use huttaralu_tests::library::Proved;
use huttaralu_tests::{lists, properties};
use proptest::prelude::*;

proptest! {
    #![proptest_config(cases(50_000))]

    #[test]
    fn writing(case in properties::writing_case()) {
        properties::writing(&Proved, &case)?;
    }

    #[test]
    fn reading(case in properties::reading_case()) {
        properties::reading(&Proved, &case)?;
    }

    #[test]
    fn pairing(case in properties::pairing_case()) {
        properties::pairing(&Proved, &case)?;
    }
}

proptest! {
    #![proptest_config(cases(30_000))]

    #[test]
    fn asking(case in properties::asking_case()) {
        properties::asking(&Proved, &case)?;
    }

    #[test]
    fn moving(case in properties::moving_case()) {
        properties::moving(&Proved, &case)?;
    }

    #[test]
    fn clock(step in properties::clock_case()) {
        properties::clock(&Proved, &step)?;
    }
}

proptest! {
    #![proptest_config(cases(6_000))]

    #[test]
    fn writing_the_shortest(list in lists::short_list()) {
        properties::writing_the_shortest(&Proved, &list)?;
    }
}
