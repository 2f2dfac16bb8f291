//! The library held against the model, from outside.
//!
//! A [`Library`](library::Library) is whatever answers the twelve functions: the proved one, the model, or
//! the model with a mistake. A property takes a library and a case that was made at random, asks both the
//! library and the model, and compares every field of the answers and every number of every buffer, with the
//! guards around it. The proved library has to pass every property; each of the mistakes of [`wrong`] has to
//! be caught by the property that it is about.

pub mod images;
pub mod lent;
pub mod library;
pub mod lists;
pub mod properties;
pub mod wrong;

use proptest::test_runner::Config;

/// How many times the cases of the gate are run: `HUTTARALU_CASES_TIMES`, or once.
pub fn times() -> u32 {
    match std::env::var("HUTTARALU_CASES_TIMES") {
        Ok(times) => times.parse().expect("HUTTARALU_CASES_TIMES is a whole number"),
        Err(_) => 1,
    }
}

/// A run of so many cases, and of as many times more as the environment asks for.
pub fn cases(cases: u32) -> Config {
    Config {
        cases: cases * times(),
        failure_persistence: None,
        max_shrink_iters: 20_000,
        ..Config::default()
    }
}
