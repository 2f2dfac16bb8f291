//! The limits and sizes of document 01, read from the C header when this crate is compiled.
//!
//! `include/huttaralu.h` is the one place of C and Rust where these numbers are written out. `.ci/house` holds
//! it against `crates/rules`, which the library is proved with.

#![no_std]
#![forbid(unsafe_code)]

const HEADER: &str = include_str!("../../../include/huttaralu.h");

/// The largest step.
pub const LARGEST_STEP: u32 = defined("HUTT_LARGEST_STEP");

/// The largest number of steps in a list.
pub const MOST_STEPS: usize = defined("HUTT_MOST_STEPS") as usize;

/// The steps of a year, which are those that have a clock.
pub const STEPS_IN_A_YEAR: u32 = defined("HUTT_YEAR_STEPS");

/// The numbers of work for a step, and as many more.
pub const WORK_SHARE: usize = defined("HUTT_WORK_SHARE") as usize;

/// The bytes of a number in an image.
pub const NUMBER_SIZE: usize = defined("HUTT_NUMBER_SIZE") as usize;

/// The bytes of an entry: kind, last, upto, end.
pub const ENTRY_SIZE: usize = defined("HUTT_ENTRY_SIZE") as usize;

/// The bytes of an image's two counts.
pub const COUNTS_SIZE: usize = 2 * NUMBER_SIZE;

/// The number that the header's line `#define NAME NUMBER` has. Without such a line nothing is compiled.
const fn defined(name: &str) -> u32 {
    let mut text = HEADER.as_bytes();
    while let [_, rest @ ..] = text {
        if let Some(name_on) = after(text, b"\n#define ") {
            if let Some([b' ', number @ ..]) = after(name_on, name.as_bytes()) {
                return leading_number(number);
            }
        }
        text = rest;
    }
    panic!("the header defines no number of this name")
}

/// What follows `start` in a text that begins with it.
const fn after<'a>(text: &'a [u8], start: &[u8]) -> Option<&'a [u8]> {
    let (mut text, mut start) = (text, start);
    while let [wanted, further @ ..] = start {
        match text {
            [byte, rest @ ..] if *byte == *wanted => (text, start) = (rest, further),
            _ => return None,
        }
    }
    Some(text)
}

/// The number that a text begins with.
const fn leading_number(text: &[u8]) -> u32 {
    let [b'0'..=b'9', ..] = text else {
        panic!("the header defines this name as something else than a number");
    };
    let (mut text, mut number) = (text, 0);
    while let [digit @ b'0'..=b'9', rest @ ..] = text {
        number = 10 * number + (*digit - b'0') as u32;
        text = rest;
    }
    number
}

#[cfg(test)]
mod tests {
    use super::*;

    #[test]
    fn numbers_are_those_of_the_header() {
        assert_eq!(STEPS_IN_A_YEAR, 365 * 24 * 10);
        assert_eq!(ENTRY_SIZE, 1 + 3 * NUMBER_SIZE);
    }

    #[test]
    #[should_panic(expected = "defines no number")]
    fn a_name_that_is_not_there() {
        defined("HUTT_LARGEST");
    }

    #[test]
    #[should_panic(expected = "defines no number")]
    fn a_name_with_an_argument() {
        defined("HUTT_WORK_NEEDED");
    }

    #[test]
    #[should_panic(expected = "something else than a number")]
    fn a_definition_that_is_no_number() {
        leading_number(b"(2 * 3)");
    }
}
