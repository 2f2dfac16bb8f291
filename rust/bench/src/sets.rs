//! The lists that are measured.

use tides::{random, runs, BOAT_SLIP, CAUSEWAY, MOST_STEPS, SALT_MEADOW};

/// Two lists of one sort; operations on one image use the first.
pub struct Set {
    /// What it is called in tables.
    pub name: String,
    /// The first list.
    pub first: Vec<u32>,
    /// The second, for the operations on two images.
    pub second: Vec<u32>,
}

impl Set {
    fn new(name: &str, make: impl Fn(u64) -> Vec<u32>) -> Set {
        Set { name: name.into(), first: make(1), second: make(2) }
    }
}

/// All sets: tides that wet a place seldom, half of the time and often, random lists from thin to dense, and
/// long runs, each as long as its sort can be.
pub fn sets() -> Vec<Set> {
    let mut sets = vec![
        Set::new("tide, seldom wet", |seed| SALT_MEADOW.year(seed)),
        Set::new("tide, half wet", |seed| CAUSEWAY.year(seed)),
        Set::new("tide, often wet", |seed| BOAT_SLIP.year(seed)),
    ];
    for (name, density) in [
        ("random, 0.1 %", 0.001),
        ("random, 1 %", 0.01),
        ("random, 5 %", 0.05),
        ("random, 15 %", 0.15),
        ("random, 50 %", 0.5),
        ("random, 90 %", 0.9),
    ] {
        sets.push(Set::new(name, |seed| random(seed, density, MOST_STEPS)));
    }
    sets.push(Set::new("runs of 1,000", |seed| runs(seed, 1_000, 1_000, MOST_STEPS)));
    sets
}

/// A mixed list of a given length, to see how time grows: stretches of random gaps, thin and dense by turns.
pub fn of_length(steps: usize) -> Set {
    Set::new(&steps.to_string(), |seed| {
        let mut dice = tides::Dice::new(seed);
        let widest = [1, 2, 4, 12, 30];
        let mut list = Vec::with_capacity(steps);
        let mut step = 0;
        while list.len() < steps {
            let wide = widest[dice.below(widest.len() as u32) as usize];
            for _ in 0..(1 + dice.below(400)).min((steps - list.len()) as u32) {
                step += dice.below(wide);
                list.push(step);
                step += 1;
            }
        }
        list
    })
}
