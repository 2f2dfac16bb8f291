//! Lists of many shapes.

use std::ops::RangeInclusive;

use model::LARGEST_STEP;
use proptest::collection::vec;
use proptest::prelude::*;
use proptest::sample::Index;

/// A part of a list, from which the steps follow.
#[derive(Clone, Debug)]
enum Stretch {
    /// Consecutive steps after a gap.
    Run { gap: u32, steps: u32 },
    /// Steps that are all a gap apart.
    Spaced { gap: u32, steps: u32 },
    /// One step after each of these gaps.
    Scattered(Vec<u32>),
    /// A step for each 1.
    Bits(u64),
}

/// Gaps about every length at which a code or a row grows.
fn gap() -> impl Strategy<Value = u32> {
    prop_oneof![
        4 => 0..=3u32,
        4 => 4..=20u32,
        2 => 90..=135u32,
        2 => 0..=400u32,
        1 => 16_380..=16_388u32,
        1 => 0..=70_000u32,
        1 => 2_097_150..=2_097_154u32,
    ]
}

/// Gaps of steps that cost a byte each in codes, and one to five in a row. After a run it pays to start a
/// block of codes somewhere among them, and where is often a tie.
fn tail(steps: RangeInclusive<usize>) -> impl Strategy<Value = Vec<u32>> {
    vec(3..=40u32, steps)
}

fn stretch() -> impl Strategy<Value = Stretch> {
    prop_oneof![
        3 => (gap(), 1..=60u32).prop_map(|(gap, steps)| Stretch::Run { gap, steps }),
        2 => (gap(), 1..=25u32).prop_map(|(gap, steps)| Stretch::Spaced { gap, steps }),
        3 => vec(gap(), 1..=12).prop_map(Stretch::Scattered),
        2 => tail(12..=40).prop_map(Stretch::Scattered),
        2 => any::<u64>().prop_map(Stretch::Bits),
        1 => (any::<u64>(), any::<u64>()).prop_map(|(few, fewer)| Stretch::Bits(few & fewer)),
    ]
}

/// The steps of the stretches, one after the other; what is above the largest step is left out.
fn steps_of(stretches: &[Stretch]) -> Vec<u32> {
    let mut list = Vec::new();
    let mut past = 0;
    for stretch in stretches {
        let gaps: Vec<u32> = match stretch {
            Stretch::Run { gap, steps } => (0..*steps).map(|i| if i == 0 { *gap } else { 0 }).collect(),
            Stretch::Spaced { gap, steps } => vec![*gap; *steps as usize],
            Stretch::Scattered(gaps) => gaps.clone(),
            Stretch::Bits(bits) => {
                list.extend((0..u64::BITS).filter(|j| bits >> j & 1 == 1).map(|j| past + j));
                past += u64::BITS;
                vec![]
            }
        };
        for gap in gaps {
            past += gap;
            list.push(past);
            past += 1;
        }
    }
    list.retain(|&step| step <= LARGEST_STEP);
    list
}

/// A list that is accepted. One in eight ends at the largest step.
pub fn list() -> impl Strategy<Value = Vec<u32>> {
    (vec(stretch(), 0..=8), prop::bool::weighted(0.125)).prop_map(|(stretches, at_the_end)| {
        let mut list = steps_of(&stretches);
        if let (true, Some(&last)) = (at_the_end, list.last()) {
            list.iter_mut().for_each(|step| *step += LARGEST_STEP - last);
        }
        list
    })
}

/// A list that is short enough to try every cut of it, and mostly long enough to have more than one block.
pub fn short_list() -> impl Strategy<Value = Vec<u32>> {
    /// As many bytes of payload as two blocks more may cost, and a few.
    const MOST: usize = 34;
    let gap = || prop_oneof![2 => gap(), 1 => 5..=9u32, 2 => 100..=140u32];
    let stretch = prop_oneof![
        4 => (gap(), 5..=20u32).prop_map(|(gap, steps)| Stretch::Run { gap, steps }),
        1 => (5..=10u32, 1..=8u32).prop_map(|(gap, steps)| Stretch::Spaced { gap, steps }),
        2 => vec(gap(), 1..=4).prop_map(Stretch::Scattered),
        3 => tail(8..=18).prop_map(Stretch::Scattered),
    ];
    vec(stretch, 0..=3).prop_map(|stretches| {
        let mut list = steps_of(&stretches);
        let bytes = |list: &[u32]| {
            let gaps = list.iter().scan(0, |past, &step| Some(step - std::mem::replace(past, step + 1)));
            gaps.map(|gap| model::code_of(gap).len()).sum::<usize>()
        };
        while bytes(&list) > MOST {
            list.pop();
        }
        list
    })
}

/// What may be wrong with a list.
#[derive(Clone, Debug)]
enum Fault {
    /// A step is the one before it, again.
    Repeated(Index),
    /// Two steps have changed places.
    Swapped(Index, Index),
    /// A step is above the largest by this and one.
    TooLarge(Index, u32),
}

fn fault() -> impl Strategy<Value = Fault> {
    let above = prop_oneof![Just(0), 0..=1000u32, Just(u32::MAX - LARGEST_STEP - 1)];
    prop_oneof![
        any::<Index>().prop_map(Fault::Repeated),
        (any::<Index>(), any::<Index>()).prop_map(|(a, b)| Fault::Swapped(a, b)),
        (any::<Index>(), above).prop_map(|(at, above)| Fault::TooLarge(at, above)),
    ]
}

/// Any list: mostly accepted, else with up to three faults.
pub fn any_list() -> impl Strategy<Value = Vec<u32>> {
    (list(), prop_oneof![3 => Just(vec![]), 1 => vec(fault(), 1..=3)]).prop_map(|(mut list, faults)| {
        let n = list.len();
        for fault in faults.iter().filter(|_| n > 1) {
            match fault {
                Fault::Repeated(at) => {
                    let at = 1 + at.index(n - 1);
                    list[at] = list[at - 1];
                }
                Fault::Swapped(a, b) => list.swap(a.index(n), b.index(n)),
                Fault::TooLarge(at, above) => list[at.index(n)] = LARGEST_STEP + 1 + above,
            }
        }
        list
    })
}

/// Two lists that have much in common, or little.
pub fn two_lists() -> impl Strategy<Value = (Vec<u32>, Vec<u32>)> {
    let apart = (list(), list());
    // The second is the first with some steps left out or moved by one, and steps of its own.
    let close = (list(), vec(0..8u8, 1..=32), vec(stretch(), 0..=2)).prop_map(|(first, fates, own)| {
        let mut second = steps_of(&own);
        for (&step, fate) in first.iter().zip(fates.iter().cycle()) {
            match fate {
                0 => {}
                1 => second.push(step.saturating_add(1).min(LARGEST_STEP)),
                _ => second.push(step),
            }
        }
        second.sort_unstable();
        second.dedup();
        (first, second)
    });
    prop_oneof![apart, close]
}
