//! Lists of steps that look like tides, and others to try an implementation with.
//!
//! A tide is two waves: M2, which the moon raises every 12.42 hours, and S2, which the sun raises every
//! 12 hours. They drift apart and together in a fortnight, which gives springs and neaps. Weather moves
//! the water a little up or down for half a day at a time. A place is wet at the steps at which the water
//! stands at or above its threshold.
//!
//! Every list is made from a seed by whole numbers and by sums and products of `f64`, so one seed gives
//! one list on every machine.
//!
//! ```
//! let causeway = tides::CAUSEWAY.year(1);
//! assert!(causeway.windows(2).all(|pair| pair[0] < pair[1]));
//! assert!(causeway.iter().all(|&step| step < tides::STEPS_IN_A_YEAR));
//! ```

#![forbid(unsafe_code)]
#![warn(missing_docs)]

pub use limits::{LARGEST_STEP, MOST_STEPS, STEPS_IN_A_YEAR};

const STEPS_IN_AN_HOUR: f64 = 10.0;
const M2_HOURS: f64 = 12.420_601_2;
const S2_HOURS: f64 = 12.0;
const STEPS_BETWEEN_WEATHERS: u32 = 120;

/// A place by the shore. Heights are metres above the mean water.
#[derive(Clone, Copy, Debug, PartialEq)]
pub struct Place {
    /// What visitors call it.
    pub name: &'static str,
    /// Amplitude of the moon's wave.
    pub m2: f64,
    /// Amplitude of the sun's wave.
    pub s2: f64,
    /// Hours by which the moon's wave is late at this place.
    pub late: f64,
    /// How far weather moves the water, at most.
    pub weather: f64,
    /// The place is wet when the water stands at least this high.
    pub threshold: f64,
}

/// A road through the mud, under water for half of the day.
pub const CAUSEWAY: Place =
    Place { name: "causeway", m2: 1.45, s2: 0.48, late: 1.3, weather: 0.25, threshold: 0.10 };

/// The foot of the boat slip across the bay, where the tide comes later; wet except around low water.
pub const BOAT_SLIP: Place =
    Place { name: "boat-slip", m2: 1.52, s2: 0.50, late: 3.6, weather: 0.25, threshold: -0.85 };

/// A meadow behind the dyke that only high springs reach.
pub const SALT_MEADOW: Place =
    Place { name: "salt-meadow", m2: 1.38, s2: 0.46, late: 2.1, weather: 0.30, threshold: 1.55 };

/// The places of the demo, from seldom to often wet.
pub const PLACES: [Place; 3] = [SALT_MEADOW, CAUSEWAY, BOAT_SLIP];

impl Place {
    /// The steps of one year at which the place is wet. The seed decides the weather and where in the
    /// fortnight the year begins; two places with one seed share both.
    pub fn year(&self, seed: u64) -> Vec<u32> {
        self.steps(seed, STEPS_IN_A_YEAR)
    }

    /// The wet steps among the first `length` ones.
    pub fn steps(&self, seed: u64, length: u32) -> Vec<u32> {
        let water = Water::new(self, seed);
        (0..length).filter(|&step| water.height(step) >= self.threshold).collect()
    }

    /// The height of the water at each of the first `length` steps.
    pub fn heights(&self, seed: u64, length: u32) -> Vec<f64> {
        let water = Water::new(self, seed);
        (0..length).map(|step| water.height(step)).collect()
    }
}

/// The water at one place in the year of one seed.
struct Water {
    m2: f64,
    s2: f64,
    late: f64,
    moon: f64,
    weather: f64,
    seed: u64,
}

impl Water {
    fn new(place: &Place, seed: u64) -> Water {
        Water {
            m2: place.m2,
            s2: place.s2,
            late: place.late,
            moon: Dice::new(seed).fraction(),
            weather: place.weather,
            seed,
        }
    }

    fn height(&self, step: u32) -> f64 {
        let hour = f64::from(step) / STEPS_IN_AN_HOUR - self.late;
        let moon = self.m2 * wave(hour / M2_HOURS + self.moon);
        let sun = self.s2 * wave(hour / S2_HOURS);
        moon + sun + self.weather_at(step)
    }

    /// Goes in a straight line from one half day's weather to the next.
    fn weather_at(&self, step: u32) -> f64 {
        let half_day = u64::from(step / STEPS_BETWEEN_WEATHERS);
        let part = f64::from(step % STEPS_BETWEEN_WEATHERS) / f64::from(STEPS_BETWEEN_WEATHERS);
        let at = |index: u64| 2.0 * Dice::new(self.seed ^ (index + 1).rotate_left(32)).fraction() - 1.0;
        self.weather * (at(half_day) * (1.0 - part) + at(half_day + 1) * part)
    }
}

/// The cosine of a number of turns, by its series, so that no machine's own cosine decides a step.
fn wave(turns: f64) -> f64 {
    let turns = turns - turns.floor();
    // Beyond half a turn the wave goes back the way it came, and the second quarter is the first turned round.
    let half = if turns > 0.5 { 1.0 - turns } else { turns };
    let (quarter, sign) = if half > 0.25 { (0.5 - half, -1.0) } else { (half, 1.0) };
    let angle = 2.0 * std::f64::consts::PI * quarter;
    let square = angle * angle;
    let mut sum = 1.0;
    let mut term = 1.0;
    for k in 1..10 {
        term *= -square / f64::from((2 * k - 1) * (2 * k));
        sum += term;
    }
    sign * sum
}

/// A list of at most `most` steps, in which each number is a step with the chance of `density`.
pub fn random(seed: u64, density: f64, most: usize) -> Vec<u32> {
    let mut dice = Dice::new(seed);
    let most = most.min(MOST_STEPS);
    let chance = (density.clamp(0.0, 1.0) * 4_294_967_296.0) as u64;
    let mut list = Vec::new();
    for step in 0..=LARGEST_STEP {
        if list.len() == most {
            break;
        }
        if dice.word() >> 32 < chance {
            list.push(step);
        }
    }
    list
}

/// A list of at most `most` steps: runs of up to twice `run` neighbours, gaps of up to twice `gap`.
pub fn runs(seed: u64, run: u32, gap: u32, most: usize) -> Vec<u32> {
    let mut dice = Dice::new(seed);
    let most = most.min(MOST_STEPS);
    let mut list = Vec::new();
    let mut step = 0;
    while list.len() < most && step <= LARGEST_STEP {
        step += 1 + dice.below(2 * gap);
        for _ in 0..1 + dice.below(2 * run) {
            if list.len() < most && step <= LARGEST_STEP {
                list.push(step);
                step += 1;
            }
        }
    }
    list
}

/// Random numbers from a seed (the SplitMix64 sequence).
#[derive(Clone, Debug)]
pub struct Dice(u64);

impl Dice {
    /// The sequence that belongs to a seed.
    pub fn new(seed: u64) -> Dice {
        Dice(seed)
    }

    /// The next 64 random bits.
    pub fn word(&mut self) -> u64 {
        self.0 = self.0.wrapping_add(0x9E37_79B9_7F4A_7C15);
        let mut mixed = self.0;
        mixed = (mixed ^ (mixed >> 30)).wrapping_mul(0xBF58_476D_1CE4_E5B9);
        mixed = (mixed ^ (mixed >> 27)).wrapping_mul(0x94D0_49BB_1331_11EB);
        mixed ^ (mixed >> 31)
    }

    /// A number below `bound`; 0 if the bound is 0.
    pub fn below(&mut self, bound: u32) -> u32 {
        (((self.word() >> 32) * u64::from(bound)) >> 32) as u32
    }

    /// A number from 0 up to, but not, 1.
    pub fn fraction(&mut self) -> f64 {
        (self.word() >> 11) as f64 / 9_007_199_254_740_992.0
    }
}

#[cfg(test)]
mod tests {
    use super::*;

    fn rising(list: &[u32]) -> bool {
        list.windows(2).all(|pair| pair[0] < pair[1])
    }

    #[test]
    fn wave_is_a_cosine() {
        for k in -2000..2000 {
            let turns = f64::from(k) / 700.0;
            let cosine = (2.0 * std::f64::consts::PI * turns).cos();
            assert!((wave(turns) - cosine).abs() < 1e-9, "{turns}");
        }
    }

    #[test]
    fn places_are_seldom_half_and_often_wet() {
        let shares: Vec<f64> =
            PLACES.iter().map(|place| place.year(1).len() as f64 / f64::from(STEPS_IN_A_YEAR)).collect();
        assert!((0.01..0.15).contains(&shares[0]), "{shares:?}");
        assert!((0.4..0.6).contains(&shares[1]), "{shares:?}");
        assert!((0.6..0.9).contains(&shares[2]), "{shares:?}");
    }

    #[test]
    fn a_place_gets_wet_twice_a_day() {
        let year = CAUSEWAY.year(7);
        let stretches = 1 + year.windows(2).filter(|pair| pair[1] - pair[0] > 1).count();
        assert!((690..=720).contains(&stretches), "{stretches}");
    }

    #[test]
    fn lists_rise_and_keep_the_limits() {
        for seed in 0..4 {
            for place in PLACES {
                assert!(rising(&place.year(seed)));
            }
            let list = random(seed, 0.9, MOST_STEPS + 1);
            assert!(rising(&list) && list.len() == MOST_STEPS);
            let list = runs(seed, 1000, 10, usize::MAX);
            assert!(rising(&list) && list.len() == MOST_STEPS);
            let list = runs(seed, 1, 100_000, usize::MAX);
            assert!(rising(&list) && list.last() <= Some(&LARGEST_STEP));
        }
    }

    #[test]
    fn density_is_kept() {
        let list = random(3, 0.001, MOST_STEPS);
        let expected = f64::from(LARGEST_STEP) * 0.001;
        assert!((list.len() as f64 / expected - 1.0).abs() < 0.1, "{}", list.len());
    }

    #[test]
    fn one_seed_gives_one_list() {
        let year = CAUSEWAY.year(1);
        assert_eq!(year, CAUSEWAY.year(1));
        assert_ne!(year, CAUSEWAY.year(2));
    }
}
