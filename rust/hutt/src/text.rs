//! Steps, days and moments as text.

use huttaralu::{clock_of, STEPS_IN_A_DAY, STEPS_IN_A_YEAR};

const DAYS_IN_A_YEAR: u32 = STEPS_IN_A_YEAR / STEPS_IN_A_DAY;

/// A step of a text and the line that it stands in.
#[derive(Clone, Copy, Debug, PartialEq, Eq)]
pub struct Listed {
    /// The step.
    pub step: u32,
    /// Its line, from 1.
    pub line: usize,
}

/// The steps of a text, in its order; or what is not one. The rules judge the list, not this.
pub fn steps(text: &str) -> Result<Vec<Listed>, String> {
    let mut list = Vec::new();
    for (index, words) in text.lines().enumerate() {
        let line = index + 1;
        let words = words.split('#').next().unwrap_or_default();
        for word in words.split([' ', '\t', ',', ';', '\r']).filter(|word| !word.is_empty()) {
            let mistake = || format!("line {line}: '{word}' is neither a step nor a stretch");
            let (first, last) = match word.split_once('-') {
                None => (word, word),
                Some((first, last)) => (first, last),
            };
            let first = number(first).ok_or_else(mistake)?;
            let last = number(last).ok_or_else(mistake)?;
            if last < first {
                return Err(format!("line {line}: the stretch '{word}' ends before it starts"));
            }
            // A list of this length is refused already: one stretch must not fill the memory.
            let last = last.min(first.saturating_add(huttaralu::MOST_STEPS as u32));
            list.extend((first..=last).map(|step| Listed { step, line }));
        }
    }
    Ok(list)
}

/// A number; one that 32 bits do not hold is above the largest step, and stays so.
fn number(word: &str) -> Option<u32> {
    if word.is_empty() || !word.bytes().all(|byte| byte.is_ascii_digit()) {
        return None;
    }
    Some(word.parse().unwrap_or(u32::MAX))
}

/// A step that is given as such, or as the first one at or after a day and time.
#[derive(Clone, Copy, Debug, PartialEq, Eq)]
pub struct Moment(pub u32);

/// Reads a moment: `33141`, or `139/02:06` for day 139, 02:06.
pub fn moment(word: &str) -> Result<Moment, String> {
    let Some((day, time)) = word.split_once('/') else {
        return word
            .parse()
            .map(Moment)
            .map_err(|_| "a bound is a 32-bit number, or a day and time such as 139/02:06".into());
    };
    let (hour, minute) = time.split_once(':').unwrap_or((time, "0"));
    match (number(day), number(hour), number(minute)) {
        (Some(day @ 1..=DAYS_IN_A_YEAR), Some(hour @ 0..=23), Some(minute @ 0..=59)) => {
            Ok(Moment((day - 1) * STEPS_IN_A_DAY + hour * 10 + minute.div_ceil(6)))
        }
        _ => Err(format!("a day and time is as 139/02:06, with days 1 to {DAYS_IN_A_YEAR}")),
    }
}

/// Reads days: `32-45`, or `32` alone.
pub fn days(word: &str) -> Result<(u32, u32), String> {
    let (first, last) = word.split_once('-').unwrap_or((word, word));
    match (number(first), number(last)) {
        (Some(first), Some(last)) if 1 <= first && first <= last && last <= 1_000_000 => Ok((first, last)),
        _ => Err("days are as 32-45, from 1 on".into()),
    }
}

/// When a step begins, in words.
pub fn when(step: u32) -> String {
    match clock_of(step) {
        Ok(clock) => clock.to_string(),
        Err(_) if step == STEPS_IN_A_YEAR => "the end of the year".into(),
        Err(_) => format!("step {step}, after the year"),
    }
}

/// How long a number of steps lasts, in words.
pub fn lasting(steps: u32) -> String {
    match (steps / 10, steps % 10 * 6) {
        (0, minutes) => format!("{minutes} min"),
        (hours, 0) => format!("{hours} h"),
        (hours, minutes) => format!("{hours} h {minutes:02} min"),
    }
}

/// Runs of neighbouring steps, by first and last.
pub fn stretches(steps: impl Iterator<Item = u32>) -> impl Iterator<Item = (u32, u32)> {
    let mut steps = steps.peekable();
    std::iter::from_fn(move || {
        let first = steps.next()?;
        let mut last = first;
        while steps.next_if_eq(&(last + 1)).is_some() {
            last += 1;
        }
        Some((first, last))
    })
}

#[cfg(test)]
mod tests {
    use super::*;

    fn plain(text: &str) -> Vec<u32> {
        steps(text).unwrap().iter().map(|listed| listed.step).collect()
    }

    #[test]
    fn text_has_steps_and_stretches() {
        assert_eq!(plain("1 2,5-7 # 9\n\n10"), [1, 2, 5, 6, 7, 10]);
        assert_eq!(plain(""), []);
        assert_eq!(plain("99999999999"), [u32::MAX]);
        assert_eq!(steps("1\n5 4").unwrap()[2], Listed { step: 4, line: 2 });
        assert!(steps("1\nx").unwrap_err().contains("line 2"));
        assert!(steps("-4").is_err());
        assert!(steps("7-5").unwrap_err().contains("ends before"));
        assert_eq!(steps("0-4294967295").unwrap().len(), huttaralu::MOST_STEPS + 1);
    }

    #[test]
    fn moments() {
        assert_eq!(moment("33141"), Ok(Moment(33_141)));
        assert_eq!(moment("1/00:00"), Ok(Moment(0)));
        assert_eq!(moment("2/13:30"), Ok(Moment(375)));
        assert_eq!(moment("2/13:31"), Ok(Moment(376)));
        assert_eq!(moment("365/23:54"), Ok(Moment(STEPS_IN_A_YEAR - 1)));
        for wrong in ["0/00:00", "366/00:00", "1/24:00", "1/00:60", "x", "-1", "4294967296"] {
            assert!(moment(wrong).is_err(), "{wrong}");
        }
    }

    #[test]
    fn runs_of_neighbours() {
        let found: Vec<_> = stretches([0, 1, 2, 5, 8, 9].into_iter()).collect();
        assert_eq!(found, [(0, 2), (5, 5), (8, 9)]);
    }

    #[test]
    fn durations() {
        assert_eq!(lasting(7), "42 min");
        assert_eq!(lasting(30), "3 h");
        assert_eq!(lasting(31), "3 h 06 min");
    }
}
