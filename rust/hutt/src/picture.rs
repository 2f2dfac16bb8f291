//! Strips of wet stretches as SVG, with days on the axis.
//!
//! Over a few weeks every stretch is drawn. Over more, stretches would be thinner than a line, so each day (or
//! some days) is a column, and its filled part is the share of that time under water.

use std::fmt::Write;

use huttaralu::STEPS_IN_A_DAY;

const WIDTH: f64 = 1200.0;
const LEFT: f64 = 150.0;
const RIGHT: f64 = 90.0;
const STRIP: f64 = 46.0;
const BETWEEN: f64 = 22.0;
const HEAD: f64 = 84.0;
const CURVE: f64 = 150.0;
const FOOT: f64 = 64.0;
/// Days up to which every stretch is drawn.
const EVERY_STRETCH: u32 = 62;
/// Days up to which the marked strip says the time of each crossing.
const TIMES: u32 = 5;
/// The narrowest column.
const COLUMN: f64 = 2.0;

/// One image: its name and its wet stretches by first and last step. A marked strip is the answer to something.
pub struct Strip {
    /// Shown to the left.
    pub name: String,
    /// First and last steps.
    pub stretches: Vec<(u32, u32)>,
    /// Drawn in the colour of answers, with times where there is room.
    pub marked: bool,
}

/// The water at one place above the strips, from the first step of the picture on.
pub struct Wave<'a> {
    /// Whose water it is.
    pub name: &'a str,
    /// Height at each step.
    pub heights: &'a [f64],
    /// The place is wet from this height on.
    pub threshold: f64,
}

/// What is drawn.
pub struct Picture<'a> {
    /// Words at the top.
    pub title: &'a str,
    /// First and last day.
    pub days: (u32, u32),
    /// From top to bottom.
    pub strips: &'a [Strip],
    /// A step to mark by a line, with its words.
    pub moment: Option<(u32, String)>,
    /// A curve of the water.
    pub wave: Option<Wave<'a>>,
}

/// The days from the first to the last step of any strip; day 1 if there is none.
pub fn days_of(strips: &[Strip]) -> (u32, u32) {
    let firsts = strips.iter().filter_map(|strip| strip.stretches.first()).map(|stretch| stretch.0);
    let lasts = strips.iter().filter_map(|strip| strip.stretches.last()).map(|stretch| stretch.1);
    let day = |step: Option<u32>| step.unwrap_or(0) / STEPS_IN_A_DAY + 1;
    (day(firsts.min()), day(lasts.max()))
}

impl Picture<'_> {
    /// The picture as text.
    pub fn svg(&self) -> String {
        let mut svg = String::new();
        self.draw(&mut svg).expect("text can always be written to a string");
        svg
    }

    fn start(&self) -> u32 {
        (self.days.0 - 1).saturating_mul(STEPS_IN_A_DAY)
    }

    fn end(&self) -> u32 {
        self.days.1.saturating_mul(STEPS_IN_A_DAY)
    }

    fn count(&self) -> u32 {
        self.days.1 - self.days.0 + 1
    }

    fn x(&self, step: f64) -> f64 {
        let share = (step - f64::from(self.start())) / f64::from(self.end() - self.start());
        LEFT + share * (WIDTH - LEFT - RIGHT)
    }

    fn strips_top(&self) -> f64 {
        HEAD + if self.wave.is_some() { CURVE + BETWEEN } else { 0.0 }
    }

    fn strip_top(&self, index: usize) -> f64 {
        self.strips_top() + index as f64 * (STRIP + BETWEEN)
    }

    fn bottom(&self) -> f64 {
        self.strip_top(self.strips.len()) - BETWEEN + if self.shows_times() { 16.0 } else { 0.0 }
    }

    fn shows_times(&self) -> bool {
        self.count() <= TIMES && self.strips.last().is_some_and(|strip| strip.marked)
    }

    fn draw(&self, svg: &mut String) -> std::fmt::Result {
        let height = self.bottom() + FOOT;
        writeln!(
            svg,
            r##"<svg xmlns="http://www.w3.org/2000/svg" viewBox="0 0 {WIDTH} {height}" width="{WIDTH}" height="{height}" font-family="'DejaVu Sans', 'Helvetica Neue', Arial, sans-serif" font-size="14" fill="#22313f">
<defs><linearGradient id="wet" x1="0" y1="0" x2="0" y2="1"><stop offset="0" stop-color="#5aa9d6"/><stop offset="1" stop-color="#2a6f9e"/></linearGradient>
<linearGradient id="marked" x1="0" y1="0" x2="0" y2="1"><stop offset="0" stop-color="#ee8a4a"/><stop offset="1" stop-color="#d2601a"/></linearGradient></defs>
<rect width="100%" height="100%" fill="#ffffff"/>"##
        )?;
        writeln!(
            svg,
            r##"<text x="{LEFT}" y="36" font-size="21" font-weight="bold">{}</text>"##,
            escaped(self.title)
        )?;
        writeln!(svg, r##"<text x="{LEFT}" y="60" fill="#6b7a86">{}</text>"##, self.subtitle())?;
        if let Some(wave) = &self.wave {
            self.draw_wave(svg, wave)?;
        }
        for (index, strip) in self.strips.iter().enumerate() {
            self.draw_strip(svg, strip, self.strip_top(index))?;
        }
        self.draw_axis(svg)?;
        if let Some((step, words)) = &self.moment {
            self.draw_moment(svg, *step, words)?;
        }
        writeln!(svg, "</svg>")
    }

    fn subtitle(&self) -> String {
        let days = match self.days {
            (first, last) if first == last => format!("Day {first}"),
            (first, last) => format!("Days {first} to {last}"),
        };
        if self.count() <= EVERY_STRETCH {
            return days;
        }
        let column = match self.days_in_a_column() {
            1 => "Each column is a day".into(),
            many => format!("Each column is {many} days"),
        };
        format!("{days}. {column}; its filled part is the share of that time under water.")
    }

    fn days_in_a_column(&self) -> u32 {
        let most = (WIDTH - LEFT - RIGHT) / COLUMN;
        (f64::from(self.count()) / most).ceil().max(1.0) as u32
    }

    fn draw_strip(&self, svg: &mut String, strip: &Strip, top: f64) -> std::fmt::Result {
        let (fill, middle) = (if strip.marked { "marked" } else { "wet" }, top + STRIP / 2.0 + 5.0);
        let wide = WIDTH - LEFT - RIGHT;
        writeln!(
            svg,
            r##"<text x="{}" y="{middle}" text-anchor="end" font-weight="bold">{}</text>"##,
            LEFT - 14.0,
            escaped(&strip.name)
        )?;
        writeln!(
            svg,
            r##"<rect x="{LEFT}" y="{top}" width="{wide}" height="{STRIP}" rx="3" fill="#f4ead6"/>"##
        )?;
        let path = if self.count() <= EVERY_STRETCH {
            self.every_stretch(strip, top)?
        } else {
            self.columns(strip, top)?
        };
        writeln!(svg, r##"<path fill="url(#{fill})" d="{path}"/>"##)?;
        let share =
            100.0 * f64::from(wet(strip, self.start(), self.end())) / f64::from(self.end() - self.start());
        writeln!(
            svg,
            r##"<text x="{}" y="{middle}" fill="#6b7a86">{share:.0} % wet</text>"##,
            WIDTH - RIGHT + 12.0
        )?;
        if strip.marked && self.shows_times() {
            self.draw_times(svg, strip, top + STRIP + 16.0)?;
        }
        Ok(())
    }

    fn every_stretch(&self, strip: &Strip, top: f64) -> Result<String, std::fmt::Error> {
        let mut path = String::new();
        for &(first, last) in &strip.stretches {
            let (from, until) = (first.max(self.start()), (last + 1).min(self.end()));
            if from < until {
                let (x, end) = (self.x(f64::from(from)), self.x(f64::from(until)));
                write!(path, "M{x:.2} {top}H{end:.2}V{}H{x:.2}Z", top + STRIP)?;
            }
        }
        Ok(path)
    }

    fn columns(&self, strip: &Strip, top: f64) -> Result<String, std::fmt::Error> {
        let mut path = String::new();
        let wide = self.days_in_a_column() * STEPS_IN_A_DAY;
        let mut from = self.start();
        while from < self.end() {
            let until = (from + wide).min(self.end());
            let share = f64::from(wet(strip, from, until)) / f64::from(until - from);
            if share > 0.0 {
                let (x, end) = (self.x(f64::from(from)), self.x(f64::from(until)));
                let bottom = top + STRIP;
                write!(path, "M{x:.2} {:.2}H{end:.2}V{bottom}H{x:.2}Z", bottom - share * STRIP)?;
            }
            from = until;
        }
        Ok(path)
    }

    fn draw_times(&self, svg: &mut String, strip: &Strip, y: f64) -> std::fmt::Result {
        for &(first, last) in &strip.stretches {
            for step in [first, last + 1] {
                if step > self.start() && step < self.end() {
                    let (hour, minute) = (step % STEPS_IN_A_DAY / 10, step % 10 * 6);
                    let x = self.x(f64::from(step));
                    writeln!(
                        svg,
                        r##"<text x="{x:.1}" y="{y}" font-size="12" fill="#a04a12" text-anchor="middle">{hour:02}:{minute:02}</text>"##
                    )?;
                }
            }
        }
        Ok(())
    }

    fn draw_wave(&self, svg: &mut String, wave: &Wave) -> std::fmt::Result {
        let most = wave.heights.iter().fold(1.0, |most: f64, height| most.max(height.abs()));
        let y = |height: f64| HEAD + CURVE / 2.0 * (1.0 - height / most);
        let (right, level) = (WIDTH - RIGHT, y(wave.threshold));
        let mut curve = String::new();
        for (index, &height) in wave.heights.iter().enumerate() {
            let x = self.x(f64::from(self.start()) + index as f64);
            write!(curve, "{}{x:.1} {:.1}", if index == 0 { 'M' } else { 'L' }, y(height))?;
        }
        let bottom = HEAD + CURVE;
        writeln!(
            svg,
            r##"<clipPath id="above"><rect x="{LEFT}" y="{HEAD}" width="{}" height="{:.1}"/></clipPath>
<path d="{curve}V{bottom}H{LEFT}Z" fill="#dcebf5"/>
<path d="{curve}V{bottom}H{LEFT}Z" fill="#5aa9d6" clip-path="url(#above)"/>
<path d="{curve}" fill="none" stroke="#2a6f9e" stroke-width="2"/>
<line x1="{LEFT}" x2="{right}" y1="{level:.1}" y2="{level:.1}" stroke="#a04a12" stroke-dasharray="6 4"/>
<text x="{}" y="{:.1}" fill="#a04a12">{}</text>
<text x="{}" y="{:.1}" text-anchor="end" font-weight="bold">water</text>"##,
            right - LEFT,
            level - HEAD,
            right + 12.0,
            level + 5.0,
            escaped(wave.name),
            LEFT - 14.0,
            HEAD + CURVE / 2.0 + 5.0,
        )
    }

    fn draw_axis(&self, svg: &mut String) -> std::fmt::Result {
        let (top, bottom) = (if self.wave.is_some() { HEAD } else { self.strips_top() }, self.bottom());
        let unit = unit_for(self.count());
        let centred = unit == 1;
        let mut day = self.days.0;
        while day <= self.days.1 + 1 {
            let x = self.x(f64::from((day - 1).saturating_mul(STEPS_IN_A_DAY)));
            writeln!(
                svg,
                r##"<line x1="{x:.1}" x2="{x:.1}" y1="{top}" y2="{:.1}" stroke="#22313f" stroke-opacity="0.28"/>"##,
                bottom + 7.0
            )?;
            let label =
                if centred { self.x(f64::from((day - 1) * STEPS_IN_A_DAY + STEPS_IN_A_DAY / 2)) } else { x };
            if day <= self.days.1 {
                let words = if self.count() <= TIMES { format!("day {day}") } else { day.to_string() };
                writeln!(
                    svg,
                    r##"<text x="{label:.1}" y="{:.1}" text-anchor="middle">{words}</text>"##,
                    bottom + 25.0
                )?;
            }
            // The first tick is the first day; the others are round numbers.
            day = if centred { day + 1 } else { day / unit * unit + unit };
        }
        if self.count() <= TIMES {
            self.draw_hours(svg, top, bottom)?;
        } else {
            writeln!(
                svg,
                r##"<text x="{}" y="{:.1}" text-anchor="end" fill="#6b7a86">day</text>"##,
                LEFT - 34.0,
                bottom + 25.0
            )?;
        }
        Ok(())
    }

    fn draw_hours(&self, svg: &mut String, top: f64, bottom: f64) -> std::fmt::Result {
        let quarter = STEPS_IN_A_DAY / 4;
        for index in 0..=4 * self.count() {
            let x = self.x(f64::from(self.start() + index * quarter));
            if index % 4 != 0 {
                writeln!(
                    svg,
                    r##"<line x1="{x:.1}" x2="{x:.1}" y1="{top}" y2="{bottom}" stroke="#22313f" stroke-opacity="0.12" stroke-dasharray="2 3"/>"##
                )?;
            }
            writeln!(
                svg,
                r##"<text x="{x:.1}" y="{:.1}" font-size="11" fill="#6b7a86" text-anchor="middle">{:02}</text>"##,
                bottom + 42.0,
                index % 4 * 6
            )?;
        }
        Ok(())
    }

    fn draw_moment(&self, svg: &mut String, step: u32, words: &str) -> std::fmt::Result {
        if step < self.start() || step >= self.end() {
            return Ok(());
        }
        let (x, top) = (self.x(f64::from(step)), HEAD - 6.0);
        writeln!(
            svg,
            r##"<line x1="{x:.1}" x2="{x:.1}" y1="{top}" y2="{:.1}" stroke="#b3261e" stroke-width="2"/>
<text x="{:.1}" y="{:.1}" fill="#b3261e" font-size="12">{}</text>"##,
            self.strip_top(self.strips.len()) - BETWEEN,
            x + 5.0,
            top + 2.0,
            escaped(words)
        )
    }
}

/// Steps of a strip from `from` up to, but not, `until`.
fn wet(strip: &Strip, from: u32, until: u32) -> u32 {
    let first = strip.stretches.partition_point(|&(_, last)| last < from);
    let met = strip.stretches[first..].iter().take_while(|stretch| stretch.0 < until);
    met.map(|&(first, last)| (last + 1).min(until) - first.max(from)).sum()
}

/// Days between ticks, so that there are at most sixteen.
fn unit_for(count: u32) -> u32 {
    let mut power = 1;
    loop {
        for unit in [1, 2, 5] {
            if count <= 16 * unit * power {
                return unit * power;
            }
        }
        power *= 10;
    }
}

fn escaped(words: &str) -> String {
    words.replace('&', "&amp;").replace('<', "&lt;").replace('>', "&gt;")
}

#[cfg(test)]
mod tests {
    use super::*;

    fn strip(stretches: &[(u32, u32)]) -> Strip {
        Strip { name: "a<b".into(), stretches: stretches.to_vec(), marked: true }
    }

    #[test]
    fn days_are_those_that_have_a_step() {
        assert_eq!(days_of(&[strip(&[])]), (1, 1));
        assert_eq!(days_of(&[strip(&[(240, 250)]), strip(&[(500, 500)])]), (2, 3));
    }

    #[test]
    fn wet_steps_are_counted_within_bounds() {
        let strip = strip(&[(0, 9), (20, 29), (40, 49)]);
        assert_eq!(wet(&strip, 5, 45), 5 + 10 + 5);
        assert_eq!(wet(&strip, 10, 20), 0);
        assert_eq!(wet(&strip, 0, 1000), 30);
    }

    #[test]
    fn ticks_are_few() {
        for count in [1, 16, 17, 60, 365, huttaralu::LARGEST_STEP / STEPS_IN_A_DAY + 1] {
            assert!(count / unit_for(count) <= 16);
        }
    }

    #[test]
    fn names_are_escaped_and_each_stretch_is_drawn() {
        let strips = [strip(&[(10, 20), (30, 30)])];
        let svg = Picture { title: "t", days: (1, 1), strips: &strips, moment: None, wave: None }.svg();
        assert!(svg.contains("a&lt;b") && !svg.contains("a<b"));
        assert_eq!(svg.matches('Z').count(), 2);
    }
}
