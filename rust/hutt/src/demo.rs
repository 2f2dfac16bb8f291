//! A year of tides for a few places, and the pupil's question: one finger on the causeway and one on the boat
//! slip, when are both under water?

use std::path::Path;

use huttaralu::{both, write, ImageBuf, STEPS_IN_A_DAY, STEPS_IN_A_YEAR};
use tides::{Place, BOAT_SLIP, CAUSEWAY, PLACES};

use crate::files::{say, write_bytes};
use crate::picture::{Picture, Strip, Wave};
use crate::text::{lasting, stretches, when, Moment};
use crate::trouble::Trouble;

/// Crossings that are told.
const TOLD: usize = 6;
/// Days in the picture of the question.
const SHOWN: u32 = 4;
const BYTES_OF_A_PLAIN_STEP: usize = 4;

/// Makes the year, writes images and pictures into a folder, and tells the answer.
pub fn run(folder: &Path, seed: u64, at: Moment) -> Result<(), Trouble> {
    let at = at.0;
    if at >= STEPS_IN_A_YEAR {
        return Err(Trouble::misused(format!("step {at} is not in the year")));
    }
    std::fs::create_dir_all(folder)
        .map_err(|error| Trouble::misused(format!("cannot make {}: {error}", folder.display())))?;
    let store = |name: &str, bytes: &[u8]| write_bytes(&folder.join(name), bytes);
    let refused = |refusal| Trouble::refused("demo".into(), refusal);

    let mut images = Vec::new();
    for place in PLACES {
        let image = write(&place.year(seed)).map_err(refused)?;
        store(&format!("{}.hutt", place.name), image.bytes())?;
        images.push((place, image));
    }
    tell_images(folder, &images)?;

    let image_of =
        |place: Place| &images.iter().find(|(other, _)| *other == place).expect("a place of the demo").1;
    let answer = both(image_of(CAUSEWAY), image_of(BOAT_SLIP)).map_err(refused)?;
    store("both.hutt", answer.bytes())?;
    tell_answer(&answer, at)?;

    let mut strips: Vec<Strip> = images
        .iter()
        .map(|(place, image)| strip(place.name, image, false))
        .chain([strip("both", &answer, true)])
        .collect();
    let year = Picture {
        title: "A year of tides",
        days: (1, STEPS_IN_A_YEAR / STEPS_IN_A_DAY),
        strips: &strips,
        moment: None,
        wave: None,
    };
    store("year.svg", year.svg().as_bytes())?;

    // Only the two places of the question, and what they have in common.
    strips.retain(|strip| [CAUSEWAY.name, BOAT_SLIP.name, "both"].contains(&strip.name.as_str()));
    let first = (at / STEPS_IN_A_DAY + 1).min(STEPS_IN_A_YEAR / STEPS_IN_A_DAY - SHOWN + 1);
    let days = (first, first + SHOWN - 1);
    let heights = CAUSEWAY.heights(seed, days.1 * STEPS_IN_A_DAY);
    let question = Picture {
        title: "When are causeway and boat slip both under water?",
        days,
        strips: &strips,
        moment: Some((at, format!("asked {}", when(at)))),
        wave: Some(Wave {
            name: CAUSEWAY.name,
            heights: &heights[((days.0 - 1) * STEPS_IN_A_DAY) as usize..],
            threshold: CAUSEWAY.threshold,
        }),
    };
    store("question.svg", question.svg().as_bytes())?;
    say(|out| {
        writeln!(out)?;
        writeln!(out, "Pictures: {}", folder.join("question.svg").display())?;
        writeln!(out, "          {}", folder.join("year.svg").display())
    })
}

fn strip(name: &str, image: &ImageBuf, marked: bool) -> Strip {
    Strip { name: name.into(), stretches: stretches(image.iter()).collect(), marked }
}

fn tell_images(folder: &Path, images: &[(Place, ImageBuf)]) -> Result<(), Trouble> {
    say(|out| {
        writeln!(out, "A year of tides, a step every six minutes:")?;
        writeln!(out)?;
        writeln!(
            out,
            "  {:<14}{:>10}{:>8}{:>9}{:>13}{:>14}",
            "place", "wet steps", "wet", "blocks", "image", "plain steps"
        )?;
        for (place, image) in images {
            let share = 100.0 * image.len() as f64 / f64::from(STEPS_IN_A_YEAR);
            let (steps, blocks, bytes) = (image.len(), image.blocks().len(), image.bytes().len());
            let plain = steps * BYTES_OF_A_PLAIN_STEP;
            writeln!(
                out,
                "  {:<14}{steps:>10}{share:>6.1} %{blocks:>9}{bytes:>7} bytes{plain:>8} bytes",
                place.name
            )?;
        }
        writeln!(out)?;
        writeln!(out, "Images: {}", folder.join("*.hutt").display())
    })
}

/// Says whether both are wet now, and the next times at which that changes.
fn tell_answer(answer: &ImageBuf, at: u32) -> Result<(), Trouble> {
    say(|out| {
        writeln!(out)?;
        writeln!(out, "When are causeway and boat slip both under water? Asked {}.", when(at))?;
        let Some(next) = answer.first_at(at) else {
            return writeln!(out, "Not again this year.");
        };
        if next.step == at {
            writeln!(out, "They are now. These are the stretches from here on:")?;
        } else {
            writeln!(out, "Not now: in {}. These are the next stretches:", lasting(next.step - at))?;
        }
        writeln!(out)?;
        let rest = stretches(answer.iter().skip(next.rank as usize));
        for (first, last) in rest.take(TOLD) {
            let (from, until) = (when(first), when(last + 1));
            writeln!(out, "  {from}  until  {until}  ({})", lasting(last + 1 - first))?;
        }
        Ok(())
    })
}
