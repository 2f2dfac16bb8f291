//! Times everything in one run and prints the tables of `docs/BENCHMARKS.md`.
//!
//!     cargo run --release -p bench --features croaring --bin table [-- docs/BENCHMARKS.md]
//!
//! With a file, the part between its two marks is replaced by the tables, and the plots go into the folder
//! `benchmarks` beside it. `ROUNDS` in the environment is the number of samples a case, of which the best
//! counts.

mod plots;

use std::collections::BTreeMap;
use std::error::Error;
use std::fmt::Write;
use std::path::{Path, PathBuf};

use bench::{best_of, cases, of_length, sets, Contender, Operation, Set, Sizes};

const BEGIN: &str = "<!-- figures: begin -->";
const END: &str = "<!-- figures: end -->";
const LENGTHS: [usize; 4] = [1_000, 10_000, 100_000, 1_000_000];

/// One operation on one set: steps of the input, and nanoseconds for each of them by contender.
struct Times {
    steps: usize,
    by: BTreeMap<&'static str, f64>,
}

impl Times {
    fn of(&self, contender: Contender) -> Option<f64> {
        self.by.get(contender.name()).copied()
    }

    fn ratio(&self, one: Contender, other: Contender) -> Option<f64> {
        Some(self.of(one)? / self.of(other)?)
    }

    /// Whether every time is one that a call can take.
    fn make_sense(&self) -> bool {
        self.by.values().all(|time| time.is_finite() && *time > 0.0)
    }
}

fn main() -> Result<(), Box<dyn Error>> {
    let rounds = std::env::var("ROUNDS").ok().and_then(|word| word.parse().ok()).unwrap_or(15);
    let document = std::env::args().nth(1).map(PathBuf::from);
    let figures = Figures::measure(rounds);
    let tables = figures.tables()?;
    let Some(document) = document else {
        print!("{tables}");
        return Ok(());
    };
    let text = std::fs::read_to_string(&document)?;
    let (Some(begin), Some(end)) = (text.find(BEGIN), text.find(END)) else {
        return Err(format!("{} has no marks for the figures", document.display()).into());
    };
    let renewed = format!("{}{BEGIN}\n\n{tables}\n{}", &text[..begin], &text[end..]);
    std::fs::write(&document, renewed)?;
    let folder = document.with_file_name("benchmarks");
    std::fs::create_dir_all(&folder)?;
    figures.plots(&folder)
}

struct Figures {
    rounds: usize,
    sets: Vec<Set>,
    /// By operation and set.
    times: Vec<Vec<Times>>,
    sizes: Vec<Sizes>,
    /// By operation and length.
    growth: Vec<Vec<Times>>,
}

fn timed(operation: Operation, set: &Set, rounds: usize) -> Times {
    let mut cases = cases(operation, set);
    let best = best_of(rounds, &mut cases);
    let steps = cases[0].steps;
    let by =
        cases.iter().zip(best).map(|(case, best)| (case.contender.name(), best / steps as f64)).collect();
    let times = Times { steps, by };
    assert!(times.make_sense(), "{} of {}: {:?}", operation.name(), set.name, times.by);
    times
}

impl Figures {
    fn measure(rounds: usize) -> Figures {
        let sets = sets();
        let lengths = LENGTHS.map(of_length);
        let all = |sets: &[Set]| {
            Operation::ALL
                .iter()
                .map(|&operation| {
                    eprintln!("timing {}", operation.name());
                    sets.iter().map(|set| timed(operation, set, rounds)).collect()
                })
                .collect::<Vec<Vec<Times>>>()
        };
        let times = all(&sets);
        let growth = all(&lengths);
        let sizes = sets.iter().map(|set| Sizes::of(&set.first)).collect();
        Figures { rounds, sets, times, sizes, growth }
    }

    fn tables(&self) -> Result<String, Box<dyn Error>> {
        let mut text = String::new();
        self.put_machine(&mut text)?;
        self.put_ratios(&mut text)?;
        self.put_times(&mut text)?;
        self.put_sizes(&mut text)?;
        self.put_growth(&mut text)?;
        Ok(text)
    }

    fn put_machine(&self, text: &mut String) -> Result<(), Box<dyn Error>> {
        let cores = std::thread::available_parallelism()?;
        writeln!(
            text,
            "One run on {} with {cores} cores, best of {} samples a case.",
            std::env::consts::ARCH,
            self.rounds
        )?;
        Ok(())
    }

    /// Library against native, over all sets.
    fn put_ratios(&self, text: &mut String) -> Result<(), Box<dyn Error>> {
        writeln!(text, "\n### Library against native\n")?;
        writeln!(text, "Time of the library by time of native; 1.00 is equal, less is faster.\n")?;
        writeln!(text, "| Operation | Least | Middle | Most | Most, at |\n|---|--:|--:|--:|---|")?;
        for (operation, times) in Operation::ALL.iter().zip(&self.times) {
            let mut ratios: Vec<(f64, &str)> = times
                .iter()
                .zip(&self.sets)
                .filter_map(|(times, set)| {
                    Some((times.ratio(Contender::Library, Contender::Native)?, set.name.as_str()))
                })
                .collect();
            ratios.sort_by(|left, right| left.0.total_cmp(&right.0));
            let (least, middle, most) = (ratios[0], ratios[ratios.len() / 2], ratios[ratios.len() - 1]);
            writeln!(
                text,
                "| {} | {:.2} | {:.2} | {:.2} | {} |",
                operation.name(),
                least.0,
                middle.0,
                most.0,
                most.1
            )?;
        }
        Ok(())
    }

    fn put_times(&self, text: &mut String) -> Result<(), Box<dyn Error>> {
        writeln!(text, "\n### Nanoseconds a step")?;
        for (operation, times) in Operation::ALL.iter().zip(&self.times) {
            writeln!(text, "\n**{}**\n", operation.name())?;
            let has_croaring = times[0].of(Contender::CRoaring).is_some();
            let croaring = if has_croaring { " CRoaring | ÷ CRoaring |" } else { "" };
            writeln!(text, "| Set | Steps | Library | Native | ÷ native |{croaring} Floor | ÷ floor |")?;
            writeln!(text, "|---|--:|--:|--:|--:|{}--:|--:|", if has_croaring { "--:|--:|" } else { "" })?;
            for (times, set) in times.iter().zip(&self.sets) {
                write!(text, "| {} | {} |", set.name, grouped(times.steps))?;
                write!(text, " {} |", nanoseconds(times.of(Contender::Library)))?;
                let others = [Contender::Native, Contender::CRoaring, Contender::Floor];
                for other in others.into_iter().filter(|&other| times.of(other).is_some()) {
                    let ratio = times.ratio(Contender::Library, other);
                    let ratio = ratio.map_or("–".into(), |ratio| format!("{ratio:.2}"));
                    write!(text, " {} | {ratio} |", nanoseconds(times.of(other)))?;
                }
                writeln!(text)?;
            }
        }
        Ok(())
    }

    fn put_sizes(&self, text: &mut String) -> Result<(), Box<dyn Error>> {
        writeln!(text, "\n### Bits a step\n")?;
        writeln!(text, "| Set | Steps | Image | CRoaring | Plain codes | One row | Blocks of 128 |")?;
        writeln!(text, "|---|--:|--:|--:|--:|--:|--:|")?;
        for (set, sizes) in self.sets.iter().zip(&self.sizes) {
            let steps = set.first.len();
            let bits = |bytes: usize| format!("{:.2}", 8.0 * bytes as f64 / steps as f64);
            writeln!(
                text,
                "| {} | {} | {} | {} | {} | {} | {} |",
                set.name,
                grouped(steps),
                bits(sizes.image),
                sizes.croaring.map_or("–".into(), bits),
                bits(sizes.codes),
                bits(sizes.row),
                bits(sizes.blocks_of_128)
            )?;
        }
        Ok(())
    }

    fn put_growth(&self, text: &mut String) -> Result<(), Box<dyn Error>> {
        writeln!(text, "\n### Growth\n")?;
        writeln!(text, "Nanoseconds a step by library / native / floor, for mixed lists.\n")?;
        write!(text, "| Operation |")?;
        for length in LENGTHS {
            write!(text, " {} steps |", grouped(length))?;
        }
        writeln!(text, "\n|---|--:|--:|--:|--:|")?;
        for (operation, times) in Operation::ALL.iter().zip(&self.growth) {
            write!(text, "| {} |", operation.name())?;
            for times in times {
                let [library, native, floor] = [Contender::Library, Contender::Native, Contender::Floor]
                    .map(|contender| nanoseconds(times.of(contender)));
                write!(text, " {library} / {native} / {floor} |")?;
            }
            writeln!(text)?;
        }
        Ok(())
    }

    fn plots(&self, folder: &Path) -> Result<(), Box<dyn Error>> {
        let operations: Vec<String> =
            Operation::ALL.iter().map(|operation| operation.name().into()).collect();
        let names: Vec<String> = self.sets.iter().map(|set| set.name.clone()).collect();
        let ratios: Vec<plots::Series> = self
            .sets
            .iter()
            .enumerate()
            .map(|(index, set)| plots::Series {
                name: set.name.clone(),
                values: self
                    .times
                    .iter()
                    .map(|times| times[index].ratio(Contender::Library, Contender::Native))
                    .collect(),
            })
            .collect();
        plots::bars(
            &folder.join("ratios.svg"),
            "Time of the library by time of native",
            "ratio; less is faster",
            &operations,
            &ratios,
            Some(1.0),
        )?;
        let ways: [(&str, Size); 5] = [
            ("image", |sizes| Some(sizes.image)),
            ("CRoaring", |sizes| sizes.croaring),
            ("plain codes", |sizes| Some(sizes.codes)),
            ("one row", |sizes| Some(sizes.row)),
            ("blocks of 128", |sizes| Some(sizes.blocks_of_128)),
        ];
        let sizes: Vec<plots::Series> = ways
            .iter()
            .map(|(name, size)| plots::Series {
                name: (*name).into(),
                values: self
                    .sets
                    .iter()
                    .zip(&self.sizes)
                    .map(|(set, sizes)| size(sizes).map(|bytes| 8.0 * bytes as f64 / set.first.len() as f64))
                    .collect(),
            })
            .collect();
        plots::bars(&folder.join("sizes.svg"), "Size of a list", "bits a step", &names, &sizes, None)?;
        let growth: Vec<plots::Series> = Operation::ALL
            .iter()
            .zip(&self.growth)
            .map(|(operation, times)| plots::Series {
                name: operation.name().into(),
                values: times.iter().map(|times| times.of(Contender::Library)).collect(),
            })
            .collect();
        plots::lines(
            &folder.join("growth.svg"),
            "Time of the library as lists grow: level is linear",
            "ns a step",
            &LENGTHS,
            &growth,
        )
    }
}

/// One of the ways to store a list.
type Size = fn(&Sizes) -> Option<usize>;

fn nanoseconds(time: Option<f64>) -> String {
    match time {
        None => "–".into(),
        Some(time) if time < 0.1 => format!("{time:.4}"),
        Some(time) => format!("{time:.2}"),
    }
}

/// A number with commas.
fn grouped(number: usize) -> String {
    let digits = number.to_string();
    let mut text = String::new();
    for (index, digit) in digits.chars().enumerate() {
        if index > 0 && (digits.len() - index).is_multiple_of(3) {
            text.push(',');
        }
        text.push(digit);
    }
    text
}
