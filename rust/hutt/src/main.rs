//! `hutt`: Huttaralu on the command line. Images and text come from files or pipes and go to files or pipes.
//!
//! A refusal is said in words on standard error and gives exit status 1; misuse, which includes a file that
//! cannot be read, gives 2.

#![forbid(unsafe_code)]

mod demo;
mod files;
mod picture;
mod text;
mod trouble;

use std::path::PathBuf;
use std::process::ExitCode;

use clap::{Parser, Subcommand, ValueEnum};
use huttaralu::{Image, ImageBuf, Kind, Reason, Refusal, Side};

use files::{name_of, read_bytes, read_text, say, write_bytes, write_image};
use text::{moment, stretches, Moment};
use trouble::Trouble;

const NOTES: &str = "\
FILE may be - for a pipe. A BOUND is a step (33141), or a day and time (139/02:06).
A refusal is said in words and gives exit status 1; misuse gives 2.";

const TEXT_NOTES: &str = "\
The text has steps (100) and stretches (100-140), apart by spaces, commas or lines. # starts a remark.";

/// Keeps rising lists of six-minute steps as small images, and asks them questions
#[derive(Parser)]
#[command(name = "hutt", version, max_term_width = 100, after_help = NOTES)]
struct Arguments {
    #[command(subcommand)]
    command: Command,
}

#[derive(Subcommand)]
enum Command {
    /// Write the shortest image of a list of steps
    #[command(after_help = TEXT_NOTES)]
    Write {
        /// Text to read
        #[arg(value_name = "FILE", default_value = "-")]
        text: PathBuf,
        #[command(flatten)]
        output: Output,
    },
    /// Say whether an image is accepted, and how large it is
    Check {
        /// Image to check
        #[arg(value_name = "FILE", default_value = "-")]
        image: PathBuf,
    },
    /// Read an image back as text
    Read {
        /// Image to read
        #[arg(value_name = "FILE", default_value = "-")]
        image: PathBuf,
        /// How to say the steps
        #[arg(long = "as", value_enum, default_value = "steps", value_name = "FORM")]
        form: Form,
    },
    /// Say the step at a rank; ranks count from 0
    Rank {
        /// Image to ask
        #[arg(value_name = "FILE")]
        image: PathBuf,
        /// Rank of the step
        rank: u32,
        #[command(flatten)]
        clock: WithClock,
    },
    /// Say the first step at or after a bound with its rank, or `nothing`
    First {
        /// Image to ask
        #[arg(value_name = "FILE")]
        image: PathBuf,
        /// Step, or day and time
        #[arg(value_parser = moment)]
        bound: Moment,
        #[command(flatten)]
        clock: WithClock,
    },
    /// Write the image of the steps that both images have
    Both(Pair),
    /// Write the image of the steps that one of two images has, or both
    Either(Pair),
    /// Write the image of the steps that the first image has and the second has not
    Without(Pair),
    /// List the blocks of an image: number, kind, first step, last step, steps, payload bytes
    Blocks {
        /// Image to list
        #[arg(value_name = "FILE", default_value = "-")]
        image: PathBuf,
    },
    /// Say day, hour and minute of steps
    Clock {
        /// Steps of the year
        #[arg(value_name = "STEP", required = true)]
        steps: Vec<u32>,
    },
    /// Draw the wet stretches of one or more images as an SVG strip
    Plot {
        /// Images to draw, from top to bottom
        #[arg(value_name = "FILE", required = true)]
        images: Vec<PathBuf>,
        #[command(flatten)]
        output: Output,
        /// Days to draw, such as 32-45; all that have a step otherwise
        #[arg(long, value_name = "DAYS", value_parser = text::days)]
        days: Option<(u32, u32)>,
        /// Words above the strips
        #[arg(long, default_value = "Under water")]
        title: String,
    },
    /// Make a year of tides for a few places and answer a pupil's question, with a picture
    Demo {
        /// Folder for the images and the pictures
        #[arg(long, value_name = "DIR", default_value = "tide-demo")]
        into: PathBuf,
        /// Weather and moon of the year
        #[arg(long, default_value_t = 1)]
        seed: u64,
        /// The moment at which the pupil asks
        #[arg(long, value_name = "MOMENT", value_parser = moment, default_value = "171/10:30")]
        at: Moment,
    },
}

#[derive(clap::Args)]
struct Output {
    /// File to write; standard output otherwise
    #[arg(short = 'o', long = "output", value_name = "FILE", default_value = "-", hide_default_value = true)]
    file: PathBuf,
}

#[derive(clap::Args)]
struct WithClock {
    /// Also say day, hour and minute
    #[arg(short, long)]
    clock: bool,
}

#[derive(clap::Args)]
struct Pair {
    /// First image
    #[arg(value_name = "FIRST")]
    first: PathBuf,
    /// Second image
    #[arg(value_name = "SECOND")]
    second: PathBuf,
    #[command(flatten)]
    output: Output,
}

#[derive(Clone, Copy, ValueEnum)]
enum Form {
    /// One step a line
    Steps,
    /// One stretch of neighbouring steps a line, such as 100-140
    Stretches,
    /// Stretches by day, hour and minute
    Clock,
}

fn main() -> ExitCode {
    match run(Arguments::parse().command) {
        Ok(()) => ExitCode::SUCCESS,
        Err(trouble) => trouble.tell(),
    }
}

fn run(command: Command) -> Result<(), Trouble> {
    match command {
        Command::Write { text, output } => write(&text, &output),
        Command::Check { image } => {
            let checked = load(&image)?;
            let bytes = checked.bytes().len();
            let blocks = checked.blocks().len();
            say(|out| writeln!(out, "accepted: steps {} blocks {blocks} bytes {bytes}", checked.len()))
        }
        Command::Read { image, form } => read(&load(&image)?, form),
        Command::Rank { image, rank, clock } => {
            let bytes = read_bytes(&image)?;
            let checked = accepted(&image, &bytes)?;
            let step = checked.rank(rank).map_err(|refusal| refused(&image, refusal))?;
            say(|out| writeln!(out, "{step}{}", spoken(step, &clock)))
        }
        Command::First { image, bound, clock } => {
            let found = load(&image)?.first_at(bound.0);
            say(|out| match found {
                Some(found) => writeln!(out, "{} {}{}", found.step, found.rank, spoken(found.step, &clock)),
                None => writeln!(out, "nothing"),
            })
        }
        Command::Both(pair) => pair.write(|first, second| huttaralu::both(first, second)),
        Command::Either(pair) => pair.write(|first, second| huttaralu::either(first, second)),
        Command::Without(pair) => pair.write(|first, second| huttaralu::without(first, second)),
        Command::Blocks { image } => blocks(&load(&image)?),
        Command::Clock { steps } => {
            for step in steps {
                let clock = huttaralu::clock_of(step)
                    .map_err(|refusal| Trouble::refused(format!("step {step}"), refusal))?;
                say(|out| writeln!(out, "{clock}"))?;
            }
            Ok(())
        }
        Command::Plot { images, output, days, title } => plot(&images, &output, days, &title),
        Command::Demo { into, seed, at } => demo::run(&into, seed, at),
    }
}

fn refused(file: &std::path::Path, refusal: Refusal) -> Trouble {
    Trouble::refused(name_of(file), refusal)
}

fn accepted<'a>(file: &std::path::Path, bytes: &'a [u8]) -> Result<Image<'a>, Trouble> {
    Image::check(bytes).map_err(|refusal| refused(file, refusal))
}

fn load(file: &std::path::Path) -> Result<ImageBuf, Trouble> {
    ImageBuf::check(read_bytes(file)?).map_err(|refusal| refused(file, refusal))
}

fn write(text: &std::path::Path, output: &Output) -> Result<(), Trouble> {
    let words = read_text(text)?;
    let list =
        text::steps(&words).map_err(|mistake| Trouble::misused(format!("{}: {mistake}", name_of(text))))?;
    let steps: Vec<u32> = list.iter().map(|listed| listed.step).collect();
    let image = huttaralu::write(&steps).map_err(|refusal| {
        let line = matches!(refusal.reason(), Reason::NotIncreasing | Reason::StepTooLarge)
            .then(|| list[refusal.place() as usize].line);
        let name = name_of(text);
        Trouble::refused(line.map_or(name.clone(), |line| format!("{name}, line {line}")), refusal)
    })?;
    write_image(&output.file, image.bytes())
}

fn read(image: &ImageBuf, form: Form) -> Result<(), Trouble> {
    say(|out| match form {
        Form::Steps => image.iter().try_for_each(|step| writeln!(out, "{step}")),
        Form::Stretches => stretches(image.iter()).try_for_each(|(first, last)| match last - first {
            0 => writeln!(out, "{first}"),
            _ => writeln!(out, "{first}-{last}"),
        }),
        Form::Clock => stretches(image.iter()).try_for_each(|(first, last)| {
            writeln!(out, "{} until {}", text::when(first), text::when(last + 1))
        }),
    })
}

fn spoken(step: u32, clock: &WithClock) -> String {
    if clock.clock {
        format!(" ({})", text::when(step))
    } else {
        String::new()
    }
}

impl Pair {
    fn write(&self, operation: impl Fn(&[u8], &[u8]) -> Result<ImageBuf, Refusal>) -> Result<(), Trouble> {
        if files::is_pipe(&self.first) && files::is_pipe(&self.second) {
            return Err(Trouble::misused("one image can come from the pipe, not both".into()));
        }
        let (first, second) = (read_bytes(&self.first)?, read_bytes(&self.second)?);
        let result = operation(&first, &second).map_err(|refusal| {
            let name = match refusal.side() {
                Some(Side::First) => name_of(&self.first),
                Some(Side::Second) => name_of(&self.second),
                None => "the result".into(),
            };
            Trouble::refused(name, refusal)
        })?;
        write_image(&self.output.file, result.bytes())
    }
}

/// The lines of document 01's block lister.
fn blocks(image: &ImageBuf) -> Result<(), Trouble> {
    let (blocks, list) = (image.blocks(), image.steps());
    say(|out| {
        writeln!(out, "blocks {} steps {} bytes {}", blocks.len(), image.len(), image.bytes().len())?;
        for (number, block) in blocks.clone().enumerate() {
            let kind = match block.kind() {
                Kind::Codes => "vbyte",
                Kind::Row => "bits",
            };
            let (first, last, steps) = (list[block.ranks().start], block.last(), block.len());
            writeln!(out, "{number} {kind} {first} {last} {steps} {}", block.payload().len())?;
        }
        Ok(())
    })
}

fn plot(files: &[PathBuf], output: &Output, days: Option<(u32, u32)>, title: &str) -> Result<(), Trouble> {
    let images = files.iter().map(|file| load(file)).collect::<Result<Vec<_>, _>>()?;
    let strips: Vec<picture::Strip> = files
        .iter()
        .zip(&images)
        .map(|(file, image)| picture::Strip {
            name: file.file_stem().map_or("-".into(), |stem| stem.to_string_lossy().into_owned()),
            stretches: stretches(image.iter()).collect(),
            marked: false,
        })
        .collect();
    let days = days.unwrap_or_else(|| picture::days_of(&strips));
    let drawn = picture::Picture { title, days, strips: &strips, moment: None, wave: None }.svg();
    write_bytes(&output.file, drawn.as_bytes())
}
