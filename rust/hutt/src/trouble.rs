//! What can go wrong, in words and as an exit status.

use std::fmt::Display;
use std::process::ExitCode;

/// Something was refused by the rules, or the tool was not used as it can be.
#[derive(Debug)]
pub enum Trouble {
    /// Exit status 1.
    Refused(String),
    /// Exit status 2.
    Misused(String),
    /// Whoever read the output has closed it, which is no fault.
    Closed,
}

impl Trouble {
    /// A refusal of something that has a name.
    pub fn refused(name: String, refusal: impl Display) -> Trouble {
        Trouble::Refused(format!("{name}: {refusal}"))
    }

    /// Misuse, in words.
    pub fn misused(words: String) -> Trouble {
        Trouble::Misused(words)
    }

    /// Says it on standard error.
    pub fn tell(self) -> ExitCode {
        match self {
            Trouble::Refused(words) => {
                eprintln!("hutt: {words}");
                ExitCode::from(1)
            }
            Trouble::Misused(words) => {
                eprintln!("hutt: {words}");
                ExitCode::from(2)
            }
            Trouble::Closed => ExitCode::SUCCESS,
        }
    }
}
