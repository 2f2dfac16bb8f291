//! What is refused, why and where.

use core::fmt;

use crate::ffi;

/// Makes [`Reason`] from the rows of the table, in the order of their numbers. A row has its name, its number
/// and its words here and nowhere else.
macro_rules! reasons {
    ($(#[$about:meta])* $($name:ident = $number:literal: $words:literal,)+) => {
        $(#[$about])*
        #[derive(Clone, Copy, Debug, PartialEq, Eq, PartialOrd, Ord, Hash)]
        #[non_exhaustive]
        #[repr(u32)]
        pub enum Reason {
            $(#[doc = concat!($number, ": ", $words, ".")] $name = $number,)+
        }

        impl Reason {
            /// All reasons, in the order of their numbers, which start at 1.
            pub const ALL: &'static [Reason] = &[$(Reason::$name),+];

            /// The words of the table.
            ///
            /// ```
            /// use huttaralu::Reason;
            /// assert_eq!(Reason::RankTooLarge.words(), "rank not below n");
            /// ```
            pub const fn words(self) -> &'static str {
                match self {
                    $(Reason::$name => $words,)+
                }
            }
        }
    };
}

reasons! {
    /// Why something is refused: the rows of the rules' table, by number.
    ///
    /// The table can grow, so a `match` needs an arm for reasons to come:
    ///
    /// ```
    /// use huttaralu::{write, Reason};
    ///
    /// let said = match write(&[5, 5]).unwrap_err().reason() {
    ///     Reason::NotIncreasing => "in the wrong order",
    ///     Reason::StepTooLarge => "too far in the future",
    ///     _ => "refused for another reason",
    /// };
    /// assert_eq!(said, "in the wrong order");
    /// ```

    TooFewBytes = 1: "fewer bytes than the counts say, or too few to read them",
    BytesLeftOver = 2: "bytes after the payload",
    UnknownKind = 3: "kind above 1",
    BadLast = 4: "last above the largest step or not above \"before\"",
    BadUpto = 5: "upto not above the earlier one (0 at first), or more steps than a list may have",
    BadEnd = 6: "end not above the earlier one (0 at first), or above p; \
                 after all entries: final end (0 if m = 0) not p",
    BadCode = 7: "a code starts with 80 hex, or its fourth byte has the high bit, or the block ends inside it",
    WrongCount = 8: "number of steps in the block isn't upto less the earlier upto",
    WrongLast = 9: "the block's last step isn't the stated one",
    BadRow = 10: "row of the wrong length, or a 1 past the span",
    NotIncreasing = 11: "list not strictly increasing",
    StepTooLarge = 12: "a step above the largest step",
    TooManySteps = 13: "more steps in a list or result than a list may have",
    WorkTooShort = 14: "work area too short",
    OutputTooShort = 15: "output shorter than the image",
    StepsTooShort = 16: "step buffer too short",
    RankTooLarge = 17: "rank not below n",
    NotInTheYear = 18: "step after the year given to the clock",
    NoSuchCursor = 19: "cursor isn't the one its rank has in this image",
}

impl Reason {
    /// The number in the table.
    ///
    /// ```
    /// use huttaralu::Reason;
    /// assert_eq!(Reason::RankTooLarge.number(), 17);
    /// ```
    pub const fn number(self) -> u32 {
        self as u32
    }
}

/// A `match` that names every reason, and has no arm for others, is not compiled.
///
/// ```compile_fail,E0004
/// use huttaralu::Reason;
///
/// fn is_of_the_buffers(reason: Reason) -> bool {
///     match reason {
///         Reason::WorkTooShort | Reason::OutputTooShort | Reason::StepsTooShort => true,
///         Reason::TooFewBytes | Reason::BytesLeftOver | Reason::UnknownKind | Reason::BadLast => false,
///         Reason::BadUpto | Reason::BadEnd | Reason::BadCode | Reason::WrongCount => false,
///         Reason::WrongLast | Reason::BadRow | Reason::NotIncreasing | Reason::StepTooLarge => false,
///         Reason::TooManySteps | Reason::RankTooLarge | Reason::NotInTheYear => false,
///         Reason::NoSuchCursor => false,
///     }
/// }
/// ```
#[cfg(doctest)]
struct MatchesGrow;

/// Which of the two images of a pair.
#[derive(Clone, Copy, Debug, PartialEq, Eq, PartialOrd, Ord, Hash)]
#[repr(u32)]
pub enum Side {
    /// The first image.
    First = 1,
    /// The second image.
    Second = 2,
}

/// A refusal: why, in which image of a pair, and where.
///
/// It displays the table's words with the number and what stands at the place.
///
/// ```
/// let refusal = huttaralu::write(&[5, 5]).unwrap_err();
/// assert_eq!((refusal.number(), refusal.place()), (11, 1));
/// assert_eq!(refusal.to_string(), "refusal 11 (index 1): list not strictly increasing");
/// ```
#[derive(Clone, Copy, Debug, PartialEq, Eq, Hash)]
pub struct Refusal {
    reason: Reason,
    side: Option<Side>,
    place: u32,
}

impl Refusal {
    /// Which row of the table.
    ///
    /// ```
    /// use huttaralu::{clock_of, Reason, STEPS_IN_A_YEAR};
    /// assert_eq!(clock_of(STEPS_IN_A_YEAR).unwrap_err().reason(), Reason::NotInTheYear);
    /// ```
    pub const fn reason(self) -> Reason {
        self.reason
    }

    /// The number in the table.
    ///
    /// ```
    /// use huttaralu::{clock_of, STEPS_IN_A_YEAR};
    /// assert_eq!(clock_of(STEPS_IN_A_YEAR).unwrap_err().number(), 18);
    /// ```
    pub const fn number(self) -> u32 {
        self.reason.number()
    }

    /// Which image of a pair is refused, if it is one of them.
    ///
    /// ```
    /// use huttaralu::{both, Side};
    /// assert_eq!(both([0; 8], [0; 7]).unwrap_err().side(), Some(Side::Second));
    /// ```
    pub const fn side(self) -> Option<Side> {
        self.side
    }

    /// The place: an entry, a block, an index, what is needed, or n, as the table says for each number.
    ///
    /// ```
    /// assert_eq!(huttaralu::write(&[1, 2, 2]).unwrap_err().place(), 2);
    /// ```
    pub const fn place(self) -> u32 {
        self.place
    }

    /// What the library says, if it refuses.
    pub(crate) fn told(told: ffi::Refusal) -> Result<(), Refusal> {
        if told.number == 0 {
            return Ok(());
        }
        let reason = Reason::ALL
            .iter()
            .copied()
            .find(|reason| reason.number() == told.number)
            .expect("the library refuses by the numbers of the table");
        let side = match told.side {
            0 => None,
            1 => Some(Side::First),
            _ => Some(Side::Second),
        };
        Err(Refusal { reason, side, place: told.place })
    }
}

impl fmt::Display for Refusal {
    fn fmt(&self, f: &mut fmt::Formatter<'_>) -> fmt::Result {
        let place = self.place;
        write!(f, "refusal {} (", self.number())?;
        match self.reason {
            Reason::UnknownKind | Reason::BadLast | Reason::BadUpto | Reason::BadEnd => {
                write!(f, "entry {place}")
            }
            Reason::BadCode | Reason::WrongCount | Reason::WrongLast | Reason::BadRow => {
                write!(f, "block {place}")
            }
            Reason::NotIncreasing | Reason::StepTooLarge => write!(f, "index {place}"),
            Reason::WorkTooShort => write!(f, "{place} numbers needed"),
            Reason::OutputTooShort => write!(f, "{place} bytes needed"),
            Reason::StepsTooShort => write!(f, "{place} steps needed"),
            Reason::RankTooLarge => write!(f, "n is {place}"),
            Reason::TooFewBytes
            | Reason::BytesLeftOver
            | Reason::TooManySteps
            | Reason::NotInTheYear
            | Reason::NoSuchCursor => write!(f, "place {place}"),
        }?;
        match self.side {
            None => {}
            Some(Side::First) => f.write_str(" of the first image")?,
            Some(Side::Second) => f.write_str(" of the second image")?,
        }
        write!(f, "): {}", self.reason.words())
    }
}

impl core::error::Error for Refusal {}
