//! The blocks of a checked image, as its directory tells them.
//!
//! These are numbers of fixed width, read from bytes that the library has accepted. The steps themselves are read by
//! the library alone.

use core::iter::FusedIterator;
use core::ops::Range;

use limits::{ENTRY_SIZE, NUMBER_SIZE};

use crate::Image;

/// How a block keeps its steps.
#[derive(Clone, Copy, Debug, PartialEq, Eq, Hash)]
pub enum Kind {
    /// For each step the code of its gap.
    Codes,
    /// One bit for each step of the span.
    Row,
}

/// A block: a run of steps that are kept in one way.
///
/// ```
/// use huttaralu::{write, Kind};
///
/// let image = write(&[1, 2, 3, 4, 5])?;
/// let block = image.as_image().blocks().next().unwrap();
/// assert_eq!(block.kind(), Kind::Row);
/// assert_eq!((block.last(), block.len()), (5, 5));
/// assert_eq!(block.payload(), [0x3e]);
/// assert_eq!(image.steps()[block.ranks()], [1, 2, 3, 4, 5]);
/// # Ok::<(), huttaralu::Refusal>(())
/// ```
#[derive(Clone, Copy, Debug, PartialEq, Eq, Hash)]
pub struct Block<'a> {
    kind: Kind,
    last: u32,
    /// The number of steps in all earlier blocks, and in this one too.
    from: u32,
    upto: u32,
    payload: &'a [u8],
}

impl<'a> Block<'a> {
    /// How the block keeps its steps.
    ///
    /// ```
    /// let image = huttaralu::write(&[1, 2, 3, 4, 5])?;
    /// assert_eq!(image.blocks().next().unwrap().kind(), huttaralu::Kind::Row);
    /// # Ok::<(), huttaralu::Refusal>(())
    /// ```
    pub const fn kind(self) -> Kind {
        self.kind
    }

    /// The ranks of its steps in the image.
    ///
    /// ```
    /// let list: Vec<u32> = (0..16).chain([100_000]).collect();
    /// let ranks: Vec<_> = huttaralu::write(&list)?.blocks().map(|block| block.ranks()).collect();
    /// assert_eq!(ranks, [0..16, 16..17]);
    /// # Ok::<(), huttaralu::Refusal>(())
    /// ```
    pub const fn ranks(self) -> Range<usize> {
        self.from as usize..self.upto as usize
    }

    /// The last step.
    ///
    /// ```
    /// let image = huttaralu::write(&[1, 2, 3, 4, 5])?;
    /// assert_eq!(image.blocks().next().unwrap().last(), 5);
    /// # Ok::<(), huttaralu::Refusal>(())
    /// ```
    pub const fn last(self) -> u32 {
        self.last
    }

    /// The number of steps, which is at least 1.
    ///
    /// ```
    /// let image = huttaralu::write(&[1, 2, 3, 4, 5])?;
    /// assert_eq!(image.blocks().next().unwrap().len(), 5);
    /// # Ok::<(), huttaralu::Refusal>(())
    /// ```
    #[allow(clippy::len_without_is_empty)] // no block is empty
    pub const fn len(self) -> usize {
        (self.upto - self.from) as usize
    }

    /// The block's own part of the payload.
    ///
    /// ```
    /// let image = huttaralu::write(&[1, 2, 3, 4, 5])?;
    /// assert_eq!(image.blocks().next().unwrap().payload(), [0x3e]);
    /// # Ok::<(), huttaralu::Refusal>(())
    /// ```
    pub const fn payload(self) -> &'a [u8] {
        self.payload
    }
}

/// The blocks of an image in turn: what [`Image::blocks`] gives.
#[derive(Clone, Debug)]
pub struct Blocks<'a> {
    entries: &'a [u8],
    payload: &'a [u8],
    upto: u32,
    end: usize,
}

impl<'a> Blocks<'a> {
    pub(crate) fn of(image: Image<'a>) -> Self {
        let (count, rest) = image.bytes().split_at(NUMBER_SIZE);
        let (entries, rest) = rest.split_at(number(count) as usize * ENTRY_SIZE);
        Blocks { entries, payload: &rest[NUMBER_SIZE..], upto: 0, end: 0 }
    }
}

impl<'a> Iterator for Blocks<'a> {
    type Item = Block<'a>;

    fn next(&mut self) -> Option<Block<'a>> {
        if self.entries.is_empty() {
            return None;
        }
        let (entry, rest) = self.entries.split_at(ENTRY_SIZE);
        let (last, upto, end) = (number(&entry[1..]), number(&entry[5..]), number(&entry[9..]) as usize);
        let block = Block {
            kind: if entry[0] == 0 { Kind::Codes } else { Kind::Row },
            last,
            from: self.upto,
            upto,
            payload: &self.payload[self.end..end],
        };
        *self = Blocks { entries: rest, payload: self.payload, upto, end };
        Some(block)
    }

    fn size_hint(&self) -> (usize, Option<usize>) {
        let blocks = self.entries.len() / ENTRY_SIZE;
        (blocks, Some(blocks))
    }
}

impl ExactSizeIterator for Blocks<'_> {}
impl FusedIterator for Blocks<'_> {}

/// The fixed-width number at the front of the bytes: four of them, lowest first.
fn number(bytes: &[u8]) -> u32 {
    u32::from_le_bytes([bytes[0], bytes[1], bytes[2], bytes[3]])
}
