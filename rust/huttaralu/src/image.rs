//! Bytes that were checked, and what they can be asked.

use core::fmt;

#[cfg(feature = "alloc")]
use crate::Steps;
use crate::{plain, Blocks, Cursor, Found, Refusal};

/// Why an answer about a checked image is never refused by 1 to 10.
const CHECKED: &str = "an image that was checked stays accepted while it is borrowed";

/// An image that was checked: borrowed bytes that read as a list of steps by the rules.
///
/// It is a pair of pointer and number, to be copied freely.
///
/// ```
/// use huttaralu::{write, Found, Image};
///
/// let stored = write(&[100, 101, 102, 240])?.into_bytes();
/// let image = Image::check(&stored)?;
/// assert_eq!(image.len(), 4);
/// assert_eq!(image.rank(3), Ok(240));
/// assert_eq!(image.first_at(103), Some(Found { step: 240, rank: 3 }));
/// assert!(image.iter().eq([100, 101, 102, 240]));
/// # Ok::<(), huttaralu::Refusal>(())
/// ```
#[derive(Clone, Copy, PartialEq, Eq, Hash)]
pub struct Image<'a> {
    bytes: &'a [u8],
    len: usize,
}

impl<'a> Image<'a> {
    /// Checks bytes and, if they are an image, says so by its type.
    ///
    /// Refusals: 1 to 10. Cost: one pass over the bytes.
    ///
    /// ```
    /// use huttaralu::Image;
    ///
    /// assert!(Image::check(&[0; 8])?.is_empty());
    /// assert_eq!(Image::check(&[0; 9]).unwrap_err().to_string(), "refusal 2 (place 0): bytes after the payload");
    /// # Ok::<(), huttaralu::Refusal>(())
    /// ```
    pub fn check(bytes: &'a [u8]) -> Result<Self, Refusal> {
        plain::check(bytes).map(|len| Image { bytes, len })
    }

    /// An image whose number of steps the library has just told.
    #[cfg(feature = "alloc")]
    pub(crate) fn known(bytes: &'a [u8], len: usize) -> Self {
        Image { bytes, len }
    }

    /// The bytes.
    ///
    /// ```
    /// assert_eq!(huttaralu::Image::check(&[0; 8])?.bytes(), [0; 8]);
    /// # Ok::<(), huttaralu::Refusal>(())
    /// ```
    pub const fn bytes(self) -> &'a [u8] {
        self.bytes
    }

    /// The number of steps.
    ///
    /// ```
    /// assert_eq!(huttaralu::write(&[3, 5, 8])?.as_image().len(), 3);
    /// # Ok::<(), huttaralu::Refusal>(())
    /// ```
    pub const fn len(self) -> usize {
        self.len
    }

    /// Whether there is no step.
    ///
    /// ```
    /// assert!(huttaralu::write(&[])?.as_image().is_empty());
    /// # Ok::<(), huttaralu::Refusal>(())
    /// ```
    pub const fn is_empty(self) -> bool {
        self.len == 0
    }

    /// Reads the steps into the front of a lent buffer, and answers that part of it.
    ///
    /// Refusals: 16 if the buffer has fewer than [`len`](Self::len) places; it is then unchanged.
    ///
    /// ```
    /// let image = huttaralu::write(&[3, 5, 8])?;
    /// let mut buffer = [0; 10];
    /// assert_eq!(image.as_image().read_into(&mut buffer)?, [3, 5, 8]);
    /// # Ok::<(), huttaralu::Refusal>(())
    /// ```
    pub fn read_into(self, steps: &mut [u32]) -> Result<&mut [u32], Refusal> {
        plain::read(self.bytes, steps).map(|len| &mut steps[..len])
    }

    /// The steps, read back.
    ///
    /// ```
    /// assert_eq!(huttaralu::write(&[3, 5, 8])?.as_image().steps(), [3, 5, 8]);
    /// # Ok::<(), huttaralu::Refusal>(())
    /// ```
    #[cfg(feature = "alloc")]
    pub fn steps(self) -> alloc::vec::Vec<u32> {
        let mut steps = alloc::vec![0; self.len];
        self.read_into(&mut steps).expect(CHECKED);
        steps
    }

    /// The step at a rank. Ranks count from 0.
    ///
    /// Refusals: 17 for a rank not below [`len`](Self::len), with that number as its place. Cost: one pass
    /// over the image.
    ///
    /// ```
    /// let image = huttaralu::write(&[3, 5, 8])?;
    /// assert_eq!(image.as_image().rank(1), Ok(5));
    /// assert_eq!(image.as_image().rank(3).unwrap_err().to_string(), "refusal 17 (n is 3): rank not below n");
    /// # Ok::<(), huttaralu::Refusal>(())
    /// ```
    pub fn rank(self, rank: u32) -> Result<u32, Refusal> {
        plain::rank(self.bytes, rank)
    }

    /// The first step at or after a bound, with its rank; nothing if every step is below the bound.
    ///
    /// Cost: one pass over the image.
    ///
    /// ```
    /// use huttaralu::{write, Found};
    ///
    /// let image = write(&[3, 5, 8])?;
    /// assert_eq!(image.as_image().first_at(6), Some(Found { step: 8, rank: 2 }));
    /// assert_eq!(image.as_image().first_at(9), None);
    /// # Ok::<(), huttaralu::Refusal>(())
    /// ```
    pub fn first_at(self, bound: u32) -> Option<Found> {
        plain::first_at(self.bytes, bound).expect(CHECKED)
    }

    /// A cursor at rank 0.
    ///
    /// ```
    /// let image = huttaralu::write(&[3, 5, 8])?;
    /// let (step, cursor) = image.as_image().cursor().skip_to(4).next();
    /// assert_eq!((step, cursor.rank()), (Some(5), 2));
    /// # Ok::<(), huttaralu::Refusal>(())
    /// ```
    pub fn cursor(self) -> Cursor<'a> {
        Cursor::known(self, plain::start(self.bytes).expect(CHECKED))
    }

    /// The cursor that a rank has, as when one was stored and is taken up again.
    ///
    /// Refusals: 19 for a rank above [`len`](Self::len).
    ///
    /// ```
    /// let image = huttaralu::write(&[3, 5, 8])?;
    /// assert_eq!(image.as_image().cursor_at(2)?.next().0, Some(8));
    /// assert_eq!(image.as_image().cursor_at(4).unwrap_err().number(), 19);
    /// # Ok::<(), huttaralu::Refusal>(())
    /// ```
    pub fn cursor_at(self, rank: u32) -> Result<Cursor<'a>, Refusal> {
        // No step is below 0, so skipping to 0 moves nothing and refuses what is no cursor of this image.
        plain::skip(plain::Cursor { rank }, self.bytes, 0).map(|cursor| Cursor::known(self, cursor))
    }

    /// The steps in turn. The library reads them back once, when the iterator is made.
    ///
    /// ```
    /// let image = huttaralu::write(&[3, 5, 8])?;
    /// assert_eq!(image.as_image().iter().max(), Some(8));
    /// # Ok::<(), huttaralu::Refusal>(())
    /// ```
    #[cfg(feature = "alloc")]
    pub fn iter(self) -> Steps {
        Steps::of(self)
    }

    /// The blocks in turn.
    ///
    /// ```
    /// use huttaralu::{write, Kind};
    ///
    /// let list: Vec<u32> = (0..16).chain([100_000]).collect();
    /// let image = write(&list)?;
    /// let blocks: Vec<_> = image.as_image().blocks().map(|block| (block.kind(), block.last(), block.len())).collect();
    /// assert_eq!(blocks, [(Kind::Row, 15, 16), (Kind::Codes, 100_000, 1)]);
    /// # Ok::<(), huttaralu::Refusal>(())
    /// ```
    pub fn blocks(self) -> Blocks<'a> {
        Blocks::of(self)
    }
}

impl AsRef<[u8]> for Image<'_> {
    fn as_ref(&self) -> &[u8] {
        self.bytes
    }
}

impl<'a> TryFrom<&'a [u8]> for Image<'a> {
    type Error = Refusal;

    fn try_from(bytes: &'a [u8]) -> Result<Self, Refusal> {
        Image::check(bytes)
    }
}

#[cfg(feature = "alloc")]
impl IntoIterator for Image<'_> {
    type Item = u32;
    type IntoIter = Steps;

    fn into_iter(self) -> Steps {
        self.iter()
    }
}

impl fmt::Debug for Image<'_> {
    fn fmt(&self, f: &mut fmt::Formatter<'_>) -> fmt::Result {
        f.debug_struct("Image").field("steps", &self.len).field("bytes", &self.bytes.len()).finish()
    }
}
