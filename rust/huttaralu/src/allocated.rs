//! The forms that allocate for the caller.

use alloc::vec;
use alloc::vec::Vec;
use core::fmt;
use core::iter::FusedIterator;

use crate::{most_bytes, plain, work_needed, Blocks, Counted, Cursor, Found, Image, Refusal, MOST_STEPS};

/// An image that owns its bytes.
///
/// [`as_image`](Self::as_image) borrows it; the questions are there, and the common ones also here.
///
/// ```
/// use huttaralu::{write, ImageBuf};
///
/// let image = write(&[3, 5, 8])?;
/// let stored: Vec<u8> = image.clone().into_bytes();
/// assert_eq!(ImageBuf::check(stored)?, image);
/// assert_eq!(image.steps(), [3, 5, 8]);
/// # Ok::<(), huttaralu::Refusal>(())
/// ```
#[derive(Clone, PartialEq, Eq, Hash)]
pub struct ImageBuf {
    bytes: Vec<u8>,
    len: usize,
}

impl ImageBuf {
    /// Checks bytes and keeps them.
    ///
    /// Refusals: 1 to 10. Whoever needs the bytes again after a refusal borrows them by [`Image::check`]
    /// first.
    ///
    /// ```
    /// use huttaralu::ImageBuf;
    ///
    /// assert!(ImageBuf::check(vec![0; 8])?.is_empty());
    /// assert_eq!(ImageBuf::check(vec![0; 7]).unwrap_err().number(), 1);
    /// # Ok::<(), huttaralu::Refusal>(())
    /// ```
    pub fn check(bytes: Vec<u8>) -> Result<Self, Refusal> {
        let len = plain::check(&bytes)?;
        Ok(ImageBuf { bytes, len })
    }

    /// The image, borrowed.
    ///
    /// ```
    /// assert_eq!(huttaralu::write(&[3, 5, 8])?.as_image().rank(0), Ok(3));
    /// # Ok::<(), huttaralu::Refusal>(())
    /// ```
    pub fn as_image(&self) -> Image<'_> {
        Image::known(&self.bytes, self.len)
    }

    /// The bytes.
    ///
    /// ```
    /// assert_eq!(huttaralu::write(&[])?.into_bytes(), [0; 8]);
    /// # Ok::<(), huttaralu::Refusal>(())
    /// ```
    pub fn into_bytes(self) -> Vec<u8> {
        self.bytes
    }

    /// See [`Image::bytes`].
    ///
    /// ```
    /// assert_eq!(huttaralu::write(&[])?.bytes(), [0; 8]);
    /// # Ok::<(), huttaralu::Refusal>(())
    /// ```
    pub fn bytes(&self) -> &[u8] {
        &self.bytes
    }

    /// See [`Image::len`].
    ///
    /// ```
    /// assert_eq!(huttaralu::write(&[3, 5, 8])?.len(), 3);
    /// # Ok::<(), huttaralu::Refusal>(())
    /// ```
    pub fn len(&self) -> usize {
        self.len
    }

    /// See [`Image::is_empty`].
    ///
    /// ```
    /// assert!(huttaralu::write(&[])?.is_empty());
    /// # Ok::<(), huttaralu::Refusal>(())
    /// ```
    pub fn is_empty(&self) -> bool {
        self.len == 0
    }

    /// See [`Image::steps`].
    ///
    /// ```
    /// assert_eq!(huttaralu::write(&[3, 5, 8])?.steps(), [3, 5, 8]);
    /// # Ok::<(), huttaralu::Refusal>(())
    /// ```
    pub fn steps(&self) -> Vec<u32> {
        self.as_image().steps()
    }

    /// See [`Image::rank`].
    ///
    /// ```
    /// assert_eq!(huttaralu::write(&[3, 5, 8])?.rank(1), Ok(5));
    /// # Ok::<(), huttaralu::Refusal>(())
    /// ```
    pub fn rank(&self, rank: u32) -> Result<u32, Refusal> {
        self.as_image().rank(rank)
    }

    /// See [`Image::first_at`].
    ///
    /// ```
    /// assert_eq!(huttaralu::write(&[3, 5, 8])?.first_at(4).map(|found| found.step), Some(5));
    /// # Ok::<(), huttaralu::Refusal>(())
    /// ```
    pub fn first_at(&self, bound: u32) -> Option<Found> {
        self.as_image().first_at(bound)
    }

    /// See [`Image::cursor`].
    ///
    /// ```
    /// assert_eq!(huttaralu::write(&[3, 5, 8])?.cursor().next().0, Some(3));
    /// # Ok::<(), huttaralu::Refusal>(())
    /// ```
    pub fn cursor(&self) -> Cursor<'_> {
        self.as_image().cursor()
    }

    /// See [`Image::iter`].
    ///
    /// ```
    /// assert!(huttaralu::write(&[3, 5, 8])?.iter().eq([3, 5, 8]));
    /// # Ok::<(), huttaralu::Refusal>(())
    /// ```
    pub fn iter(&self) -> Steps {
        self.as_image().iter()
    }

    /// See [`Image::blocks`].
    ///
    /// ```
    /// assert_eq!(huttaralu::write(&[3, 5, 8])?.blocks().len(), 1);
    /// # Ok::<(), huttaralu::Refusal>(())
    /// ```
    pub fn blocks(&self) -> Blocks<'_> {
        self.as_image().blocks()
    }

    /// What the library wrote at the front of a buffer.
    fn written(mut out: Vec<u8>, counted: Counted) -> Self {
        out.truncate(counted.bytes);
        out.shrink_to_fit();
        ImageBuf { bytes: out, len: counted.steps }
    }
}

impl AsRef<[u8]> for ImageBuf {
    fn as_ref(&self) -> &[u8] {
        &self.bytes
    }
}

impl IntoIterator for &ImageBuf {
    type Item = u32;
    type IntoIter = Steps;

    fn into_iter(self) -> Steps {
        self.iter()
    }
}

impl fmt::Debug for ImageBuf {
    fn fmt(&self, f: &mut fmt::Formatter<'_>) -> fmt::Result {
        self.as_image().fmt(f)
    }
}

/// The steps of an image in turn: what [`Image::iter`] gives.
#[derive(Clone, Debug)]
pub struct Steps(vec::IntoIter<u32>);

impl Steps {
    pub(crate) fn of(image: Image<'_>) -> Self {
        Steps(image.steps().into_iter())
    }
}

impl Iterator for Steps {
    type Item = u32;

    fn next(&mut self) -> Option<u32> {
        self.0.next()
    }

    fn size_hint(&self) -> (usize, Option<usize>) {
        self.0.size_hint()
    }

    fn nth(&mut self, n: usize) -> Option<u32> {
        self.0.nth(n)
    }
}

impl DoubleEndedIterator for Steps {
    fn next_back(&mut self) -> Option<u32> {
        self.0.next_back()
    }
}

impl ExactSizeIterator for Steps {}
impl FusedIterator for Steps {}

/// Writes a list of steps as the shortest image that it can have.
///
/// Refusals, in this order: 13 for more than [`MOST_STEPS`] steps, 12 for a step above
/// [`LARGEST_STEP`](crate::LARGEST_STEP), 11 for a list that does not rise. A work area of 64 bytes a step is
/// allocated meanwhile; [`write_into`](crate::write_into) takes a lent one.
///
/// ```
/// use huttaralu::write;
///
/// let image = write(&[127, 254, 318, 408, 533])?;
/// assert_eq!(image.bytes().len(), 26);
/// assert_eq!(write(&[5, 5]).unwrap_err().to_string(), "refusal 11 (index 1): list not strictly increasing");
/// # Ok::<(), huttaralu::Refusal>(())
/// ```
pub fn write(list: &[u32]) -> Result<ImageBuf, Refusal> {
    // A longer list is refused by its length alone, so nothing needs to be lent for it.
    let n = if list.len() > MOST_STEPS { 0 } else { list.len() };
    let mut work = vec![0; work_needed(n)];
    let mut out = vec![0; most_bytes(n)];
    let counted = plain::write(list, &mut work, &mut out)?;
    Ok(ImageBuf::written(out, counted))
}

/// Writes the shortest image of the steps that both images have.
///
/// Refusals: 1 to 10 for the first image, then for the second.
///
/// ```
/// use huttaralu::{both, write};
///
/// let (causeway, slip) = (write(&[1, 2, 3])?, write(&[2, 3, 4])?);
/// assert_eq!(both(&causeway, &slip)?, write(&[2, 3])?);
/// # Ok::<(), huttaralu::Refusal>(())
/// ```
pub fn both(first: impl AsRef<[u8]>, second: impl AsRef<[u8]>) -> Result<ImageBuf, Refusal> {
    pair(plain::both, usize::min, first.as_ref(), second.as_ref())
}

/// Writes the shortest image of the steps that at least one of two images has.
///
/// Refusals: 1 to 10 for the first image, then for the second; 13 for a result of more than [`MOST_STEPS`] steps.
///
/// ```
/// use huttaralu::{either, write};
///
/// let (causeway, slip) = (write(&[1, 2, 3])?, write(&[2, 3, 4])?);
/// assert_eq!(either(&causeway, &slip)?, write(&[1, 2, 3, 4])?);
/// # Ok::<(), huttaralu::Refusal>(())
/// ```
pub fn either(first: impl AsRef<[u8]>, second: impl AsRef<[u8]>) -> Result<ImageBuf, Refusal> {
    pair(plain::either, |first, second| first + second, first.as_ref(), second.as_ref())
}

/// Writes the shortest image of the steps that the first image has and the second has not.
///
/// Refusals: 1 to 10 for the first image, then for the second.
///
/// ```
/// use huttaralu::{without, write};
///
/// let (causeway, slip) = (write(&[1, 2, 3])?, write(&[2, 3, 4])?);
/// assert_eq!(without(&causeway, &slip)?, write(&[1])?);
/// # Ok::<(), huttaralu::Refusal>(())
/// ```
pub fn without(first: impl AsRef<[u8]>, second: impl AsRef<[u8]>) -> Result<ImageBuf, Refusal> {
    pair(plain::without, |first, _| first, first.as_ref(), second.as_ref())
}

type Lent = fn(&[u8], &[u8], &mut [u32], &mut [u32], &mut [u8]) -> Result<Counted, Refusal>;

/// An operation whose result has at most so many steps, by the number of steps of each image.
fn pair(
    operation: Lent,
    most: fn(usize, usize) -> usize,
    first: &[u8],
    second: &[u8],
) -> Result<ImageBuf, Refusal> {
    let most = match (plain::check(first), plain::check(second)) {
        (Ok(first), Ok(second)) => most(first, second).min(MOST_STEPS),
        // The operation refuses it too, and says which of the two it is.
        _ => 0,
    };
    // Room for the most steps that there can be, so that one call does. What it does not need is not touched.
    let mut steps = vec![0; most];
    let mut work = vec![0; work_needed(most)];
    let mut out = vec![0; most_bytes(most)];
    let counted = operation(first, second, &mut steps, &mut work, &mut out)?;
    Ok(ImageBuf::written(out, counted))
}
