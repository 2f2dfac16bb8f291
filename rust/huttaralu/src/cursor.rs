//! A cursor that keeps its image.

use core::fmt;

use crate::{plain, Image};

/// A place in the list of an image: a rank, 0 to n.
///
/// Each move takes the cursor and hands back the moved one, so an old place may be kept by copying it. Each
/// asks the library, for the cost of a pass over the image; to go through all steps, [`Image::iter`] costs
/// one pass in all.
///
/// ```
/// let image = huttaralu::write(&[3, 5, 8])?;
/// let (first, cursor) = image.as_image().cursor().next();
/// let (third, end) = cursor.skip_to(6).next();
/// assert_eq!((first, third), (Some(3), Some(8)));
/// assert_eq!(end.next(), (None, end));
/// # Ok::<(), huttaralu::Refusal>(())
/// ```
#[derive(Clone, Copy, PartialEq, Eq, Hash)]
pub struct Cursor<'a> {
    image: Image<'a>,
    place: plain::Cursor,
}

/// Why a move is never refused.
const OWN: &str = "a cursor is one of the checked image that it keeps";

impl<'a> Cursor<'a> {
    /// A cursor that the library has just told for this image.
    pub(crate) fn known(image: Image<'a>, place: plain::Cursor) -> Self {
        Cursor { image, place }
    }

    /// The rank of the step that [`next`](Self::next) would give; n at the end.
    ///
    /// ```
    /// let image = huttaralu::write(&[3, 5, 8])?;
    /// assert_eq!(image.as_image().cursor().rank(), 0);
    /// # Ok::<(), huttaralu::Refusal>(())
    /// ```
    pub const fn rank(self) -> u32 {
        self.place.rank
    }

    /// The image.
    ///
    /// ```
    /// let image = huttaralu::write(&[3, 5, 8])?;
    /// assert_eq!(image.as_image().cursor().image(), image.as_image());
    /// # Ok::<(), huttaralu::Refusal>(())
    /// ```
    pub const fn image(self) -> Image<'a> {
        self.image
    }

    /// The step at the cursor's rank, and the cursor moved by one; at the end nothing, and the same cursor.
    ///
    /// ```
    /// let image = huttaralu::write(&[3])?;
    /// let (step, end) = image.as_image().cursor().next();
    /// assert_eq!((step, end.rank()), (Some(3), 1));
    /// assert_eq!(end.next(), (None, end));
    /// # Ok::<(), huttaralu::Refusal>(())
    /// ```
    #[allow(clippy::should_implement_trait)] // it hands back the moved cursor, which an iterator does not
    pub fn next(self) -> (Option<u32>, Self) {
        let moved = plain::next(self.place, self.image.bytes()).expect(OWN);
        (moved.step, Cursor { place: moved.cursor, ..self })
    }

    /// The cursor at the first rank not below its own whose step is at least the bound, or at the end. It
    /// never goes back.
    ///
    /// ```
    /// let image = huttaralu::write(&[3, 5, 8])?;
    /// let cursor = image.as_image().cursor().skip_to(4);
    /// assert_eq!(cursor.rank(), 1);
    /// assert_eq!(cursor.skip_to(0), cursor);
    /// assert_eq!(cursor.skip_to(9).rank(), 3);
    /// # Ok::<(), huttaralu::Refusal>(())
    /// ```
    pub fn skip_to(self, bound: u32) -> Self {
        Cursor { place: plain::skip(self.place, self.image.bytes(), bound).expect(OWN), ..self }
    }
}

impl fmt::Debug for Cursor<'_> {
    fn fmt(&self, f: &mut fmt::Formatter<'_>) -> fmt::Result {
        write!(f, "Cursor({} of {})", self.rank(), self.image.len())
    }
}
