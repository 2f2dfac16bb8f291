//! Huttaralu measured beside others that do the same work.
//!
//! A [`Set`] is a pair of lists, an [`Operation`] is one of the library's functions, and [`cases()`] gives what is
//! to be timed: the same operation on the same set by the library, by the hand-written [`native`], by CRoaring
//! (with the feature `croaring`), and the floor below which no one can go. The contenders of an operation share
//! their buffers, so that none has the luckier memory.

mod cases;
#[cfg(feature = "croaring")]
mod roaring;
mod sets;
mod sizes;
mod timing;

pub use cases::{cases, Case, Contender, Operation};
pub use sets::{of_length, sets, Set};
pub use sizes::Sizes;
pub use timing::best_of;
