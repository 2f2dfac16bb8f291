//! Buffers to lend, with guards around them.

use std::ops::RangeInclusive;

use proptest::prelude::*;

/// The elements on either side of a buffer that nobody may touch, at the least.
const GUARD: usize = 24;

/// A buffer between guards. Two of them are equal when buffer and guards are.
#[derive(Clone, PartialEq, Eq)]
pub struct Lent<T> {
    room: Vec<T>,
    from: usize,
}

impl<T: Copy + From<u8>> Lent<T> {
    /// A buffer of some length, filled like its guards with numbers that are not 0 and seldom repeat.
    pub fn empty(len: usize) -> Self {
        // Buffers of different lengths start at different places, so that bytes are lent at every alignment.
        let from = GUARD + len % 8;
        Lent { room: (0..from + len + GUARD).map(|i| T::from((i * 151 % 255 + 1) as u8)).collect(), from }
    }

    /// A buffer with a content.
    pub fn with(content: &[T]) -> Self {
        let mut lent = Self::empty(content.len());
        lent.buffer().copy_from_slice(content);
        lent
    }

    /// The buffer, to be lent for writing.
    pub fn buffer(&mut self) -> &mut [T] {
        let end = self.room.len() - GUARD;
        &mut self.room[self.from..end]
    }

    /// The buffer, to be read.
    pub fn content(&self) -> &[T] {
        &self.room[self.from..self.room.len() - GUARD]
    }
}

/// How long a buffer is, measured by what is needed.
#[derive(Clone, Copy, Debug)]
pub enum Room {
    /// No place at all.
    None,
    /// Short by so many.
    Short(usize),
    /// What is needed, and so many more.
    Enough(usize),
}

impl Room {
    /// The length of the buffer.
    pub fn len(self, needed: usize) -> usize {
        match self {
            Room::None => 0,
            Room::Short(by) => needed.saturating_sub(by),
            Room::Enough(more) => needed + more,
        }
    }

    /// Mostly enough, so that what comes after a buffer's test is reached too.
    pub fn any() -> impl Strategy<Value = Room> {
        const SHORT: RangeInclusive<usize> = 1..=40;
        prop_oneof![
            4 => Just(Room::Enough(0)),
            4 => (0..40usize).prop_map(Room::Enough),
            1 => Just(Room::Short(1)),
            1 => SHORT.prop_map(Room::Short),
            1 => Just(Room::None),
        ]
    }
}
