//! The thin binding: the C interface as `include/huttaralu.h` declares it, and nothing else.
//!
//! All `unsafe` of the crate is here. Each call hands over slices as pointer and length. The library takes
//! every input, keeps no pointer and writes nothing but the buffers that are lent for writing. So a call is
//! sound for any slices, and Rust's borrows see to it that a buffer overlaps nothing else.

#![allow(unsafe_code)]

#[repr(C)]
#[derive(Clone, Copy)]
pub struct Refusal {
    pub number: u32,
    pub side: u32,
    pub place: u32,
}

#[repr(C)]
pub struct Counted {
    pub refusal: Refusal,
    pub steps: u32,
    pub bytes: u32,
}

#[repr(C)]
pub struct Ranked {
    pub refusal: Refusal,
    pub step: u32,
}

#[repr(C)]
pub struct First {
    pub refusal: Refusal,
    pub found: u32,
    pub step: u32,
    pub rank: u32,
}

#[repr(C)]
#[derive(Clone, Copy)]
pub struct Cursor {
    pub rank: u32,
}

#[repr(C)]
pub struct Moved {
    pub refusal: Refusal,
    pub found: u32,
    pub step: u32,
    pub cursor: Cursor,
}

#[repr(C)]
pub struct Clock {
    pub refusal: Refusal,
    pub day: u32,
    pub hour: u32,
    pub minute: u32,
}

/// What the three operations on two images have in common.
type Pair = unsafe extern "C" fn(
    *const u8,
    usize,
    *const u8,
    usize,
    *mut u32,
    usize,
    *mut u32,
    usize,
    *mut u8,
    usize,
) -> Counted;

unsafe extern "C" {
    fn hutt_check(image: *const u8, image_len: usize) -> Counted;
    fn hutt_read(image: *const u8, image_len: usize, steps: *mut u32, steps_len: usize) -> Counted;
    fn hutt_write(
        list: *const u32,
        list_len: usize,
        work: *mut u32,
        work_len: usize,
        out: *mut u8,
        out_len: usize,
    ) -> Counted;
    fn hutt_rank(image: *const u8, image_len: usize, rank: u32) -> Ranked;
    fn hutt_first_at(image: *const u8, image_len: usize, bound: u32) -> First;
    fn hutt_start(image: *const u8, image_len: usize) -> Moved;
    fn hutt_next(cursor: Cursor, image: *const u8, image_len: usize) -> Moved;
    fn hutt_skip(cursor: Cursor, image: *const u8, image_len: usize, bound: u32) -> Moved;
    fn hutt_both(
        first: *const u8,
        first_len: usize,
        second: *const u8,
        second_len: usize,
        steps: *mut u32,
        steps_len: usize,
        work: *mut u32,
        work_len: usize,
        out: *mut u8,
        out_len: usize,
    ) -> Counted;
    fn hutt_either(
        first: *const u8,
        first_len: usize,
        second: *const u8,
        second_len: usize,
        steps: *mut u32,
        steps_len: usize,
        work: *mut u32,
        work_len: usize,
        out: *mut u8,
        out_len: usize,
    ) -> Counted;
    fn hutt_without(
        first: *const u8,
        first_len: usize,
        second: *const u8,
        second_len: usize,
        steps: *mut u32,
        steps_len: usize,
        work: *mut u32,
        work_len: usize,
        out: *mut u8,
        out_len: usize,
    ) -> Counted;
    safe fn hutt_clock_of(step: u32) -> Clock;
}

pub fn check(image: &[u8]) -> Counted {
    // SAFETY: the pointer and length are a slice's.
    unsafe { hutt_check(image.as_ptr(), image.len()) }
}

pub fn read(image: &[u8], steps: &mut [u32]) -> Counted {
    // SAFETY: each pointer and length are a slice's, and `steps` is borrowed for writing.
    unsafe { hutt_read(image.as_ptr(), image.len(), steps.as_mut_ptr(), steps.len()) }
}

pub fn write(list: &[u32], work: &mut [u32], out: &mut [u8]) -> Counted {
    // SAFETY: each pointer and length are a slice's, and `work` and `out` are borrowed for writing.
    unsafe {
        hutt_write(list.as_ptr(), list.len(), work.as_mut_ptr(), work.len(), out.as_mut_ptr(), out.len())
    }
}

pub fn rank(image: &[u8], rank: u32) -> Ranked {
    // SAFETY: the pointer and length are a slice's.
    unsafe { hutt_rank(image.as_ptr(), image.len(), rank) }
}

pub fn first_at(image: &[u8], bound: u32) -> First {
    // SAFETY: the pointer and length are a slice's.
    unsafe { hutt_first_at(image.as_ptr(), image.len(), bound) }
}

pub fn start(image: &[u8]) -> Moved {
    // SAFETY: the pointer and length are a slice's.
    unsafe { hutt_start(image.as_ptr(), image.len()) }
}

pub fn next(cursor: Cursor, image: &[u8]) -> Moved {
    // SAFETY: the pointer and length are a slice's.
    unsafe { hutt_next(cursor, image.as_ptr(), image.len()) }
}

pub fn skip(cursor: Cursor, image: &[u8], bound: u32) -> Moved {
    // SAFETY: the pointer and length are a slice's.
    unsafe { hutt_skip(cursor, image.as_ptr(), image.len(), bound) }
}

pub fn both(first: &[u8], second: &[u8], steps: &mut [u32], work: &mut [u32], out: &mut [u8]) -> Counted {
    pair(hutt_both, first, second, steps, work, out)
}

pub fn either(first: &[u8], second: &[u8], steps: &mut [u32], work: &mut [u32], out: &mut [u8]) -> Counted {
    pair(hutt_either, first, second, steps, work, out)
}

pub fn without(first: &[u8], second: &[u8], steps: &mut [u32], work: &mut [u32], out: &mut [u8]) -> Counted {
    pair(hutt_without, first, second, steps, work, out)
}

fn pair(
    operation: Pair,
    first: &[u8],
    second: &[u8],
    steps: &mut [u32],
    work: &mut [u32],
    out: &mut [u8],
) -> Counted {
    // SAFETY: each pointer and length are a slice's; `steps`, `work` and `out` are borrowed for writing; and
    // `operation` is one of the three of the library, as this function is private.
    unsafe {
        operation(
            first.as_ptr(),
            first.len(),
            second.as_ptr(),
            second.len(),
            steps.as_mut_ptr(),
            steps.len(),
            work.as_mut_ptr(),
            work.len(),
            out.as_mut_ptr(),
            out.len(),
        )
    }
}

pub fn clock_of(step: u32) -> Clock {
    hutt_clock_of(step)
}
