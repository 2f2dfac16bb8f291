//! A thin binding to CRoaring, for what is measured: serialised bytes in, serialised bytes or steps out.

#![allow(unsafe_code)]

use std::ffi::c_char;
use std::ptr::NonNull;

#[repr(C)]
struct Opaque {
    _private: [u8; 0],
}

#[link(name = "roaring")]
extern "C" {
    fn roaring_bitmap_of_ptr(count: usize, values: *const u32) -> *mut Opaque;
    fn roaring_bitmap_run_optimize(bitmap: *mut Opaque) -> bool;
    fn roaring_bitmap_free(bitmap: *const Opaque);
    fn roaring_bitmap_portable_size_in_bytes(bitmap: *const Opaque) -> usize;
    fn roaring_bitmap_portable_serialize(bitmap: *const Opaque, buffer: *mut c_char) -> usize;
    fn roaring_bitmap_portable_deserialize_safe(buffer: *const c_char, most: usize) -> *mut Opaque;
    fn roaring_bitmap_get_cardinality(bitmap: *const Opaque) -> u64;
    fn roaring_bitmap_to_uint32_array(bitmap: *const Opaque, steps: *mut u32);
    fn roaring_bitmap_rank(bitmap: *const Opaque, most: u32) -> u64;
    fn roaring_bitmap_select(bitmap: *const Opaque, rank: u32, step: *mut u32) -> bool;
    fn roaring_bitmap_and(first: *const Opaque, second: *const Opaque) -> *mut Opaque;
    fn roaring_bitmap_or(first: *const Opaque, second: *const Opaque) -> *mut Opaque;
    fn roaring_bitmap_andnot(first: *const Opaque, second: *const Opaque) -> *mut Opaque;
}

/// A bitmap in CRoaring's memory.
pub struct Bitmap(NonNull<Opaque>);

impl Drop for Bitmap {
    fn drop(&mut self) {
        // SAFETY: the bitmap is CRoaring's, and is freed once.
        unsafe { roaring_bitmap_free(self.0.as_ptr()) }
    }
}

impl Bitmap {
    fn owned(bitmap: *mut Opaque) -> Bitmap {
        Bitmap(NonNull::new(bitmap).expect("CRoaring gives a bitmap"))
    }

    /// The bitmap of a list, with runs where they are shorter.
    pub fn of(list: &[u32]) -> Bitmap {
        // SAFETY: pointer and length are a slice's.
        let bitmap = Bitmap::owned(unsafe { roaring_bitmap_of_ptr(list.len(), list.as_ptr()) });
        bitmap.optimised()
    }

    fn optimised(self) -> Bitmap {
        // SAFETY: the bitmap is valid and no one else has it.
        unsafe { roaring_bitmap_run_optimize(self.0.as_ptr()) };
        self
    }

    /// Reads a serialised bitmap.
    pub fn read(bytes: &[u8]) -> Bitmap {
        // SAFETY: pointer and length are a slice's, and this form reads no further.
        Bitmap::owned(unsafe { roaring_bitmap_portable_deserialize_safe(bytes.as_ptr().cast(), bytes.len()) })
    }

    /// Serialises to the front of a buffer that is long enough, and answers the length.
    pub fn put(&self, out: &mut [u8]) -> usize {
        // SAFETY: the length is asked first, so nothing is written past the buffer.
        unsafe {
            assert!(roaring_bitmap_portable_size_in_bytes(self.0.as_ptr()) <= out.len());
            roaring_bitmap_portable_serialize(self.0.as_ptr(), out.as_mut_ptr().cast())
        }
    }

    /// The serialised bitmap.
    pub fn bytes(&self) -> Vec<u8> {
        // SAFETY: the bitmap is valid.
        let mut bytes = vec![0; unsafe { roaring_bitmap_portable_size_in_bytes(self.0.as_ptr()) }];
        let length = self.put(&mut bytes);
        bytes.truncate(length);
        bytes
    }

    /// Number of steps.
    pub fn len(&self) -> u64 {
        // SAFETY: the bitmap is valid.
        unsafe { roaring_bitmap_get_cardinality(self.0.as_ptr()) }
    }

    /// Puts the steps at the front of a buffer that is long enough.
    pub fn steps(&self, steps: &mut [u32]) -> u64 {
        let count = self.len();
        assert!(count as usize <= steps.len());
        // SAFETY: the buffer has a place for each step.
        unsafe { roaring_bitmap_to_uint32_array(self.0.as_ptr(), steps.as_mut_ptr()) };
        count
    }

    /// The step at a rank.
    pub fn rank(&self, rank: u32) -> Option<u32> {
        let mut step = 0;
        // SAFETY: the bitmap is valid, and `step` is a place for one number.
        unsafe { roaring_bitmap_select(self.0.as_ptr(), rank, &mut step) }.then_some(step)
    }

    /// The first step at or after a bound, with its rank.
    pub fn first_at(&self, bound: u32) -> Option<(u32, u32)> {
        let rank = match bound.checked_sub(1) {
            None => 0,
            // SAFETY: the bitmap is valid.
            Some(below) => unsafe { roaring_bitmap_rank(self.0.as_ptr(), below) as u32 },
        };
        self.rank(rank).map(|step| (step, rank))
    }

    /// The steps of both.
    pub fn both(&self, other: &Bitmap) -> Bitmap {
        // SAFETY: both bitmaps are valid.
        Bitmap::owned(unsafe { roaring_bitmap_and(self.0.as_ptr(), other.0.as_ptr()) }).optimised()
    }

    /// The steps of either.
    pub fn either(&self, other: &Bitmap) -> Bitmap {
        // SAFETY: both bitmaps are valid.
        Bitmap::owned(unsafe { roaring_bitmap_or(self.0.as_ptr(), other.0.as_ptr()) }).optimised()
    }

    /// The steps of this one that the other has not.
    pub fn without(&self, other: &Bitmap) -> Bitmap {
        // SAFETY: both bitmaps are valid.
        Bitmap::owned(unsafe { roaring_bitmap_andnot(self.0.as_ptr(), other.0.as_ptr()) }).optimised()
    }
}
