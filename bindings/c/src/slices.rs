//! Memory as C passes it: a pointer and a length, where NULL with the length 0 is empty.

use core::mem::MaybeUninit;
use core::{ptr, slice};

use byte_unit::support::Place;

/// Returns what a caller passes for reading.
///
/// # Safety
///
/// As `slice::from_raw_parts` asks, unless `len` is 0: `data` is not NULL, is aligned, and leads to `len` values in one
/// object, which nothing writes while the slice is used.
#[inline(always)]
pub unsafe fn slice<'a, T>(data: *const T, len: usize) -> &'a [T] {
    if len == 0 {
        return &[];
    }
    // SAFETY: the caller's promise.
    unsafe { slice::from_raw_parts(data, len) }
}

/// Returns what a caller passes for writing.
///
/// # Safety
///
/// As `slice::from_raw_parts_mut` asks, unless `len` is 0: `data` is not NULL, is aligned, and leads to `len` places in
/// one object, which may be read and written, and nothing else does either while the slice is used.
#[inline(always)]
pub unsafe fn slice_mut<'a, T: Copy>(data: *mut T, len: usize) -> &'a mut [Out<T>] {
    if len == 0 {
        return &mut [];
    }
    // SAFETY: the caller's promise. An `Out<T>` is laid out as a `T`, and is one whatever is in memory there.
    unsafe { slice::from_raw_parts_mut(data.cast(), len) }
}

/// A place in C's memory that is written and never read: it need have no value before.
#[derive(Clone, Copy)]
#[repr(transparent)]
pub struct Out<T: Copy>(MaybeUninit<T>);

impl<T: Copy> Out<T> {
    /// Makes a place of its value.
    #[inline(always)]
    pub fn new(value: T) -> Self {
        Out(MaybeUninit::new(value))
    }
}

impl Place for Out<u8> {
    #[inline(always)]
    fn of(byte: u8) -> Self {
        Out::new(byte)
    }

    #[inline(always)]
    fn copy(places: &mut [Self], bytes: &[u8]) {
        assert!(places.len() == bytes.len());
        // SAFETY: as many bytes are read as places are written, and a `&mut` overlaps nothing.
        unsafe { ptr::copy_nonoverlapping(bytes.as_ptr(), places.as_mut_ptr().cast(), bytes.len()) }
    }
}
