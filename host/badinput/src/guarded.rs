//! Memory whose first byte follows, and whose last byte stands before, a page that may not be touched.
//!
//! A slice at the end of it has its exact length up to the forbidden page, so a read or a write behind it stops the
//! program; one at its start does the same before it. Sealed memory may be read and not written.
use std::{ffi::c_void, ptr, slice};

unsafe extern "C" {
    fn mmap(at: *mut c_void, length: usize, protection: i32, flags: i32, file: i32, offset: i64) -> *mut c_void;
    fn mprotect(at: *mut c_void, length: usize, protection: i32) -> i32;
    fn munmap(at: *mut c_void, length: usize) -> i32;
}

// The values of Linux on x86-64.
const NONE: i32 = 0;
const READ: i32 = 1;
const READ_WRITE: i32 = 3;
const PRIVATE_ANONYMOUS: i32 = 0x22;
const PAGE: usize = 4096;

/// Which forbidden page a slice touches.
#[derive(Clone, Copy, PartialEq)]
pub enum Side {
    Start,
    End,
}

pub struct Guarded {
    base: *mut u8,
    pages: usize,
}

impl Guarded {
    /// Room for this many bytes, between two forbidden pages.
    pub fn new(bytes: usize) -> Guarded {
        let pages = bytes.div_ceil(PAGE).max(1);
        // SAFETY: a new mapping of its own, whose inner pages alone are opened.
        unsafe {
            let base = mmap(ptr::null_mut(), (pages + 2) * PAGE, NONE, PRIVATE_ANONYMOUS, -1, 0);
            assert_ne!(base as isize, -1, "mmap failed");
            let guarded = Guarded { base: base.cast(), pages };
            guarded.protect(READ_WRITE);
            guarded
        }
    }

    fn protect(&self, protection: i32) {
        // SAFETY: the inner pages of this mapping.
        let failed = unsafe { mprotect(self.base.add(PAGE).cast(), self.pages * PAGE, protection) };
        assert_eq!(failed, 0, "mprotect failed");
    }

    fn at<T>(&self, length: usize, side: Side) -> *mut T {
        let bytes = length * size_of::<T>();
        assert!(bytes <= self.pages * PAGE, "{bytes} bytes do not fit");
        let offset = if side == Side::Start { PAGE } else { PAGE + self.pages * PAGE - bytes };
        // SAFETY: within the mapping. A u64 at either side is aligned, since the pages are.
        unsafe { self.base.add(offset).cast() }
    }

    /// A copy of the values, to be written too.
    pub fn hold<T: Copy>(&mut self, values: &[T], side: Side) -> &mut [T] {
        // SAFETY: `values.len()` elements of open memory, borrowed from this mapping alone; any bytes are a number.
        let held = unsafe { slice::from_raw_parts_mut(self.at::<T>(values.len(), side), values.len()) };
        held.copy_from_slice(values);
        held
    }

    /// Lets sealed memory be written again.
    pub fn open(&mut self) {
        self.protect(READ_WRITE);
    }

    /// A copy of the values that may only be read.
    pub fn seal<T: Copy>(&mut self, values: &[T], side: Side) -> &[T] {
        self.open();
        self.hold(values, side);
        self.protect(READ);
        // SAFETY: as above.
        unsafe { slice::from_raw_parts(self.at::<T>(values.len(), side), values.len()) }
    }
}

impl Drop for Guarded {
    fn drop(&mut self) {
        // SAFETY: the whole mapping, which no slice outlives.
        unsafe { munmap(self.base.cast(), (self.pages + 2) * PAGE) };
    }
}

#[test]
fn the_pages_beside_are_forbidden() {
    use std::os::fd::AsRawFd;
    unsafe extern "C" {
        fn write(file: i32, from: *const u8, length: usize) -> isize;
        fn read(file: i32, into: *mut u8, length: usize) -> isize;
    }
    let (reader, writer) = std::io::pipe().unwrap();
    // The kernel answers -1 where it may not read the byte, and where it may not write it.
    let readable = |at: *const u8| unsafe { write(writer.as_raw_fd(), at, 1) == 1 };
    let writable = |at: *mut u8| readable(at) && unsafe { read(reader.as_raw_fd(), at, 1) == 1 };
    let mut guarded = Guarded::new(5000);
    for (side, length) in [(Side::Start, 5000), (Side::End, 5000), (Side::End, 1)] {
        let ends = guarded.hold(&vec![7u8; length], side).as_mut_ptr_range();
        assert!(writable(ends.start) && writable(ends.end.wrapping_sub(1)));
        let beside = if side == Side::Start { ends.start.wrapping_sub(1) } else { ends.end };
        assert!(!readable(beside));
        let sealed = guarded.seal(&vec![7u8; length], side).as_ptr();
        assert!(readable(sealed));
        assert!(!writable(sealed.cast_mut()));
        guarded.open();
    }
}
